"""All loops and paths of a network, the shortest first: the ways through streams and utilities on which no exchanger
and none of these is passed twice (Linnhoff and Hindmarsh 1983)."""
from __future__ import annotations

from collections import deque
from collections.abc import Iterator, Mapping, Sequence
from dataclasses import dataclass
from fractions import Fraction
from heapq import heappop, heappush
from itertools import islice

from ..search.reduce.paths import Leg, Shift

# So many beginnings of ways are looked at: of a large network not all of its ways are found.
MOST_BEGUN = 20_000
# A path is a round through a place outside, to which each utility leads.
OUTSIDE = ''


@dataclass(frozen=True)
class FoundWays:
    """Loops and paths with no heat yet, the first exchanger of each of which gains, the shortest first; and whether
    there may be more."""

    ways: tuple[Shift, ...]
    more: bool


@dataclass(frozen=True)
class RoundEdge:
    """An exchanger between two sources, or without a name the way from a utility to the place outside."""

    exchanger: str
    hot: str
    cold: str

    def beyond(self, source: str) -> str:
        return self.cold if source == self.hot else self.hot


@dataclass(frozen=True)
class BegunRound:
    """The beginning of a round: its edges, of which the first is its root, where it is, and what it has passed."""

    edges: tuple[int, ...]
    at: str
    passed: frozenset[str]


def found_ways(pairs: Mapping[str, tuple[str, str]], utilities: Sequence[str], most: int,
               through: str | None = None) -> FoundWays:
    """At most so many loops and paths of exchangers, or of those through one of them. The utilities stand in the order
    in which paths begin."""
    rounds = Rounds(pairs, utilities, through)
    found = list(islice(rounds.found(), most + 1))
    ways = tuple(rounds.way(edges) for edges in found[:most])
    return FoundWays(ways, len(found) > most or rounds.is_cut)


class Rounds:
    """Each round is found once: from the first of its exchangers on, or from the one through which all go."""

    def __init__(self, pairs: Mapping[str, tuple[str, str]], utilities: Sequence[str], through: str | None) -> None:
        self.utilities, self.through = list(utilities), through
        self.edges = [RoundEdge(name, *pair) for name, pair in pairs.items()]
        self.count = len(self.edges)
        self.edges += [RoundEdge('', utility, OUTSIDE) for utility in utilities]
        self.at: dict[str, list[int]] = {}
        for number, edge in enumerate(self.edges):
            for source in (edge.hot, edge.cold):
                self.at.setdefault(source, []).append(number)
        self.is_cut = False

    def found(self) -> Iterator[tuple[int, ...]]:
        """The edges of each round, those of the fewest exchangers first."""
        waiting: list[tuple[int, int, BegunRound]] = []
        far: dict[int, Mapping[str, int]] = {}
        begun = 0
        for root, edge in enumerate(self.edges[:self.count]):
            if self.through in (None, edge.exchanger):
                far[root] = self.distances(root)
                if edge.cold in far[root]:
                    begun += 1
                    first = BegunRound((root,), edge.cold, frozenset((edge.cold,)))
                    heappush(waiting, (1 + far[root][edge.cold], begun, first))
        while waiting:
            _, _, way = heappop(waiting)
            root = way.edges[0]
            if way.at == self.edges[root].hot:
                if self.length(way) > 1:
                    yield way.edges
                continue
            for further in self.further(way):
                if further.at in far[root]:
                    begun += 1
                    heappush(waiting, (self.length(further) + far[root][further.at], begun, further))
            if begun > MOST_BEGUN:
                self.is_cut = True
                return

    def further(self, way: BegunRound) -> Iterator[BegunRound]:
        """The beginnings with one edge more."""
        for number in self.at[way.at]:
            beyond = self.edges[number].beyond(way.at)
            if self.may_follow(way.edges[0], number) and beyond not in way.passed:
                made = BegunRound((*way.edges, number), beyond, way.passed | {beyond})
                if not self.passes_utility(made):
                    yield made

    def may_follow(self, root: int, number: int) -> bool:
        return number > root or self.through is not None and number != root

    def passes_utility(self, way: BegunRound) -> bool:
        """Whether a path leads through a utility on its way, so that it is two paths."""
        ends = {self.edges[number].hot for number in way.edges if number >= self.count}
        return bool(ends) and not way.passed.intersection(self.utilities) <= ends

    def length(self, way: BegunRound) -> int:
        return sum(number < self.count for number in way.edges)

    def distances(self, root: int) -> Mapping[str, int]:
        """The fewest exchangers from each source to the hot side of a root."""
        found = {self.edges[root].hot: 0}
        waiting = deque(found)
        while waiting:
            source = waiting.popleft()
            for number in self.at[source]:
                beyond, far = self.edges[number].beyond(source), found[source] + (number < self.count)
                if self.may_follow(root, number) and far < found.get(beyond, far + 1):
                    found[beyond] = far
                    (waiting.append if number < self.count else waiting.appendleft)(beyond)
        return found

    def way(self, edges: tuple[int, ...]) -> Shift:
        """A round as a loop from its root on, or as a path, from its heater where it has one."""
        named = [self.edges[number] for number in edges]
        outside = [at for at, edge in enumerate(named) if not edge.exchanger]
        if not outside:
            return Shift(Fraction(0), named[0].hot, alternating(named, named[0].hot), True)
        behind = next(at for at in outside if named[at - len(named) + 1].exchanger)
        begin, *path, end = [*named[behind:], *named[:behind]]
        if self.utilities.index(begin.hot) > self.utilities.index(end.hot):
            begin, path = end, path[::-1]
        return Shift(Fraction(0), begin.hot, alternating(path, begin.hot), False)


def alternating(edges: Sequence[RoundEdge], begin: str) -> tuple[Leg, ...]:
    """Exchangers of which the first gains, the next loses, and so on, with the source behind each."""
    legs: list[Leg] = []
    source = begin
    for at, edge in enumerate(edges):
        source = edge.beyond(source)
        legs.append(Leg(edge.exchanger, at % 2 == 0, source))
    return tuple(legs)
