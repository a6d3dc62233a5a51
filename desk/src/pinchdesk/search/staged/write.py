"""A plan as a network text. Branches have names that begin with `.`, which no stream has."""
from __future__ import annotations

from collections.abc import Iterator, Mapping
from fractions import Fraction

from ...formats.case import Case, Stream
from ...formats.network import End, Exchanger, Mix, Network, Pass, Split, Statement
from .plan import Match, StagedPlan

# A branch has a dotted name of at most 16 letters and digits behind the dot.
LONGEST = 10


class PlanWriter:
    """Writes the streams of a plan, one after the other."""

    def __init__(self, case: Case, plan: StagedPlan) -> None:
        self.plan = plan
        self.streams = {stream.name: stream for stream in case.streams}
        self.names = dict(names_of(plan.matches, self.streams))
        self.counts: dict[str, int] = {}

    def branch(self, stream: str) -> str:
        """A new name for a branch."""
        root = stream[:LONGEST]
        self.counts[root] = self.counts.get(root, 0) + 1
        return f'.{root}-{self.counts[root]}'

    def network(self) -> Network:
        statements: list[Statement] = [
            Exchanger(self.names[at], match.hot, match.cold, match.duty) for at, match in self.plan.matches.items()]
        for name in self.plan.segments:
            statements.extend(self.stream(name))
        return Network(tuple(statements))

    def stream(self, name: str) -> Iterator[Statement]:
        """The way of a stream. Between two segments all branches are mixed but those whose exchanger goes on."""
        pool: str | None = name
        left = Fraction(self.streams[name].size)
        through: dict[int, tuple[str, Fraction]] = {}
        steps = self.plan.segments[name]
        for at, segment in enumerate(steps):
            later = steps[at + 1] if at + 1 < len(steps) else {}
            new = {number: size for number, size in segment.items() if number not in through}
            behind: dict[int, str] = {}
            for match, branch, size, statements in self.divided(name, pool, left, new):
                yield from statements
                made = self.branch(name)
                yield Pass(branch, self.names[match], made)
                through[match] = (made, size)
            if not new and pool is not None:
                raise ValueError(f'a branch of {name} passes no exchanger')
            ended = [number for number in through if number not in later]
            behind = {number: through[number][0] for number in ended}
            left = sum((through.pop(number)[1] for number in ended), Fraction(0))
            pool = None
            for branch in behind.values():
                if pool is None:
                    pool = branch
                    continue
                made = self.branch(name)
                yield Mix(pool, branch, made)
                pool = made
        yield End(pool or name)

    def divided(self, stream: str, pool: str | None, size: Fraction, parts: Mapping[int, Fraction],
                ) -> Iterator[tuple[int, str, Fraction, list[Statement]]]:
        """A branch that is divided: each part with its exchanger, its size, and what is written before it."""
        branch_sizes = list(parts.items())
        for at, (match, part) in enumerate(branch_sizes):
            assert pool is not None
            if at + 1 == len(branch_sizes):
                yield match, pool, part, []
                return
            first, rest = self.branch(stream), self.branch(stream)
            yield match, first, part, [Split(pool, first, part, rest)]
            pool = rest


def names_of(matches: Mapping[int, Match], streams: Mapping[str, Stream]) -> Iterator[tuple[int, str]]:
    """Names of exchangers: `E1` and so on between streams, `Q1` and so on with a utility."""
    counts = {'E': 0, 'Q': 0}
    for at, match in matches.items():
        kind = 'E' if match.hot in streams and match.cold in streams else 'Q'
        counts[kind] += 1
        yield at, f'{kind}{counts[kind]}'


def written(case: Case, plan: StagedPlan) -> Network:
    """The network of a plan."""
    return PlanWriter(case, plan).network()
