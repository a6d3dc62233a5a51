"""Branches that pass a kink side by side. In the program's network all branches of a segment are mixed where it ends,
and the next segment may be split again. Where each of these branches is at the temperature of the kink, and the next
ones have the same parts of the stream, the plant needs neither the mix nor the split: the branches go on."""
from __future__ import annotations

from collections import Counter
from collections.abc import Mapping, Sequence
from dataclasses import dataclass
from fractions import Fraction

from ..formats.case import Side, Stream
from ..formats.network import Mix, Pass, Split, Statement
from .follow import Followed, SideState


@dataclass(frozen=True)
class Crossing:
    """The branches with which a segment ends and as which they go on, the statements that are not needed then, and the
    branches that these have beside them."""

    pairs: tuple[tuple[str, str], ...]
    statements: frozenset[Statement]
    branches: frozenset[str]


class CrossingFinder:
    """Looks for branches that go on at kinks; `names` has the stream of the plant of each segment."""

    def __init__(self, followed: Followed, names: Mapping[str, str]) -> None:
        self.followed, self.names = followed, names
        self.maker: dict[str, Statement] = {}
        self.user: dict[str, Statement] = {}
        for statement in followed.network.statements:
            match statement:
                case Split(branch, first, _, second):
                    self.user[branch] = self.maker[first] = self.maker[second] = statement
                case Pass(branch, _, to):
                    self.user[branch] = self.maker[to] = statement
                case Mix(first, second, to):
                    self.user[first] = self.user[second] = self.maker[to] = statement

    def crossing(self, before: Stream, segment: Stream) -> Crossing | None:
        """How the branches of a segment that is ended go on in the next one; None where they do not, or are one."""
        left: list[str] = []
        dropped: list[tuple[str, Statement]] = []
        self.unmix(self.followed.ends[before.name][0].branch.name, left, dropped)
        right: list[str] = []
        parts = Counter(self.part(branch) for branch in left)
        if len(left) < 2 or not self.unsplit(segment.name, parts, right, dropped) or len(left) != len(right):
            return None
        return Crossing(tuple(self.matched(left, right)), frozenset(statement for _, statement in dropped),
                        frozenset(branch for branch, _ in dropped))

    def part(self, branch: str) -> Fraction:
        """The part of its stream that a branch is."""
        found = self.followed.branches[branch]
        return found.size / found.stream.size

    def unmix(self, branch: str, found: list[str], dropped: list[tuple[str, Statement]]) -> None:
        """The branches that are mixed to one, as far as all of them have its temperature."""
        statement, branches = self.maker.get(branch), self.followed.branches
        if isinstance(statement, Mix) and branches[statement.first].state == branches[statement.second].state:
            dropped.append((branch, statement))
            self.unmix(statement.first, found, dropped)
            self.unmix(statement.second, found, dropped)
        else:
            found.append(branch)

    def unsplit(self, branch: str, parts: Counter[Fraction], found: list[str],
                dropped: list[tuple[str, Statement]]) -> bool:
        """The branches into which one is split until they have these parts; False where they never do."""
        statement = self.user.get(branch)
        if parts[self.part(branch)]:
            parts[self.part(branch)] -= 1
            found.append(branch)
            return True
        if not isinstance(statement, Split):
            return False
        dropped.append((branch, statement))
        return self.unsplit(statement.first, parts, found, dropped) and self.unsplit(statement.second, parts, found,
                                                                                     dropped)

    def matched(self, left: Sequence[str], right: Sequence[str]) -> list[tuple[str, str]]:
        """Pairs of equal parts, first those whose exchanger goes on."""
        pairs: list[tuple[str, str]] = []
        open_left, open_right = list(left), list(right)
        for wanted in (True, False):
            for branch in list(open_left):
                other = next((candidate for candidate in open_right if self.part(candidate) == self.part(branch)
                              and self.goes_on(branch, candidate) >= wanted), None)
                if other is not None:
                    pairs.append((branch, other))
                    open_left.remove(branch)
                    open_right.remove(other)
        return pairs

    def goes_on(self, branch: str, other: str) -> bool:
        """Whether the exchanger before a branch is with the same stream as the one after another, and follows that
        directly there."""
        before, after = self.maker.get(branch), self.user.get(other)
        if not isinstance(before, Pass) or not isinstance(after, Pass):
            return False
        opposite, behind = self.opposite(before, branch), self.opposite(after, other)
        if self.named(opposite) != self.named(behind):
            return False
        return (behind.behind and behind.behind.name) == (opposite.before and opposite.before.name)

    def opposite(self, statement: Pass, branch: str) -> SideState:
        """The other side of an exchanger that a branch passes."""
        passage = self.followed.passage(statement.exchanger)
        return passage.cold if self.followed.branches[branch].stream.side is Side.HOT else passage.hot

    def named(self, side: SideState) -> str:
        return self.names.get(side.source.name, side.source.name)
