"""The kinks of streams in segments, across which an exchanger may go on: it is then one in the plant, though the
program has one for each segment."""
from __future__ import annotations

from collections.abc import Iterator, Mapping
from dataclasses import dataclass

from ...formats.case import Case, Side
from .structure import Course, Parting, Structure, Through

# Two segments that meet at a kink, and an exchanger with the one that it goes on as: each from the hot end.
Kink = tuple[str, str]
Joint = tuple[str, str]


@dataclass(frozen=True)
class Kinks:
    """The kinks of a case, and its cold streams, whose courses are from the cold end."""

    kinks: tuple[Kink, ...] = ()
    colds: frozenset[str] = frozenset()

    def joints(self, structure: Structure) -> Iterator[Joint]:
        """The exchangers that go on across a kink. Both parts follow one another on either side; a utility has no
        course. Branches that pass a kink side by side are left aside."""
        if not self.kinks:
            return
        following = {name: self.following(name, course) for name, course in structure.courses.items()}
        at_kinks = {kink: joint for kink in self.kinks for joint in self.at_kink(kink, structure)}
        for joint in sorted(set(at_kinks.values())):
            before, behind = (structure.pairs[name] for name in joint)
            if all(at_kinks.get((one, other)) == joint if one != other else
                   one not in following or following[one].get(joint[0]) == joint[1]
                   for one, other in zip(before, behind)):
                yield joint

    def at_kink(self, kink: Kink, structure: Structure) -> Iterator[Joint]:
        """The last exchanger before a kink and the first one behind it, where the stream runs in no branches."""
        before, behind = (self.from_hot_end(name, structure.courses[name]) for name in kink)
        for last, first in zip(before[-1:], behind[:1]):
            if isinstance(last, Through) and isinstance(first, Through):
                yield last.exchanger, first.exchanger

    def from_hot_end(self, name: str, course: Course) -> Course:
        return course[::-1] if self.is_cold(name) else course

    def is_cold(self, name: str) -> bool:
        return name in self.colds

    def following(self, name: str, course: Course) -> dict[str, str]:
        """The exchanger right behind another one in the same lane."""
        led = self.from_hot_end(name, course)
        found = {one.exchanger: other.exchanger for one, other in zip(led, led[1:])
                 if isinstance(one, Through) and isinstance(other, Through)}
        for step in course:
            if isinstance(step, Parting):
                for lane in step.lanes:
                    found.update(self.following(name, lane.course))
        return found

    def chains(self, structure: Structure) -> tuple[int, ...]:
        """The number of the exchanger of the plant that each one is a part of; empty where each is one."""
        before = {behind: one for one, behind in self.joints(structure)}
        if not before:
            return ()
        places = {name: at for at, name in enumerate(structure.pairs)}
        return tuple(places[first_of(name, before)] for name in structure.pairs)

    def count(self, structure: Structure) -> int:
        """How many exchangers of the plant a structure has, each with a duty."""
        return len(structure.pairs) - sum(1 for _ in self.joints(structure))


def first_of(name: str, before: Mapping[str, str]) -> str:
    while name in before:
        name = before[name]
    return name


NO_KINKS = Kinks()


def kinks_of(case: Case) -> Kinks:
    if not case.basis.segments:
        return NO_KINKS
    colds = frozenset(stream.name for stream in case.streams if stream.side is Side.COLD)
    kinks: list[Kink] = []
    for stream in case.basis.segments:
        order = stream.segments[::-1] if stream.segments[0] in colds else stream.segments
        kinks += zip(order, order[1:])
    return Kinks(tuple(kinks), colds)
