"""The structure of a network: which exchangers each stream passes, in which order and in which lanes, without duties.

A stream's course is what it passes from its beginning to its end: exchangers one behind the other, and partings, in
which it runs in lanes side by side that join again. A network text says the same by splits and mixes; it has a
structure where its splits are closed inside one another, as they are in all but odd networks."""
from __future__ import annotations

from collections.abc import Iterator, Mapping
from dataclasses import dataclass, field, replace
from fractions import Fraction

from ...errors import Refused


@dataclass(frozen=True)
class Through:
    """The stream passes an exchanger."""

    exchanger: str


@dataclass(frozen=True)
class Lane:
    """One of the lanes of a parting. `share` is its part of what flows into the parting."""

    course: Course
    share: Fraction


@dataclass(frozen=True)
class Parting:
    """The stream runs in lanes side by side.

    Where it is `level`, each lane has one exchanger and the shares follow from the duties, so that all lanes end at one
    temperature (isothermal mixing); else each lane keeps its share."""

    lanes: tuple[Lane, ...]
    level: bool = False


Course = tuple[Through | Parting, ...]


@dataclass(frozen=True)
class Structure:
    """The hot and the cold source of each exchanger, by its name, and the course of each stream, by its name. `kept`
    are the duties of exchangers that stay, in W."""

    pairs: Mapping[str, tuple[str, str]]
    courses: Mapping[str, Course]
    kept: Mapping[str, Fraction] = field(default_factory=dict)

    def with_course(self, stream: str, course: Course) -> Structure:
        return replace(self, courses={**self.courses, stream: course})


def throughs(course: Course) -> Iterator[str]:
    """The exchangers of a course, in its order."""
    for step in course:
        if isinstance(step, Through):
            yield step.exchanger
        else:
            for lane in step.lanes:
                yield from throughs(lane.course)


def partings(course: Course) -> int:
    """How many splits a course wants: of n lanes there are n - 1."""
    own_partings = [step for step in course if isinstance(step, Parting)]
    return sum(len(step.lanes) - 1 + sum(partings(lane.course) for lane in step.lanes) for step in own_partings)


def splits(structure: Structure) -> int:
    """How many splits a structure has in all."""
    return sum(partings(course) for course in structure.courses.values())


def parted(lanes: tuple[Lane, ...], level: bool = False) -> Course:
    """Lanes side by side as a course: lanes without an exchanger are one, and a parting inside a lane that is nothing
    else is opened."""
    flat: list[Lane] = []
    for lane in lanes:
        inner = lane.course[0] if len(lane.course) == 1 else None
        if isinstance(inner, Parting) and not inner.level:
            flat.extend(Lane(inner_lane.course, inner_lane.share * lane.share) for inner_lane in inner.lanes)
        else:
            flat.append(lane)
    filled = [lane for lane in flat if lane.course]
    past = sum((lane.share for lane in flat if not lane.course), Fraction(0))
    if not filled:
        return ()
    if len(filled) == 1 and not past:
        return filled[0].course
    made = (*filled, Lane((), past)) if past else tuple(filled)
    return (Parting(made, level and is_flat(made)),)


def is_flat(lanes: tuple[Lane, ...]) -> bool:
    """Whether each lane has one exchanger and no more."""
    return all(len(lane.course) == 1 and isinstance(lane.course[0], Through) for lane in lanes)


def without(course: Course, gone: frozenset[str]) -> Course:
    """A course without some exchangers. A lane that is left without any is closed, and the others share what it had:
    with more flow they stay closer to where they begin, so that no approach becomes smaller."""
    left: list[Through | Parting] = []
    for step in course:
        if isinstance(step, Through):
            left.extend([step] * (step.exchanger not in gone))
            continue
        lanes = [Lane(without(lane.course, gone), lane.share) for lane in step.lanes]
        filled = [lane for lane in lanes if lane.course]
        whole = sum((lane.share for lane in filled), Fraction(0))
        left.extend(parted(tuple(replace(lane, share=lane.share / whole) for lane in filled), step.level))
    return tuple(left)


def reduced(structure: Structure, gone: frozenset[str]) -> Structure:
    """A structure without some exchangers."""
    pairs = {name: pair for name, pair in structure.pairs.items() if name not in gone}
    courses = {name: without(course, gone) for name, course in structure.courses.items()}
    return replace(structure, pairs=pairs, courses=courses)


def with_levels(course: Course) -> Course:
    """A course in which the shares of each parting whose lanes have one exchanger each follow from the duties."""
    return tuple(step if isinstance(step, Through) else
                 Parting(tuple(Lane(with_levels(lane.course), lane.share) for lane in step.lanes), is_flat(step.lanes))
                 for step in course)


def levelled(structure: Structure) -> Structure:
    """A structure with isothermal mixing wherever that is linear."""
    return replace(structure, courses={name: with_levels(course) for name, course in structure.courses.items()})


class OddCourse(Refused):
    """A network whose splits are not closed inside one another."""

    def __init__(self, stream: str) -> None:
        place, cause = f'network stream {stream}', 'branches are joined across one another'
        super().__init__(4, place, cause, f'{place}: its {cause}, and only nested splits can be changed')
