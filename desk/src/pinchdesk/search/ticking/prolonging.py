"""Exchangers that end at a kink of a stream get a part behind it too. With the duty 0 it changes nothing; with more it
takes over what others do there, and is none of its own in the plant."""
from __future__ import annotations

from collections.abc import Collection, Iterator
from dataclasses import dataclass, replace
from random import Random

from ...formats.case import Case
from ..reduce.going_on import Kinks
from ..reduce.moves import letter_of, next_name, taken_names
from ..reduce.structure import Course, Parting, Structure, Through, throughs

Pair = tuple[str, str]
# How often an exchanger that ends at a kink gets a part behind it.
OFTEN = 0.5


@dataclass(frozen=True)
class FurtherPart:
    """What an exchanger is to get: a part on the segment beyond a kink, at the end of it that is there, and next to the
    exchanger on its other side. It is `behind` where it is towards the cold end."""

    exchanger: str
    segment: str
    behind: bool


def parts_of(kinks: Kinks, structure: Structure) -> Iterator[FurtherPart]:
    """The parts that exchangers may get."""
    for before, behind in kinks.kinks:
        last = kinks.from_hot_end(before, structure.courses[before])[-1:]
        first = kinks.from_hot_end(behind, structure.courses[behind])[:1]
        for ends, segment, is_behind in ((last, behind, True), (first, before, False)):
            for step in ends:
                if isinstance(step, Through):
                    yield FurtherPart(step.exchanger, segment, is_behind)


def prolonged(case: Case, kinks: Kinks, structure: Structure, pairs: Collection[Pair], random: Random,
              ) -> tuple[Structure, list[str]]:
    """A structure in which some exchangers have parts more; and of each part, in their order, what it is a part of."""
    wholes: list[str] = []
    joints = set(kinks.joints(structure))
    before, behind = {joint[0] for joint in joints}, {joint[1] for joint in joints}
    for part in list(parts_of(kinks, structure)):
        if part.exchanger in (before if part.behind else behind) or random.random() > OFTEN:
            continue
        made = with_part(case, kinks, structure, part, pairs)
        if made is not None:
            structure = made
            wholes.append(part.exchanger)
    return structure, wholes


def with_part(case: Case, kinks: Kinks, structure: Structure, part: FurtherPart,
              pairs: Collection[Pair]) -> Structure | None:
    """A structure with a part more; None where the pair may not be, or where the other side has a level parting."""
    pair = structure.pairs[part.exchanger]
    other = pair[not kinks.is_cold(part.segment)]
    made = (other, part.segment) if kinks.is_cold(part.segment) else (part.segment, other)
    if made not in pairs:
        return None
    name = next_name(taken_names(case, structure), letter_of(case, made))
    courses = dict(structure.courses)
    # Towards the cold end is onwards on a hot stream, and backwards on a cold one.
    at_first = part.behind != kinks.is_cold(part.segment)
    course = courses[part.segment]
    courses[part.segment] = (Through(name), *course) if at_first else (*course, Through(name))
    if other in courses:
        beside = next_to(courses[other], part.exchanger, name, part.behind != kinks.is_cold(other))
        if beside is None:
            return None
        courses[other] = beside
    return replace(structure, pairs={**structure.pairs, name: made}, courses=courses)


def next_to(course: Course, exchanger: str, name: str, onwards: bool) -> Course | None:
    """A course with an exchanger more right behind another one, or right before it; None where that stands in a level
    parting, whose lanes have one exchanger each."""
    for at, step in enumerate(course):
        if isinstance(step, Through) and step.exchanger == exchanger:
            made = (step, Through(name)) if onwards else (Through(name), step)
            return (*course[:at], *made, *course[at + 1:])
        if isinstance(step, Parting) and exchanger in throughs((step,)):
            if step.level:
                return None
            lanes = [next_to(lane.course, exchanger, name, onwards) or lane.course
                     if exchanger in throughs(lane.course) else lane.course for lane in step.lanes]
            parting = replace(step, lanes=tuple(replace(lane, course=led) for lane, led in zip(step.lanes, lanes)))
            return None if parting == step else (*course[:at], parting, *course[at + 1:])
    return None
