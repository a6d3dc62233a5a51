"""The shares of lanes tried anew, two lanes of a parting at a time: mixes that need not be isothermal.

With fixed shares the least cost is a linear program. What one lane has of what two have is moved by steps that become
shorter (Hooke and Jeeves 1961), and the simplest fraction near the best is taken."""
from __future__ import annotations

import time
from collections.abc import Callable, Iterator
from dataclasses import replace
from fractions import Fraction
from itertools import combinations

from ...formats.case import Case
from .least_cost import cheapest, least_cost
from .network_structure import Costed, Duties, shares_of
from .structure import Course, Parting, Structure, Through

FIRST_STEP, HALVINGS = 0.1, 12
# The largest denominators that are tried, one after the other.
SIMPLE = (12, 100, 1000, 100_000)
# A lower cost counts from this part of the cost on.
GAIN = 1e-7
Knob = tuple[Fraction, Callable[[Fraction], Course]]


def with_shares(course: Course, duties: Duties) -> Course:
    """A course with the shares that its duties give, each fixed."""
    made: list[Through | Parting] = []
    for step in course:
        if isinstance(step, Parting):
            lanes = zip(step.lanes, shares_of(step, duties))
            step = Parting(tuple(replace(lane, course=with_shares(lane.course, duties), share=share)
                                 for lane, share in lanes))
        made.append(step)
    return tuple(made)


def fixed(structure: Structure, duties: Duties) -> Structure:
    """A structure with the shares that its duties give."""
    courses = {name: with_shares(course, duties) for name, course in structure.courses.items()}
    return replace(structure, courses=courses)


def knobs(course: Course) -> Iterator[Knob]:
    """For each two lanes of a parting: what the first has of what both have, and the course with another such part."""
    for at, step in enumerate(course):
        if isinstance(step, Parting):
            for part_before, turned in (*lane_knobs(step), *inner_knobs(step)):
                yield part_before, lambda part, at=at, turned=turned: (  # type: ignore[misc]
                    *course[:at], turned(part), *course[at + 1:])


def lane_knobs(parting: Parting) -> Iterator[tuple[Fraction, Callable[[Fraction], Parting]]]:
    for one, other in combinations(range(len(parting.lanes)), 2):
        both = parting.lanes[one].share + parting.lanes[other].share

        def turned(part: Fraction, one: int = one, other: int = other, both: Fraction = both) -> Parting:
            lanes = list(parting.lanes)
            lanes[one] = replace(lanes[one], share=both * part)
            lanes[other] = replace(lanes[other], share=both * (1 - part))
            return Parting(tuple(lanes))
        yield parting.lanes[one].share / both, turned


def inner_knobs(parting: Parting) -> Iterator[tuple[Fraction, Callable[[Fraction], Parting]]]:
    for at, lane in enumerate(parting.lanes):
        for part_before, turned in knobs(lane.course):
            def made(part: Fraction, at: int = at, lane: object = lane,
                     turned: Callable[[Fraction], Course] = turned) -> Parting:
                changed = replace(parting.lanes[at], course=turned(part))
                return Parting((*parting.lanes[:at], changed, *parting.lanes[at + 1:]))
            yield part_before, made


def reshared(case: Case, costed: Costed, end: float) -> Costed:
    """The cheapest that was found with other shares of the same lanes, until a time by `time.monotonic`."""
    best = costed
    for stream in costed.structure.courses:
        at = 0
        while time.monotonic() < end:
            structure = fixed(best.structure, best.duties)
            stream_knobs = list(knobs(structure.courses[stream]))
            if at >= len(stream_knobs):
                break
            best = turned_best(case, structure, stream, stream_knobs[at], best, end)
            at += 1
    return best


def turned_best(case: Case, structure: Structure, stream: str, knob: Knob, best: Costed, end: float) -> Costed:
    """The cheapest that was found with one knob."""
    part_before, turned = knob

    def cost(part: float) -> float:
        return least_cost(case, structure.with_course(stream, turned(Fraction(part)))) if 0 < part < 1 else float('inf')
    part, least = searched(cost, float(part_before), float(best.cost), end)
    if least >= float(best.cost) - GAIN * abs(float(best.cost)):
        return best
    for most in SIMPLE:
        made = cheapest(case, structure.with_course(stream, turned(Fraction(part).limit_denominator(most))))
        if made and made.cost < best.cost:
            best = made
        if float(best.cost) <= least + GAIN * abs(least):
            break
    return best


def searched(cost: Callable[[float], float], part: float, least: float, end: float) -> tuple[float, float]:
    """Where a cost is least, by steps to both sides that become shorter, and what it is there."""
    step = FIRST_STEP
    for _ in range(HALVINGS):
        moved = True
        while moved and time.monotonic() < end:
            moved = False
            for place in (part - step, part + step):
                tried = cost(place)
                if tried < least - GAIN * abs(least):
                    part, least, moved = place, tried, True
                    break
        step /= 2
    return part, least
