"""The courses of all windows, put together into the structure of the whole case."""
from __future__ import annotations

from collections.abc import Sequence
from dataclasses import replace

from ...formats.case import Case, Side
from ..reduce.moves import letter_of, next_name, taken_names
from ..reduce.structure import Course, Structure, Through
from .window_courses import WindowNetwork, renamed


def turned_round(course: Course) -> Course:
    """A course from its other end."""
    return tuple(step if isinstance(step, Through) else
                 replace(step, lanes=tuple(replace(lane, course=turned_round(lane.course)) for lane in step.lanes))
                 for step in reversed(course))


def joined_windows(case: Case, networks: Sequence[WindowNetwork]) -> Structure:
    """The structure of a case from its windows, the hottest first. A hot stream runs from the hottest window down, a
    cold one from the coldest up."""
    pairs: dict[str, tuple[str, str]] = {}
    courses: dict[str, Course] = {stream.name: () for stream in case.streams}
    taken = taken_names(case, Structure(pairs, courses))
    for network in networks:
        names = {}
        for number, pair in enumerate(network.pairs):
            names[str(number)] = next_name(taken, letter_of(case, pair))
            pairs[names[str(number)]] = pair
        for stream in case.streams:
            course = renamed(network.courses.get(stream.name, ()), names)
            if stream.side is Side.HOT:
                courses[stream.name] = (*courses[stream.name], *course)
            else:
                courses[stream.name] = (*turned_round(course), *courses[stream.name])
    return Structure(pairs, courses)
