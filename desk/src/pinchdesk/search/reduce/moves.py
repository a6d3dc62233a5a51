"""Small changes of a structure: a split is taken out, an exchanger is put in, and each stream may end at each
utility."""
from __future__ import annotations

from collections.abc import Callable, Iterator
from dataclasses import replace
from fractions import Fraction

from ...formats.case import Case, Side, Stream, Utility
from .structure import Course, Lane, Parting, Structure, Through, is_flat, parted

Change = Callable[[Course], Iterator[Course]]


def unsplit(course: Course) -> Iterator[Course]:
    """The courses that have a split less: a lane stands before the others or behind them."""
    for at, step in enumerate(course):
        if isinstance(step, Parting):
            for made in (*serial(step), *within(step, unsplit)):
                yield (*course[:at], *made, *course[at + 1:])


def serial(parting: Parting) -> Iterator[Course]:
    """A parting with one of its lanes before or behind the others, which share what it had."""
    for at, lane in enumerate(parting.lanes):
        others = [other for place, other in enumerate(parting.lanes) if place != at]
        whole = sum((other.share for other in others), Fraction(0))
        rest = parted(tuple(Lane(other.course, other.share / whole) for other in others), parting.level)
        yield (*lane.course, *rest)
        yield (*rest, *lane.course)


def within(parting: Parting, change: Change) -> Iterator[Course]:
    """A parting with one of its lanes changed."""
    for at, lane in enumerate(parting.lanes):
        for course in change(lane.course):
            lanes = (*parting.lanes[:at], replace(lane, course=course), *parting.lanes[at + 1:])
            yield parted(lanes, parting.level)


def structures(structure: Structure, change: Change) -> Iterator[Structure]:
    """The structures in which one course is changed."""
    for stream, course in structure.courses.items():
        for made in change(course):
            yield structure.with_course(stream, made)


def put_in(course: Course, name: str) -> Iterator[Course]:
    """The courses with one exchanger more: at each place, and beside each step that allows it. With the duty 0 it
    changes nothing in any of them."""
    met = Through(name)
    for at in range(len(course) + 1):
        yield (*course[:at], met, *course[at:])
    for at, step in enumerate(course):
        for made in beside(step, name):
            yield (*course[:at], *made, *course[at + 1:])


def beside(step: Through | Parting, name: str) -> Iterator[Course]:
    """A step with an exchanger more beside it, with isothermal mixing, or in one of its lanes."""
    lanes = step.lanes if isinstance(step, Parting) else (Lane((step,), Fraction(1)),)
    if is_flat(lanes) and (isinstance(step, Through) or step.level):
        courses = (*(lane.course for lane in lanes), (Through(name),))
        yield (Parting(tuple(Lane(lane_course, Fraction(1, len(courses))) for lane_course in courses), True),)
    elif isinstance(step, Parting):
        yield from within(step, lambda course: put_in(course, name))


def put_around(course: Course, name: str, share: Fraction) -> Iterator[Course]:
    """The courses with one exchanger more in a lane of this share, beside one step or several."""
    for at in range(len(course)):
        for end in range(at + 1, len(course) + 1):
            lanes = (Lane(course[at:end], 1 - share), Lane((Through(name),), share))
            yield (*course[:at], *parted(lanes), *course[end:])


def letter_of(case: Case, pair: tuple[str, str]) -> str:
    """With what the name of an exchanger begins: of a heater, a cooler, or two streams."""
    utilities = {utility.name for utility in case.utilities}
    return 'H' if pair[0] in utilities else 'C' if pair[1] in utilities else 'E'


def taken_names(case: Case, structure: Structure) -> set[str]:
    """The names that a new exchanger does not take: those of exchangers, and for the reader's sake those of sources."""
    return {*structure.pairs, *(source.name for source in case.sources)}


def next_name(taken: set[str], letter: str) -> str:
    """A name that no exchanger has, which is then taken."""
    number = 1
    while f'{letter}{number}' in taken:
        number += 1
    taken.add(f'{letter}{number}')
    return f'{letter}{number}'


def misplaced(case: Case, structure: Structure) -> int:
    """How many heaters and coolers have something else behind them on their stream."""
    return sum(len(course) - at for course in structure.courses.values() for at in early(case, structure, course))


def early(case: Case, structure: Structure, course: Course) -> Iterator[int]:
    """The places of heaters and coolers behind which something else stands."""
    utilities = {name for name, pair in structure.pairs.items() if letter_of(case, pair) != 'E'}
    kinds = [isinstance(step, Through) and step.exchanger in utilities for step in course]
    for at, utility in enumerate(kinds):
        if utility and not all(kinds[at:]):
            yield at


def later(case: Case, structure: Structure) -> Iterator[Structure]:
    """The structures in which a heater or a cooler has moved to the end of its stream."""
    for stream, course in structure.courses.items():
        for at in early(case, structure, course):
            yield structure.with_course(stream, (*course[:at], *course[at + 1:], course[at]))


def with_ends(case: Case, structure: Structure) -> Structure:
    """A structure in which each stream may end at each utility: the heaters of a cold stream from the coldest up, the
    coolers of a hot one from the warmest down."""
    taken, pairs, courses = taken_names(case, structure), dict(structure.pairs), dict(structure.courses)
    forbidden = {(forbid.hot, forbid.cold) for forbid in case.forbids}
    for stream in case.streams:
        for utility in case.utilities:
            pair = (stream.name, utility.name) if stream.side is Side.HOT else (utility.name, stream.name)
            if utility.side is stream.side or pair in forbidden or not may_meet(stream, utility):
                continue
            place = place_of(case, courses[stream.name], pairs, utility)
            if place is None:
                continue
            name = next_name(taken, letter_of(case, pair))
            pairs[name] = pair
            course = courses[stream.name]
            courses[stream.name] = (*course[:place], Through(name), *course[place:])
    return replace(structure, pairs=pairs, courses=courses)


def may_meet(stream: Stream, utility: Utility) -> bool:
    """Whether a utility is warm or cold enough for where the stream begins, and may be used at all."""
    reach = stream.supply - utility.level if stream.side is Side.HOT else utility.level - stream.supply
    return utility.most > 0 and reach >= stream.contribution + utility.contribution


def place_of(case: Case, course: Course, pairs: dict[str, tuple[str, str]], utility: Utility) -> int | None:
    """Where a utility stands among those at the end of a course; None where it is there already."""
    levels = {any_utility.name: any_utility.level for any_utility in case.utilities}
    side = utility.side is Side.COLD
    place = len(course)
    while place:
        step = course[place - 1]
        other = pairs[step.exchanger][side] if isinstance(step, Through) else ''
        if other == utility.name:
            return None
        if other not in levels or (levels[other] < utility.level) is (utility.side is Side.HOT):
            return place
        place -= 1
    return place
