"""The last steps of a search: exchangers and splits that can go at the cost, mixes at one temperature, short
fractions."""
from __future__ import annotations

import time
from collections.abc import Callable, Iterator
from dataclasses import replace
from fractions import Fraction

from .accepted import AcceptedNetwork, Judge, Judged
from .reduce.float_duties import is_dearer
from .reduce.moves import structures, within
from .reduce.simplify import simplified, without_splits
from .reduce.structure import Course, Parting, is_flat, levelled
from .ticking.jobs import cheapest_at
from .ticking.short_fractions import with_room

Telling = Callable[[AcceptedNetwork], None]
# Exchangers that can go are asked for where there are at most so many, and for so long at most, in seconds.
FEW, LONG = 40, 10.0


def finished(judge: Judge, judged: Judged, cost: Fraction, end: float, tell: Telling, by_steps: bool,
             bound: int = 0) -> Judged:
    """A network with what costs nothing taken out, until a time by `time.monotonic`. A search by steps is the same each
    time, so it does nothing here that a time ends; a network of no more exchangers than the bound has none to spare."""
    if by_steps or judged.count > FEW or judged.in_plant <= bound:
        best = without_splits(judge, judged, cost, end, tell)
    else:
        best = simplified(judge, judged, cost, min(end, time.monotonic() + LONG), tell)
    return evened(judge, best, cost, end, tell)


def evened(judge: Judge, judged: Judged, cost: Fraction, end: float, tell: Telling) -> Judged:
    """A network with mixes at one temperature where that costs nothing, and with the shortest fractions that are
    found."""
    best, gained = judged, True
    while gained:
        gained = False
        for structure in (best.structure, levelled(best.structure), *structures(best.structure, one_level)):
            if time.monotonic() > end:
                return best
            if is_dearer(judge.case, structure, cost):
                continue
            for way in (cheapest_at, with_room):
                if time.monotonic() > end:
                    return best
                found = judge.of(way(judge.case, structure, cost))
                if found is not None and found.rank < best.rank:
                    tell(found)
                    gained = gained or found.uneven < best.uneven
                    best = found
    return best


def one_level(course: Course) -> Iterator[Course]:
    """The courses in which one more parting is mixed at one temperature."""
    for at, step in enumerate(course):
        if isinstance(step, Parting):
            for made in level_ways(step):
                yield (*course[:at], *made, *course[at + 1:])


def level_ways(parting: Parting) -> Iterator[Course]:
    if is_flat(parting.lanes) and not parting.level:
        yield (replace(parting, level=True),)
    yield from within(parting, one_level)
