"""Where the balanced curves come closer than the approach of a utility with its real ends. The program has that utility
at one level, so its targets know nothing of it."""
from __future__ import annotations

from collections.abc import Iterator, Sequence
from dataclasses import dataclass
from fractions import Fraction

from ..formats.case import Side
from ..formats.shown import Shown
from .balanced import Carrier, HeatInterval
from .area_target import sharing
from .cost_data import CostData


@dataclass(frozen=True)
class CloseCurves:
    """A utility that comes too close: where, in W from the cold end, and how close, in K."""

    utility: str
    place: Fraction
    found: Fraction
    wanted: Fraction
    shown: Shown

    def __str__(self) -> str:
        found, wanted = (f'{self.shown.kelvin(number)} {self.shown.difference_unit}'
                         for number in (self.found, self.wanted))
        return f'utility {self.utility}: with its real ends the balanced curves come within {found} at ' \
               f'{self.shown.watts(self.place)} {self.shown.heat_unit} from the cold end, and {wanted} are needed'


def close_curves(data: CostData, members: Sequence[Carrier], intervals: Sequence[HeatInterval]) -> list[CloseCurves]:
    """For each utility with real ends the place where it is closest, if that is too close."""
    if not data.ranges:
        return []
    most = data.kelvins(2 * max(source.contribution for source in data.case.sources))
    found = [close for interval in intervals if min(interval.cold_end, interval.warm_end) < most
             for close in close_in(data, members, interval)]
    found.sort(key=lambda close: close.found - close.wanted)
    return list({close.utility: close for close in reversed(found)}.values())[::-1]


def close_in(data: CostData, members: Sequence[Carrier], interval: HeatInterval) -> Iterator[CloseCurves]:
    """The pairs of an interval of which one is a utility with real ends, where they are too close."""
    hot, cold = ([carrier.source for carrier, _ in sharing(members, side, ends)]
                 for side, ends in ((Side.HOT, interval.hot), (Side.COLD, interval.cold)))
    ends = ((interval.begin, interval.cold_end), (interval.end, interval.warm_end))
    for above in hot:
        for below in cold:
            wanted = data.kelvins(above.contribution + below.contribution)
            for name in {above.name, below.name} & set(data.ranges):
                for place, difference in ends:
                    if difference < wanted:
                        yield CloseCurves(name, place, difference, wanted, Shown(data.case.basis))
