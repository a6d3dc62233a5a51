"""Where a pinch lies: the actual temperatures of the streams that stand at it, and the heat of each side below it."""
from __future__ import annotations

from dataclasses import dataclass

from ..formats.case import Case, Side, Stream, Utility, shifted
from ..formats.shown import Shown
from ..formats.whole_streams import parts_of
from .follow import PinchPoint


@dataclass(frozen=True)
class Temperatures:
    """The lowest and the highest actual temperature at which the streams of a side stand at a pinch, in tenths of
    °C."""

    low: int
    high: int

    def told(self, shown: Shown) -> str:
        low, high = shown.temperature(self.low), shown.temperature(self.high)
        return low if low == high else f'{low} to {high}'


def temperatures_at(case: Case, side: Side, pinch: int) -> Temperatures:
    """Where the streams of a side stand that a pinch touches; of a side without one, where a stream with the
    contribution of the case would stand."""
    sign = 1 if side is Side.HOT else -1
    parts = [part for stream in case.streams if stream.side is side for part in parts_of(stream)]
    shares = [part.contribution for part in parts if part.low <= pinch <= part.high]
    temperatures = [pinch + sign * share for share in shares or [case.contribution]]
    return Temperatures(min(temperatures), max(temperatures))


def heat_below(stream: Stream, pinch: PinchPoint) -> int:
    """The heat of a stream below a pinch: of a latent one at the pinch all or nothing."""
    if stream.latent:
        return 0 if pinch.is_below(stream.low) else stream.load
    return stream.cp * (max(stream.low, min(stream.high, pinch.temperature)) - stream.low)


def side_below(case: Case, side: Side, pinch: PinchPoint) -> int:
    """The heat of all streams of a side below a pinch. Where the targets are used both sides have there the same, the
    cold one with the cold target."""
    return sum(heat_below(stream, pinch) for stream in case.streams if stream.side is side)


def is_below(utility: Utility, pinch: PinchPoint) -> bool:
    """Whether a utility stands below a pinch: at the pinch a heater stands above it, a cooler below."""
    level = shifted(utility, utility.level)
    return level < pinch.temperature or level == pinch.temperature and utility.side is Side.COLD
