"""What is left of a window while its sources are ticked off, in floats.

A source is a rectangle: a range of shifted temperatures and a CP. A level is a source with a range of nearly nothing.
The cascade is kept at all temperatures where its slope may change, from the coldest up."""
from __future__ import annotations

from bisect import bisect_left, bisect_right
from collections.abc import Iterator, Sequence
from typing import NamedTuple

from ...formats.case import Side
from ..staged.windows import Window, WindowPiece
from .window_courses import BESIDE, BOTTOM, CORNER_BOTTOM, CORNER_TOP, CUT, TOP, WHOLE, Tick

# Two temperatures that are nearer are one, in tenths of °C; the range of a level; a heat that is none, as a part of
# all.
NEAR, LEVEL_RANGE, FINE = 1e-7, 1e-2, 1e-12
# Of what is none so much counts where a duty is fitted to the cascade.
STRICT = 1e-2
# So much of all heat may be left over at the end.
LEFT_OVER = 1e-6
# The cascade is 0 where it is less than so many times what is none.
TIGHT = 10.0


class Rectangle(NamedTuple):
    """A range of temperatures and a CP."""

    high: float
    low: float
    size: float


class Fit(NamedTuple):
    """An exchanger that fits, with what it takes of its hot and of its cold source."""

    tick: Tick
    warm: Rectangle
    cool: Rectangle

    @property
    def difference(self) -> float:
        """The mean temperature difference."""
        return (self.warm.high + self.warm.low - self.cool.high - self.cool.low) / 2


def range_of(piece: WindowPiece) -> tuple[float, float]:
    """The ends of a piece; a level has a little above it where it is hot, below where it is cold."""
    if not piece.is_level:
        return float(piece.high), float(piece.low)
    return piece.high + LEVEL_RANGE * (piece.side is Side.HOT), piece.low - LEVEL_RANGE * (piece.side is Side.COLD)


class HeatLeft:
    """The rectangles that are left, by slots, the cascade, and the exchangers so far. Where streams may not be split
    (`may_split`) an exchanger stands at an end of what is left."""

    def __init__(self, window: Window, may_split: bool = True) -> None:
        self.may_split = may_split
        ranges = [range_of(piece) for piece in window.pieces]
        self.highs, self.lows = [high for high, _ in ranges], [low for _, low in ranges]
        self.loads = [float(piece.most) for piece in window.pieces]
        self.levels = [piece.is_level for piece in window.pieces]
        self.origins = list(range(len(ranges)))
        self.hots = [at for at, piece in enumerate(window.pieces) if piece.side is Side.HOT]
        self.colds = [at for at, piece in enumerate(window.pieces) if piece.side is Side.COLD]
        self.forbidden = frozenset((hot, cold) for hot in self.hots for cold in self.colds
                                   if (window.pieces[hot].name, window.pieces[cold].name) in window.forbids)
        self.scale = sum(self.loads[hot] for hot in self.hots)
        self.none = self.scale * FINE
        self.ticks: list[Tick] = []
        self.count = 0
        self.renew_cascade()

    def copy(self) -> HeatLeft:
        copied = object.__new__(HeatLeft)
        for name, value in self.__dict__.items():
            setattr(copied, name, value.copy() if isinstance(value, list) else value)
        return copied

    def renew_cascade(self) -> None:
        """The cascade of all that is left, from nothing."""
        ends = sorted({end for slot in (*self.hots, *self.colds) for end in (self.highs[slot], self.lows[slot])})
        self.places = [end for at, end in enumerate(ends) if not at or end - ends[at - 1] > NEAR]
        self.heats = [0.0] * len(self.places)
        for slots, sign in ((self.hots, 1.0), (self.colds, -1.0)):
            for slot in slots:
                self.add_heat(Rectangle(self.highs[slot], self.lows[slot], sign * self.size(slot)))

    def add_heat(self, part: Rectangle) -> None:
        """Adds what a rectangle gives above each place; it has a CP below 0 where it takes."""
        high, low, size = part
        whole = size * (high - low)
        for at in range(bisect_left(self.places, high)):
            place = self.places[at]
            self.heats[at] += size * (high - place) if place > low else whole

    def size(self, slot: int) -> float:
        return self.loads[slot] / (self.highs[slot] - self.lows[slot])

    def heat_at(self, place: float) -> float:
        """The cascade at a temperature."""
        above = bisect_left(self.places, place)
        if above == len(self.places) or above == 0:
            return 0.0
        upper, lower = self.places[above], self.places[above - 1]
        share = (place - lower) / (upper - lower)
        return self.heats[above] * share + self.heats[above - 1] * (1 - share)

    def add_place(self, place: float) -> None:
        """Makes a temperature one of the places, where it is none."""
        above = bisect_left(self.places, place - NEAR)
        if above < len(self.places) and self.places[above] <= place + NEAR:
            return
        heat = self.heat_at(place)
        self.places.insert(above, place)
        self.heats.insert(above, heat)

    def may_meet(self, hot: int, cold: int) -> bool:
        return not self.forbidden or (self.origins[hot], self.origins[cold]) not in self.forbidden

    def fits(self, warm: Rectangle, cool: Rectangle, strictly: bool = False) -> bool:
        """Whether an exchanger between two rectangles has warm ends that are warm enough, and leaves a cascade that is
        nowhere below 0; `strictly` where what it takes was fitted to the cascade, so that it is not below 0 by what
        counts as none, and nothing that is left is out of reach by that."""
        high, low, size = warm
        top, bottom, other = cool
        none = self.none * STRICT if strictly else self.none
        if high < top - NEAR or low < bottom - NEAR:
            return False
        # What is taken is most at one of these two.
        if bottom < low < high:
            taken = size * (high - low)
            if top > low:
                taken -= other * (top - low)
            if taken > self.heat_at(low) + none:
                return False
        if bottom < top < high and size * (high - (top if top > low else low)) > self.heat_at(top) + none:
            return False
        places, heats = self.places, self.heats
        for at in range(bisect_right(places, bottom), bisect_left(places, high)):
            place = places[at]
            taken = size * (high - (place if place > low else low))
            if place < top:
                taken -= other * (top - place)
            if taken > heats[at] + none:
                return False
        return True

    def all_of(self, slot: int) -> Rectangle:
        """All that is left of a source."""
        high, low = self.highs[slot], self.lows[slot]
        return Rectangle(high, low, self.loads[slot] / (high - low))

    def part(self, slot: int, place: int, duty: float, partner_size: float) -> Rectangle:
        """What an exchanger at a place takes of a source."""
        high, low = self.highs[slot], self.lows[slot]
        size = self.loads[slot] / (high - low)
        if place == WHOLE:
            return Rectangle(high, low, size)
        if place == BESIDE or self.levels[slot]:
            return Rectangle(high, low, duty / (high - low))
        if place == TOP:
            return Rectangle(high, high - duty / size, size)
        if place == BOTTOM:
            return Rectangle(low + duty / size, low, size)
        if place == CORNER_TOP:
            return Rectangle(high, high - duty / partner_size, partner_size)
        return Rectangle(low + duty / partner_size, low, partner_size)

    def fit(self, hot: int, cold: int, places: tuple[int, int], duty: float, sizes: tuple[float, float]) -> Fit | None:
        """An exchanger at places of both sources, which have these sizes, whose duty is fitted to the cascade; None
        where it does not fit."""
        warm = self.part(hot, places[0], duty, sizes[1])
        cool = self.part(cold, places[1], duty, sizes[0])
        return Fit(Tick(hot, cold, *places, duty), warm, cool) if self.fits(warm, cool, True) else None

    def finished(self, hot: int, cold: int) -> int:
        """Which source the whole smaller heat finishes: 1 the hot one, -1 the cold one, 0 both."""
        difference = self.loads[hot] - self.loads[cold]
        larger = cold if difference < 0 else hot
        if abs(difference) <= max(self.none, 0.0 if self.levels[larger] else NEAR * self.size(larger)):
            return 0
        return 1 if difference < 0 else -1

    def finishing(self, hot: int, cold: int, places: tuple[int, ...], which: int) -> list[Fit]:
        """The exchangers that finish the smaller of two sources, or both, at places of the larger one, and fit."""
        duty = self.loads[cold] if which < 0 else self.loads[hot]
        warm, cool = self.all_of(hot), self.all_of(cold)
        if which == 0:
            return [Fit(Tick(hot, cold, WHOLE, WHOLE, duty), warm, cool)] if self.fits(warm, cool) else []
        found: list[Fit] = []
        for place in places:
            if which > 0:
                cool = self.part(cold, place, duty, warm.size)
            else:
                warm = self.part(hot, place, duty, cool.size)
            if self.fits(warm, cool):
                tick = Tick(hot, cold, WHOLE, place, duty) if which > 0 else Tick(hot, cold, place, WHOLE, duty)
                found.append(Fit(tick, warm, cool))
        return found

    def tick_fits(self, hot: int, cold: int) -> list[Fit]:
        """The exchangers that finish one of two sources, or both, and fit."""
        if self.highs[hot] < self.lows[cold] - NEAR or not self.may_meet(hot, cold):
            return []
        which = self.finished(hot, cold)
        return self.finishing(hot, cold, self.places_of(hot if which < 0 else cold), which)

    def places_of(self, slot: int) -> tuple[int, ...]:
        """The places that a part of a source can have."""
        if self.levels[slot]:
            return (BESIDE,)
        return (TOP, BOTTOM, BESIDE) if self.may_split else (TOP, BOTTOM)

    def can_part(self, slot: int, place: int, part: float) -> bool:
        """Whether a source is left with more than no range where so much of it is taken, or is left, at a place."""
        return place == BESIDE or (self.highs[slot] - self.lows[slot]) * part > NEAR

    def corner_fits(self, hot: int, cold: int) -> list[Fit]:
        """The exchangers that finish the smaller of two sources in a corner of the larger one, and fit."""
        if self.highs[hot] < self.lows[cold] - NEAR or self.levels[hot] or self.levels[cold] or not self.may_split:
            return []
        which = self.finished(hot, cold)
        if which == 0 or not self.may_meet(hot, cold):
            return []
        large, small = (hot, cold) if which < 0 else (cold, hot)
        longer = self.highs[large] - self.lows[large] > self.highs[small] - self.lows[small] + NEAR
        if not longer or self.size(large) <= self.size(small) * (1 + FINE):
            return []
        return self.finishing(hot, cold, (CORNER_TOP, CORNER_BOTTOM), which)

    def take(self, fit: Fit) -> None:
        """Puts an exchanger in."""
        tick, warm, cool = fit
        for place in (warm.high, warm.low, cool.high, cool.low):
            self.add_place(place)
        self.add_heat(Rectangle(warm.high, warm.low, -warm.size))
        self.add_heat(cool)
        sizes = self.size(tick.hot), self.size(tick.cold)
        self.shrink(self.hots, tick.hot, tick.hot_place, tick.duty, sizes[1])
        self.shrink(self.colds, tick.cold, tick.cold_place, tick.duty, sizes[0])
        self.ticks.append(tick)
        self.count += 1

    def finish(self, ticks: Sequence[Tick]) -> None:
        """Puts in the exchangers that finish all that is left."""
        self.ticks += ticks
        self.count += len({(tick.hot, tick.cold) for tick in ticks})
        self.hots, self.colds = [], []

    def shrink(self, side: list[int], slot: int, place: int, duty: float, partner_size: float) -> None:
        """What is left of a source beside an exchanger; in a corner it is two rectangles."""
        if place == WHOLE:
            side.remove(slot)
            return
        high, low, size = self.highs[slot], self.lows[slot], self.size(slot)
        self.loads[slot] -= duty
        if self.levels[slot]:
            return
        if place == TOP:
            self.highs[slot] = high - duty / size
        elif place == BOTTOM:
            self.lows[slot] = low + duty / size
        elif place == CORNER_TOP:
            self.lows[slot] = middle = high - duty / partner_size
            self.loads[slot] = (size - partner_size) * (high - middle)
            self.add_slot(side, slot, middle, low, size)
        elif place == CORNER_BOTTOM:
            self.highs[slot] = middle = low + duty / partner_size
            self.loads[slot] = (size - partner_size) * (middle - low)
            self.add_slot(side, slot, high, middle, size)

    def add_slot(self, side: list[int], slot: int, high: float, low: float, size: float) -> None:
        """A further rectangle of a source."""
        side.append(len(self.highs))
        self.highs.append(high)
        self.lows.append(low)
        self.loads.append(size * (high - low))
        self.levels.append(False)
        self.origins.append(self.origins[slot])

    def cut(self, slot: int, place: float) -> None:
        """Cuts a source in two at a temperature."""
        size, low = self.size(slot), self.lows[slot]
        above = size * (self.highs[slot] - place)
        self.ticks.append(Tick(slot, CUT, WHOLE, WHOLE, above))
        self.lows[slot], self.loads[slot] = place, above
        self.add_slot(self.hots if slot in self.hots else self.colds, slot, place, low, size)

    def crossings(self) -> Iterator[tuple[int, float]]:
        """The sources that go through a place where the cascade is 0, with the place."""
        for at in range(1, len(self.places) - 1):
            if self.heats[at] <= TIGHT * self.none:
                for slot in (*self.hots, *self.colds):
                    if self.crosses(slot, self.places[at]):
                        yield slot, self.places[at]

    def crosses(self, slot: int, place: float) -> bool:
        inside = self.lows[slot] + TIGHT * NEAR < place < self.highs[slot] - TIGHT * NEAR
        return inside and not self.levels[slot]

    @property
    def is_done(self) -> bool:
        """Whether nothing is left but what floats do not tell from nothing."""
        return sum(self.loads[slot] for slot in (*self.hots, *self.colds)) <= self.scale * LEFT_OVER

    @property
    def least_left(self) -> int:
        """How many exchangers it takes at least to finish what is left."""
        return max(len(self.hots), len(self.colds))
