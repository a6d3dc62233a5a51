"""Ruin and recreate (Shaw 1998): some exchangers are dropped, the others put in again where they still fit, and the
rest is ticked off anew."""
from __future__ import annotations

from collections.abc import Iterator, Sequence
from random import Random

from ..staged.windows import Window
from .window_courses import CORNER_TOP, CUT, WHOLE, Chain, ChainEnd, Tick, WindowNetwork, window_network
from .descent import Descent
from .heat_left import TIGHT, HeatLeft

# How often a descent from nothing is tried, and one exchanger more is taken.
FROM_NOTHING, ONE_MORE = 40, 10
# In windows of so few sources the rest is taken in parts.
FEW_SOURCES = 15
# So many exchangers are dropped, as a share, or all of so many sources.
SHARES, SOURCES = (0.15, 0.3, 0.5, 0.7), (1, 2, 3, 4)


def drops(ticks: tuple[Tick, ...], random: Random) -> set[int]:
    """Which lines are dropped: each with a chance, or all of some sources."""
    if random.random() < 0.5:
        share = random.choice(SHARES)
        return {at for at in range(len(ticks)) if random.random() < share}
    slots = sorted({slot for tick in ticks for slot in (tick.hot, tick.cold) if slot != CUT})
    some = random.sample(slots, min(len(slots), random.choice(SOURCES)))
    return {at for at, tick in enumerate(ticks) if tick.hot in some or tick.cold in some}


class Replay:
    """Puts exchangers in again. `names` says which slot an earlier one is now, None where it is none."""

    def __init__(self, left: HeatLeft) -> None:
        self.left = left
        self.names: list[int | None] = list(range(len(left.highs)))

    def line(self, tick: Tick, is_dropped: bool) -> None:
        before = len(self.left.highs)
        if not is_dropped:
            if tick.cold == CUT:
                self.cut(self.now(tick.hot, (*self.left.hots, *self.left.colds)), tick.duty)
            elif WHOLE in (tick.hot_place, tick.cold_place):
                self.exchanger(self.now(tick.hot, self.left.hots), self.now(tick.cold, self.left.colds), tick)
        comes = sum(place >= CORNER_TOP for place in (tick.hot_place, tick.cold_place)) + (tick.cold == CUT)
        came = len(self.left.highs) - before
        self.names += [before + more if more < came else None for more in range(comes)]

    def now(self, slot: int, side: Sequence[int]) -> int | None:
        """The slot that an earlier one is now, where it is still left on its side."""
        name = self.names[slot]
        return name if name in side else None

    def exchanger(self, hot: int | None, cold: int | None, tick: Tick) -> None:
        if hot is None or cold is None:
            return
        place = tick.cold_place if tick.hot_place == WHOLE else tick.hot_place
        if place >= CORNER_TOP:
            fits = self.left.corner_fits(hot, cold)
        else:
            fits = self.left.tick_fits(hot, cold)
        same = [fit for fit in fits if place in (fit.tick.hot_place, fit.tick.cold_place)]
        if fits:
            self.left.take((same or fits)[0])

    def cut(self, slot: int | None, heat: float) -> None:
        """Cuts a source again, where the place is still one where no heat crosses."""
        if slot is None:
            return
        place = self.left.highs[slot] - heat / self.left.size(slot)
        if self.left.crosses(slot, place) and self.left.heat_at(place) <= TIGHT * self.left.none:
            self.left.cut(slot, place)


def replayed(first: HeatLeft, ticks: tuple[Tick, ...], dropped: set[int]) -> HeatLeft:
    """What is left behind the exchangers that are not dropped."""
    replay = Replay(first.copy())
    for at, tick in enumerate(ticks):
        replay.line(tick, at in dropped)
    return replay.left


def most_of(window: Window) -> int:
    """With more exchangers than this no chain begins."""
    return 5 * len(window.pieces)


def straight_part(window: Window) -> float:
    """How many of the descents send the rest straight down: in large windows parts leave slivers, which end nowhere."""
    return min(0.95, max(0.05, (len(window.pieces) - FEW_SOURCES) / FEW_SOURCES))


def run_chain(window: Window, seed: int, steps: int, begin: Chain, least: int | None, may_split: bool = True,
              ) -> ChainEnd:
    """So many descents more of a chain, with the different networks on the way that have at most one exchanger more
    than the least, or than the least of the chain."""
    random, first = Random(seed), HeatLeft(window, may_split)
    straight = straight_part(window) if may_split else 0.0
    now, best = begin, begin.count if begin.ticks else most_of(window)
    found: dict[tuple[Tick, ...], None] = {}
    for _ in range(steps):
        if not now.ticks or random.randrange(FROM_NOTHING) == 0:
            left = first.copy()
        else:
            left = replayed(first, now.ticks, drops(now.ticks, random))
        most = best + (not now.ticks or random.randrange(ONE_MORE) == 0)
        if Descent(left, random, random.random() < straight).run(most):
            now = Chain(tuple(left.ticks))
            best = min(best, now.count)
            found[now.ticks] = None
    limit = min(best, best if least is None else least) + 1
    return ChainEnd(now, tuple(different(window, [ticks for ticks in found if Chain(ticks).count <= limit])))


def different(window: Window, ways: list[tuple[Tick, ...]]) -> Iterator[WindowNetwork]:
    """The networks of descents, each once."""
    known: set[str] = set()
    for ticks in ways:
        network = window_network(window, ticks)
        if network is not None and network.shape not in known:
            known.add(network.shape)
            yield network
