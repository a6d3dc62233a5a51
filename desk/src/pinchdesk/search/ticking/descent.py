"""A window ticked off from its beginning to its end; where nothing fits, sources are cut or taken in parts."""
from __future__ import annotations

from collections.abc import Iterator
from dataclasses import dataclass
from math import inf
from random import Random

from .completing import completion
from .heat_left import Fit, HeatLeft

# The largest part of a duty that fits is found by so many halvings; a smaller part of it than this is none.
HALVINGS, LEAST_PART = 30, 1 / 512
Table = dict[tuple[int, int], list[Fit]]


@dataclass(frozen=True)
class Weights:
    """By what a descent chooses: chance in the order of the sources, small differences, large duties, chance, and how
    often a source that has no tick-off comes first, in a corner."""

    order: float
    difference: float
    duty: float
    chance: float
    corner: float


def draw_weights(random: Random) -> Weights:
    return Weights(random.choice((0.0, 0.5, 2.0, 5.0, 50.0)), random.choice((0.0, 0.3, 1.0, 3.0)),
                   random.choice((0.0, 0.2, 1.0)), random.choice((0.02, 0.2, 1.0)),
                   random.choice((0.0, 0.0, 0.3, 1.0)))


class Descent:
    """Ticks off what is left; the table has the exchangers that fit, by their pairs. Where none does, the rest goes
    straight down (`completes`), or sources are cut and taken in parts."""

    def __init__(self, left: HeatLeft, random: Random, completes: bool = False) -> None:
        self.left, self.random, self.completes = left, random, completes
        self.weights = draw_weights(random)
        left.renew_cascade()
        self.table: Table = {}
        for hot in left.hots:
            for cold in left.colds:
                self.note(hot, cold)

    def note(self, hot: int, cold: int) -> None:
        fits = self.left.tick_fits(hot, cold)
        if fits:
            self.table[hot, cold] = fits

    def run(self, most: int) -> bool:
        """Whether it comes to its end with at most so many exchangers."""
        left = self.left
        while not left.is_done:
            if left.count + left.least_left > most or not left.hots or not left.colds or not self.step():
                return False
        return left.count <= most

    def step(self) -> bool:
        """One exchanger or one cut more; False where there is none."""
        counts = self.counts()
        lost = [slot for slot in (*self.left.hots, *self.left.colds) if not counts[slot]]
        if not self.table or lost and self.random.random() < self.weights.corner:
            fit = self.best(self.corners(set(lost) if self.table else None))
            if fit:
                return self.take(fit)
        if self.table:
            fit = self.best(self.ticks_of_one(counts))
            return fit is not None and self.take(fit)
        return self.complete() if self.completes else self.cut_or_part()

    def complete(self) -> bool:
        """The rest by its composite curves."""
        ticks = completion(self.left)
        if ticks is None:
            return False
        self.left.finish(ticks)
        self.table = {}
        return True

    def cut_or_part(self) -> bool:
        """Where nothing can be finished: a source is cut where no heat crosses, so that a piece of it can be; or the
        largest part of a pair is taken; or a source is cut all the same."""
        crossings = list(self.left.crossings())
        self.random.shuffle(crossings)
        useful = next((crossing for crossing in crossings if self.helps(*crossing)), None)
        fit = None if useful else self.largest_part()
        if fit:
            return self.take(fit)
        if not crossings:
            return False
        slot, place = useful or crossings[0]
        self.left.cut(slot, place)
        self.renew({slot, len(self.left.highs) - 1}, -inf, inf)
        return True

    def helps(self, slot: int, place: float) -> bool:
        """Whether a piece of a source can be finished, or finishes another one, once it is cut."""
        tried = self.left.copy()
        tried.cut(slot, place)
        pieces = (slot, len(tried.highs) - 1)
        if slot in tried.hots:
            return any(tried.tick_fits(piece, cold) for piece in pieces for cold in tried.colds)
        return any(tried.tick_fits(hot, piece) for piece in pieces for hot in tried.hots)

    def counts(self) -> list[int]:
        """How many exchangers that fit each slot has."""
        counts = [0] * len(self.left.highs)
        for (hot, cold), fits in self.table.items():
            counts[hot] += len(fits)
            counts[cold] += len(fits)
        return counts

    def ticks_of_one(self, counts: list[int]) -> Iterator[Fit]:
        """The exchangers of the source that has the fewest."""
        slots = [slot for slot in (*self.left.hots, *self.left.colds) if counts[slot]]
        order, random = self.weights.order, self.random.random
        first = min(slots, key=lambda slot: counts[slot] * (1 + order * random()))
        for pair, fits in self.table.items():
            if first in pair:
                yield from fits

    def corners(self, lost: set[int] | None) -> Iterator[Fit]:
        """The exchangers in corners, of some sources or of all."""
        for hot in self.left.hots:
            for cold in self.left.colds:
                if lost is None or hot in lost or cold in lost:
                    yield from self.left.corner_fits(hot, cold)

    def best(self, fits: Iterator[Fit]) -> Fit | None:
        """The exchanger with a small difference, a large duty, two sources finished, and chance."""
        weights, scale, random = self.weights, self.left.scale, self.random.random

        def key(fit: Fit) -> float:
            tick = fit.tick
            return (weights.difference * fit.difference / 1000 - weights.duty * tick.duty / scale
                    + weights.chance * random() - (tick.hot_place == tick.cold_place))
        choices = list(fits)
        return min(choices, key=key) if choices else None

    def take(self, fit: Fit) -> bool:
        slots = len(self.left.highs)
        self.left.take(fit)
        fresh = {fit.tick.hot, fit.tick.cold, *range(slots, len(self.left.highs))}
        self.renew(fresh, fit.warm.high, fit.cool.low)
        return True

    def renew(self, fresh: set[int], high: float, low: float) -> None:
        """Brings the table up to date after an exchanger between two temperatures. The cascade only sinks, so what did
        not fit does not fit now, unless one of its sources has changed."""
        left = self.left
        table: Table = {}
        for pair, fits in self.table.items():
            if pair[0] not in fresh and pair[1] not in fresh:
                kept = [fit for fit in fits if fit.warm.high <= low or fit.cool.low >= high
                        or left.fits(fit.warm, fit.cool)]
                if kept:
                    table[pair] = kept
        self.table = table
        for hot in left.hots:
            for cold in left.colds:
                if hot in fresh or cold in fresh:
                    self.note(hot, cold)

    def largest_part(self) -> Fit | None:
        """The largest part of a pair that fits and finishes nothing, with a little chance."""
        best: Fit | None = None
        largest = 0.0
        for hot in self.left.hots:
            for cold in self.left.colds:
                if not self.left.may_meet(hot, cold):
                    continue
                weight = 0.5 + self.random.random()
                for hot_place in self.places_of(hot):
                    for cold_place in self.places_of(cold):
                        fit = self.part(hot, cold, hot_place, cold_place, largest / weight)
                        if fit and fit.tick.duty * weight > largest:
                            best, largest = fit, fit.tick.duty * weight
        return best

    def places_of(self, slot: int) -> list[int]:
        """The places at which a part of a source can be taken."""
        return [place for place in self.left.places_of(slot) if self.left.can_part(slot, place, LEAST_PART)]

    def part(self, hot: int, cold: int, hot_place: int, cold_place: int, least: float) -> Fit | None:
        """The largest duty at these places that fits, where it is above the least."""
        most = min(self.left.loads[hot], self.left.loads[cold])
        # What is left of both is more than a sliver.
        low, high = max(least, most * LEAST_PART), most * (1 - LEAST_PART)
        if low >= high:
            return None
        places, sizes = (hot_place, cold_place), (self.left.size(hot), self.left.size(cold))
        best = self.left.fit(hot, cold, places, low, sizes)
        for _ in range(HALVINGS if best else 0):
            middle = (low + high) / 2
            fit = self.left.fit(hot, cold, places, middle, sizes)
            if fit:
                best, low = fit, middle
            else:
                high = middle
        return best
