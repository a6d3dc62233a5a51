"""What no point of a program has an aim below, proved in fractions.

The solver gives a price for each row, in floats. Rounded to whole parts, prices prove a bound whatever they are: each
row at its price, and of each variable the least of what is left of its factor in the aim. So floats decide how good a
bound is, and never whether it holds. Where that is not enough, a whole variable is bounded to both sides of where it is
broken, and each side is proved by itself, the one with the least bound first."""
from __future__ import annotations

import time
from collections.abc import Iterator, Mapping, Sequence
from dataclasses import dataclass, field
from fractions import Fraction
from heapq import heappop, heappush
from math import ceil, floor, lcm
from typing import Any

import numpy
from scipy.optimize import linprog
from scipy.sparse import csr_matrix, hstack, identity, vstack

from .linear import INFEASIBLE, Floats, Program, aim_of, bounds_of, largest_of, matrix_of
from .quiet_output import silent

# Prices are whole multiples of one over this; a whole variable is broken that is so far from a whole number.
PARTS, BROKEN = 1 << 30, 1e-6
# Bounds of whole variables that take the place of those of the program.
Box = Mapping[int, tuple[int, int]]


@dataclass(frozen=True)
class PricedBox:
    """What the solver says of a box: a price of each row, and the point; None where it says that there is none, and
    prices that are to prove it."""

    prices: tuple[float, ...]
    point: tuple[float, ...] | None


class WholeNumbers:
    """A program times a common multiple of its denominators."""

    def __init__(self, program: Program) -> None:
        fractions = [number for row in program.rows for number in (row.low, row.high, *dict(row.terms).values())]
        fractions += [*program.lows, *program.highs, *dict(program.aim).values()]
        self.scale = lcm(*(number.denominator for number in fractions if number is not None))
        self.aim = [0] * len(program.lows)
        for at, factor in program.aim:
            self.aim[at] += self.whole(factor)
        self.rows = [[(at, self.whole(factor)) for at, factor in row.terms] for row in program.rows]
        self.ends = [self.both(row.low, row.high) for row in program.rows]
        self.bounds = [self.both(low, high) for low, high in zip(program.lows, program.highs)]

    def whole(self, number: Fraction) -> int:
        return int(number * self.scale)

    def both(self, low: Fraction | None, high: Fraction | None) -> tuple[int | None, int | None]:
        return (None if low is None else self.whole(low), None if high is None else self.whole(high))

    def proved(self, prices: Sequence[float], box: Box, with_aim: bool = True) -> Fraction | None:
        """What prices of the rows prove that the aim is nowhere below in a box, or that 0 is not without the aim: more
        than 0 says then that there is no point. None where they prove nothing."""
        left = [factor * PARTS for factor in self.aim] if with_aim else [0] * len(self.aim)
        worth = 0
        for row, (low, high), price in zip(self.rows, self.ends, prices):
            parts = round(price * PARTS) if abs(price) < PARTS else 0
            end = low if parts > 0 else high
            if not parts or end is None:
                continue
            worth += parts * end
            for at, factor in row:
                left[at] -= parts * factor
        return self.with_rest(worth * self.scale, left, box)

    def with_rest(self, worth: int, left: Sequence[int], box: Box) -> Fraction | None:
        """What the rows are worth, with the least of what is left for the variables."""
        for at, (factor, (low, high)) in enumerate(zip(left, self.bounds)):
            if at in box:
                low, high = (self.scale * end for end in box[at])
            end = low if factor > 0 else high
            if end is None and factor:
                return None
            worth += factor * (end or 0)
        return Fraction(worth, PARTS * self.scale * self.scale)


class Relaxation:
    """A program without its whole numbers, as the solver has it."""

    def __init__(self, program: Program) -> None:
        matrix, low, high = matrix_of(program.rows, len(program.lows))
        equal = low == high
        self.upper, self.lower = (numpy.flatnonzero(numpy.isfinite(ends) & ~equal) for ends in (high, low))
        self.equal = numpy.flatnonzero(equal)
        self.above = vstack([matrix[self.upper], -matrix[self.lower]], format='csr')
        self.most = numpy.concatenate([high[self.upper], -low[self.lower]])
        self.level, self.heights = matrix[self.equal], low[self.equal]
        self.aim, self.bounds = aim_of(program), numpy.column_stack(bounds_of(program))
        self.largest = [float(largest_of(row)) for row in program.rows]

    def priced(self, box: Box, until: float) -> PricedBox | None:
        """The least point in a box with its prices; None where there is no time for it."""
        bounds = self.bounds.copy()
        for at, ends in box.items():
            bounds[at] = ends
        found = self.solved(self.aim, self.above, self.level, bounds, until)
        if found.status == 0:
            return PricedBox(self.prices(found), tuple(found.x.tolist()))
        return self.excluded(bounds, until) if found.status == INFEASIBLE else None

    def excluded(self, bounds: Floats, until: float) -> PricedBox | None:
        """Prices by which there is no point: those of the least by which rows would have to be passed."""
        width, most, level = len(self.aim), len(self.most), len(self.heights)
        slack = numpy.column_stack([numpy.zeros(most + 2 * level), numpy.full(most + 2 * level, numpy.inf)])
        none, ones = csr_matrix((level, most)), identity(level, format='csr')
        above = hstack([self.above, -identity(most), csr_matrix((most, 2 * level))], format='csr')
        found = self.solved(numpy.concatenate([numpy.zeros(width), numpy.ones(len(slack))]), above,
                            hstack([self.level, none, ones, -ones], format='csr'), numpy.vstack([bounds, slack]), until)
        return PricedBox(self.prices(found), None) if found.status == 0 else None

    def solved(self, aim: Floats, above: csr_matrix, level: csr_matrix, bounds: Floats, until: float) -> Any:
        with silent():
            return linprog(aim, A_ub=above, b_ub=self.most, A_eq=level, b_eq=self.heights, bounds=bounds,
                           method='highs', options={'time_limit': max(0.01, until - time.monotonic())})

    def prices(self, found: Any) -> tuple[float, ...]:
        """The prices of the rows of the program, which the solver has each divided by its largest factor."""
        prices = numpy.zeros(len(self.largest))
        above = numpy.asarray(found.ineqlin.marginals)
        numpy.add.at(prices, self.upper, above[:len(self.upper)])
        numpy.add.at(prices, self.lower, -above[len(self.upper):])
        numpy.add.at(prices, self.equal, numpy.asarray(found.eqlin.marginals))
        return tuple((prices / numpy.asarray(self.largest)).tolist())


@dataclass(order=True)
class OpenBox:
    """A box that is not yet proved as far as it is wanted, with what is proved of it; of equal ones the deepest comes
    first. `broken` is the variable by which it is parted, with the whole number below it; None where there is none."""

    proved: int
    height: int
    number: int
    box: Box = field(compare=False)
    broken: tuple[int, int] | None = field(compare=False)


class BoundProof:
    """A proof on its way that no point has an aim below a wanted number; `proved` is what it has so far. The aim is a
    number of things, whole and not below 0, so that what is proved of it may be rounded up, and 0 needs no proof."""

    def __init__(self, program: Program, wanted: int, until: float) -> None:
        self.program, self.wanted, self.until = program, wanted, until
        self.exact, self.relaxation = WholeNumbers(program), Relaxation(program)
        self.boxes: list[OpenBox] = []
        self.count = 0
        self.look({}, 0)

    @property
    def proved(self) -> int:
        return self.boxes[0].proved if self.boxes else self.wanted

    def run(self) -> int:
        while self.boxes and self.boxes[0].broken and time.monotonic() < self.until:
            parted = heappop(self.boxes)
            for box in self.sides(parted):
                self.look(box, parted.proved)
        return self.proved

    def sides(self, parted: OpenBox) -> Iterator[Box]:
        """Both sides of a box of where a variable is broken in it."""
        assert parted.broken is not None
        at, below = parted.broken
        low, high = parted.box.get(at, (self.end(self.program.lows[at]), self.end(self.program.highs[at])))
        yield {**parted.box, at: (low, below)}
        yield {**parted.box, at: (below + 1, high)}

    @staticmethod
    def end(bound: Fraction | None) -> int:
        assert bound is not None
        return int(bound)

    def look(self, box: Box, known: int) -> None:
        """Proves what can be proved of a box at once; it stays open where that is not enough."""
        priced, proved = self.relaxation.priced(box, self.until), known
        if priced is not None and priced.point is None:
            excluded = self.exact.proved(priced.prices, box, with_aim=False)
            proved = self.wanted if excluded is not None and excluded > 0 else known
        elif priced is not None:
            least = self.exact.proved(priced.prices, box)
            proved = known if least is None else max(known, ceil(least))
        if proved < self.wanted:
            self.count += 1
            heappush(self.boxes, OpenBox(proved, -len(box), self.count, box, self.broken(priced)))

    def broken(self, priced: PricedBox | None) -> tuple[int, int] | None:
        """The whole variable that is nearest to a half, and the whole number below it."""
        point = None if priced is None else priced.point
        if point is None:
            return None
        far = {at: abs(point[at] - round(point[at])) for at in sorted(self.program.wholes)}
        at = max(far, key=lambda place: round(far[place], 6), default=None)
        return None if at is None or far[at] <= BROKEN else (at, floor(point[at]))


def proved_least(program: Program, wanted: int, seconds: float) -> int:
    """The greatest number up to a wanted one that is proved in the time: no point has an aim below it. The aim is a
    number of things; 0 where nothing is proved."""
    counts = all(at in program.wholes and factor.denominator == 1 for at, factor in program.aim)
    if wanted <= 0 or not counts or not program.rows:
        return 0
    return BoundProof(program, wanted, time.monotonic() + seconds).run()
