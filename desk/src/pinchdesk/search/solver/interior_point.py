"""An exact point with simple numbers: not at a vertex, where fractions grow long, but with room on all sides.

Whole variables are fixed. Every row and bound gets as much room as it can have, up to a little; what has none is tight.
Then the variables that have a grain (duties, whole watts) take a multiple of it where they are free, the coarsest that
does, and the others follow."""
from __future__ import annotations

from collections.abc import Mapping, Sequence
from dataclasses import replace
from fractions import Fraction

from .linear import Program, LinearRow, allows, settled, solve, solved_at

# How much room is wanted, in units of a row's largest term: where each row wants less, more rows have some. The
# multiples of the grain that are tried; what denominators are short.
ROOMS, MULTIPLES, SHORT = (Fraction(1), Fraction(1, 10), Fraction(1, 100)), (10000, 1000, 100, 10, 1), 2 ** 16


def roomy(program: Program, values: Sequence[float], grains: Mapping[int, Fraction]) -> tuple[Fraction, ...] | None:
    """A point with the whole variables as these values have them, with denominators that are short or the shortest that
    were found; None where none was found."""
    fixed = settled(program, {at: Fraction(round(values[at])) for at in program.wholes})
    best: tuple[Fraction, ...] | None = None
    for room in ROOMS if fixed is not None else ():
        assert fixed is not None
        point = rounded_inside(program, fixed, room, grains)
        if point is not None and (best is None or longest(point) < longest(best)):
            best = point
        if best is not None and longest(best) <= SHORT:
            return best
    return best


def longest(point: Sequence[Fraction]) -> int:
    return max((coordinate.denominator for coordinate in point), default=1)


def rounded_inside(program: Program, fixed: Program, room: Fraction, grains: Mapping[int, Fraction],
                   ) -> tuple[Fraction, ...] | None:
    """A point of a program with so much room, with multiples of the grains that are as coarse as they may be."""
    solved = solve(with_room(fixed, room))
    if solved is None:
        return None
    near = solved.values[:len(program.lows)]
    for multiple in MULTIPLES:
        point = solved_at(fixed, near, {at: grain * multiple for at, grain in grains.items()})
        if point is not None and allows(program, point):
            return point
    return None


def with_room(program: Program, room: Fraction) -> Program:
    """The program with a variable for the room of each row and bound, as much of it as there may be."""
    bounds = [LinearRow(((column, Fraction(1)),), low, high)
              for column, (low, high) in enumerate(zip(program.lows, program.highs))]
    rows: list[LinearRow] = []
    width = len(program.lows)
    for row in (*program.rows, *bounds):
        if row.low is not None and row.low == row.high:
            rows.append(row)
            continue
        largest = max(abs(factor) for _, factor in row.terms)
        if row.low is not None:
            rows.append(LinearRow((*row.terms, (width, -largest)), row.low, None))
        if row.high is not None:
            rows.append(LinearRow((*row.terms, (width, largest)), None, row.high))
        width += 1
    more = width - len(program.lows)
    aim = tuple((len(program.lows) + at, Fraction(-1)) for at in range(more))
    return replace(program, lows=(*program.lows, *(Fraction(0),) * more), highs=(*program.highs, *(room,) * more),
                   rows=tuple(rows), aim=aim)
