"""Linear programs with whole-number variables, in `Fraction`: solved in floats (HiGHS, by `scipy.optimize.milp`), and
made exact.

A vertex of floats says which rows and bounds are tight there. These are solved exactly, and then every row and every
bound is checked exactly, so that a point that is given back satisfies the program as it is written."""
from __future__ import annotations

import math
from collections.abc import Iterable, Mapping, Sequence
from dataclasses import dataclass, replace
from fractions import Fraction

import numpy
from numpy.typing import NDArray
from scipy.optimize import Bounds, LinearConstraint, linprog, milp
from scipy.sparse import csr_matrix, vstack

from .elimination import Elimination, Inconsistent
from .quiet_output import silent

TIGHT = 1e-6
# Floats that are nearer than ten to this power do not tell what is tight from what is nearly so.
NEAREST = -12
# What a free variable takes is the simplest fraction up to this denominator, so that texts stay short.
SIMPLE = 1000
INFEASIBLE = 2
Terms = tuple[tuple[int, Fraction], ...]
Floats = NDArray[numpy.float64]


@dataclass(frozen=True)
class LinearRow:
    """`low <= sum of coefficient times variable <= high`; None where there is no such bound."""

    terms: Terms
    low: Fraction | None
    high: Fraction | None

    def at(self, values: Sequence[Fraction]) -> Fraction:
        """The row's sum at a point."""
        return sum((factor * values[at] for at, factor in self.terms), Fraction(0))


@dataclass(frozen=True)
class Program:
    """A linear program: the bounds of its variables, those that take whole numbers, its rows, and the sum that is to
    be least."""

    lows: tuple[Fraction | None, ...]
    highs: tuple[Fraction | None, ...]
    wholes: frozenset[int]
    rows: tuple[LinearRow, ...]
    aim: Terms


@dataclass(frozen=True)
class Solved:
    """A point in floats; `bound` is what the solver says that no point goes below, `optimal` where it says that there
    is none better."""

    values: tuple[float, ...]
    aim: float
    bound: float
    optimal: bool


class OutOfTime(Exception):
    """No point was found in time, and none was excluded; `bound` is the solver's so far."""

    def __init__(self, bound: float) -> None:
        super().__init__('no point was found in time')
        self.bound = bound


def solve(program: Program, seconds: float | None = None, gap: float = 1e-6) -> Solved | None:
    """A point at which the aim is least (within a gap, as a share of it), or the best that was found in the time. None
    where there is no point; `OutOfTime` where there was no time to tell."""
    if not program.lows:
        return Solved((), 0.0, 0.0, True) if allows(program, ()) else None
    integrality = numpy.array([1 if at in program.wholes else 0 for at in range(len(program.lows))])
    options: dict[str, float] = {'mip_rel_gap': gap} | ({} if seconds is None else {'time_limit': seconds})
    with silent():
        found = milp(aim_of(program), integrality=integrality, bounds=Bounds(*bounds_of(program)),
                     constraints=constraints_of(program), options=options)
    if found.x is not None:
        values = tuple(float(coordinate) for coordinate in found.x)
        bound = found.mip_dual_bound
        return Solved(values, float(found.fun), float(found.fun if bound is None else bound), found.status == 0)
    if found.status == INFEASIBLE:
        return None
    bound = getattr(found, 'mip_dual_bound', None)
    raise OutOfTime(-math.inf if bound is None or math.isnan(bound) else float(bound))


def exact(program: Program, values: Sequence[float]) -> tuple[Fraction, ...] | None:
    """A point of the program in fractions, with its whole variables as these values have them (rounded). None where
    there is none, or none that was found so."""
    fixed = settled(program, {at: Fraction(round(values[at])) for at in program.wholes})
    if fixed is None:
        return None
    vertex = vertex_of(fixed)
    point = None if vertex is None else solved_at(fixed, vertex)
    return point if point is not None and allows(program, point) else None


def allows(program: Program, point: Sequence[Fraction]) -> bool:
    """Whether a point satisfies every row and bound, exactly."""
    inside = all(within(low, value, high) for low, value, high in zip(program.lows, point, program.highs))
    whole = all(point[at].denominator == 1 for at in program.wholes)
    return inside and whole and all(within(row.low, row.at(point), row.high) for row in program.rows)


def within(low: Fraction | None, value: Fraction, high: Fraction | None) -> bool:
    return (low is None or low <= value) and (high is None or value <= high)


def settled(program: Program, values: Mapping[int, Fraction]) -> Program | None:
    """The program with some variables fixed. A row that is left with one variable becomes a bound of it; None where
    a bound is then above another."""
    lows, highs = list(program.lows), list(program.highs)
    for at, value in values.items():
        if not within(lows[at], value, highs[at]):
            return None
        lows[at] = highs[at] = value
    rows: list[LinearRow] = []
    for row in program.rows:
        left = without(row, values)
        if len(left.terms) > 1:
            rows.append(left)
        elif not left.terms and not within(left.low, Fraction(0), left.high):
            return None
        elif left.terms:
            narrow(lows, highs, left)
    if any(low is not None and high is not None and low > high for low, high in zip(lows, highs)):
        return None
    return replace(program, lows=tuple(lows), highs=tuple(highs), rows=tuple(rows), wholes=frozenset())


def without(row: LinearRow, values: Mapping[int, Fraction]) -> LinearRow:
    """The row less what its fixed variables give."""
    gone = sum((factor * values[at] for at, factor in row.terms if at in values), Fraction(0))
    terms = tuple((at, factor) for at, factor in row.terms if at not in values and factor)
    return LinearRow(terms, None if row.low is None else row.low - gone, None if row.high is None else row.high - gone)


def narrow(lows: list[Fraction | None], highs: list[Fraction | None], row: LinearRow) -> None:
    """Takes a row of one variable as its bounds."""
    (at, factor), = row.terms
    low, high = (None if bound is None else bound / factor for bound in (row.low, row.high))
    if factor < 0:
        low, high = high, low
    known_low = lows[at]
    if low is not None and (known_low is None or known_low < low):
        lows[at] = low
    known_high = highs[at]
    if high is not None and (known_high is None or known_high > high):
        highs[at] = high


def vertex_of(program: Program) -> list[float] | None:
    """A vertex of a program without whole variables, in floats."""
    matrix, low, high = matrix_of(program.rows, len(program.lows))
    equal = low == high
    upper, lower = numpy.isfinite(high) & ~equal, numpy.isfinite(low) & ~equal
    bounds = numpy.column_stack(bounds_of(program))
    above = vstack([matrix[upper], -matrix[lower]], format='csr')
    with silent():
        found = linprog(aim_of(program), A_ub=above, b_ub=numpy.concatenate([high[upper], -low[lower]]),
                        A_eq=matrix[equal], b_eq=low[equal], bounds=bounds, method='highs-ds',
                        options={'primal_feasibility_tolerance': 1e-9})
    return [float(coordinate) for coordinate in found.x] if found.status == 0 else None


def solved_at(program: Program, vertex: Sequence[float], grains: Mapping[int, Fraction] | None = None,
              ) -> tuple[Fraction, ...] | None:
    """What is tight at a point, solved: first what has to be equal, then what is tight as far as it is independent.
    What is free takes the nearest multiple of its grain, where it has one, or a simple fraction."""
    equations = Elimination(len(vertex))
    try:
        for at, (low, high) in enumerate(zip(program.lows, program.highs)):
            if low is not None and low == high:
                equations.add(((at, Fraction(1)),), low)
        for row in program.rows:
            if row.low is not None and row.low == row.high:
                equations.add(row.terms, row.low)
    except Inconsistent:
        return None
    for tight in sorted((*tight_bounds(program, vertex), *tight_rows(program, vertex)), key=lambda tight: tight.order):
        equations.add_if_free(tight.terms, tight.value)
    for at, grain in (grains or {}).items():
        equations.add_if_free(((at, Fraction(1)),), round(Fraction(vertex[at]) / grain) * grain)
    for at, near in enumerate(vertex):
        equations.add_if_free(((at, Fraction(1)),), Fraction(near).limit_denominator(SIMPLE))
    return equations.point()


@dataclass(frozen=True)
class Tight:
    """What is tight at a point, as far as floats say, and how far it is from that, as a part of its largest term."""

    terms: Terms
    value: Fraction
    slack: float

    @property
    def order(self) -> int:
        """What is nearest comes first: in a chain of approaches rows are nearly the same, and what is nearly tight
        would take the place of what is."""
        return NEAREST if self.slack <= 10.0 ** NEAREST else math.ceil(math.log10(self.slack))


def tight_bounds(program: Program, vertex: Sequence[float]) -> Iterable[Tight]:
    for at, value in enumerate(vertex):
        for bound in (program.lows[at], program.highs[at]):
            if bound is not None and abs(value - float(bound)) <= TIGHT * max(1.0, abs(value)):
                yield Tight(((at, Fraction(1)),), bound, abs(value - float(bound)) / max(1.0, abs(value)))
                break


def tight_rows(program: Program, vertex: Sequence[float]) -> Iterable[Tight]:
    for row in program.rows:
        total = sum(float(factor) * vertex[at] for at, factor in row.terms)
        size = max([1.0, *(abs(float(factor) * vertex[at]) for at, factor in row.terms)])
        for bound in (row.low, row.high):
            if bound is not None and row.low != row.high and abs(total - float(bound)) <= TIGHT * size:
                yield Tight(row.terms, bound, abs(total - float(bound)) / size)
                break


def aim_of(program: Program) -> Floats:
    aim = numpy.zeros(len(program.lows))
    for at, factor in program.aim:
        aim[at] += float(factor)
    return aim


def bounds_of(program: Program) -> tuple[Floats, Floats]:
    lows = [-math.inf if low is None else float(low) for low in program.lows]
    highs = [math.inf if high is None else float(high) for high in program.highs]
    return numpy.array(lows), numpy.array(highs)


def constraints_of(program: Program) -> list[LinearConstraint]:
    matrix, low, high = matrix_of(program.rows, len(program.lows))
    return [LinearConstraint(matrix, low, high)] if program.rows else []


def matrix_of(rows: Sequence[LinearRow], width: int) -> tuple[csr_matrix, Floats, Floats]:
    """The rows as a matrix with both bounds, each divided by its largest coefficient."""
    data: list[float] = []
    places: tuple[list[int], list[int]] = ([], [])
    low, high = numpy.full(len(rows), -math.inf), numpy.full(len(rows), math.inf)
    for line, row in enumerate(rows):
        largest = largest_of(row)
        for at, factor in row.terms:
            data.append(float(factor / largest))
            places[0].append(line)
            places[1].append(at)
        low[line] = -math.inf if row.low is None else float(row.low / largest)
        high[line] = math.inf if row.high is None else float(row.high / largest)
    return csr_matrix((data, places), shape=(len(rows), width)), low, high


def largest_of(row: LinearRow) -> Fraction:
    """The largest coefficient of a row, by which it is divided for the solver."""
    return max((abs(factor) for _, factor in row.terms), default=Fraction(0)) or Fraction(1)
