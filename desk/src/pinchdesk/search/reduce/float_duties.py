"""The duties of a structure as a linear program in floats, for many structures in a short time.

It has the rows of `balances`, which says the same in fractions: that one has the last word."""
from __future__ import annotations

from collections.abc import Sequence
from dataclasses import dataclass
from fractions import Fraction

import numpy
from numpy.typing import NDArray
from scipy.optimize import linprog

from ...formats.case import Case, Side, Stream
from ..solver.quiet_output import silent
from .structure import Course, Parting, Structure, Through, throughs

Floats = NDArray[numpy.float64]
# A duty that is smaller is none, in thousandths of the greatest heat; the part of the scale that a cost may be above.
NONE, HAIR = 1e-7, 1e-9
# What a cost has to be above another one to be above it clearly, as a part of the scale.
CLEARLY = 1e-4
# How far the solver may miss a row: what it may pay beyond the cost is used for dropping what is needed.
FEASIBLE = 1e-9


@dataclass(frozen=True)
class FloatRows:
    """Rows of a linear program: `equal` and `below`, each with its bound. Those of the approaches, two for each
    exchanger, begin at a line of `below`."""

    equal: Floats
    equals: Floats
    below: Floats
    limits: Floats
    approaches: int


class FloatDuties:
    """The rows of one structure. A sum is an array with a factor for each exchanger, and its constant at the end."""

    def __init__(self, case: Case, structure: Structure) -> None:
        self.case, self.structure = case, structure
        self.sources = {source.name: source for source in case.sources}
        self.names = list(structure.pairs)
        self.at = {name: at for at, name in enumerate(self.names)}
        self.count = len(self.names)
        self.unit = max(stream.heat for stream in case.streams) / 1000
        self.ends: dict[tuple[str, Side], tuple[Floats, Floats]] = {}
        self.lane_ends: list[Floats] = []
        for stream in case.streams:
            begin = self.constant(stream.supply if not stream.latent else stream.side is Side.HOT)
            self.walk(stream, structure.courses[stream.name], begin, stream.size)

    def constant(self, value: float) -> Floats:
        return numpy.append(numpy.zeros(self.count), float(value))

    def walk(self, stream: Stream, course: Course, state: Floats, size: float) -> Floats:
        """Follows a course; the state after it."""
        factor = (-1 if stream.side is Side.HOT else 1) * self.unit / size
        for step in course:
            after = state.copy()
            if isinstance(step, Through):
                after[self.at[step.exchanger]] += factor
                self.note(stream, step.exchanger, state, after)
            else:
                for name in throughs((step,)):
                    after[self.at[name]] += factor
                self.walk_lanes(stream, step, state, after, size)
            state = after
        return state

    def walk_lanes(self, stream: Stream, parting: Parting, state: Floats, after: Floats, size: float) -> None:
        for lane in parting.lanes:
            if parting.level:
                for name in throughs(lane.course):
                    self.note(stream, name, state, after)
                continue
            end = self.walk(stream, lane.course, state, size * float(lane.share))
            if stream.latent:
                self.lane_ends.append(end)

    def note(self, stream: Stream, exchanger: str, inlet: Floats, outlet: Floats) -> None:
        if stream.latent:
            inlet = outlet = self.constant(stream.supply)
        self.ends[exchanger, stream.side] = (inlet, outlet)

    def side(self, exchanger: str, side: Side) -> tuple[Floats, Floats]:
        source = self.sources[self.structure.pairs[exchanger][side is Side.COLD]]
        if isinstance(source, Stream):
            return self.ends[exchanger, side]
        return (self.constant(source.level),) * 2

    def sums(self) -> dict[str, Floats]:
        """A row for each source: all that it exchanges."""
        sums = {source.name: numpy.zeros(self.count) for source in self.case.sources}
        for name, pair in self.structure.pairs.items():
            for source in pair:
                sums[source][self.at[name]] = 1.0
        return sums

    def cost_row(self) -> Floats:
        """What the utilities cost, in price times the unit."""
        sums = self.sums()
        rows = [utility.price * sums[utility.name] for utility in self.case.utilities]
        costs: Floats = numpy.sum(rows, axis=0) if rows else numpy.zeros(self.count)
        return costs

    @property
    def scale(self) -> float:
        """What costs are measured by: the greatest heat at the greatest price, per unit."""
        return float(1000 * max([1, *(abs(utility.price) for utility in self.case.utilities)]))

    def approach_rows(self) -> list[Floats]:
        """Sums that are at most 0 where both ends of each exchanger keep the approach."""
        contributions = {source.name: source.contribution for source in self.case.sources}
        rows: list[Floats] = []
        for name, pair in self.structure.pairs.items():
            approach = float(sum(contributions[source] for source in pair))
            hot, cold = self.side(name, Side.HOT), self.side(name, Side.COLD)
            for warm, cool in ((hot[0], cold[1]), (hot[1], cold[0])):
                row = cool - warm
                row[-1] += approach
                rows.append(row)
        return rows

    def rows(self, most_cost: Fraction | None) -> FloatRows:
        """All rows, and the cost at most so much."""
        sums = self.sums()
        equal: list[Floats] = []
        below: list[Floats] = []
        equals: list[float] = []
        limits: list[float] = []
        for stream in self.case.streams:
            equal.append(sums[stream.name])
            equals.append(stream.heat / self.unit)
        for name, duty in self.structure.kept.items():
            equal.append(numpy.eye(1, self.count, self.at[name])[0])
            equals.append(float(duty) / self.unit)
        for utility in self.case.utilities:
            below.append(sums[utility.name])
            limits.append(utility.most / self.unit)
            if utility.least:
                below.append(-sums[utility.name])
                limits.append(-utility.least / self.unit)
        approaches = len(below)
        for row in self.approach_rows():
            below.append(row[:-1])
            limits.append(-row[-1])
        for end in self.lane_ends:
            below += [end[:-1], -end[:-1]]
            limits += [1 - end[-1], end[-1]]
        if most_cost is not None:
            below.append(self.cost_row())
            limits.append(float(most_cost) / self.unit + HAIR * self.scale)
        return FloatRows(numpy.array(equal), numpy.array(equals), numpy.array(below), numpy.array(limits),
                         approaches)


def least_point(rows: FloatRows, weights: Sequence[float] | Floats) -> Floats | None:
    """A vertex at which the weighted sum of the duties is least; None where there is none."""
    with silent():
        found = linprog(weights, A_ub=rows.below, b_ub=rows.limits, A_eq=rows.equal, b_eq=rows.equals,
                        bounds=(0, None), method='highs-ds', options={'primal_feasibility_tolerance': FEASIBLE})
    return numpy.asarray(found.x) if found.status == 0 else None


def is_dearer(case: Case, structure: Structure, cost: Fraction) -> bool:
    """Whether a structure clearly costs more than this; where floats say that it can do nothing, fractions shall."""
    duties = FloatDuties(case, structure)
    row = duties.cost_row()
    point = least_point(duties.rows(None), row)
    return point is not None and float(row @ point) > float(cost) / duties.unit + CLEARLY * duties.scale
