"""Energy, area, units, shells and cost over the least difference (*supertargeting*): the uses are those that `pinch
flow` printed at each difference, and between two of them the desk finds the least cost with uses in proportion, which
is marked, since it is no answer of the program."""
from __future__ import annotations

from collections.abc import Mapping, Sequence
from concurrent.futures import ThreadPoolExecutor
from dataclasses import dataclass, replace
from fractions import Fraction

from ..errors import Refused, WordsError
from ..formats.case import Case, Side, completed, read_case
from ..formats.cost_rows import Build, Flow, Service
from ..program.answers import Cut, HeatFlow, Targets
from ..program.run import CaseText, Pinch
from .annual import AnnualCost, annual_cost, at_most, price_of, priced_parts
from .area_target import area_target
from .balanced import carriers
from .cost_data import CostData
from .cost_target import one_two_area, shell_target
from .enclosure import Enclosure
from .quick_area import quick_area, quick_one_two
from .unit_target import UnitTarget, unit_target

# With more sources the independent sets would take longer than all the rest: units are then sources less one.
MOST_IN_SETS = 16
MOST_CONTRIBUTION, SEARCHED, WORKERS, GOLDEN = 1000, 8, 4, Fraction(89, 144)
FLAT, FIFTH = Fraction(101, 100), Fraction(1, 5)
# How near the ends of the range within one per cent are found, in K.
FLAT_STEP = Fraction(1, 100)


@dataclass(frozen=True)
class SupertargetPoint:
    """The targets at a least difference in K: heats in W of the case, the area that is paid for in m². `found` where
    the desk found it between two answers of the program."""

    difference: Fraction
    uses: Mapping[str, Fraction]
    hot: Fraction
    cold: Fraction
    area: Enclosure
    units: int
    shells: int | None
    parts: int
    program_cost: Fraction
    cost: AnnualCost
    found: bool = False

    def at_energy(self, factor: Fraction) -> Enclosure:
        """The annual cost where energy costs so many times as much."""
        return self.cost.capital_a_year + self.cost.energy * factor


@dataclass(frozen=True)
class FlatEnd:
    """An end of the range in which the cost is within one per cent of the least, in K. `found` where the desk found it
    between two answers of the program; `open` where the cost is still so low at the last difference that was asked, or
    beside one that has no cost."""

    difference: Fraction
    found: bool = False
    open: bool = False


@dataclass(frozen=True)
class LeastCost:
    """The difference of least annual cost where energy costs `factor` times as much, and the ends of the range beside
    it in which the cost is within one per cent."""

    factor: Fraction
    point: SupertargetPoint
    ends: tuple[FlatEnd, FlatEnd]

    @property
    def flat(self) -> tuple[Fraction, Fraction]:
        return self.ends[0].difference, self.ends[1].difference

    @property
    def annual(self) -> Enclosure:
        return self.point.at_energy(self.factor)


@dataclass(frozen=True)
class Supertarget:
    """The points of a supertarget by rising difference, those at which there is no heat flow or the curves touch, and
    the least with energy as it is, a fifth cheaper and a fifth dearer; `by_sets` where units are by independent sets,
    else sources less one on each side of each pinch."""

    data: CostData
    points: tuple[SupertargetPoint, ...]
    without: tuple[tuple[Fraction, str], ...]
    least: LeastCost
    cheaper: LeastCost
    dearer: LeastCost
    by_sets: bool


def supertarget(case: CaseText, first: int, last: int, step: int, pinch: Pinch | None = None,
                workers: int = WORKERS) -> Supertarget:
    """The supertarget of a case over its contributions from the first to the last one; those of its sources' own are
    shifted alike. `WordsError` where there is no such range, `Refused` where something is missing."""
    whole = completed(case if isinstance(case, Case) else read_case(case))
    asked = pinch or Pinch()
    if not 0 <= first <= last <= MOST_CONTRIBUTION or step < 1:
        raise WordsError('a supertarget goes from a least difference of at least 0 K to one of at most 200 K, in steps '
                         'of at least 0.2 K')
    if whole.basis.ranges:
        raise Refused(3, 'case', 'range', f'case: {whole.basis.ranges[0].name} is a utility with a range, whose size '
                      'is that of one least difference: make the case with --ranges level for a supertarget')
    data, by_sets = CostData(whole), len(whole.sources) <= MOST_IN_SETS
    shifts = range(first, last + 1, step)
    with ThreadPoolExecutor(workers) as pool:
        answers = pool.map(lambda contribution: answers_at(asked, at_contribution(whole, contribution)), shifts)
        found = [point_at(data, contribution, answer, by_sets) for contribution, answer in zip(shifts, answers)]
    points = tuple(point for point in found if isinstance(point, SupertargetPoint))
    without = tuple((kelvin_of(data, contribution), point) for contribution, point in zip(shifts, found)
                    if isinstance(point, str))
    if not points:
        raise Refused(3, 'case', 'no supertarget', f'case: no difference of the range has a cost: {without[0][1]}')
    whole_range = PointRange(data, points, frozenset(difference for difference, _ in without))
    least, cheaper, dearer = (whole_range.least(1 + change) for change in (Fraction(0), -FIFTH, FIFTH))
    return Supertarget(data, points, without, least, cheaper, dearer, by_sets)


def at_contribution(case: Case, contribution: int) -> Case:
    """The case with another contribution; its sources keep what they have more or less than the case, down to 0."""
    shift = contribution - case.contribution

    def share(own: int) -> int:
        return min(MOST_CONTRIBUTION, max(0, own + shift))
    streams = tuple(replace(stream, contribution=share(stream.contribution)) for stream in case.streams)
    utilities = tuple(replace(utility, contribution=share(utility.contribution)) for utility in case.utilities)
    return replace(case, contribution=contribution, streams=streams, utilities=utilities)


def answers_at(pinch: Pinch, case: Case) -> tuple[Case, Targets, HeatFlow] | None:
    """A case with its answers; None where it has no heat flow."""
    flow = pinch.uses(case)
    return None if isinstance(flow, Cut) else (case, pinch.targets(case), flow)


def point_at(data: CostData, contribution: int, answer: tuple[Case, Targets, HeatFlow] | None,
             by_sets: bool) -> SupertargetPoint | str:
    """The point of a contribution, or why there is none."""
    if answer is None:
        return 'there is no heat flow'
    case, targets, flow = answer
    uses = {use.name: Fraction(use.heat) for use in flow.uses}
    try:
        built = built_area(data, uses, unit_target(case, targets, flow, by_sets))
    except Refused as fault:
        if fault.place == 'case balanced curves':
            return fault.text
        raise
    return point_of(data, kelvin_of(data, contribution), uses, built, Fraction(flow.cost))


@dataclass(frozen=True)
class BuiltArea:
    """The area that is paid for, in m², with the units and the shells over which it is spread."""

    area: Enclosure
    units: int
    shells: int | None


def built_area(data: CostData, uses: Mapping[str, Fraction], units: UnitTarget) -> BuiltArea:
    """The area at these uses; `Refused` where the curves touch."""
    build = data.build(Service.EXCHANGER)
    area = paid_area(data, build, uses)
    if build.flow is Flow.COUNTER:
        return BuiltArea(area, units.units, None)
    shells = shell_target(data, build, area, units.regions, units.units)
    return BuiltArea(area, units.units, shells.shells)


def paid_area(data: CostData, build: Build, uses: Mapping[str, Fraction]) -> Enclosure:
    """The formula's area alone, counter-current or in shells; `Refused` where the curves touch."""
    members, part = None if data.overalls else carriers(data, uses), build.part
    if part is None or build.flow is Flow.COUNTER:
        return members and quick_area(members) or area_target(data, uses).area
    return members and quick_one_two(members, part) or one_two_area(area_target(data, uses), part)


def point_of(data: CostData, difference: Fraction, uses: Mapping[str, Fraction], built: BuiltArea,
             program_cost: Fraction, found: bool = False) -> SupertargetPoint:
    """The point of an area, with its price."""
    build = data.build(Service.EXCHANGER)
    parts = priced_parts(build, built.units, max(built.shells or built.units, at_most(build, built.area)))
    cost = annual_cost(data, price_of(data, data.target_law, built.area, parts), program_cost)
    hot, cold = (side_use(data, uses, side) for side in (Side.HOT, Side.COLD))
    return SupertargetPoint(difference, uses, hot, cold, built.area, built.units, built.shells, parts, program_cost,
                            cost, found)


def kelvin_of(data: CostData, contribution: int) -> Fraction:
    """The least difference in K that a contribution of the case makes."""
    return 2 * data.kelvins(contribution)


def side_use(data: CostData, uses: Mapping[str, int | Fraction], side: Side) -> Fraction:
    return sum((Fraction(uses[utility.name]) for utility in data.case.utilities
                if utility.side is side and utility.name in uses), Fraction(0))


@dataclass(frozen=True)
class PointRange:
    """The points of a supertarget by rising difference, and the differences of its range that have no cost."""

    data: CostData
    points: Sequence[SupertargetPoint]
    without: frozenset[Fraction]

    def are_neighbours(self, low: int, high: int) -> bool:
        """Whether both are points, with no difference between them that has no cost."""
        if low < 0 or high >= len(self.points):
            return False
        first, last = self.points[low].difference, self.points[high].difference
        return not any(first < difference < last for difference in self.without)

    def least(self, factor: Fraction) -> LeastCost:
        """The least of the points, and of what the desk finds between it and its neighbours."""
        costs = [point.at_energy(factor).middle for point in self.points]
        at = costs.index(min(costs))
        best = self.points[at]
        for low in (at - 1, at):
            if self.are_neighbours(low, low + 1):
                between = searched(self.data, self.points[low], self.points[low + 1], factor)
                best = min((best, between), key=lambda point: point.at_energy(factor).middle)
        most = best.at_energy(factor).middle * FLAT
        return LeastCost(factor, best, (self.flat_end(at, -1, most, factor), self.flat_end(at, 1, most, factor)))

    def flat_end(self, at: int, step: int, most: Fraction, factor: Fraction) -> FlatEnd:
        """How far the cost stays below the most, from a point on to one side; between two points as the desk finds
        it."""
        inside = self.points[at]
        if inside.at_energy(factor).middle > most:
            # The least lies in a narrow place beside it.
            return FlatEnd(inside.difference, open=True)
        while self.are_neighbours(min(at, at + step), max(at, at + step)):
            outside = self.points[at + step]
            if outside.at_energy(factor).middle > most:
                return self.halved(inside, outside, most, factor)
            at, inside = at + step, outside
        return FlatEnd(inside.difference, open=True)

    def halved(self, inside: SupertargetPoint, outside: SupertargetPoint, most: Fraction, factor: Fraction) -> FlatEnd:
        """Between two points, of which one costs at most this and the other more, the last that costs at most this."""
        low, high = sorted((inside, outside), key=lambda point: point.difference)
        near, far = (Fraction(0), Fraction(1)) if inside is low else (Fraction(1), Fraction(0))
        best = inside
        while abs(far - near) * (high.difference - low.difference) > FLAT_STEP:
            middle = proportional(self.data, low, high, (near + far) / 2)
            if middle.at_energy(factor).middle <= most:
                near, best = (near + far) / 2, middle
            else:
                far = (near + far) / 2
        return FlatEnd(best.difference, found=best is not inside)


def searched(data: CostData, low: SupertargetPoint, high: SupertargetPoint, factor: Fraction) -> SupertargetPoint:
    """The least between two points, by the golden section."""
    begin, end = Fraction(0), Fraction(1)
    inner = [(part, proportional(data, low, high, part)) for part in (1 - GOLDEN, GOLDEN)]
    for _ in range(SEARCHED):
        first, second = (point.at_energy(factor).middle for _, point in inner)
        if first <= second:
            end = inner[1][0]
            part = end - GOLDEN * (end - begin)
            inner = [(part, proportional(data, low, high, part)), inner[0]]
        else:
            begin = inner[0][0]
            part = begin + GOLDEN * (end - begin)
            inner = [inner[1], (part, proportional(data, low, high, part))]
    return min((point for _, point in inner), key=lambda point: point.at_energy(factor).middle)


def proportional(data: CostData, low: SupertargetPoint, high: SupertargetPoint, part: Fraction) -> SupertargetPoint:
    """A point between two, with uses in proportion and the units and shells of the one that has more."""
    def mixed(first: Fraction, second: Fraction) -> Fraction:
        return first + part * (second - first)
    uses = {name: mixed(low.uses.get(name, Fraction(0)), high.uses.get(name, Fraction(0)))
            for name in {**low.uses, **high.uses}}
    build = data.build(Service.EXCHANGER)
    area = paid_area(data, build, uses)
    shells = max(low.shells, high.shells) if low.shells and high.shells else None
    built = BuiltArea(area, max(low.units, high.units), shells)
    return point_of(data, mixed(low.difference, high.difference), uses, built,
                    mixed(low.program_cost, high.program_cost), True)
