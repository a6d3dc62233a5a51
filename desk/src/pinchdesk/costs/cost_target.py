"""Targets of a case before it has a network: area, units, shells, capital and annual cost, at the uses of the utilities
that `pinch flow` printed."""
from __future__ import annotations

from collections.abc import Iterator, Mapping, Sequence
from dataclasses import dataclass
from fractions import Fraction

from ..analysis.cuts import Piece, Region
from ..formats.case import Case, Side, Utility, actual, completed, read_case
from ..formats.cost_rows import Build, CostLaw, Flow, Service
from ..program.answers import Cut, HeatFlow
from ..program.run import CaseText, Pinch
from .annual import AnnualCost, annual_cost, at_most, price_of, priced_parts
from .area_target import AreaTarget, area_target, check_differences
from .balanced import Carrier, HeatInterval, carriers, intervals_of
from .cost_data import CostData, EndTemperatures
from .enclosure import Enclosure, total
from .quick_area import quick_shells
from .real_ends import close_curves
from .shells import Duty, correction_at, shells_of, whole_shells
from .unit_target import UnitTarget, unit_target


@dataclass(frozen=True)
class ShellTarget:
    """How many 1-2 shells a case needs: a real number for each region between its pinches, a whole one in all, and the
    area that they have together, in m²."""

    regions: tuple[Enclosure, ...]
    shells: int
    area: Enclosure


@dataclass(frozen=True)
class CostTarget:
    """The targets of a case. `shells` is None where exchangers are counter-current; `remarks` say what is left out."""

    data: CostData
    flow: HeatFlow
    area: AreaTarget
    units: int
    shells: ShellTarget | None
    parts: int
    cost: AnnualCost
    remarks: tuple[str, ...]

    @property
    def built_area(self) -> Enclosure:
        """The area that is paid for: that of the shells where there are some."""
        return self.shells.area if self.shells else self.area.area


def cost_target(case: CaseText, pinch: Pinch | None = None) -> CostTarget | Cut:
    """The targets of a case, or the proof that there is no heat flow. `Refused` where something is missing that they
    need."""
    asked, whole = pinch or Pinch(), completed(case if isinstance(case, Case) else read_case(case))
    flow, data = asked.uses(whole), CostData(whole)
    if isinstance(flow, Cut):
        return flow
    units = unit_target(whole, asked.targets(whole), flow)
    return priced_target(data, flow, area_target(data, {use.name: use.heat for use in flow.uses}), units)


def priced_target(data: CostData, flow: HeatFlow, area: AreaTarget, found: UnitTarget) -> CostTarget:
    """The targets with their price: the area is spread evenly, as in the books, which is the dearest way where the
    exponent of the law is below 1."""
    build, law = data.build(Service.EXCHANGER), data.target_law
    units = found.units
    shells = None
    if build.part and build.flow is Flow.ONE_TWO:
        shells = shell_target(data, build, one_two_area(area, build.part), found.regions, units)
    built = shells.area if shells else area.area
    parts = priced_parts(build, units, max(shells.shells if shells else units, at_most(build, built)))
    capital = price_of(data, law, built, parts)
    return CostTarget(data, flow, area, units, shells, parts, annual_cost(data, capital, flow.cost),
                      tuple(left_out(data, area, {use.name: use.heat for use in flow.uses}, found)))


def shell_target(data: CostData, build: Build, built: Enclosure, regions: Sequence[Region],
                 units: int) -> ShellTarget:
    """The shells that have this area, on each side of each pinch, rounded up there, and at least one a unit."""
    assert build.part is not None
    counts = [shells_in([carrier_of(data, piece) for piece in region.pieces], build.part) for region in regions]
    whole = sum(whole_shells(count) for count in counts)
    return ShellTarget(tuple(counts), max(whole, units, at_most(build, built)), built)


def shells_in(members: Sequence[Carrier], part: Fraction) -> Enclosure:
    """The shells of the pieces of a region, a real number."""
    return quick_shells(members, part) or total(shells_of(duty_of_interval(interval), part) * (interval.sources - 1)
                                                for interval in intervals_of(members))


def one_two_area(area: AreaTarget, part: Fraction) -> Enclosure:
    """The area of a target in 1-2 shells, each of which reaches this part of the greatest effectiveness."""
    return total(interval.area if duty.flat else interval.area / correction_at(duty.ratio, part)
                 for interval in area.intervals for duty in [duty_of_interval(interval.interval)])


def duty_of_interval(interval: HeatInterval) -> Duty:
    check_differences(interval)
    return Duty(interval.hot, interval.cold)


def carrier_of(data: CostData, piece: Piece) -> Carrier:
    """A piece of a source with its actual ends; a utility has its own."""
    source = piece.source
    if isinstance(source, Utility):
        ends = data.ends(source)
    else:
        high, low = (data.tenths(actual(source, end)) for end in (piece.high, piece.low))
        ends = EndTemperatures(high, low) if source.side is Side.HOT else EndTemperatures(low, high)
    # Shells are counted by heats and temperatures alone.
    return Carrier(source, ends, data.watts(piece.heat), Fraction(0))


def left_out(data: CostData, area: AreaTarget, uses: Mapping[str, int], units: UnitTarget) -> Iterator[str]:
    """What the case says and a target cannot use, since it has no exchangers yet."""
    build, law = data.build(Service.EXCHANGER), data.target_law
    if not units.exact:
        yield 'there are too many sources for the most independent sets to be known: units are sources less the sets ' \
              'that were found, or less one, on each side of the pinch'
    others = [row for row in data.rows(CostLaw) if row is not law]
    if others:
        told = ', '.join(' '.join(word for word in (row.service.value if row.service else 'all', row.material) if word)
                         for row in others)
        yield f'the cost laws of {told} are those of single exchangers: the target has the one law for all of its area'
    if [row for row in data.rows(Build) if row is not build]:
        yield 'the target has all exchangers built as those between streams'
    if data.case.forbids:
        yield 'the area by the formula has no regard to forbidden matches: the parts of an interval meet as they lie'
    intervals = [part.interval for part in area.intervals]
    yield from map(str, close_curves(data, carriers(data, uses, bool(data.overalls)), intervals))
    if area.in_proportion:
        yield 'pairs that could meet have several coefficients: the target takes the hot and the cold parts of an ' \
              'interval to meet in proportion to their heats'
