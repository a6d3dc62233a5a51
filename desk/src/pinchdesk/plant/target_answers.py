"""Targets, heat flows, sweeps, price studies: what `pinch` says of a case without a network."""
from __future__ import annotations

from collections.abc import Mapping
from dataclasses import dataclass, field
from decimal import Decimal
from fractions import Fraction
from typing import TYPE_CHECKING

from ..formats.case import Case
from ..formats.shown import Shown
from ..program.answers import Cut, HeatFlow, Prices, PriceScenarioAnswer, Sweep, SweepRow, Targets
from ..report.answer_sheets import flow_sheets, prices_sheets, sweep_sheets, targets_sheets
from .plant_answer import PlantAnswer, celsius, cost_if_any, each_kilowatts, kilowatts

if TYPE_CHECKING:
    from ..figures import ShownFigure


@dataclass(frozen=True)
class ExactTargets:
    """The targets in fractions; pinches are shifted."""

    hot_kw: Fraction
    cold_kw: Fraction
    pinches_c: tuple[Fraction, ...]


@dataclass(frozen=True, kw_only=True)
class PlantTargets(PlantAnswer):
    """The least hot and cold utility, and the pinches in shifted °C, from the highest down."""

    exact: ExactTargets

    @property
    def hot_kw(self) -> Decimal:
        return kilowatts(self.exact.hot_kw)

    @property
    def cold_kw(self) -> Decimal:
        return kilowatts(self.exact.cold_kw)

    @property
    def pinches_c(self) -> tuple[Decimal, ...]:
        return tuple(map(celsius, self.exact.pinches_c))


def plant_targets(case: Case, targets: Targets) -> PlantTargets:
    shown = Shown(case.basis)
    exact = ExactTargets(shown.si.in_heat(targets.hot), shown.si.in_heat(targets.cold),
                         tuple(map(shown.si.in_temperature, targets.pinches)))
    return PlantTargets(sheets=tuple(targets_sheets(case, targets)), text=targets.text, exact=exact)


@dataclass(frozen=True)
class ExactFlow:
    """Cost and uses in fractions; None and nothing where there is no heat flow."""

    cost: Fraction | None
    uses_kw: Mapping[str, Fraction]


@dataclass(frozen=True, kw_only=True)
class PlantFlow(PlantAnswer):
    """A heat flow of least cost: its cost in `cost_unit`, and what each utility gives or takes; where there is none,
    the tables have the proof."""

    exact: ExactFlow
    cost_unit: str

    @property
    def feasible(self) -> bool:
        return self.exact.cost is not None

    @property
    def cost(self) -> Decimal | None:
        return cost_if_any(self.exact.cost)

    @property
    def uses_kw(self) -> Mapping[str, Decimal]:
        return each_kilowatts(self.exact.uses_kw)


def plant_flow(case: Case, flow: HeatFlow | Cut) -> PlantFlow:
    shown = Shown(case.basis)
    exact = ExactFlow(None, {}) if isinstance(flow, Cut) else \
        ExactFlow(shown.in_cost(flow.cost), {use.name: shown.si.in_heat(use.heat) for use in flow.uses})
    return PlantFlow(sheets=tuple(flow_sheets(case, flow)), text=flow.text, exact=exact, cost_unit=shown.cost_unit)


@dataclass(frozen=True)
class ExactPoint:
    """A row of a sweep in fractions; without a heat flow the cost is None."""

    difference_k: Fraction
    hot_kw: Fraction
    cold_kw: Fraction
    cost: Fraction | None


@dataclass(frozen=True)
class SweepPoint:
    """A row of a sweep."""

    exact: ExactPoint

    @property
    def difference_k(self) -> Decimal:
        return celsius(self.exact.difference_k)

    @property
    def hot_kw(self) -> Decimal:
        return kilowatts(self.exact.hot_kw)

    @property
    def cold_kw(self) -> Decimal:
        return kilowatts(self.exact.cold_kw)

    @property
    def cost(self) -> Decimal | None:
        return cost_if_any(self.exact.cost)


@dataclass(frozen=True, kw_only=True)
class PlantSweep(PlantAnswer):
    """Targets and least cost at each least difference; costs are in `cost_unit`."""

    points: tuple[SweepPoint, ...]
    cost_unit: str
    case: Case = field(repr=False)
    sweep: Sweep = field(repr=False)

    def figure(self) -> ShownFigure:
        """The picture of it."""
        from ..figures import ShownFigure, sweep_figure
        return ShownFigure(sweep_figure(self.case, self.sweep), self.notes)


def plant_sweep(case: Case, sweep: Sweep, base: SweepRow | None) -> PlantSweep:
    shown = Shown(case.basis)
    points = tuple(SweepPoint(ExactPoint(
        shown.si.in_difference(2 * point.contribution), shown.si.in_heat(point.hot), shown.si.in_heat(point.cold),
        None if point.cost is None else shown.in_cost(point.cost))) for point in sweep.points)
    return PlantSweep(sheets=tuple(sweep_sheets(case, sweep, base)), text=sweep.text, points=points,
                      cost_unit=shown.cost_unit, case=case, sweep=sweep)


@dataclass(frozen=True)
class ExactPrices:
    """The least cost of each scenario in fractions; None where there is no heat flow."""

    costs: Mapping[str, Fraction | None]


@dataclass(frozen=True, kw_only=True)
class PlantPrices(PlantAnswer):
    """The least cost of each scenario of a price study, in `cost_unit`; its spans are in the tables."""

    exact: ExactPrices
    cost_unit: str
    case: Case = field(repr=False)
    prices: Prices = field(repr=False)

    @property
    def costs(self) -> Mapping[str, Decimal | None]:
        return {name: cost_if_any(exact) for name, exact in self.exact.costs.items()}

    def figure(self, utility: str | None = None) -> ShownFigure:
        """The picture of the spans, of several those of this utility alone."""
        from ..figures import ShownFigure, prices_figure
        return ShownFigure(prices_figure(self.case, self.prices, utility), self.notes)


def plant_prices(case: Case, prices: Prices, notes: tuple[str, ...]) -> PlantPrices:
    shown = Shown(case.basis)
    costs = {answer.name: None if answer.cost is None else shown.in_cost(answer.cost)
             for answer in prices.answers if isinstance(answer, PriceScenarioAnswer)}
    return PlantPrices(sheets=tuple(prices_sheets(case, prices)), text=prices.text, notes=notes,
                       exact=ExactPrices(costs), cost_unit=shown.cost_unit, case=case, prices=prices)
