"""Exchangers against cost, the least number of exchangers, and scenarios, as answers of a plant."""
from __future__ import annotations

from collections.abc import Mapping
from dataclasses import dataclass, field
from decimal import Decimal
from fractions import Fraction
from typing import TYPE_CHECKING

from ..analysis.follow import Followed
from ..analysis.least_units import Units
from ..analysis.what_if import WhatIf
from ..formats.case import Case
from ..formats.shown import Shown
from ..program.answers import Cut
from ..report.answer_sheets import flow_sheets
from ..report.tradeoff_sheets import network_text, tradeoff_sheets
from ..report.unit_sheets import units_sheets
from ..report.what_if_sheets import rounding_notes, what_if_sheets
from ..words.tradeoff_word import STOPPED, counted
from .plant_answer import PlantAnswer, cost, cost_if_any, kilowatts

if TYPE_CHECKING:
    from ..costs.enclosure import Enclosure
    from ..figures import ShownFigure
    from ..search.annual_choice import AnnualChoice
    from ..search.reduce.tradeoff import TradeOff


@dataclass(frozen=True)
class ExactTradeoff:
    """The costs in fractions, by the number of exchangers."""

    costs: Mapping[int, Fraction]
    floor: Fraction


@dataclass(frozen=True, kw_only=True)
class PlantTradeoff(PlantAnswer):
    """Networks of fewer and fewer exchangers: their texts and costs by the number of exchangers, in `cost_unit`.
    `choice` is that by annual cost, and `least_a_year` the text of its network; None where it was not asked for."""

    exact: ExactTradeoff
    networks: Mapping[int, str] = field(repr=False)
    cost_unit: str
    stopped: bool
    traded: TradeOff = field(repr=False)
    choice: AnnualChoice | None = field(default=None, repr=False)

    @property
    def annual_cost(self) -> Enclosure | None:
        return self.choice.costs.cost.whole if self.choice else None

    @property
    def least_a_year(self) -> str | None:
        return network_text(self.choice.found, self.traded, self.choice.told) if self.choice else None

    @property
    def costs(self) -> Mapping[int, Decimal]:
        return {count: cost(exact) for count, exact in self.exact.costs.items()}

    @property
    def floor(self) -> Decimal:
        return cost(self.exact.floor)

    def figure(self) -> ShownFigure:
        """The picture of it."""
        from ..figures import ShownFigure, tradeoff_figure
        return ShownFigure(tradeoff_figure(self.traded), self.notes)


def plant_tradeoff(traded: TradeOff, choice: AnnualChoice | None = None) -> PlantTradeoff:
    shown = Shown(traded.case.basis)
    exact = ExactTradeoff({row.exchangers: shown.in_cost(row.cost) for row in traded.rows},
                          shown.in_cost(traded.floor))
    networks = {row.exchangers: network_text(row.judged, traded) for row in traded.rows}
    notes = (*([counted(traded.case, choice)] if choice else []), *([STOPPED] if traded.stopped else []))
    sheets = tradeoff_sheets(traded, choice.found if choice else None)
    return PlantTradeoff(sheets=tuple(sheets), notes=notes, exact=exact, networks=networks, cost_unit=shown.cost_unit,
                         stopped=traded.stopped, traded=traded, choice=choice)


@dataclass(frozen=True, kw_only=True)
class PlantUnits(PlantAnswer):
    """The least number of exchangers by the books' rule, for the whole without a cut, at least and at most; None where
    there is no heat flow, which the tables then prove."""

    least_exchangers: int | None
    most_exchangers: int | None


def plant_units(case: Case, units: Units | Cut, followed: Followed | None, notes: tuple[str, ...]) -> PlantUnits:
    if isinstance(units, Cut):
        return PlantUnits(sheets=tuple(flow_sheets(case, units)), text=units.text, least_exchangers=None,
                          most_exchangers=None)
    whole = units.whole.partition
    return PlantUnits(sheets=tuple(units_sheets(units, followed)), notes=notes,
                      least_exchangers=whole.least_exchangers, most_exchangers=whole.found_exchangers)


@dataclass(frozen=True)
class ExactScenarios:
    """The answers of scenarios in fractions, by their names, `base` the case as it is. None where a scenario is
    refused, and of a cost where it has no heat flow."""

    hot_kw: Mapping[str, Fraction | None]
    cold_kw: Mapping[str, Fraction | None]
    costs: Mapping[str, Fraction | None]


@dataclass(frozen=True, kw_only=True)
class PlantWhatIf(PlantAnswer):
    """Scenarios beside the case as it is. `cases` are their cases, `faults` why one is refused; costs are in
    `cost_unit`."""

    exact: ExactScenarios
    cases: Mapping[str, Case] = field(repr=False)
    faults: Mapping[str, str]
    cost_unit: str

    @property
    def hot_kw(self) -> Mapping[str, Decimal | None]:
        return {name: None if heat is None else kilowatts(heat) for name, heat in self.exact.hot_kw.items()}

    @property
    def cold_kw(self) -> Mapping[str, Decimal | None]:
        return {name: None if heat is None else kilowatts(heat) for name, heat in self.exact.cold_kw.items()}

    @property
    def costs(self) -> Mapping[str, Decimal | None]:
        return {name: cost_if_any(exact) for name, exact in self.exact.costs.items()}


def plant_what_if(answered: WhatIf, notes: tuple[str, ...]) -> PlantWhatIf:
    shown = Shown(answered.base.case.basis)
    outcomes = {outcome.variant.name: outcome for outcome in (answered.base, *answered.outcomes)}
    targets = {name: outcome.targets for name, outcome in outcomes.items()}
    exact = ExactScenarios(
        {name: shown.si.in_heat(printed.hot) if printed else None for name, printed in targets.items()},
        {name: shown.si.in_heat(printed.cold) if printed else None for name, printed in targets.items()},
        {name: None if outcome.cost is None else shown.in_cost(outcome.cost) for name, outcome in outcomes.items()})
    return PlantWhatIf(sheets=tuple(what_if_sheets(answered)), notes=(*notes, *rounding_notes(answered)), exact=exact,
                       cases={name: outcome.case for name, outcome in outcomes.items()},
                       faults={name: outcome.fault for name, outcome in outcomes.items() if outcome.fault},
                       cost_unit=shown.cost_unit)
