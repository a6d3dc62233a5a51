"""Areas, capital and annual cost as answers of a plant. Their numbers are enclosures: `.low` and `.high`, between which
the number is for certain, and `.told`, the digits on which both agree."""
from __future__ import annotations

from dataclasses import dataclass, field
from decimal import Decimal
from typing import TYPE_CHECKING

from ..analysis.unfinished import unfinished_told
from ..costs.area_floor import AreaFloor, area_floor
from ..costs.area_target import NoHeatFlow
from ..costs.areas_beside import tried
from ..costs.cost_data import CostData
from ..costs.cost_target import CostTarget, cost_target
from ..costs.enclosure import Enclosure
from ..costs.network_areas import NetworkAreas, accepted_network, areas_of, passages_of
from ..costs.network_costs import NetworkCosts, costs_of
from ..costs.supertarget import Supertarget
from ..formats.amounts import seconds_of
from ..formats.case import Case
from ..program.answers import Cut
from ..program.run import Pinch
from ..report.area_sheets import costliest_sheets, exchangers_table, network_facts, network_notes
from ..report.cost_sheets import (currency_of, least_table, notes_sheets, supertarget_notes, supertarget_table,
                                  target_facts, target_notes)
from ..report.facts import lines_sheet
from .given import Number, as_text
from .plant_answer import PlantAnswer, celsius

if TYPE_CHECKING:
    from ..figures import ShownFigure


@dataclass(frozen=True, kw_only=True)
class PlantAreas(PlantAnswer):
    """The exchangers of an accepted network with their areas in m², and what they cost; `costs` is None where the case
    has no cost laws."""

    areas: NetworkAreas = field(repr=False)
    costs: NetworkCosts | None = field(repr=False)

    @property
    def area_m2(self) -> Enclosure:
        return self.areas.area

    @property
    def efficiency(self) -> Enclosure | None:
        """The area by the formula at the same uses of the utilities over that of the network."""
        return self.areas.efficiency

    @property
    def annual_cost(self) -> Enclosure | None:
        return self.costs.cost.whole if self.costs else None


def asked_areas(pinch: Pinch, case: Case, network: bytes) -> PlantAreas:
    """The areas of a network of a completed case; `NoAreas` where it is not accepted, `Refused` where a coefficient is
    missing."""
    followed, verdict = accepted_network(pinch, case, network)
    passages = passages_of(followed)
    areas = areas_of(CostData(case), passages, verdict)
    costs, lacking = tried(lambda: costs_of(areas, passages))
    return plant_areas(areas, costs, lacking, unfinished_told(followed))


def plant_areas(areas: NetworkAreas, costs: NetworkCosts | None, lacking: str, unfinished: str) -> PlantAreas:
    sheets = [exchangers_table(areas, costs).sheet(), lines_sheet('All', network_facts(areas, costs)),
              *costliest_sheets(costs)]
    notes = [*([f'{unfinished}: what is open counts as served by utilities'] if unfinished else []),
             *network_notes(areas), *([f'costs are not shown: {lacking}'] if lacking else [])]
    return PlantAreas(sheets=tuple(sheets), notes=tuple(notes), areas=areas, costs=costs)


@dataclass(frozen=True, kw_only=True)
class PlantCosts(PlantAnswer):
    """The targets of a plant before it has a network, in m² and in `currency`."""

    target: CostTarget = field(repr=False)
    floor: AreaFloor | None
    currency: str

    @property
    def area_m2(self) -> Enclosure:
        """By the formula, counter-current."""
        return self.target.area.area

    @property
    def units(self) -> int:
        return self.target.units

    @property
    def shells(self) -> int | None:
        """None where exchangers are counter-current."""
        return self.target.shells.shells if self.target.shells else None

    @property
    def capital(self) -> Enclosure:
        return self.target.cost.capital

    @property
    def annual_cost(self) -> Enclosure:
        return self.target.cost.whole

    def figure(self) -> ShownFigure:
        """The picture of where the area goes."""
        from ..figures import ShownFigure
        from ..figures.area_curves import area_figure
        return ShownFigure(area_figure(self.target.area))


def asked_costs(pinch: Pinch, case: Case, seconds: Number | None) -> PlantCosts:
    """The targets of a completed case, with the floor of the area where seconds are given for it; `NoHeatFlow` where
    there is none."""
    target = cost_target(case, pinch)
    if isinstance(target, Cut):
        raise NoHeatFlow('there is no heat flow, so there is no area')
    if seconds is None:
        return plant_costs(target, None)
    uses = {use.name: use.heat for use in target.flow.uses}
    return plant_costs(target, area_floor(target.data, uses, float(seconds_of(as_text(seconds)))))


def plant_costs(target: CostTarget, floor: AreaFloor | None) -> PlantCosts:
    return PlantCosts(sheets=(lines_sheet('Targets', target_facts(target, floor)),), notes=tuple(target_notes(target)),
                      target=target, floor=floor, currency=currency_of(target.data))


@dataclass(frozen=True, kw_only=True)
class PlantSupertarget(PlantAnswer):
    """The targets over the least difference, and where the annual cost is least, in `currency`."""

    found: Supertarget = field(repr=False)
    currency: str

    @property
    def least_k(self) -> Decimal:
        """The least difference at which the annual cost is least, in K."""
        return celsius(self.found.least.point.difference)

    @property
    def flat_k(self) -> tuple[Decimal, Decimal]:
        """From where to where the annual cost is within one per cent of the least, in K."""
        first, last = self.found.least.flat
        return celsius(first), celsius(last)

    @property
    def annual_cost(self) -> Enclosure:
        return self.found.least.annual

    def figure(self) -> ShownFigure:
        """The picture of it."""
        from ..figures import ShownFigure
        from ..figures.cost_curves import supertarget_figure
        return ShownFigure(supertarget_figure(self.found))


def plant_supertarget(found: Supertarget) -> PlantSupertarget:
    notes = supertarget_notes(found)
    sheets = (least_table(found).sheet(), supertarget_table(found).sheet(), *notes_sheets(notes))
    return PlantSupertarget(sheets=sheets, notes=tuple(notes), found=found, currency=currency_of(found.data))
