"""Areas and costs on the page: targets of the case, exchangers of its networks, and pictures of where the area goes."""
from __future__ import annotations

from collections.abc import Iterator
from typing import TYPE_CHECKING

from ..analysis.follow import Followed
from ..costs.areas_beside import AreasBeside, TargetBeside, areas_beside
from ..costs.cost_data import CostData
from ..costs.network_areas import duties_of
from ..program.verdicts import Verdict, Accepted
from .area_sheets import table_areas
from .cost_sheets import area_target_facts, area_target_notes, notes_sheets, target_facts, target_notes
from .facts import lines_sheet
from .sheet import Sheet

if TYPE_CHECKING:
    from matplotlib.figure import Figure


def case_areas(target: TargetBeside) -> list[Sheet]:
    """The targets of area and cost of a case, as far as it says enough for them."""
    if target.area is None:
        return notes_sheets([f'areas are not shown: {target.lacking}'])
    if target.cost is None:
        notes = [f'costs are not shown: {target.lacking}', *area_target_notes(target.area)]
        return [lines_sheet('Area before a network', area_target_facts(target.area)), *notes_sheets(notes)]
    return [lines_sheet('Area and cost before a network', target_facts(target.cost)),
            *notes_sheets(target_notes(target.cost))]


def case_area_figures(target: TargetBeside) -> Iterator[tuple[str, Figure]]:
    """The picture of where the area of the target goes."""
    if target.area:
        from ..figures.area_curves import area_figure
        yield 'Balanced composite curves with the area of each interval', area_figure(target.area)


def beside_network(target: TargetBeside | None, followed: Followed, verdict: Verdict) -> AreasBeside | None:
    """The areas of a network beside the target of its case; None where it is not accepted, or the case says nothing of
    areas."""
    return areas_beside(followed, verdict, target) if target and isinstance(verdict, Accepted) else None


def network_areas_sheets(beside: AreasBeside | None) -> list[Sheet]:
    return table_areas(beside) if beside else []


def network_area_figures(name: str, followed: Followed, beside: AreasBeside | None) -> Iterator[tuple[str, Figure]]:
    """The driving forces of the exchangers, where there is a target beside which they stand."""
    if beside and beside.areas and beside.target.area:
        from ..figures.area_curves import driving_forces_figure
        duties = duties_of(CostData(followed.case), followed.passages)
        yield f'Driving forces of {name}', driving_forces_figure(beside.target.area, duties)
