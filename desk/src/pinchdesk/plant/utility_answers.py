"""Flue gas, heat pump, refrigeration and steam turbines as an answer of a plant, in kW and °C. What rests on an
efficiency is an estimate: `pump`, `refrigeration_kw` and `turbines_kw`, but for the heats that the curve leaves."""
from __future__ import annotations

from dataclasses import dataclass, field
from decimal import Decimal
from fractions import Fraction
from typing import TYPE_CHECKING

from ..analysis.utility_targets import UtilityTargets
from ..errors import WordsError
from ..formats.case import Case
from ..formats.shown import Shown
from ..program.answers import Cut
from ..report.answer_sheets import flow_sheets
from ..report.utility_sheets import utilities_notes, utilities_sheets
from .plant_answer import PlantAnswer, celsius, kilowatts

if TYPE_CHECKING:
    from ..figures import ShownFigure


@dataclass(frozen=True)
class ExactFurnace:
    """The least flue gas in fractions."""

    cp_kw_k: Fraction
    fuel_kw: Fraction
    loss_kw: Fraction
    leaves_c: Fraction
    efficiency: Fraction


@dataclass(frozen=True)
class ExactPump:
    """A heat pump in fractions: what the curve leaves, and with the efficiency what it does."""

    available_kw: Fraction
    replaced_kw: Fraction
    performance: Fraction
    work_kw: Fraction
    saved_hot_kw: Fraction
    saved_cold_kw: Fraction


@dataclass(frozen=True, kw_only=True)
class PlantUtilities(PlantAnswer):
    """What was asked of the utilities; None what was not, or where there is no heat flow."""

    furnace: ExactFurnace | None = None
    pump: ExactPump | None = None
    refrigeration: Fraction | None = None
    turbines: Fraction | None = None
    found: UtilityTargets | None = field(default=None, repr=False)

    def figure(self) -> ShownFigure:
        """The picture of the curve with the flue gas and the heat pump; `WordsError` where there is no heat flow."""
        from ..figures import ShownFigure, beside_curve_figure
        if self.found is None:
            raise WordsError('there is no heat flow, so there is no picture of utilities')
        return ShownFigure(beside_curve_figure(self.found), self.notes)

    @property
    def fuel_kw(self) -> Decimal | None:
        return kilowatts(self.furnace.fuel_kw) if self.furnace else None

    @property
    def leaves_c(self) -> Decimal | None:
        """Where the flue gas leaves."""
        return celsius(self.furnace.leaves_c) if self.furnace else None

    @property
    def saved_hot_kw(self) -> Decimal | None:
        """What the heat pump saves of hot utility."""
        return kilowatts(self.pump.saved_hot_kw) if self.pump else None

    @property
    def refrigeration_kw(self) -> Decimal | None:
        """The work of refrigeration."""
        return None if self.refrigeration is None else kilowatts(self.refrigeration)

    @property
    def turbines_kw(self) -> Decimal | None:
        """The work of the turbines."""
        return None if self.turbines is None else kilowatts(self.turbines)


def plant_utilities(case: Case, found: UtilityTargets | Cut) -> PlantUtilities:
    """The answer for a completed case."""
    if isinstance(found, Cut):
        return PlantUtilities(sheets=tuple(flow_sheets(case, found)), text=found.text)
    shown = found.shown.si
    return PlantUtilities(
        sheets=tuple(utilities_sheets(found)), notes=tuple(utilities_notes(found)), furnace=exact_furnace(found, shown),
        pump=exact_pump(found, shown), found=found,
        refrigeration=shown.in_heat(found.refrigeration.work) if found.refrigeration else None,
        turbines=shown.in_heat(found.cogeneration.work) if found.cogeneration else None)


def exact_furnace(found: UtilityTargets, shown: Shown) -> ExactFurnace | None:
    furnace = found.furnace
    return ExactFurnace(shown.in_flow(furnace.cp), shown.in_heat(furnace.fuel), shown.in_heat(furnace.loss),
                        shown.in_temperature(furnace.leaves), furnace.efficiency) if furnace else None


def exact_pump(found: UtilityTargets, shown: Shown) -> ExactPump | None:
    pumped = found.pumped
    return ExactPump(shown.in_heat(pumped.available), shown.in_heat(pumped.replaced), pumped.performance,
                     shown.in_heat(pumped.work), shown.in_heat(pumped.given),
                     shown.in_heat(pumped.taken)) if pumped else None
