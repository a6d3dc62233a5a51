"""A heat pump between two temperatures, on the grand composite curve (Townsend and Linnhoff 1983): it saves hot and
cold utility only where it takes heat below the pinch and gives it above.

What can be taken and what can be given is exact, from the curve. The work is an estimate: that of Carnot over an
efficiency. Its evaporator is a cold source and its condenser a hot one, each with the contribution of the case."""
from __future__ import annotations

from dataclasses import dataclass
from fractions import Fraction

from ..errors import WordsError
from ..formats.shown import Shown, decimal
from .grand_curve import GrandCurve


@dataclass(frozen=True)
class HeatPump:
    """What is given of a heat pump: the actual temperatures at which it evaporates and condenses, in the program's
    units, the part of the performance by Carnot that it reaches, and the contribution of both."""

    evaporates: Fraction
    condenses: Fraction
    efficiency: Fraction
    contribution: Fraction

    @property
    def takes_at(self) -> Fraction:
        """The shifted temperature at which it takes heat."""
        return self.evaporates + self.contribution

    @property
    def gives_at(self) -> Fraction:
        """The shifted temperature at which it gives heat."""
        return self.condenses - self.contribution


@dataclass(frozen=True)
class PumpedHeat:
    """The largest heat pump between both temperatures that wastes nothing: the heats that the curve leaves, exact, and
    by the performance what it then gives."""

    pump: HeatPump
    available: Fraction
    replaced: Fraction
    performance: Fraction

    @property
    def saves(self) -> bool:
        """Whether it works from below all pinches to above them."""
        return self.available > 0 and self.replaced > 0

    @property
    def given(self) -> Fraction:
        """The heat that it gives, and hot utility that it saves: all that can be replaced, or as much as the heat that
        can be taken makes with the work."""
        return min(self.replaced, self.available / (1 - 1 / self.performance))

    @property
    def work(self) -> Fraction:
        return self.given / self.performance

    @property
    def taken(self) -> Fraction:
        """The heat that it takes, and cold utility that it saves."""
        return self.given - self.work


def pumped_heat(curve: GrandCurve, pump: HeatPump, shown: Shown) -> PumpedHeat:
    """What a heat pump saves at most; `WordsError` where it is none, or the case has no pinch."""
    low, high = shown.with_its_unit(pump.evaporates), shown.with_its_unit(pump.condenses)
    if pump.evaporates >= pump.condenses:
        raise WordsError(f'a heat pump takes heat at a lower temperature than it gives it, and {low} is not below '
                         f'{high}')
    if not curve.hot or not curve.cold:
        side = 'hot' if not curve.hot else 'cold'
        raise WordsError(f'the case needs no {side} utility, so there is no pinch that a heat pump could cross')
    condenses = shown.units.in_kelvins(pump.condenses)
    performance = pump.efficiency * condenses / (condenses - shown.units.in_kelvins(pump.evaporates))
    if performance <= 1:
        raise WordsError(f'at an efficiency of {decimal(pump.efficiency, 6)} a heat pump from {low} to {high} gives no '
                         'more heat than its work')
    return PumpedHeat(pump, curve.taken_below(pump.takes_at), curve.replaced_above(pump.gives_at), performance)
