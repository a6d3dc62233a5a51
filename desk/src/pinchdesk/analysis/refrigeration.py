"""The shaft work of refrigeration: of each cold utility below the ambient temperature Q (T0 - T) / T, the work by
Carnot, over an efficiency (Linnhoff and Dhole 1992; Smith 2005). It is an estimate; what each takes is printed by the
program."""
from __future__ import annotations

from collections.abc import Iterable
from dataclasses import dataclass
from fractions import Fraction

from ..errors import WordsError
from ..formats.case import Case, Side, Utility
from ..formats.shown import Shown
from ..program.answers import HeatFlow


@dataclass(frozen=True)
class ColdLevel:
    """A cold utility below the ambient temperature, what it takes, and the work that lifts it there."""

    utility: Utility
    heat: int
    ideal: Fraction
    work: Fraction

    @property
    def rejected(self) -> Fraction:
        """What has to leave at the ambient temperature."""
        return self.heat + self.work


@dataclass(frozen=True)
class Refrigeration:
    """The levels of a case below the ambient temperature, the coldest last, with the efficiency of their work."""

    ambient: Fraction
    efficiency: Fraction
    levels: tuple[ColdLevel, ...]

    @property
    def work(self) -> Fraction:
        return sum((level.work for level in self.levels), Fraction(0))


def refrigeration(case: Case, flow: HeatFlow, ambient: Fraction, efficiency: Fraction, shown: Shown) -> Refrigeration:
    """The work of each level of a completed case; `WordsError` where a level is none of the case's own."""
    colder = [utility for utility in case.utilities if utility.side is Side.COLD and utility.level < ambient]
    check_own(colder)
    colder.sort(key=lambda utility: utility.level, reverse=True)
    levels = (cold_level(utility, flow.use(utility.name), ambient, efficiency, shown) for utility in colder)
    return Refrigeration(ambient, efficiency, tuple(levels))


def check_own(utilities: Iterable[Utility]) -> None:
    for utility in utilities:
        if utility.invented:
            raise WordsError(f'the case has no cooler of its own, and {utility.name}, which stands in, has no level of '
                             'a plant: enter the levels of refrigeration as coolers')


def cold_level(utility: Utility, heat: int, ambient: Fraction, efficiency: Fraction, shown: Shown) -> ColdLevel:
    temperature = shown.units.in_kelvins(utility.level)
    ideal = heat * (shown.units.in_kelvins(ambient) - temperature) / temperature
    return ColdLevel(utility, heat, ideal, ideal / efficiency)
