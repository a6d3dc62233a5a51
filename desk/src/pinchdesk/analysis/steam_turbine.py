"""Cogeneration: the work of steam that goes through turbines to the mains of a case. What each main gives is the
program's; the work is an estimate.

By steam tables (IAPWS-IF97) it is an isentropic efficiency times the isentropic drop of enthalpy from the inlet to the
pressure of the main (Smith 2005, chapter 23; Kemp 2007, chapter 5): a kilogram gives h(inlet) less what it works, down
to liquid at the main. Without them it is an exergetic efficiency times the factor of Carnot between the temperatures of
inlet and main (Linnhoff and Dhole 1992). All heat that mains and turbines take is given at the inlet."""
from __future__ import annotations

from collections.abc import Sequence
from dataclasses import dataclass
from decimal import Decimal
from fractions import Fraction
from typing import Any

from ..errors import WordsError
from ..formats.case import Case, Side, Utility
from ..formats.shown import Shown
from ..program.answers import HeatFlow
from ..tables.steam import LEAST, MOST

# Saturated water is between its triple point and its critical point, and the tables end, in K.
TRIPLE, CRITICAL, HOTTEST = Fraction('273.16'), Fraction('647.096'), Fraction('1073.15')
NO_TABLES = 'the steam tables `iapws` (Debian: python3-iapws), which are not installed; --exergetic needs none'


@dataclass(frozen=True)
class Inlet:
    """The steam that goes into the turbines: its actual temperature in the program's units, and its pressure in Pa,
    absolute; None where it is saturated."""

    temperature: Fraction
    pressure: Fraction | None = None


@dataclass(frozen=True)
class Turbines:
    """What is given of turbines: the mains by name, all heaters where none is named; the inlet, saturated steam of the
    hottest main where there is none; and one of both efficiencies."""

    mains: tuple[str, ...]
    inlet: Inlet | None
    isentropic: Fraction | None
    exergetic: Fraction | None


@dataclass(frozen=True)
class Expansion:
    """A main, what it gives to the process, and the work of the steam on its way to it."""

    main: Utility
    heat: int
    work: Fraction


@dataclass(frozen=True)
class Cogeneration:
    """The mains from the hottest down, with the inlet of their turbines."""

    turbines: Turbines
    inlet: Inlet
    mains: tuple[Expansion, ...]

    @property
    def heat(self) -> int:
        """What all mains give to the process."""
        return sum(expansion.heat for expansion in self.mains)

    @property
    def work(self) -> Fraction:
        return sum((expansion.work for expansion in self.mains), Fraction(0))


def cogeneration(case: Case, flow: HeatFlow, turbines: Turbines, shown: Shown) -> Cogeneration:
    """The work of steam for the mains of a completed case; `WordsError` where there are none, or it has no steam."""
    mains = mains_of(case, turbines.mains)
    inlet = turbines.inlet or Inlet(Fraction(mains[0].level))
    check(mains, inlet, turbines, shown)
    expansions = tuple(Expansion(main, heat, heat * work_of_heat(inlet, main, turbines, shown))
                       for main, heat in ((main, flow.use(main.name)) for main in mains))
    return Cogeneration(turbines, inlet, expansions)


def mains_of(case: Case, names: Sequence[str]) -> list[Utility]:
    """The heaters of these names, or all, from the hottest down."""
    heaters = {utility.name: utility for utility in case.utilities
               if utility.side is Side.HOT and not utility.invented}
    for name in names:
        if name not in heaters:
            raise WordsError(f'--mains: the case has no heater {name}: there are {", ".join(heaters) or "none"}')
    chosen = [heaters[name] for name in dict.fromkeys(names)] or list(heaters.values())
    if not chosen:
        raise WordsError('the case has no heater of its own, so it has no steam main: enter the levels of steam as '
                         'heaters')
    return sorted(chosen, key=lambda main: main.level, reverse=True)


def check(mains: Sequence[Utility], inlet: Inlet, turbines: Turbines, shown: Shown) -> None:
    """`WordsError` where the inlet is colder than a main, or they are one, or one of them is no steam."""
    if inlet.temperature < mains[0].level:
        raise WordsError(f'the inlet, {shown.with_its_unit(inlet.temperature)}, is colder than {mains[0].name}')
    if turbines.inlet is None and mains[-1].level == inlet.temperature:
        raise WordsError(f'there is no main below {mains[0].name}, so no turbine: say with --inlet what steam there is')
    for main in mains:
        check_saturated(main.name, shown.units.in_kelvins(main.level))
    if inlet.pressure is None:
        check_saturated('the inlet', shown.units.in_kelvins(inlet.temperature))


def check_saturated(name: str, kelvins: Fraction) -> None:
    if not TRIPLE <= kelvins <= CRITICAL:
        raise WordsError(f'there is no saturated steam at the temperature of {name}: name the steam mains with --mains')


def work_of_heat(inlet: Inlet, main: Utility, turbines: Turbines, shown: Shown) -> Fraction:
    """The work of the steam for one unit of the heat that a main gives; the main of the inlet itself has none."""
    warmer, colder = shown.units.in_kelvins(inlet.temperature), shown.units.in_kelvins(main.level)
    if turbines.exergetic is not None:
        part = turbines.exergetic * (1 - colder / warmer)
        return part / (1 - part)
    assert turbines.isentropic is not None
    return drop(warmer, inlet.pressure, colder, main.name, turbines.isentropic)


def drop(warmer: Fraction, pressure: Fraction | None, colder: Fraction, name: str, efficiency: Fraction) -> Fraction:
    """The work for one unit of heat by steam tables, in five digits: the only floats beside the grand composite
    curve."""
    try:
        from iapws import IAPWS97
    except ImportError as fault:
        raise WordsError(f'--isentropic needs {NO_TABLES}') from fault
    if pressure is None and warmer == colder:
        return Fraction(0)
    steam, liquid = steam_of(warmer, pressure, IAPWS97), IAPWS97(T=float(colder), x=0)
    if steam.P <= liquid.P:
        raise WordsError(f'steam of the inlet does not expand to {name}, which is at {liquid.P * 10:.4g} bar: leave it '
                         'out of --mains')
    worked = float(efficiency) * (steam.h - IAPWS97(P=liquid.P, s=steam.s).h)
    return Fraction(Decimal(f'{worked / (steam.h - worked - liquid.h):.5g}'))


def steam_of(kelvins: Fraction, pressure: Fraction | None, tables: Any) -> Any:
    """The steam of the inlet; `WordsError` where it is none that the tables have."""
    if pressure is None:
        return tables(T=float(kelvins), x=1)
    megapascals = float(pressure) / 10 ** 6
    if not LEAST <= pressure <= MOST or kelvins > HOTTEST or tables(P=megapascals, x=1).T > kelvins:
        raise WordsError(f'--inlet: there is no steam of {megapascals * 10:.4g} bar and '
                         f'{float(kelvins) - 273.15:.4g} °C')
    return tables(T=float(kelvins), P=megapascals)
