"""The word `utilities`."""
from __future__ import annotations

import re
from dataclasses import dataclass, fields, replace
from fractions import Fraction

from ..analysis.flue_gas import FlueGas
from ..analysis.heat_pump import HeatPump
from ..analysis.steam_turbine import Inlet, Turbines
from ..analysis.utility_targets import UtilitiesAsked, UtilityTargets, utility_targets
from ..errors import WordsError, about
from ..formats.amounts import shortened
from ..formats.case import Case
from ..formats.case_units import CaseUnits
from ..formats.shown import Shown
from ..program.answers import Cut
from ..program.run import Pinch
from ..report.answer_sheets import cut_table
from ..report.utility_sheets import pump_told, utilities_facts, utilities_sheets
from ..search.budget import Telling, nobody
from ..tables.steam import pressure_of
from ..tables.temperature_words import difference_said, efficiency_said, numeral_said, temperature_said
from .shared import CASE, SHOWN_IN, CaseShown, completed_case
from .word import Answer, Files, Option, Word, feasibility

AMBIENT = '25 °C'
PRESSURE = re.compile(r'(?P<pressure>-?[0-9.,]+\s*[A-Za-z]+\s*(?:\([ag]\))?)(?:\s+(?P<temperature>\S.*))?')
BESIDE_CURVE = (
    Option('flame', 'a flue gas with this theoretical flame temperature, in °C or with its unit', ('--flame',),
           metavar='T'),
    Option('stack', 'the temperature below which the flue gas must not be cooled', ('--stack',), metavar='T'),
    Option('flue_contribution', 'the contribution of the flue gas in K or with its unit (that of the case unless '
           'given)', ('--flue-contribution',), metavar='D'),
    Option('ambient', f'the temperature of the surroundings ({AMBIENT} unless given)', ('--ambient',), metavar='T'),
    Option('pump_from', 'a heat pump that evaporates at this temperature', ('--pump-from',), metavar='T'),
    Option('pump_to', 'and condenses at this one', ('--pump-to',), metavar='T'),
    Option('pump_efficiency', 'the part of the performance by Carnot that it reaches, as 0.5', ('--pump-efficiency',),
           metavar='E'))
ASKED = (
    *BESIDE_CURVE,
    Option('refrigeration', 'the work of the cold utilities below the surroundings, by Carnot with this efficiency',
           ('--refrigeration',), metavar='E'),
    Option('isentropic', 'the work of steam turbines with this isentropic efficiency, by steam tables',
           ('--isentropic',), metavar='E', one_of='turbines'),
    Option('exergetic', 'the same by Carnot with this exergetic efficiency', ('--exergetic',), metavar='E',
           one_of='turbines'),
    Option('mains', 'which heaters are steam mains (all unless given)', ('--mains',), metavar='HP,LP'),
    Option('inlet', 'the steam before the turbines, as "100 bar 500 °C", or its temperature where it is saturated '
           '(that of the hottest main unless given)', ('--inlet',), metavar='STEAM'))


@dataclass(frozen=True)
class BesideCurveOptions(CaseShown):
    """A flue gas and a heat pump, which have lines of their own beside the curve: what is asked, as words have it."""

    flame: str | None = None
    stack: str | None = None
    flue_contribution: str | None = None
    ambient: str | None = None
    pump_from: str | None = None
    pump_to: str | None = None
    pump_efficiency: str | None = None

    def asked(self, case: Case) -> UtilitiesAsked:
        """What is asked of a case; `WordsError` where a number is none, or one is missing that belongs to others."""
        units, contribution = Shown(case.basis).units, Fraction(case.contribution)
        ambient = units.of_tenths(Fraction(250)) if self.ambient is None else \
            temperature_said(self.ambient, '--ambient', units)
        return UtilitiesAsked(ambient, self.flue_of(units, ambient, contribution), self.pump_of(units, contribution))

    def flue_of(self, units: CaseUnits, ambient: Fraction, contribution: Fraction) -> FlueGas | None:
        if self.flame is None or self.stack is None:
            together({'--flame': self.flame, '--stack': self.stack}, {'--flue-contribution': self.flue_contribution})
            return None
        own = self.flue_contribution
        share = contribution if own is None else difference_said(own, '--flue-contribution', units)
        flame, stack = temperature_said(self.flame, '--flame', units), temperature_said(self.stack, '--stack', units)
        return FlueGas(flame, stack, ambient, share)

    def pump_of(self, units: CaseUnits, contribution: Fraction) -> HeatPump | None:
        low, high, efficiency = self.pump_from, self.pump_to, self.pump_efficiency
        if low is None or high is None or efficiency is None:
            together({'--pump-from': low, '--pump-to': high, '--pump-efficiency': efficiency})
            return None
        return HeatPump(temperature_said(low, '--pump-from', units), temperature_said(high, '--pump-to', units),
                        efficiency_said(efficiency, '--pump-efficiency'), contribution)


@dataclass(frozen=True)
class UtilitiesOptions(BesideCurveOptions):
    """Refrigeration and steam turbines too."""

    refrigeration: str | None = None
    isentropic: str | None = None
    exergetic: str | None = None
    mains: str | None = None
    inlet: str | None = None

    @property
    def is_asked(self) -> bool:
        """Whether anything is."""
        return any(getattr(self, field.name) is not None for field in fields(UtilitiesOptions) if field.name != 'units')

    def asked(self, case: Case) -> UtilitiesAsked:
        cold = None if self.refrigeration is None else efficiency_said(self.refrigeration, '--refrigeration')
        turbines = self.turbines_of(Shown(case.basis).units)
        return replace(super().asked(case), refrigeration=cold, turbines=turbines)

    def turbines_of(self, units: CaseUnits) -> Turbines | None:
        if self.isentropic is not None and self.exergetic is not None:
            raise WordsError('turbines have an isentropic or an exergetic efficiency, not both')
        said, flag = (self.isentropic, '--isentropic') if self.exergetic is None else (self.exergetic, '--exergetic')
        if said is None:
            together({'--isentropic or --exergetic': None}, {'--mains': self.mains, '--inlet': self.inlet})
            return None
        efficiency = efficiency_said(said, flag)
        names = () if self.mains is None else tuple(name.strip() for name in self.mains.split(','))
        if not all(names):
            raise WordsError(f'--mains {shortened(self.mains or "")}: names of heaters are needed, with commas between '
                             'them')
        inlet = None if self.inlet is None else inlet_said(self.inlet, units)
        if inlet and inlet.pressure is not None and self.exergetic is not None:
            raise WordsError(f'--inlet {shortened(self.inlet or "")}: with --exergetic it is a temperature alone')
        return Turbines(names, inlet, None if self.exergetic else efficiency, efficiency if self.exergetic else None)


def together(needed: dict[str, str | None], more: dict[str, str | None] | None = None) -> None:
    """`WordsError` where only some of the options are given that belong together, or more that need them."""
    given = [flag for flag, said in {**needed, **(more or {})}.items() if said is not None]
    missing = [flag for flag, said in needed.items() if said is None]
    if given and missing:
        raise WordsError(f'{given[0]} needs {" and ".join(missing)} too')


def inlet_said(text: str, units: CaseUnits) -> Inlet:
    """The steam before the turbines: a pressure and a temperature, or the temperature of saturated steam."""
    match = PRESSURE.fullmatch(text.strip())
    value, unit = numeral_said(match['pressure'], '--inlet', 'a pressure, as "40 bar",') if match else (Fraction(0), '')
    pressure = pressure_of(value, unit)
    if match is None or match['temperature'] is None and pressure is None:
        return Inlet(temperature_said(text, '--inlet', units))
    if match['temperature'] is None:
        raise WordsError(f'--inlet {shortened(text)}: a pressure needs its temperature beside it, as "100 bar 500 °C"')
    if pressure is None:
        raise WordsError(f'--inlet {shortened(text)}: `{shortened(unit)}` is not a unit of pressures')
    if pressure <= 0:
        raise WordsError(f'--inlet {shortened(text)}: the pressure has to be above 0')
    return Inlet(temperature_said(match['temperature'], '--inlet', units), pressure)


def found_utilities(files: Files, options: BesideCurveOptions) -> UtilityTargets | Cut:
    """What is asked of the case of the files."""
    file, pinch = files.one('case'), Pinch()
    with about(case=file.name):
        pinch.targets(file.content)
        return utility_targets(file.content, options.asked(completed_case(file.content)), pinch)


def utilities(files: Files, options: UtilitiesOptions = UtilitiesOptions(), tell: Telling = nobody) -> Answer:
    found = found_utilities(files, options)
    if isinstance(found, Cut):
        table = cut_table(found, Shown(completed_case(files.one('case').content).basis))
        return Answer((table.sheet(),), facts=table.rows, status=feasibility(False))
    return Answer(tuple(utilities_sheets(found)), facts=(utilities_facts(found),), headline=pump_told(found))


UTILITIES = Word('utilities', 'flue gas, heat pump, refrigeration and steam turbines beside the grand composite curve',
                 'pinchdesk utilities examples/four-stream.csv --flame 1800 --stack 160', (CASE,), UtilitiesOptions,
                 utilities, (*ASKED, SHOWN_IN))
