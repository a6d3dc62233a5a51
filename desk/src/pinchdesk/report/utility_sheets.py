"""Flue gas, heat pump, refrigeration and steam turbines as tables beside the grand composite curve. What rests on an
efficiency has `estimate` in its name; all else is exact, and rounded where it is shown."""
from __future__ import annotations

from collections.abc import Iterator
from decimal import Decimal
from fractions import Fraction

from ..analysis.flue_gas import Furnace
from ..analysis.heat_pump import PumpedHeat
from ..analysis.refrigeration import Refrigeration
from ..analysis.steam_turbine import Cogeneration, Inlet
from ..analysis.utility_targets import UtilityTargets
from ..formats.shown import Number, Shown, decimal
from .answer_sheets import heat_of, targets_facts, temperature
from .cost_sheets import notes_sheets
from .facts import Fact, FactRow, FactTable, lines_sheet
from .sheet import Cell, Sheet

ESTIMATE = 'an estimate rests on the efficiency that was given; all other numbers are exact, from what the program ' \
           'printed'
FORBIDS = 'the grand composite curve knows no forbidden matches, so with them more utility may be needed'


def heat_fact(name: str, number: Number, shown: Shown) -> Fact:
    return Fact(name, heat_of(shown, number), shown.heat_unit)


def temperature_fact(name: str, number: Number, shown: Shown) -> Fact:
    return Fact(name, temperature(shown, number), shown.temperature_unit)


def percent_fact(name: str, part: Fraction) -> Fact:
    return Fact(name, Decimal(decimal(part * 100, 2)), '%')


def furnace_facts(found: Furnace, shown: Shown) -> FactRow:
    """The flue gas with the place where its line touches the curve."""
    touches: Cell = 'the stack' if found.touches is None else temperature(shown, found.touches)
    return (temperature_fact('flame', found.flue.flame, shown),
            Fact('flue gas CP', Decimal(shown.flow(found.cp)), shown.flow_unit),
            Fact('flue gas touches the curve at, shifted', touches, shown.temperature_unit),
            temperature_fact('flue gas leaves at', found.leaves, shown), heat_fact('fuel', found.fuel, shown),
            heat_fact('stack loss', found.loss, shown), percent_fact('furnace efficiency', found.efficiency))


def pump_facts(found: PumpedHeat, shown: Shown) -> FactRow:
    """The heats that the curve leaves to the heat pump, and what it saves with them."""
    pump = found.pump
    return (temperature_fact('pump evaporates at', pump.evaporates, shown),
            temperature_fact('pump evaporates at, shifted', pump.takes_at, shown),
            heat_fact('heat that can be taken there', found.available, shown),
            temperature_fact('pump condenses at', pump.condenses, shown),
            temperature_fact('pump condenses at, shifted', pump.gives_at, shown),
            heat_fact('hot utility that it can replace there', found.replaced, shown),
            Fact('pump performance, estimate', Decimal(decimal(found.performance, 3))),
            heat_fact('pump work, estimate', found.work, shown),
            heat_fact('saved hot utility, estimate', found.given, shown),
            heat_fact('saved cold utility, estimate', found.taken, shown))


def refrigeration_table(found: Refrigeration, shown: Shown) -> FactTable:
    rows = [(Fact('utility', level.utility.name), temperature_fact('level', level.utility.level, shown),
             heat_fact('takes', level.heat, shown), heat_fact('ideal work', level.ideal, shown),
             heat_fact('work, estimate', level.work, shown),
             heat_fact('leaves at ambient, estimate', level.rejected, shown)) for level in found.levels]
    title = f'Refrigeration below {shown.with_its_unit(found.ambient)}, efficiency {decimal(found.efficiency, 4)}'
    return FactTable(title if rows else f'No cold utility is below {shown.with_its_unit(found.ambient)}', tuple(rows))


def refrigeration_facts(found: Refrigeration, shown: Shown) -> FactRow:
    return (heat_fact('refrigeration work, estimate', found.work, shown),)


def cogeneration_table(found: Cogeneration, shown: Shown) -> FactTable:
    rows = [(Fact('main', expansion.main.name), temperature_fact('level', expansion.main.level, shown),
             heat_fact('gives', expansion.heat, shown), heat_fact('work, estimate', expansion.work, shown))
            for expansion in found.mains]
    turbines = found.turbines
    how = f'exergetic efficiency {decimal(turbines.exergetic, 4)}' if turbines.exergetic is not None else \
        f'isentropic efficiency {decimal(turbines.isentropic or 0, 4)}'
    return FactTable(f'Steam turbines from {inlet_told(found.inlet, shown)}, {how}', tuple(rows))


def inlet_told(inlet: Inlet, shown: Shown) -> str:
    told = shown.with_its_unit(inlet.temperature)
    return told if inlet.pressure is None else f'{decimal(inlet.pressure / 10 ** 5, 3)} bar and {told}'


def cogeneration_facts(found: Cogeneration, shown: Shown) -> FactRow:
    return (heat_fact('heat from steam mains', found.heat, shown),
            heat_fact('turbine work, estimate', found.work, shown),
            heat_fact('heat at the inlet, estimate', found.heat + found.work, shown))


def curve_sheet(found: UtilityTargets) -> Sheet:
    """The grand composite curve."""
    shown = found.shown
    rows = tuple((temperature(shown, corner.temperature), heat_of(shown, corner.heat)) for corner in
                 found.curve.corners)
    return Sheet('Grand composite curve', (f'shifted {shown.temperature_unit}', shown.heat_unit), rows)


def ambient_facts(found: UtilityTargets) -> FactRow:
    """The temperature of the surroundings, where it counts."""
    counts = found.furnace is not None or found.refrigeration is not None
    return (temperature_fact('ambient', found.asked.ambient, found.shown),) if counts else ()


def utilities_facts(found: UtilityTargets) -> FactRow:
    """All numbers but the rows of tables."""
    shown = found.shown
    return (*targets_facts(found.case, found.targets), *ambient_facts(found),
            *(furnace_facts(found.furnace, shown) if found.furnace else ()),
            *(pump_facts(found.pumped, shown) if found.pumped else ()),
            *(refrigeration_facts(found.refrigeration, shown) if found.refrigeration else ()),
            *(cogeneration_facts(found.cogeneration, shown) if found.cogeneration else ()))


def pump_told(found: UtilityTargets) -> str:
    """That a heat pump saves nothing, where it does not work across the pinch."""
    pumped = found.pumped
    if pumped is None or pumped.saves:
        return ''
    high, low = (found.shown.with_its_unit(zero) for zero in (found.curve.zero, found.curve.last_zero))
    return f'the heat pump does not work across the pinch, from below {low} to above {high} shifted, so it saves ' \
           'nothing'


def utilities_notes(found: UtilityTargets) -> Iterator[str]:
    """What stands below the tables."""
    if pump_told(found):
        yield pump_told(found)
    if found.estimated:
        yield ESTIMATE
    if found.case.forbids:
        yield FORBIDS
    if found.ranges:
        yield f'targets and curve are without the utilities with a range, {", ".join(found.ranges)}'


def utilities_sheets(found: UtilityTargets) -> Iterator[Sheet]:
    """The targets and the curve, then what was asked."""
    title = 'Targets without the utilities with a range' if found.ranges else 'Targets'
    yield lines_sheet(title, (*targets_facts(found.case, found.targets), *ambient_facts(found)))
    yield curve_sheet(found)
    yield from asked_sheets(found)


def asked_sheets(found: UtilityTargets) -> Iterator[Sheet]:
    """What was asked, a table each, with notes."""
    shown = found.shown
    if found.furnace:
        yield lines_sheet(f'Flue gas, ambient {shown.with_its_unit(found.asked.ambient)}',
                          furnace_facts(found.furnace, shown))
    if found.pumped:
        yield lines_sheet('Heat pump', pump_facts(found.pumped, shown))
    if found.refrigeration:
        yield refrigeration_table(found.refrigeration, shown).sheet()
        yield lines_sheet('All levels', refrigeration_facts(found.refrigeration, shown))
    if found.cogeneration:
        yield cogeneration_table(found.cogeneration, shown).sheet()
        yield lines_sheet('All mains', cogeneration_facts(found.cogeneration, shown))
    yield from notes_sheets(tuple(utilities_notes(found)))
