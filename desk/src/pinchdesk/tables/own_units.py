"""A case in the units of its table: whole steps of its degree, and whole heats, so that nothing is rounded that the
table has to that place."""
from __future__ import annotations

from collections.abc import Collection, Iterator, Sequence
from dataclasses import dataclass, replace
from fractions import Fraction
from math import floor

from ..errors import Refused
from ..formats.amounts import rounded
from ..formats.case import ANY_HEAT, Case, Side, Stream, Utility
from ..formats.case_units import TEMPERATURES, CaseUnits
from ..formats.limits import CONTRIBUTION, CP, HEAT, LOAD, TEMPERATURE, Limit
from .cells import CellReader, Told
from .products import product_of
from .rows import Line, unit_behind
from .units import Kind, same_unit, unit_of
from .vocabulary import Heading

# Heats of which a unit of CPs may be made, where no heat has a unit.
HEATS = ('kW', 'MW', 'W', 'Btu/h', 'MMBtu/h', 'kBtu/h', 'kcal/h', 'Gcal/h', 'kJ/h', 'MJ/h', 'GJ/h')
# How many parts a unit of heats may have, the coarsest first.
PARTS = tuple(Fraction(10) ** power for power in range(-9, 10))
# How many steps a degree may have, and how many times larger sizes may become.
STEPS, ROOM = (10, 100), 10


@dataclass(frozen=True)
class ExactSource:
    """What a row says of a source, in the program's units and not rounded; `supply` is the level of a utility."""

    row: int
    supply: Fraction
    target: Fraction | None
    cp: Fraction | None
    load: Fraction | None
    least: Fraction | None
    most: Fraction | None
    own: Fraction | None
    share: Fraction


@dataclass(frozen=True)
class ExactNumbers:
    """The contribution of a case, its streams and its utilities, in the order of the case."""

    share: Fraction
    streams: tuple[ExactSource, ...]
    utilities: tuple[ExactSource, ...]


def in_own_units(case: Case, numbers: ExactNumbers, reader: CellReader, lines: Sequence[Line], told: Told,
                 ranged: Collection[int] = ()) -> Case:
    """A case in the units of its table; the utilities of the rows `ranged` have their supply as level. What is rounded
    in these units is told in place of what was in tenths of °C and W; `Refused` where no steps hold its numbers."""
    if case.basis.scale != 1:
        raise Refused(3, '', 'units', 'a case in the units of its table has no scale: leave out --scale')
    temperature, heat, watts = units_of_table(reader, lines)
    units = stepped(CaseUnits(temperature, heat, watts), numbers, case)
    told.notes[:] = [note for note in told.notes if note not in told.roundings]
    told.notes.append(f'the case is in {temperature} and {heat}, as the table')
    streams = tuple(stream_of(stream, source, units, told) for stream, source in zip(case.streams, numbers.streams))
    utilities = tuple(utility_of(utility, source, units, told, source.row in ranged)
                      for utility, source in zip(case.utilities, numbers.utilities))
    times = units.parts / units.watts
    basis = replace(case.basis, units=units, cost_divisor=case.basis.cost_divisor * times)
    if not basis.cost_unit:
        basis = replace(basis, cost_unit=f'price times {heat}', cost_divisor=units.parts)
    share = whole(units.of_tenths_between(numbers.share), 'the contribution of the case', 0, told)
    return replace(case, contribution=share, streams=streams, utilities=utilities, basis=basis)


def units_of_table(reader: CellReader, lines: Sequence[Line]) -> tuple[str, str, Fraction]:
    """The one unit of all temperatures and of all heats, with what one of the latter is in W; of kinds that have none,
    or two, °C and kW."""
    texts: dict[Kind, list[str]] = {}
    for line in lines:
        for column, kind in line.layout.kinds.items():
            if reader.given(line.row, column):
                cell = line.row.cell(column)
                own = cell.unit if cell.number is not None else unit_behind(cell.text)
                texts.setdefault(kind, []).append(own or line.layout.units.get(column, '') or kind.default)
    temperatures = {temperature_of(text) for text in texts.get(Kind.TEMPERATURE, [])}
    temperature = next(iter(temperatures)) if len(temperatures) == 1 else '°C'
    heats = {unit_of(text, Kind.HEAT).factor: text for text in reversed(texts.get(Kind.HEAT, []))}
    if len(heats) == 1:
        return temperature, *next((text, factor) for factor, text in heats.items())
    # A CP in 10 W/K is so many W to a degree.
    factors = {unit_of(text, Kind.FLOW).factor for text in texts.get(Kind.FLOW, [])} or products_of(reader, lines)
    flows = {factor * 10 / TEMPERATURES[temperature][0] for factor in factors}
    found = [name for name in HEATS if {unit_of(name, Kind.HEAT).factor} == flows]
    heat = found[0] if found and not heats else 'kW'
    return temperature, heat, Fraction(unit_of(heat, Kind.HEAT).factor)


def products_of(reader: CellReader, lines: Sequence[Line]) -> set[Fraction]:
    """What the units of mass flows and specific heats make together, in the program's unit of CPs."""
    found: set[Fraction] = set()
    for line in lines:
        columns = [line.at(heading) for heading in (Heading.MASS, Heading.SPECIFIC)]
        units = [reader.unit_beside(line.row, column) for column in columns
                 if column is not None and reader.given(line.row, column)]
        factor = product_of(units[0], units[1], Heading.SPECIFIC) if len(units) == 2 else None
        found |= {factor} if factor else set()
    return found


def temperature_of(text: str) -> str:
    """The name of a unit of temperatures; °C for one that has none here."""
    unit = unit_of(text, Kind.TEMPERATURE)
    return next((name for name in TEMPERATURES if same_unit(name, unit.text, Kind.TEMPERATURE)), '°C')


def stepped(units: CaseUnits, numbers: ExactNumbers, case: Case) -> CaseUnits:
    """The units with the coarsest steps in which all numbers are whole, and as many parts as leave room for changes of
    the sizes; else with the finest steps and parts that the limits hold."""
    fitting: list[tuple[int, bool, CaseUnits]] = []
    for steps in STEPS:
        stepping = with_zero(replace(units, steps=Fraction(steps)), numbers)
        for parts in PARTS:
            tried = replace(stepping, parts=parts)
            amounts = list(amounts_of(numbers, tried))
            if all(limit.holds(rounded(amount)) for limit, amount in amounts):
                apart = sum(amount.denominator != 1 for _, amount in amounts)
                roomy = all(limit.holds(rounded(amount * ROOM)) for limit, amount in amounts if limit in (CP, LOAD))
                fitting.append((apart, roomy, tried))
    if not fitting:
        raise Refused(3, '', 'units', 'no steps hold the numbers of this table in its own units')
    least = min(apart for apart, _, _ in fitting)
    best = [(roomy, tried) for apart, roomy, tried in fitting if apart == least]
    if least:
        return best[-1][1]
    coarsest = [(roomy, tried) for roomy, tried in best if tried.steps == best[0][1].steps]
    return ([tried for roomy, tried in coarsest if roomy] or [coarsest[0][1]])[-1]


def with_zero(units: CaseUnits, numbers: ExactNumbers) -> CaseUnits:
    """The units with a zero that brings all temperatures within the limits, where they are not."""
    temperatures = [amount for limit, amount in amounts_of(numbers, units) if limit is TEMPERATURE]
    low, high = min(temperatures), max(temperatures)
    if TEMPERATURE.holds(rounded(low)) and TEMPERATURE.holds(rounded(high)):
        return units
    return replace(units, zero=Fraction(floor(low / units.steps)))


def amounts_of(numbers: ExactNumbers, units: CaseUnits) -> Iterator[tuple[Limit, Fraction]]:
    """The numbers of a case in these units, each with its limits."""
    yield CONTRIBUTION, units.of_tenths_between(numbers.share)
    for source in (*numbers.streams, *numbers.utilities):
        yield TEMPERATURE, units.of_tenths(source.supply)
        if source.target is not None:
            yield TEMPERATURE, units.of_tenths(source.target)
        if source.own is not None:
            yield CONTRIBUTION, units.of_tenths_between(source.own)
        for bound in (source.least, source.most):
            if bound is not None:
                yield HEAT, units.of_watts(bound)
    for source in numbers.streams:
        if source.target == source.supply:
            yield LOAD, units.of_watts(abs(source.load or Fraction(0)))
        else:
            yield CP, units.of_flow(source.cp or Fraction(0))


def whole(amount: Fraction, what: str, row: int, told: Told) -> int:
    """The nearest whole number; what is rounded is told."""
    nearest = rounded(amount)
    if nearest != amount:
        part = abs(nearest - amount)
        said = f'{what} is rounded, by {part} of a step of the case'
        told.notes.append(f'{told.table.place(row)}: {said}' if row else said)
    return nearest


def stream_of(stream: Stream, source: ExactSource, units: CaseUnits, told: Told) -> Stream:
    def rounded_of(amount: Fraction, what: str) -> int:
        return whole(amount, f'the {what} of {stream.name}', source.row, told)
    share = source.share if source.own is None else source.own
    supply = rounded_of(units.of_tenths(source.supply), 'supply')
    target = rounded_of(units.of_tenths(source.supply if source.target is None else source.target), 'target')
    latent = source.target == source.supply
    load = rounded_of(units.of_watts(abs(source.load or Fraction(0))), 'duty') if latent else 0
    cp = 0 if latent else rounded_of(units.of_flow(source.cp or Fraction(0)), 'CP')
    return replace(stream, supply=supply, target=target, cp=cp, load=load,
                   contribution=rounded_of(units.of_tenths_between(share), 'contribution'))


def utility_of(utility: Utility, source: ExactSource, units: CaseUnits, told: Told, ranged: bool = False) -> Utility:
    def rounded_of(amount: Fraction, what: str) -> int:
        return whole(amount, f'the {what} of {utility.name}', source.row, told)
    share = source.share if source.own is None else source.own
    ends = [source.supply] if source.target is None else [source.supply, source.target]
    level = min(ends) if utility.side is Side.HOT else max(ends)
    if ranged:
        level = source.supply
    least = Fraction(0) if source.least is None else units.of_watts(source.least)
    most = Fraction(ANY_HEAT) if source.most is None else units.of_watts(source.most)
    contribution = rounded_of(units.of_tenths_between(share), 'contribution')
    return replace(utility, level=rounded_of(units.of_tenths(level), 'level'), least=rounded_of(least, 'least'),
                   most=rounded_of(most, 'most'), contribution=contribution)
