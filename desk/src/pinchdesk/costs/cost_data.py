"""What a case says of areas and money, in W, m² and K, exactly. What is missing is refused by its name, when it is
asked for; nothing is assumed."""
from __future__ import annotations

from collections.abc import Callable, Iterable, Mapping
from dataclasses import dataclass
from fractions import Fraction
from functools import cached_property
from itertools import product
from typing import TypeVar, cast

from ..errors import Refused
from ..formats.case import Case, Side, Source, Stream, Utility
from ..formats.case_units import TEMPERATURES
from ..formats.cost_rows import (Annual, AnnualForm, Build, Capital, CostLaw, CostRow, Film, Material, Measured,
                                 Overall, UtilityRange, Service, printed_cost_row, written)
from ..formats.range_parts import range_names
from ..formats.whole_streams import whole_names
from ..tables.money import two_moneys
from ..tables.units import Kind, UnknownUnit, unit_of
from .cost_units import NoUnit, area_factor, coefficient_factor, fouling_resistance
from .price_units import TIMES, fault_of_divisors

Row = TypeVar('Row', bound=CostRow)
Result = TypeVar('Result')
USUAL = {'C': '°C', 'F': '°F'}
# The cause of a refusal of what a case does not say.
MISSING = 'missing'


def refused(what: str, cause: str) -> Refused:
    """A refusal of what the case says, or does not say, of areas and money."""
    return Refused(3, f'case {what}', 'cost data', f'case {what}: {cause}')


def refused_exchanger(name: str, cause: str) -> Refused:
    """A refusal of the area or the price of an exchanger of a network."""
    return Refused(4, f'network exchanger {name}', 'cost data', f'network exchanger {name}: {cause}')


def missing(what: str, enter: str) -> Refused:
    return Refused(3, f'case {what}', MISSING, f'case {what} is missing: enter a row `{enter}`')


@dataclass(frozen=True)
class EndTemperatures:
    """The two ends of a source in tenths of °C: where it enters and where it leaves."""

    inlet: Fraction
    outlet: Fraction

    @property
    def high(self) -> Fraction:
        return max(self.inlet, self.outlet)

    @property
    def low(self) -> Fraction:
        return min(self.inlet, self.outlet)


@dataclass(frozen=True)
class CostData:
    """The rows of a case, resolved. The case is completed, so that `HOT` and `COLD` may be in it."""

    case: Case

    @cached_property
    def films(self) -> dict[str, Fraction]:
        """The resistance of each film with its fouling, in m² K/W."""
        return {row.source: self.resolved(f'#film of {row.source}', resistance_of, row) for row in self.rows(Film)}

    @cached_property
    def overalls(self) -> dict[frozenset[str], Fraction]:
        """The overall coefficients that are given, in W/(m² K), by one source, by two, or by none for all."""
        rows = self.rows(Overall)
        for row in rows:
            sides = [source.side for name in (row.source, row.other) if name
                     for source in self.case.sources if name in self.names_of(source)]
            if row.source and row.other and len(set(sides)) < 2:
                raise refused(f'#overall of {row.source} and {row.other}', f'both are {sides[0].value}: a coefficient '
                              'is that of a hot and a cold source')
        return {frozenset({row.source, row.other} - {''}):
                self.resolved(f'#overall of {row.source or "all"}', overall_of_row, row) for row in rows}

    @cached_property
    def ranges(self) -> dict[str, EndTemperatures]:
        """The real ends of the utilities that have some."""
        return {row.utility: self.resolved(f'#range of {row.utility}', self.range_of, row)
                for row in self.rows(UtilityRange)}

    @cached_property
    def ranged(self) -> frozenset[str]:
        """The streams that are utilities with a range, whole and in segments."""
        return range_names(self.case) | {utility.name for utility in self.case.basis.ranges}

    @cached_property
    def wholes(self) -> Mapping[str, str]:
        """The stream of the plant that each segment is of."""
        return whole_names(self.case)

    def names_of(self, source: Source) -> tuple[str, ...]:
        """The names by which rows may speak of a source: of a segment its own, then that of its stream."""
        whole = self.wholes.get(source.name)
        return (source.name,) if whole is None else (source.name, whole)

    def check(self) -> None:
        """`Refused` where something is missing that the annual cost of every network needs."""
        if frozenset() not in self.overalls:
            named = frozenset(name for names in self.overalls for name in names)
            for source in self.case.sources:
                is_added = isinstance(source, Utility) and source.invented
                if not named.intersection(self.names_of(source)) and not is_added:
                    self.resistance(source)
        if not self.rows(CostLaw):
            self.law(Service.EXCHANGER)
        _ = self.build(Service.EXCHANGER), self.annual_factor, self.year_of_cost

    def rows(self, kind: type[Row]) -> list[Row]:
        """The rows of a kind; `Refused` where one names a source that is not in the case."""
        found = [cast(Row, row) for row in self.case.basis.cost_rows if type(row) is kind]
        known = {source.name for source in self.case.sources} | set(self.wholes.values())
        for row in found:
            for name in names_of(row):
                if name and name not in known:
                    raise refused(f'{printed_cost_row(row)[0]} of {name}', 'the case has no such source')
        return found

    def resolved(self, what: str, reading: Callable[[Row], Result], row: Row) -> Result:
        try:
            return reading(row)
        except NoUnit as fault:
            raise refused(what, str(fault)) from fault
        except UnknownUnit as fault:
            raise refused(what, f'`{fault}` is not a unit of temperature, as C, K or F') from fault

    def range_of(self, row: UtilityRange) -> EndTemperatures:
        utility = self.case.source(row.utility)
        if not isinstance(utility, Utility):
            raise refused(f'#range of {row.utility}', 'it is not a utility')
        ends = EndTemperatures(*(tenths_in(number, row.unit) for number in (row.supply, row.target)))
        if (ends.inlet > ends.outlet) != (utility.side is Side.HOT):
            way = 'cools down' if utility.side is Side.HOT else 'warms up'
            raise refused(f'#range of {row.utility}', f'a {utility.side.value} utility {way}: supply {row.supply}, '
                          f'target {row.target}')
        return ends

    def ends(self, source: Source) -> EndTemperatures:
        """Where a source enters and leaves; `Refused` of a utility that the program added, since it is none of a
        plant, unless its real ends are given."""
        if isinstance(source, Stream):
            return EndTemperatures(self.tenths(source.supply), self.tenths(source.target))
        if source.invented and source.name not in self.ranges:
            row = 'heater' if source.side is Side.HOT else 'cooler'
            raise refused(source.name, f'the program added this utility, and it has no temperature of a plant: enter '
                          f'a row `{row},NAME,LEVEL,LEAST,MOST,PRICE,`')
        return self.ranges.get(source.name) or EndTemperatures(self.tenths(source.level), self.tenths(source.level))

    def resistance(self, source: Source) -> Fraction:
        """The resistance of a source's film, in m² K/W."""
        name = next((name for name in self.names_of(source) if name in self.films), None)
        if name is None:
            whole = self.names_of(source)[-1]
            raise missing(f'film coefficient of {whole}', f'#film,{whole},VALUE,kW/m2K,,,')
        return self.films[name]

    def coefficient(self, hot: Source, cold: Source) -> Fraction:
        """The overall coefficient of a pair in W/(m² K): the one that is given for it, for one of both, or for all;
        else that of both films."""
        if not self.overalls:
            return 1 / (self.resistance(hot) + self.resistance(cold))
        names = self.names_of(hot), self.names_of(cold)
        pair = self.overall_of(frozenset(both) for both in product(*names))
        own = {self.overall_of(frozenset((name,)) for name in side) for side in names} - {None}
        if pair is None and len(own) > 1:
            raise refused(f'#overall of {hot.name} and {cold.name}', 'they have two: enter a row '
                          f'`#overall,{hot.name},VALUE,kW/m2K,{cold.name},,`')
        found = pair or next(iter(own), None) or self.overalls.get(frozenset())
        return found or 1 / (self.resistance(hot) + self.resistance(cold))

    def overall_of(self, named: Iterable[frozenset[str]]) -> Fraction | None:
        """The coefficient that is given for the first of these that has one."""
        return next((self.overalls[names] for names in named if names in self.overalls), None)

    def law(self, service: Service, materials: str = '') -> CostLaw:
        """The cost law of a kind of exchangers, of a material or of two, as `X+Y`."""
        names = {materials, '+'.join(reversed(materials.split('+')))}
        laws = [row for row in self.rows(CostLaw) if row.material in names and row.service in (service, None)]
        if not laws:
            kind = said_of(service) + (f' of {materials}' if materials else '')
            raise missing(f'cost law of {kind}', f'#law,{service.value},{materials},FIXED,FACTOR,EXPONENT,m2')
        return next((law for law in laws if law.service is service), laws[0])

    @cached_property
    def target_law(self) -> CostLaw:
        """The cost law of a target: that of the material of all streams where they have one, else that of exchangers
        without a material."""
        materials = {self.material(stream) for stream in self.case.streams}
        return self.law(Service.EXCHANGER, materials.pop() if len(materials) == 1 else '')

    def material(self, source: Source) -> str:
        """The material of the exchangers of a source; empty where none is given."""
        found = {row.source: row.material for row in self.rows(Material)}
        return next((found[name] for name in self.names_of(source) if name in found), '')

    def materials(self, hot: Source, cold: Source) -> str:
        """The material of an exchanger of two sources: empty, one, or two."""
        return '+'.join(sorted({self.material(hot), self.material(cold)} - {''}))

    def build(self, service: Service) -> Build:
        """How exchangers of a kind are built."""
        builds = [row for row in self.rows(Build) if row.service in (service, None)]
        if not builds:
            raise missing(f'build of {said_of(service)}', '#build,,counter-current,,,,exchanger')
        return next((build for build in builds if build.service is service), builds[0])

    @cached_property
    def capital(self) -> Capital:
        found = self.rows(Capital)
        if not found:
            raise missing('currency of the cost laws', '#capital,CURRENCY,INSTALLATION FACTOR,,,,')
        return found[0]

    @cached_property
    def annual(self) -> Annual:
        found = self.rows(Annual)
        if not found:
            raise missing('annual factor of the capital', '#annual,recovery,INTEREST,YEARS,HOURS A YEAR,,')
        return found[0]

    @cached_property
    def annual_factor(self) -> Fraction:
        """What of a capital is a cost of a year."""
        annual = self.annual
        if annual.form is AnnualForm.FACTOR:
            return annual.rate
        grown = (1 + annual.rate) ** annual.years
        if annual.form is AnnualForm.COMPOUND:
            return grown / annual.years
        return annual.rate * grown / (grown - 1) if annual.rate else Fraction(1, annual.years)

    @cached_property
    def year_of_cost(self) -> Fraction:
        """What a cost of the program is a year in the money of the capital."""
        basis = self.case.basis
        money, _, time = basis.cost_unit.replace('per ', '/').partition('/')
        if not time or money.startswith('price times'):
            raise refused('prices', 'they have no unit, so their cost has none that could be added to a capital: '
                          'enter rows `#price,EUR/MWh,DIVISOR,,,,` and `#cost,EUR/h,DIVISOR,,,,`, or make the case of '
                          'a table with a unit of prices')
        if time.strip() not in TIMES:
            raise refused('#cost', f'`{basis.cost_unit}` is no cost of a year or of an hour: enter EUR/a or EUR/h')
        time = TIMES[time.strip()]
        fault = two_moneys(money.strip(), self.capital.currency)
        if fault:
            raise refused('currency of the prices', f'{fault}; prices and cost laws need one currency')
        fault = fault_of_divisors(basis, time, self.annual.hours)
        if fault:
            raise refused('#cost', fault)
        if time == 'h' and self.annual.hours is None:
            raise missing('number of hours a year', f'#annual,{self.annual.form.value},..,HOURS,,')
        hours = self.annual.hours if time == 'h' and self.annual.hours else Fraction(1)
        return hours / basis.cost_divisor / basis.scale

    def watts(self, heat: int | Fraction) -> Fraction:
        """A heat of the case as the plant has it, in W."""
        units = self.case.basis.units
        return (units.in_watts(heat) if units else Fraction(heat)) / self.case.basis.scale

    def tenths(self, temperature: int | Fraction) -> Fraction:
        """A temperature of the case in tenths of °C."""
        units = self.case.basis.units
        if units is None:
            return Fraction(temperature)
        degrees, at_zero = TEMPERATURES[units.temperature]
        return (units.shown_temperature(temperature) - at_zero) / degrees * 10

    def kelvins(self, difference: int | Fraction) -> Fraction:
        """A difference of temperatures of the case in K."""
        return (self.tenths(difference) - self.tenths(0)) / 10


def tenths_in(number: Fraction, unit: str) -> Fraction:
    """A temperature in tenths of °C; `UnknownUnit` where its unit is none."""
    usual = TEMPERATURES.get(USUAL.get(unit, unit))
    if usual is None:
        # All units that there are take a second to load.
        return unit_of(unit, Kind.TEMPERATURE).exact(number)
    degrees, at_zero = usual
    return (number - at_zero) / degrees * 10


def said_of(service: Service) -> str:
    return ('an ' if service is Service.EXCHANGER else 'a ') + service.value


def names_of(row: CostRow) -> tuple[str, ...]:
    """The sources that a row names."""
    match row:
        case Film(source=name) | Material(source=name) | UtilityRange(utility=name):
            return (name,)
        case Overall(source, other):
            return (source, other)
    return ()


def resistance_of(row: Film) -> Fraction:
    film = 1 / (checked(row.coefficient, 'film coefficient') * coefficient_factor(row.coefficient.unit))
    return film + (fouling_of(row.fouling) if row.fouling else 0)


def fouling_of(fouling: Measured) -> Fraction:
    """The resistance of a fouling; none is one of 0."""
    if fouling.value < 0:
        raise NoUnit(f'the fouling is {written(fouling.value)}, and has to be at least 0')
    return fouling_resistance(fouling.value, with_unit(fouling, 'fouling'))


def overall_of_row(row: Overall) -> Fraction:
    return checked(row.coefficient, 'overall coefficient') * coefficient_factor(row.coefficient.unit)


def checked(number: Measured, what: str) -> Fraction:
    """A number above 0 that has a unit; `NoUnit` where it has none."""
    if number.value <= 0:
        raise NoUnit(f'the {what} is {written(number.value)}, and has to be above 0')
    with_unit(number, what)
    return number.value


def with_unit(number: Measured, what: str) -> str:
    if not number.unit:
        raise NoUnit(f'the {what} {written(number.value)} has no unit')
    return number.unit


def square_metres(number: Measured, row: str, what: str) -> Fraction:
    """An area in m²; `Refused` where its unit is none."""
    try:
        return checked(number, what) * area_factor(number.unit)
    except NoUnit as fault:
        raise refused(row, str(fault)) from fault
