"""What a case says of areas and money, in comment rows that the program passes over: the only reader of them, and
their printer (docs/FORMATS.md, *What the desk keeps in comments*).

Each number stands with its unit as it was given; what a unit is, and whether a source of this name is there, is for
`costs` to say."""
from __future__ import annotations

import enum
from collections.abc import Callable, Mapping, Sequence
from dataclasses import dataclass
from fractions import Fraction

from ..text import plain, read_again
from .amounts import exact

# How many fields a row has, in what parts a number is written as a decimal, and the hours of the longest year.
FIELDS, PLACES, MOST_HOURS = 7, 10 ** 12, 8784


class Service(enum.Enum):
    """What an exchanger does: with a hot utility, with a cold one, or between streams."""

    HEATER = 'heater'
    COOLER = 'cooler'
    EXCHANGER = 'exchanger'


class Flow(enum.Enum):
    """How both sides run through an exchanger."""

    COUNTER = 'counter-current'
    ONE_TWO = '1-2'


class Per(enum.Enum):
    """What a cost law is of."""

    SHELL = 'shell'
    EXCHANGER = 'exchanger'


class AnnualForm(enum.Enum):
    """How a capital becomes a cost a year: by a factor, or by an interest i over n years, as i(1+i)^n/((1+i)^n-1) or as
    (1+i)^n/n, which some books have."""

    FACTOR = 'factor'
    RECOVERY = 'recovery'
    COMPOUND = 'compound'


@dataclass(frozen=True)
class Measured:
    """A number with its unit."""

    value: Fraction
    unit: str

    def __str__(self) -> str:
        return f'{written(self.value)} {self.unit}'


@dataclass(frozen=True)
class Film:
    """The film coefficient of a source, and its fouling: a coefficient or a resistance, as the unit says."""

    source: str
    coefficient: Measured
    fouling: Measured | None = None


@dataclass(frozen=True)
class Overall:
    """The overall coefficient of the exchangers of a source, or of two; an empty name stands for every source."""

    source: str
    other: str
    coefficient: Measured


@dataclass(frozen=True)
class Material:
    """The material of the exchangers of a source."""

    source: str
    material: str


@dataclass(frozen=True)
class CostLaw:
    """`fixed + factor area^exponent`, of one kind of exchangers or of all, of one material or of those without; two
    materials at an exchanger are written `X+Y`."""

    service: Service | None
    material: str
    fixed: Fraction
    factor: Fraction
    exponent: Fraction
    unit: str


@dataclass(frozen=True)
class Build:
    """How exchangers of one kind, or of all, are built. `part` is the part of the greatest temperature effectiveness
    that a 1-2 shell may reach, `most` the most area of a shell."""

    service: Service | None
    flow: Flow
    part: Fraction | None
    most: Measured | None
    per: Per


@dataclass(frozen=True)
class Capital:
    """The money of the cost laws, by what they are multiplied for installation, and the cost index now over that of the
    laws."""

    currency: str
    installation: Fraction
    index: Fraction


@dataclass(frozen=True)
class Annual:
    """How a capital becomes a cost a year, and how many hours it is running; the hours are None where prices are per
    year."""

    form: AnnualForm
    rate: Fraction
    years: int
    hours: Fraction | None


@dataclass(frozen=True)
class UtilityRange:
    """The real ends of a utility that the case has at one level."""

    utility: str
    supply: Fraction
    target: Fraction
    unit: str


CostRow = Film | Overall | Material | CostLaw | Build | Capital | Annual | UtilityRange


def number_of(text: str, what: str) -> Fraction:
    """A number that has to be there; a `ValueError` where it is none."""
    return exact(needed(text, what))


def above_zero(text: str, what: str) -> Fraction:
    """A number above 0; a `ValueError` where it is none."""
    number = number_of(text, what)
    if number <= 0:
        raise ValueError(f'the {what} has to be above 0, and is {text}')
    return number


def from_zero(text: str, what: str) -> Fraction:
    """A number of at least 0; a `ValueError` where it is none."""
    number = number_of(text, what)
    if number < 0:
        raise ValueError(f'the {what} has to be at least 0, and is {text}')
    return number


def measured(value: str, unit: str, what: str) -> Measured:
    """A number with its unit. A table may have none, or a number that is none of a coefficient: that is refused where
    it is needed."""
    return Measured(number_of(value, what), read_again(unit))


def needed(text: str, what: str) -> str:
    if not text:
        raise ValueError(f'the {what} is missing')
    return text


def service_of(text: str) -> Service | None:
    words = {service.value: service for service in Service}
    if text and text not in words:
        raise ValueError(f'`{text}` is not a kind of exchanger: heater, cooler, exchanger, or empty for all')
    return words.get(text)


def film_of(fields: Sequence[str]) -> Film:
    fouling = measured(fields[3], fields[4], 'fouling') if fields[3] or fields[4] else None
    return Film(needed(fields[0], 'source'), measured(fields[1], fields[2], 'film coefficient'), fouling)


def overall_of(fields: Sequence[str]) -> Overall:
    return Overall(fields[0], fields[3], measured(fields[1], fields[2], 'overall coefficient'))


def material_of(fields: Sequence[str]) -> Material:
    return Material(needed(fields[0], 'source'), needed(read_again(fields[1]), 'material'))


def law_of(fields: Sequence[str]) -> CostLaw:
    fixed, factor = from_zero(fields[2], 'fixed cost'), from_zero(fields[3], 'factor')
    exponent = from_zero(fields[4], 'exponent')
    if exponent > 1:
        raise ValueError(f'the exponent {fields[4]} is above 1: a larger area would cost more a m² than a smaller one')
    unit = needed(fields[5], 'unit of area')
    return CostLaw(service_of(fields[0]), read_again(fields[1]), fixed, factor, exponent, unit)


def build_of(fields: Sequence[str]) -> Build:
    flows, pers = {flow.value: flow for flow in Flow}, {per.value: per for per in Per}
    if fields[1] not in flows:
        raise ValueError(f'`{fields[1]}` is not a way to build exchangers: counter-current or 1-2')
    if fields[5] not in pers:
        raise ValueError('the last field says what the cost law is of, shell or exchanger, and is '
                         f'`{fields[5]}`')
    part = exact(fields[2]) if fields[2] else None
    if part is None and fields[1] == Flow.ONE_TWO.value or part is not None and not 0 < part < 1:
        raise ValueError('a 1-2 shell needs X, the part of the greatest effectiveness that it may reach: above 0 and '
                         f'below 1, as 0.9, and not `{fields[2]}`')
    most = measured(fields[3], fields[4], 'most area of a shell') if fields[3] or fields[4] else None
    return Build(service_of(fields[0]), flows[fields[1]], part, most, pers[fields[5]])


def capital_of(fields: Sequence[str]) -> Capital:
    now, then = (above_zero(text or '1', 'cost index') for text in fields[2:4])
    if bool(fields[2]) != bool(fields[3]):
        raise ValueError('a cost index needs both values, that of now and that of the laws')
    installation = above_zero(needed(fields[1], 'installation factor'), 'installation factor')
    return Capital(needed(read_again(fields[0]), 'currency'), installation, now / then)


def annual_of(fields: Sequence[str]) -> Annual:
    forms = {form.value: form for form in AnnualForm}
    if fields[0] not in forms:
        raise ValueError(f'`{fields[0]}` is not a way to make a cost annual: factor, recovery or compound')
    form = forms[fields[0]]
    hours = above_zero(fields[3], 'number of hours a year') if fields[3] else None
    if hours and hours > MOST_HOURS:
        raise ValueError(f'a year has at most {MOST_HOURS} hours, and not {fields[3]}')
    if form is AnnualForm.FACTOR:
        return Annual(form, factor_of(fields[1], fields[2]), 0, hours)
    years = number_of(fields[2], 'number of years')
    if years.denominator != 1 or not 1 <= years <= 100:
        raise ValueError(f'a number of years is whole, 1 to 100, and not {fields[2]}')
    rate = from_zero(fields[1], 'interest')
    if rate >= 1:
        raise ValueError(f'an interest of {fields[1]} is 100 % or more: 10 % are 0.1')
    return Annual(form, rate, int(years), hours)


def factor_of(text: str, years: str) -> Fraction:
    """An annual factor that is given; a `ValueError` where it may be an interest, or a number of years."""
    factor = above_zero(text, 'annual factor')
    if years:
        raise ValueError(f'an annual factor has no years beside it: an interest of {text} over {years} years is '
                         'recovery or compound')
    if factor > 1:
        raise ValueError(f'the annual factor {text} is above 1, more than the whole capital each year')
    return factor


def range_of(fields: Sequence[str]) -> UtilityRange:
    supply, target = number_of(fields[1], 'real supply'), number_of(fields[2], 'real target')
    return UtilityRange(needed(fields[0], 'utility'), supply, target, needed(fields[3], 'unit of temperature'))


READERS: Mapping[str, Callable[[Sequence[str]], CostRow]] = {
    '#film': film_of, '#overall': overall_of, '#material': material_of, '#law': law_of, '#build': build_of,
    '#capital': capital_of, '#annual': annual_of, '#range': range_of}


def read_cost_row(row: Sequence[str]) -> CostRow | None:
    """What a comment row says; None where it is another comment. A `ValueError` says what is wrong with it."""
    reader = READERS.get(row[0])
    return reader(row[1:]) if reader else None


def subject(row: CostRow) -> tuple[object, ...]:
    """What a row speaks of: there is one row for each."""
    match row:
        case Film(source=name) | Material(source=name) | UtilityRange(utility=name):
            return (type(row), name)
        case Overall(source, other):
            return (Overall, frozenset((source, other)))
        case CostLaw(service, material):
            return (CostLaw, service, material)
        case Build(service):
            return (Build, service)
    return (type(row),)


def with_row(rows: tuple[CostRow, ...], row: CostRow) -> tuple[CostRow, ...]:
    """The rows with one more; a `ValueError` where one of them says otherwise."""
    for other in rows:
        if subject(other) == subject(row):
            if other != row:
                raise ValueError('a row above says something else')
            return rows
    return (*rows, row)


def printed_cost_row(row: CostRow) -> list[str]:
    """A row of seven fields; reading it gives the same."""
    word, *fields = fields_of(row)
    texts = ['' if field is None else written(field) for field in fields]
    return [str(word), *texts, *[''] * (FIELDS - 1 - len(texts))]


def written(field: object) -> str:
    """A field as a text: a number as a decimal where its places hold it."""
    if not isinstance(field, Fraction) or (field * PLACES).denominator > 1:
        return str(field)
    whole, rest = divmod(abs(int(field * PLACES)), PLACES)
    return f'{"-" * (field < 0)}{whole}.{rest:0{len(str(PLACES)) - 1}}'.rstrip('0').rstrip('.')


def fields_of(row: CostRow) -> Sequence[object]:
    match row:
        case Film(source, coefficient, fouling):
            return '#film', source, *pair(coefficient), *pair(fouling)
        case Overall(source, other, coefficient):
            return '#overall', source, *pair(coefficient), other
        case Material(source, material):
            return '#material', source, plain(material)
        case CostLaw(service, material, fixed, factor, exponent, unit):
            return '#law', service and service.value, plain(material), fixed, factor, exponent, unit
        case Build(service, flow, part, most, per):
            return '#build', service and service.value, flow.value, part, *pair(most), per.value
        case Capital(currency, installation, index):
            ratio: Sequence[object] = () if index == 1 else (index, 1)
            return '#capital', plain(currency), installation, *ratio
        case Annual(form, rate, years, hours):
            return '#annual', form.value, rate, years or None, hours
        case UtilityRange(utility, supply, target, unit):
            return '#range', utility, supply, target, unit


def pair(number: Measured | None) -> tuple[object, object]:
    return (number.value, plain(number.unit)) if number else (None, None)
