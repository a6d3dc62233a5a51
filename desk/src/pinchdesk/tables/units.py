"""Units: a number with its unit becomes an exact number of the program's units.

`pint` knows the units and converts them, in fractions. A temperature and a difference of temperatures are different
things: 50 °F are 10 °C, and 50 K of difference are 50 K; a CP has a difference below its line. A calorie is pint's
(4.184 J, thermochemical), a Btu too (1055.056 J, ISO)."""
from __future__ import annotations

import enum
import re
from dataclasses import dataclass
from fractions import Fraction
from functools import lru_cache
from typing import Any

from ..formats.shown import decimal


class Kind(enum.Enum):
    """What is measured: with the unit that is taken where none is given, and how many of the program's that is."""

    TEMPERATURE = ('°C', 10)
    DIFFERENCE = ('K', 10)
    FLOW = ('kW/K', 100)
    HEAT = ('kW', 1000)

    @property
    def default(self) -> str:
        return self.value[0]

    def shown(self, value: int | Fraction, scale: Fraction = Fraction(1)) -> str:
        """A number of the program as an engineer reads it, with its unit: of a case with a scale that of the plant."""
        return f'{decimal(value / scale / self.value[1], 6)} {self.default}'


class UnknownUnit(ValueError):
    """A text that is no unit of what is measured."""


@dataclass(frozen=True)
class Unit:
    """A unit: `number` of it is `(number + offset) * factor` of the program's."""

    text: str
    factor: Fraction
    offset: Fraction = Fraction(0)

    def exact(self, number: Fraction) -> Fraction:
        return (number + self.offset) * self.factor


LONGEST, LONGEST_TEXT = 60, 200
SIGNS = {'º': '°', '˚': '°', '℃': '°C', '℉': '°F', '\u212a': 'K', '·': '*', '⋅': '*', '•': '*', '∙': '*', '×': '*',
         '−': '-', '‐': '-', '‑': '-', '⁻¹': '^-1', '²': '^2', '³': '^3', 'µ': 'micro', 'μ': 'micro'}
ALLOWED = re.compile(r'[A-Za-z°_/*^() ]*(?:(?:\^|\*\*)-?[123](?!\s*(?:\^|\*\*))[A-Za-z°_/*^() ]*)*')
# Units as they are written in capitals, or in short.
WRITTEN = {'btu': 'Btu', 'btus': 'Btu', 'mmbtu': 'MMBtu', 'kbtu': 'kBtu', 'btuh': 'Btu/hour', 'mbh': 'MBH',
           'kcal': 'kcal', 'gcal': 'Gcal', 'mmkcal': 'MMkcal', 'kj': 'kJ', 'gj': 'GJ', 'h': 'hour', 'hr': 'hour',
           'hrs': 'hour', 'std': 'hour', 'stunde': 'hour', 'heure': 'hour', 'hora': 'hour', 'ora': 'hour', 'sec': 's',
           'kgmole': 'kmol', 'kgmol': 'kmol', 'kg': 'kg', 'lb': 'lb', 'lbs': 'lb', 'te': 't', 'kwh': 'kWh'}
DEGREES = re.compile(r'(?:\b(?:deg(?:ree)?s?|grad)\b\.?|\bdeg(?=[CFKR]\b)|°|\bo(?=[CF]\b))\s*'
                     r'(?:([CFKR])\b|(celsius|fahrenheit|kelvin)\b)', re.I)
# An exponent behind a unit, as in `kW K-1` and `m2`; a hyphen or a point between two units is a product.
BEHIND = re.compile(r'(?<=[A-Za-z])\^?(-1)(?![0-9])')
SQUARE = re.compile(r'\b(m|cm|ft)\^?([23])(?![0-9])')
PRODUCT = re.compile(r'(?<=[A-Za-z0-9)])\s*[-.]\s*(?=[A-Za-z°(])')
MILLIONS = re.compile(r'MM\s*\*?\s*(?=(?:btuh?|k?cal|kj|kw|w)\b)', re.I)
# PRO/II writes `K*KG/HR` and, of metric heats, `M*KJ/HR`, where a thousand is its `K*`.
STARRED = re.compile(r'(?:(?P<thousand>K)(?=\s*\*\s*(?:KG|LB|KJ|KCAL|BTU)\b)|M(?=\s*\*\s*K(?:J|CAL)\b))\s*\*\s*')
# `million Btu per hour`, `thousands of kcal/h`.
COUNTED = re.compile(r'(?:(?P<thousand>thousands?)|millions?)\s+(?:of\s+)?(?=[A-Za-z])', re.I)
# Heat is called so beside electric power: `kW_th`, `MWth`, `kW (th)`.
THERMAL = re.compile(r'(?<=[kKM]W)\s*_?\s*(?:th|\(th\)|thermal|therm)(?![A-Za-z])')
LETTER = re.compile(r'(?<![A-Za-z_°])([CF])(?![A-Za-z_])')
NAMED = re.compile(r'\b(celsius|fahrenheit)\b', re.I)
KELVIN = re.compile(r'\bkelvins?\b', re.I)
# `1000 kcal/h`, `x 10^6 Btu/h`, `1e6 W`; but `10e3` is 10,000 to some and 1,000 to others.
TIMES = re.compile(r'(?:[x*]\s*)?(?:10\s*(?:\^|\*\*)\s*(?P<power>[0-9]{1,2})|'
                   r'1[eE]\+?(?P<exponent>[0-9]{1,2})|(?P<number>[1-9][0-9]{0,6}))\s*(?:[x*]\s*)?'
                   r'(?P<unit>[^0-9\s.,\'^*].*)')
RAISED = re.compile('[⁰¹²³⁴-⁹]+')
# `KW` can be nothing else; MBtu is a thousand of them to some and a million to others, and mW was meant to be MW.
KILOWATT = re.compile(r'\b(?:KW|Kw|kw)(?![A-Za-z_])')
OPEN = re.compile(r'\b(?:(?i:mbtu)|m(?:W|J|cal))')
# As in `MBtu/h` and `Mkcal/h`.
EITHER = re.compile(r'M\s*\*?\s*(?=(?:[Bb][Tt][Uu]|[Kk][Cc][Aa][Ll]|[Kk][Jj]))|m(?=(?:W|J|cal))')
# Who gives a heat per month does not say how many hours it is running.
MONTH = re.compile(r'\b(?:months?|weeks?|fortnights?|quarters?|decades?|centur(?:y|ies))\b', re.I)
YEAR = re.compile(r'(?<![A-Za-z_])(a|y|yr|years?|annum|anno)(?![A-Za-z_])', re.I)
DIMENSIONS = {Kind.TEMPERATURE: 'kelvin', Kind.DIFFERENCE: 'kelvin', Kind.FLOW: 'watt / kelvin', Kind.HEAT: 'watt'}
# How much of the program's unit is in the SI unit above.
IN_PROGRAM = {Kind.TEMPERATURE: Fraction(10), Kind.DIFFERENCE: Fraction(10), Kind.FLOW: Fraction(1, 10),
              Kind.HEAT: Fraction(1)}
ZERO_CELSIUS = Fraction('273.15')


@lru_cache(maxsize=1)
def registry() -> Any:
    """pint's units, in fractions; it takes a second to make."""
    import pint
    made = pint.UnitRegistry(non_int_type=Fraction)
    made.define('MMBtu = 1000000 * Btu = MMBTU')
    made.define('MMkcal = 1000000000 * calorie')
    made.define('MBH = 1000 * Btu / hour')
    return made


def multiple_of(text: str) -> tuple[int, str]:
    """How many of a unit a text names, and the unit: 1000 and `kcal/h` of `1000 kcal/h`, else 1."""
    if len(text) > LONGEST_TEXT:
        return 1, text
    millions = MILLIONS.match(text.strip())
    if millions:
        return 10 ** 6, text.strip()[millions.end():]
    counted = STARRED.match(text.strip()) or COUNTED.match(text.strip())
    if counted:
        return 1000 if counted['thousand'] else 10 ** 6, text.strip()[counted.end():]
    with_powers = RAISED.sub(lambda match: '^' + ''.join(str('⁰¹²³⁴⁵⁶⁷⁸⁹'.index(digit)) for digit in match[0]),
                             text.strip())
    match = TIMES.fullmatch(with_powers.replace('×', 'x').replace('·', '*').replace('⋅', '*'))
    if not match:
        return 1, text
    tens = match['power'] or match['exponent']
    return 10 ** int(tens) if tens else int(match['number']), match['unit']


def normal(text: str) -> str:
    """A unit as it is written, in the letters that pint reads; `UnknownUnit` where it cannot be one."""
    plain = text.strip() if len(text) <= LONGEST_TEXT else ''
    for sign, letters in SIGNS.items():
        plain = plain.replace(sign, letters)
    plain = KILOWATT.sub('kW', re.sub(r'\b(?:per|pro|par|por)\b', '/', THERMAL.sub('', plain)))
    plain = DEGREES.sub(lambda match: '°' + (match[1] or match[2][0]).upper(), plain)
    plain = SQUARE.sub(r'\1^\2 ', BEHIND.sub(r'^\1', plain))
    plain = PRODUCT.sub('*', plain.rstrip('. '))
    plain = re.sub(r'[A-Za-z]+', lambda match: WRITTEN.get(match[0].lower(), match[0]), plain)
    plain = NAMED.sub(lambda match: '°' + match[1][0].upper(), LETTER.sub(r'°\1', KELVIN.sub('K', plain)))
    plain = plain.replace('°K', 'K').replace('°R', 'degR')
    if not plain or len(plain) > LONGEST or not ALLOWED.fullmatch(plain) or OPEN.search(plain):
        raise UnknownUnit(text)
    return plain


def readings(plain: str) -> tuple[str, ...]:
    """The ways to read a unit: `kJ/h*K` as it stands, and with all that follows the line below it."""
    above, line, below = plain.partition('/')
    if not line or not re.search(r'[*\s]', below.strip()) or below.count('(') != below.count(')'):
        return (plain,)
    return plain, f'{above}/({below.replace("/", "*")})'


@lru_cache(maxsize=None)
def unit_of(text: str, kind: Kind) -> Unit:
    """The unit that a text names; `UnknownUnit` where it names none of this kind. A heat over a year or a month is no
    power."""
    times, single = multiple_of(text)
    plain = normal(single)
    if kind in (Kind.HEAT, Kind.FLOW) and (YEAR.search(plain) or MONTH.search(plain)):
        raise UnknownUnit(text)
    if kind is Kind.TEMPERATURE:
        try:
            return temperature_unit(text, '' if times > 1 else plain)
        except Exception as fault:
            # pint has no error of its own for each text that it cannot read.
            raise UnknownUnit(text) from fault
    factor = factor_of(plain, DIMENSIONS[kind])
    if factor is None:
        raise UnknownUnit(text)
    return Unit(text, times * factor * IN_PROGRAM[kind])


def factor_of(plain: str, dimension: str) -> Fraction | None:
    """How many of a unit of the SI another one is, where it measures the same."""
    known = registry()
    for reading in readings(plain.replace('°C', 'delta_degC').replace('°F', 'delta_degF')):
        try:
            return Fraction(known.Quantity(Fraction(1), parsed(reading)).to(dimension).magnitude)
        except Exception:
            # pint has no error of its own for each text that it cannot read.
            continue
    return None


def open_unit(text: str) -> str:
    """Why a unit is refused whose first letter may be one multiple or another, and what to write in its place; empty
    where it is no such unit."""
    match = EITHER.match(text.strip())
    if match is None:
        return ''
    bare = text.strip()[match.end():]
    if not any(is_unit(bare, kind) for kind in Kind):
        return ''
    if match[0].startswith('m'):
        return f'the `m` of `{text}` is a thousandth, and may be meant as a million: write `M{bare}`, or the number '\
               f'in {bare}'
    return f'the `M` of `{text}` is a thousand in some programs and a million in others: write `10^3 {bare}` or ' \
           f'`10^6 {bare}`'


def said_multiple(text: str) -> str:
    """What is told of a unit with an `M*`, as PRO/II writes it; empty of any other one."""
    match = STARRED.match(text.strip())
    if match is None or match['thousand']:
        return ''
    return f'`{text}` is taken as 10^6 {text.strip()[match.end():]}, as PRO/II writes it'


@lru_cache(maxsize=None)
def size_of(text: str, dimension: str) -> Fraction | None:
    """How many of a unit of the SI, as `kg/s`, the unit is that a text names; None where it measures something
    else."""
    times, single = multiple_of(text)
    try:
        factor = factor_of(normal(single), dimension)
    except UnknownUnit:
        return None
    return None if factor is None else times * factor


def measures(text: str, dimension: str) -> bool:
    return size_of(text, dimension) is not None


def parsed(text: str) -> Any:
    """What pint reads; `UnknownUnit` where an angle or a part is in it, which would be taken for a mere number."""
    known = registry()
    made = known.Unit(text)
    if any(known.Unit(name).dimensionless for name, _ in known.Quantity(1, made).to_tuple()[1]):
        raise UnknownUnit(text)
    return made


def temperature_unit(text: str, plain: str) -> Unit:
    known = registry()
    unit = parsed(plain.replace('°C', 'degC').replace('°F', 'degF'))
    zero, one = (Fraction(known.Quantity(Fraction(degrees), unit).to('kelvin').magnitude) for degrees in (0, 1))
    factor = one - zero
    return Unit(text, factor * IN_PROGRAM[Kind.TEMPERATURE], (zero - ZERO_CELSIUS) / factor)


def unit_or_none(text: str, kind: Kind) -> Unit | None:
    try:
        unit: Unit = unit_of(text, kind)
    except UnknownUnit:
        return None
    return unit


def is_unit(text: str, kind: Kind) -> bool:
    return unit_or_none(text, kind) is not None


def same_unit(one: str, other: str, kind: Kind) -> bool:
    """Whether two units are one; of an unknown one it is left to the reading of it."""
    first, second = unit_or_none(one, kind), unit_or_none(other, kind)
    if first is None or second is None:
        return one == other
    return (first.factor, first.offset) == (second.factor, second.offset)


def names_fahrenheit(unit: Unit, kind: Kind) -> bool:
    """Whether a unit has degrees of Fahrenheit's size, alone or below its line."""
    if kind in (Kind.TEMPERATURE, Kind.DIFFERENCE):
        return unit.factor != IN_PROGRAM[kind]
    return kind is Kind.FLOW and re.search('°F|degR|°R|rankine', normal(multiple_of(unit.text)[1]), re.I) is not None


def of_kilowatts(unit: Unit, kind: Kind) -> bool:
    """Whether a unit of heats or CPs counts in kW."""
    degree = Fraction(9, 5) if names_fahrenheit(unit, kind) else Fraction(1)
    usual: Unit = unit_of(kind.default, kind)
    return unit.factor == usual.factor * degree


def is_multiple(text: str, kind: Kind) -> bool:
    """Whether a text is a power of ten of a unit of heat, as `1000 kcal/h` and `10 W/K`."""
    times, _ = multiple_of(text)
    return kind in (Kind.HEAT, Kind.FLOW) and times > 1 and set(str(times)[1:]) <= {'0'} and str(times)[0] == '1' \
        and is_unit(text, kind)
