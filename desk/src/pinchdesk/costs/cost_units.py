"""Units of film coefficients, of fouling and of areas, in fractions of W/(m² K) and m².

`tables/units` has all units that `pint` knows, which takes it a second to load; these few are as it has them."""
from __future__ import annotations

import re
from fractions import Fraction
from functools import lru_cache

LONGEST = 40
SIGNS = {'²': '2', '⁻¹': '-1', '⁻²': '-2', '·': ' ', '⋅': ' ', '*': ' ', '×': ' ', '−': '-', '^': '', 'º': '°'}
TOKEN = re.compile(r'(?P<name>[A-Za-z°µ]+)(?P<power>-?[12])?')
SHAPE = re.compile(r'[A-Za-z°µ0-9/() .-]+')
# Powers of joule, second, metre and kelvin.
Dimensions = tuple[int, int, int, int]
HEAT, POWER, TIME, LENGTH, DIFFERENCE = (1, 0, 0, 0), (1, -1, 0, 0), (0, 1, 0, 0), (0, 0, 1, 0), (0, 0, 0, 1)
COEFFICIENT, RESISTANCE, AREA = (1, -1, -2, -1), (-1, 1, 2, 1), (0, 0, 2, 0)
# Of what a unit is none, with one that would do.
KINDS = {COEFFICIENT: 'film or overall coefficients, as kW/m2K', RESISTANCE: 'fouling, as m2K/kW',
         AREA: 'area, as m2 or ft2'}
CALORIE, BTU, FOOT = Fraction('4.184'), Fraction('1055.056'), Fraction('0.3048')
KNOWN: dict[str, tuple[Fraction, Dimensions]] = {
    'W': (Fraction(1), POWER), 'kW': (Fraction(1000), POWER), 'MW': (Fraction(10 ** 6), POWER),
    'J': (Fraction(1), HEAT), 'kJ': (Fraction(1000), HEAT), 'MJ': (Fraction(10 ** 6), HEAT), 'cal': (CALORIE, HEAT),
    'kcal': (1000 * CALORIE, HEAT), 'Btu': (BTU, HEAT), 's': (Fraction(1), TIME), 'second': (Fraction(1), TIME),
    'minute': (Fraction(60), TIME), 'h': (Fraction(3600), TIME), 'm': (Fraction(1), LENGTH),
    'cm': (Fraction(1, 100), LENGTH), 'ft': (FOOT, LENGTH), 'inch': (FOOT / 12, LENGTH),
    'K': (Fraction(1), DIFFERENCE), '°F': (Fraction(5, 9), DIFFERENCE)}
# As they are written too.
NAMES = {'°K': 'K', 'C': 'K', '°C': 'K', 'degC': 'K', 'kelvin': 'K', 'F': '°F', 'degF': '°F', 'R': '°F', 'hr': 'h',
         'hrs': 'h', 'hour': 'h', 'BTU': 'Btu', 'kw': 'kW', 'KW': 'kW'}


class NoUnit(ValueError):
    """A text that is no unit of what is measured."""


@lru_cache(maxsize=None)
def coefficient_factor(text: str) -> Fraction:
    """How many W/(m² K) a unit of film coefficients is; `NoUnit` where it is none."""
    return factor_of(text, COEFFICIENT)


@lru_cache(maxsize=None)
def fouling_resistance(value: Fraction, text: str) -> Fraction:
    """A fouling in m² K/W, from a resistance or from a coefficient; `NoUnit` where its unit is none of either."""
    try:
        return value * factor_of(text, RESISTANCE)
    except NoUnit:
        pass
    try:
        factor = coefficient_factor(text)
    except NoUnit as fault:
        raise NoUnit(f'`{text[:LONGEST]}` is not a unit of fouling, as m2K/kW or kW/m2K') from fault
    if not value:
        raise NoUnit('no fouling is a resistance of 0, as 0 m2K/kW, and no coefficient of 0')
    return 1 / (value * factor)


@lru_cache(maxsize=None)
def area_factor(text: str) -> Fraction:
    """How many m² a unit of areas is; `NoUnit` where it is none."""
    return factor_of(text, AREA)


def factor_of(text: str, wanted: Dimensions) -> Fraction:
    """How many of the unit of the SI of what is wanted a text names."""
    written = text.strip()
    for sign, plain in SIGNS.items():
        written = written.replace(sign, plain)
    # A dash before a name joins units, as in Btu/hr-ft2-F; before a digit it is a minus.
    written = re.sub(r'-(?=[A-Za-z°])', ' ', re.sub(r'\bsq\.?\s*(ft|m)\b', r'\g<1>2', written))
    above, *below = written.split('/')
    if len(text) > LONGEST or not SHAPE.fullmatch(written):
        raise NoUnit(f'`{text[:LONGEST]}` is not a known unit')
    # What stands after a stroke is below it, all of it: kW/m2K is kW/(m2 K).
    powers = [*tokens(text, above, 1), *(token for part in below for token in tokens(text, part, -1))]
    factor, dimensions = Fraction(1), [0, 0, 0, 0]
    for name, power in powers:
        factor *= KNOWN[name][0] ** power
        dimensions = [sum_of + power * own for sum_of, own in zip(dimensions, KNOWN[name][1])]
    if tuple(dimensions) != wanted:
        raise NoUnit(f'`{text}` is not a unit of {KINDS[wanted]}')
    return factor


def tokens(text: str, part: str, sign: int) -> list[tuple[str, int]]:
    """The units of one side of a stroke, with their powers."""
    found: list[tuple[str, int]] = []
    bare = re.sub(r'[().\s]+', ' ', part).strip()
    if TOKEN.sub('', bare).strip():
        raise NoUnit(f'`{text}` is not a known unit')
    for match in TOKEN.finditer(bare):
        name = NAMES.get(match['name'], match['name'])
        if name not in KNOWN:
            raise NoUnit(f'`{text}` is not a known unit: `{match["name"]}`')
        found.append((name, sign * int(match['power'] or '1')))
    return found
