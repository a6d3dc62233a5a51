"""The limits of the numbers of a case (docs/FORMATS.md), and what is said of a number that is outside them."""
from __future__ import annotations

import re
from collections.abc import Iterable, Sequence
from fractions import Fraction
from typing import NamedTuple

from .amounts import rounded
from .shown import decimal

MOST_HOT, MOST_COLD, MOST_UTILITIES, MOST_FORBIDS = 30, 30, 12, 400
SCALES = tuple(Fraction(10) ** power for power in range(-3, 4))
PARTS = {Fraction(1, 1000): 'a thousandth', Fraction(1, 100): 'a hundredth', Fraction(1, 10): 'a tenth',
         Fraction(1): 'as they are', Fraction(10): 'ten times', Fraction(100): 'a hundred times',
         Fraction(1000): 'a thousand times'}


class Limit(NamedTuple):
    """The least and the most of a number in the program's unit, how many of these are one of the unit in which it is
    shown, that unit, the program's, and whether `--scale` changes the number."""

    least: int
    most: int
    times: int
    unit: str
    program: str
    scaled: bool

    def holds(self, number: int) -> bool:
        return self.least <= number <= self.most

    def told(self, scale: Fraction = Fraction(1)) -> str:
        """Both ends in the unit in which they are shown, before all heats are taken so many times."""
        times = self.times * scale if self.scaled else Fraction(self.times)
        return f'{decimal(self.least / times, 9)} to {decimal(self.most / times, 9)} {self.unit}'.strip()


TEMPERATURE = Limit(-2731, 30_000, 10, '°C', 'tenths of °C', False)
CONTRIBUTION = Limit(0, 1000, 10, 'K', 'tenths of °C', False)
CP = Limit(1, 100_000, 100, 'kW/K', '10 W/K', True)
LOAD = Limit(1, 10 ** 10, 10 ** 6, 'MW', 'W', True)
HEAT = Limit(0, 10 ** 12, 10 ** 6, 'MW', 'W', True)
PRICE = Limit(-10 ** 6, 10 ** 6, 1, '', 'per W', False)
# What the fields of a row of a case are, from the third on.
STREAM = (('supply', TEMPERATURE), ('target', TEMPERATURE), ('CP', CP), ('load', LOAD), ('contribution', CONTRIBUTION))
UTILITY = (('level', TEMPERATURE), ('least', HEAT), ('most', HEAT), ('price', PRICE), ('contribution', CONTRIBUTION))
FIELDS: dict[str, tuple[tuple[str, Limit], ...]] = {
    'contribution': (('contribution', CONTRIBUTION),), 'hot': STREAM, 'cold': STREAM, 'heater': UTILITY,
    'cooler': UTILITY}


def outside(what: str, limit: Limit, scale: Fraction) -> str:
    """What is said of a number of a table that is outside its limits."""
    return f'{what} is outside its limits, {limit.told(scale)}'


def outside_of_row(row: Sequence[str], own_units: bool = False) -> str:
    """What is said of the number of a row of a case that is outside its limits, in the program's unit, or in numbers of
    a case in units of its own; empty where there is none."""
    for (name, limit), text in zip(FIELDS.get(row[0] if row else '', ()), row[2:]):
        latent = name == 'CP' and len(row) > 5 and row[5]
        if re.fullmatch('-?[0-9]{1,13}', text) and not limit.holds(int(text)) and not latent:
            unit = 'the numbers of the case' if own_units else limit.program
            return f'the {name} {text} is outside its limits, {limit.least} to {limit.most} (in {unit})'
    return ''


def fitting_scale(heats: Iterable[tuple[Limit, Fraction]], now: Fraction) -> str:
    """What is said of the scale that brings all these heats, before any is taken, within their limits: that which is
    nearest to the present one. Empty where one is 0 or below that may not be."""
    limited_heats = list(heats)
    if any(heat < 0 or heat == 0 and limit.least for limit, heat in limited_heats):
        return ''
    for scale in sorted(SCALES, key=lambda candidate: (max(candidate / now, now / candidate), candidate)):
        if all(limit.holds(rounded(heat * scale)) for limit, heat in limited_heats):
            return f'--scale {decimal(scale, 3)} would do: all CPs and heats {PARTS[scale]}, and what the desk shows ' \
                   'is as in the table'
    return 'no --scale brings all within their limits: some are too large beside others that are too small'
