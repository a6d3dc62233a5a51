"""The units of a case whose numbers are those of its table: whole steps of its degree, and whole heats.

The program knows temperatures by their differences and order, and heats by their sums, so that a case may be held in
any unit. A case without a row `#units` has tenths of °C, and W."""
from __future__ import annotations

import re
from collections.abc import Sequence
from dataclasses import dataclass, replace
from fractions import Fraction

from ..text import plain, read_again
from .amounts import exact

# A temperature unit with its degrees in a kelvin, and its number at 0 °C.
TEMPERATURES = {'°C': (Fraction(1), Fraction(0)), 'K': (Fraction(1), Fraction('273.15')),
                '°F': (Fraction(9, 5), Fraction(32)), '°R': (Fraction(9, 5), Fraction('491.67'))}
DIFFERENCES = {'°C': 'K', 'K': 'K', '°F': '°F', '°R': '°F'}
LONGEST = 40


@dataclass(frozen=True)
class CaseUnits:
    """The unit of temperatures, in `steps` to a degree and with `zero` taken off, and that of heats, `parts` to one of
    it. `watts` is what one of the unit of heats is in W."""

    temperature: str = '°C'
    heat: str = 'kW'
    watts: Fraction = Fraction(1000)
    steps: Fraction = Fraction(10)
    zero: Fraction = Fraction(0)
    parts: Fraction = Fraction(1000)

    @property
    def si(self) -> CaseUnits:
        """The same numbers of a case, said in °C and kW."""
        degrees, at_zero = TEMPERATURES[self.temperature]
        usual = CaseUnits()
        return replace(usual, steps=self.steps * degrees, zero=(self.zero - at_zero) / degrees,
                       parts=self.parts * usual.watts / self.watts)

    @property
    def difference(self) -> str:
        return DIFFERENCES[self.temperature]

    @property
    def flow(self) -> str:
        """The unit of CPs: heats over degrees."""
        above, line, below = self.heat.partition('/')
        return f'{above}/({below} {self.difference})' if line else f'{self.heat}/{self.difference}'

    def shown_temperature(self, number: int | Fraction) -> Fraction:
        """A temperature of the case in its unit."""
        above = number / self.steps
        return above + self.zero if self.zero else above

    def shown_difference(self, number: int | Fraction) -> Fraction:
        return number / self.steps

    def shown_heat(self, number: int | Fraction) -> Fraction:
        return number / self.parts

    def shown_flow(self, number: int | Fraction) -> Fraction:
        return Fraction(number) * self.steps / self.parts

    def in_tenths(self, number: int | Fraction) -> Fraction:
        """A temperature of the case in tenths of °C."""
        return self.si.shown_temperature(number) * 10

    def in_kelvins(self, number: int | Fraction) -> Fraction:
        """A temperature of the case as an absolute one, in K."""
        return self.in_tenths(number) / 10 + TEMPERATURES['K'][1]

    def in_tenths_between(self, number: int | Fraction) -> Fraction:
        """A difference of the case in tenths of a kelvin."""
        return self.si.shown_difference(number) * 10

    def of_tenths(self, tenths: Fraction) -> Fraction:
        """A temperature in tenths of °C as the case has it."""
        degrees, at_zero = TEMPERATURES[self.temperature]
        return (tenths / 10 * degrees + at_zero - self.zero) * self.steps

    def of_tenths_between(self, tenths: Fraction) -> Fraction:
        """A difference in tenths of a kelvin as the case has it."""
        return tenths / 10 * TEMPERATURES[self.temperature][0] * self.steps

    def of_watts(self, watts: Fraction) -> Fraction:
        return watts / self.watts * self.parts

    def of_flow(self, flow: Fraction) -> Fraction:
        """A CP in 10 W/K as the case has it: 10 W/K times a tenth of a kelvin is a watt."""
        return self.of_watts(flow) / self.of_tenths_between(Fraction(1))

    def in_watts(self, heat: int | Fraction) -> Fraction:
        """A heat of the case in W."""
        return Fraction(heat) / self.parts * self.watts


def read_units(row: Sequence[str]) -> CaseUnits:
    """The units that a row `#units` says; a `ValueError` where it says none that there can be."""
    _, temperature, heat, watts, steps, zero, parts = row
    name = read_again(heat)
    if temperature not in TEMPERATURES:
        raise ValueError(f'`{temperature[:LONGEST]}` is not a unit of temperatures: {", ".join(TEMPERATURES)}')
    if not re.fullmatch(r'[^\s,][^,]{0,39}', name):
        raise ValueError(f'`{name[:LONGEST]}` is not a unit of heats')
    numbers = [exact(text, LONGEST) for text in (watts, steps, zero, parts)]
    if min(numbers[0], numbers[1], numbers[3]) <= 0:
        raise ValueError('a unit of heats, its parts and the steps of a degree are above 0')
    return CaseUnits(temperature, name, *numbers)


def units_row(units: CaseUnits) -> list[str]:
    """The row `#units` that says these."""
    return ['#units', units.temperature, plain(units.heat), str(units.watts), str(units.steps), str(units.zero),
            str(units.parts)]
