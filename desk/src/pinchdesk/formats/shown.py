"""Numbers as an engineer reads them: °C, K, kW, kW/K, prices and costs in the units of the table that the case came
from.

The program's numbers are exact, and are rounded here alone, half away from 0. A case whose basis has a scale holds
that many times the heats of the plant: they are divided again."""
from __future__ import annotations

from dataclasses import dataclass, replace
from fractions import Fraction
from math import ceil

from ..text import printable
from .case import Basis
from .case_units import CaseUnits

Number = int | Fraction


def decimal(value: Number, places: int) -> str:
    """A number with at most so many decimals, rounded half away from 0, without zeros at its end: 5/3 in 2 places is
    1.67."""
    numerator, denominator = value.numerator, value.denominator
    whole = (abs(numerator) * 10 ** places * 2 + denominator) // (2 * denominator)
    digits = str(whole).rjust(places + 1, '0')
    text = digits[:len(digits) - places] + ('.' + digits[len(digits) - places:] if places else '')
    text = text.rstrip('0').rstrip('.') if places else text
    return '-' + text if numerator < 0 and text != '0' else text


def decimal_up(value: Number, places: int) -> str:
    """A number with at most so many decimals, rounded up: what is at least this is at least the number."""
    return decimal(Fraction(ceil(Fraction(value) * 10 ** places), 10 ** places), places)


def is_rounded(value: Number, places: int) -> bool:
    """Whether so many decimals do not hold the number."""
    in_last_place: Fraction = Fraction(value) * 10 ** places
    return in_last_place.denominator != 1


def digits(number: Fraction, usual: int) -> int:
    """How many more decimals than usual one of so many parts needs: none of 1000 where 3 are usual."""
    return max(0, len(str(ceil(number) - 1)) - usual)


@dataclass(frozen=True)
class Shown:
    """Shows the numbers of a case with this basis. All arguments are in the program's units."""

    basis: Basis = Basis()

    @property
    def units(self) -> CaseUnits:
        """The units of the case; those of a case that says none are °C and kW."""
        return self.basis.units or CaseUnits()

    @property
    def si(self) -> Shown:
        """Shows the same numbers in °C and kW."""
        return replace(self, basis=replace(self.basis, units=self.units.si)) if self.basis.units else self

    def in_temperature(self, number: Number) -> Fraction:
        """A temperature in the unit of the case, exact."""
        return self.units.shown_temperature(number)

    def in_difference(self, number: Number) -> Fraction:
        return self.units.shown_difference(number)

    def in_heat(self, number: Number) -> Fraction:
        """A heat in the unit of the case, divided by the scale, exact."""
        return self.units.shown_heat(Fraction(number) / self.basis.scale)

    def in_flow(self, number: Number) -> Fraction:
        return self.units.shown_flow(Fraction(number) / self.basis.scale)

    def temperature(self, number: Number, places: int = 2) -> str:
        """A temperature in the unit of the case. Numbers have more decimals where the steps of the case are finer than
        hundredths of a degree, or its parts than watts of a kW."""
        return decimal(self.in_temperature(number), places + digits(self.units.steps, 2))

    def difference(self, number: Number, places: int = 2) -> str:
        """A difference of temperatures in the unit of the case."""
        return decimal(self.in_difference(number), places + digits(self.units.steps, 2))

    def with_degrees(self, difference: Number) -> str:
        """A difference of temperatures with its unit beside it."""
        return f'{self.difference(difference)} {self.units.difference}'

    def with_its_unit(self, temperature: Number) -> str:
        """A temperature with its unit beside it."""
        return f'{self.temperature(temperature)} {self.units.temperature}'

    def least_difference(self, contribution: int) -> str:
        """The least difference of a contribution, with its unit."""
        return self.with_degrees(2 * contribution)

    def heat(self, number: Number, places: int = 3) -> str:
        """A heat in the unit of the case, divided by the scale."""
        return decimal(self.in_heat(number), places + digits(self.units.parts, 3))

    def flow(self, number: Number, places: int = 4) -> str:
        """A CP in the unit of the case, divided by the scale."""
        return decimal(self.in_flow(number), places + self.finer_flow)

    def kelvin(self, kelvin: Number, places: int = 2) -> str:
        """A difference in K in the unit of the case."""
        return self.difference(self.units.of_tenths_between(Fraction(kelvin) * 10), places)

    def watts(self, watts: Number, places: int = 3) -> str:
        """A heat of the plant in W in the unit of the case."""
        return self.heat(self.units.of_watts(Fraction(watts)) * self.basis.scale, places)

    @property
    def finer_flow(self) -> int:
        """How many more decimals CPs have than those in kW/K."""
        return digits(self.units.parts / self.units.steps, 2)

    @property
    def temperature_unit(self) -> str:
        return self.units.temperature

    @property
    def difference_unit(self) -> str:
        return self.units.difference

    @property
    def heat_unit(self) -> str:
        return printable(self.units.heat)

    @property
    def flow_unit(self) -> str:
        return printable(self.units.flow)

    def price(self, price: Number) -> str:
        """A price in the unit of `price_unit`."""
        return decimal(Fraction(price) / self.basis.price_divisor, 6)

    def cost(self, cost: Number) -> str:
        """A cost in the unit of `cost_unit`."""
        return decimal(self.in_cost(cost), 3)

    def in_cost(self, cost: Number) -> Fraction:
        return Fraction(cost) / self.cost_divisor / self.basis.scale

    @property
    def cost_divisor(self) -> Fraction:
        """What divides the costs of the case; where it says no unit they are made of W, whatever units it has."""
        units = self.units if not self.basis.cost_unit else CaseUnits()
        return self.basis.cost_divisor * units.parts / units.watts

    def with_unit(self, cost: Number) -> str:
        """A cost with its unit beside it."""
        return f'{self.cost(cost)} {self.cost_unit}'

    def in_program(self, cost: Fraction) -> Fraction:
        """A cost in the unit of `cost_unit`, as the program has it."""
        return cost * self.cost_divisor * self.basis.scale

    def scale_remarks(self) -> list[str]:
        """What stands with numbers of the case as the program has them, where these are not the plant's."""
        if self.basis.units:
            return [f'duties and sizes are those of the case: 1 is {self.heat(1)} {self.heat_unit}, or {self.flow(1)} '
                    f'{self.flow_unit}']
        return [f'duties and sizes are {self.basis.scale} times the plant\'s, as in the case'] \
            if self.basis.scale != 1 else []

    @property
    def price_unit(self) -> str:
        """The unit of prices; that of a case without one is of one of the heats that its costs are made of."""
        _, times, heat = self.cost_unit.partition('price times ')
        return printable(self.basis.price_unit) or (f'per {heat}' if times else 'per W')

    @property
    def cost_unit(self) -> str:
        """The unit of costs; that of a case without one is price times W."""
        return printable(self.basis.cost_unit) or 'price times W'
