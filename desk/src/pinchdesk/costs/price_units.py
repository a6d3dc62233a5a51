"""Whether the unit of the prices and that of the costs go together: rows that are written by hand may leave out a
thousand. What is not known here is passed over; all units that there are take a second to load."""
from __future__ import annotations

import re
from fractions import Fraction

from ..formats.case import Basis
from ..formats.cost_rows import MOST_HOURS, written
from .cost_units import BTU

# Of what time a cost is.
TIMES = {'a': 'a', 'y': 'a', 'yr': 'a', 'year': 'a', 'h': 'h', 'hr': 'h', 'hour': 'h'}
# In W, and in watt-hours.
POWERS = {'W': Fraction(1), 'kW': Fraction(1000), 'MW': Fraction(10 ** 6), 'GW': Fraction(10 ** 9)}
ENERGIES = {**{f'{power}h': watts for power, watts in POWERS.items()}, 'MJ': Fraction(10 ** 6, 3600),
            'GJ': Fraction(10 ** 9, 3600), 'TJ': Fraction(10 ** 12, 3600), 'MMBtu': 10 ** 6 * BTU / 3600}
NEAR = Fraction(1, 100)


def amount_of(price_unit: str) -> tuple[Fraction, bool] | None:
    """How many watt-hours a price is of, or how many watts for a year; None where that is not known here."""
    below = re.sub(r'\bper\b', '/', price_unit).partition('/')[2]
    words = re.findall('[A-Za-z]+', below)
    years = [word for word in words if TIMES.get(word) == 'a']
    rest = [word for word in words if word not in years]
    if not re.fullmatch(r'[A-Za-z ()/*·]+', below) or len(rest) != 1 or len(years) > 1:
        return None
    amount = (POWERS if years else ENERGIES).get(rest[0])
    return None if amount is None else (amount, bool(years))


def fault_of_divisors(basis: Basis, time: str, hours: Fraction | None) -> str:
    """What is wrong with the divisor of costs beside that of prices; empty where nothing is, or nothing is known."""
    amount = amount_of(basis.price_unit)
    if amount is None:
        return ''
    watts = basis.units.in_watts(1) if basis.units else Fraction(1)
    divisor, told = basis.price_divisor * amount[0] / watts, ''
    if amount[1] == (time == 'a'):
        fits = abs(divisor / basis.cost_divisor - 1) <= NEAR
    elif time == 'a':
        # Prices of energy and a cost of a year: the hours of a year are in the divisor.
        divisor, told = divisor / (hours or MOST_HOURS), f' with {written(hours or Fraction(MOST_HOURS))} hours a year'
        fits = abs(divisor / basis.cost_divisor - 1) <= NEAR if hours else divisor * (1 - NEAR) <= basis.cost_divisor
    else:
        return ''
    return '' if fits else f'prices in {basis.price_unit}, divided by {written(basis.price_divisor)}, make costs in ' \
                           f'{basis.cost_unit} that are divided by {written(divisor)}{told}, and the row has ' \
                           f'{written(basis.cost_divisor)}'
