"""Prices of utilities: from a table's units to whole prices per W, and the unit in which all costs come back.

The program knows prices per W, in proportion. A price per energy (`EUR/MWh`) makes a cost per hour of running, or per
year where `--hours` says how many of them a year has; a price per power and year (`EUR/(kW a)`) makes a cost per
year."""
from __future__ import annotations

import re
from collections.abc import Sequence
from dataclasses import dataclass, field
from fractions import Fraction
from math import gcd, lcm

from ..formats.amounts import rounded
from ..formats.case import Basis
from .money import money_of, two_moneys
from .units import (KILOWATT, LONGEST, LONGEST_TEXT, OPEN, SIGNS, WRITTEN, YEAR, UnknownUnit, multiple_of, parsed,
                    registry)

MOST = 1_000_000
MONEY = re.compile(r'[^\W\d]{0,8}|[€$£¥]|[A-Za-z]{0,3}[€$£¥]')
WATT_YEAR = re.compile(r'\b([kMG]?W)(?:a|y|yr|year)\b')
# Exponents in place of a line: `€ MWh^-1`, `$ kW^-1 yr^-1`.
EXPONENTS = re.compile(r'(?P<money>[^\s*/0-9]*)[\s*]*(?P<first>[A-Za-z]+)\^?-1(?:[\s*]*(?P<second>[A-Za-z]+)\^?-1)?')


@dataclass(frozen=True)
class PriceUnit:
    """A unit of prices: money per `amount` watt-hours, or watts for a year. Two are one however they are written."""

    text: str = field(compare=False)
    money: str = field(compare=False)
    code: str
    amount: Fraction
    yearly: bool


def price_unit_of(text: str) -> PriceUnit:
    """The unit that a text names, as `EUR/MWh`, `per kWh`, `€/(kW a)`, `per kW and year`; `UnknownUnit` where it is
    none."""
    plain = text.strip() if len(text) <= LONGEST_TEXT else ''
    for sign, letters in SIGNS.items():
        plain = plain.replace(sign, letters)
    exponents = EXPONENTS.fullmatch(plain)
    if exponents:
        plain = f'{exponents["money"]}/({" ".join(part for part in exponents.groups()[1:] if part)})'
    plain = re.sub(r'\band\b', '*', re.sub(r'(?:^|\b)(?:per|pro|par|por)\b', '/', plain))
    money, slash, below = (part.strip() for part in plain.partition('/'))
    times, below = multiple_of(below.strip('() ') if below.count('(') == 1 and below.endswith(')') else below)
    below = re.sub(r'[A-Za-z]+', lambda match: WRITTEN.get(match[0].lower(), match[0]), KILOWATT.sub('kW', below))
    below = WATT_YEAR.sub(r'\1 a', re.sub(r'\b(?:KW|Kw|kw)(?=yr?|a)', 'kW', below)).replace('-', ' ')
    if not slash or not MONEY.fullmatch(money) or len(plain) > LONGEST or not re.fullmatch(r'[A-Za-z/*() .]+', below) \
            or OPEN.search(below):
        raise UnknownUnit(text)
    words = [word for word in re.split(r'[/*() .]+', below) if word]
    years = [word for word in words if YEAR.fullmatch(word)]
    rest = ' * '.join(word for word in words if word not in years)
    if len(years) > 1 or not rest:
        raise UnknownUnit(text)
    return PriceUnit(text.strip(), money, money_of(money), times * amount_of(text, rest, bool(years)), bool(years))


def same_price_unit(one: str, other: str) -> bool:
    """Whether two texts name one unit of prices."""
    try:
        return price_unit_of(one) == price_unit_of(other)
    except UnknownUnit:
        return one == other


def amount_of(text: str, rest: str, yearly: bool) -> Fraction:
    """How many watt-hours (watts of a yearly price) the unit below the money is."""
    known = registry()
    try:
        one = known.Quantity(Fraction(1), parsed(rest)).to('watt' if yearly else 'watt * hour')
        return Fraction(one.magnitude)
    except Exception as fault:
        # pint has no error of its own for each text that it cannot read.
        raise UnknownUnit(text) from fault


@dataclass(frozen=True)
class Priced:
    """Whole prices per W, the basis that turns prices and costs back, and what they would be without rounding, in the
    unit of the basis."""

    prices: tuple[int, ...]
    basis: Basis
    exact: tuple[Fraction, ...]

    def rounded(self, at: int) -> bool:
        """Whether a price is not what the table has."""
        return self.exact[at] * self.basis.price_divisor != self.prices[at]


class PriceFault(ValueError):
    """Prices that do not go together; the message says why."""


def priced(prices: Sequence[Fraction], units: Sequence[PriceUnit | None], hours: Fraction | None) -> Priced:
    """Whole prices in the proportions of these; `PriceFault` where their units do not go together."""
    first = units[0] if units else None
    check_together(units)
    if first is None:
        factor, whole = whole_prices(prices)
        basis = Basis() if factor == 1 else Basis(price_unit='as in the table', price_divisor=factor,
                                                  cost_unit='price times W', cost_divisor=factor)
        return Priced(whole, basis, tuple(prices))
    yearly = hours is not None or any(unit.yearly for unit in units if unit)
    per_watt = [common(price, unit, yearly, hours) for price, unit in zip(prices, units) if unit]
    times = 1 / common(Fraction(1), first, yearly, hours)
    exact = tuple(watt_price * times for watt_price in per_watt)
    factor, whole = whole_prices(exact)
    cost_unit = (first.money + '/' if first.money else 'per ') + ('a' if yearly else 'h')
    basis = Basis(price_unit=first.text, price_divisor=factor, cost_unit=cost_unit, cost_divisor=factor * times)
    return Priced(whole, basis, exact)


def check_together(units: Sequence[PriceUnit | None]) -> None:
    """`PriceFault` where some prices have a unit and some none, or where they are in two moneys."""
    known = [unit for unit in units if unit]
    if known and len(known) < len(units):
        raise PriceFault('some prices have a unit, and some have none: write it with all of them')
    for unit in known:
        said = two_moneys(known[0].money, unit.money)
        if said:
            raise PriceFault(said + ('' if said.startswith('`') else ': write all prices in one'))


def common(price: Fraction, unit: PriceUnit, yearly: bool, hours: Fraction | None) -> Fraction:
    """A price per W and hour, or per W and year."""
    per_watt = price / unit.amount
    if not yearly or unit.yearly:
        return per_watt
    if hours is None:
        raise PriceFault('prices per energy and prices per year: --hours says how many hours a year has')
    return per_watt * hours


def times_ten(below: int) -> int:
    """The least power of ten that a number divides, else the number itself."""
    return next((10 ** power for power in range(8) if 10 ** power % below == 0), below)


def whole_prices(prices: Sequence[Fraction]) -> tuple[Fraction, tuple[int, ...]]:
    """A factor that makes all prices whole and small enough, and the prices; where there is none they are rounded."""
    below = lcm(*(price.denominator for price in prices)) if prices else 1
    above = gcd(*(int(price * below) for price in prices)) or 1
    for factor in (Fraction(times_ten(below)), Fraction(below), Fraction(below, above)):
        if all(abs(price * factor) <= MOST for price in prices):
            return factor, tuple(int(price * factor) for price in prices)
    largest = max(abs(price) for price in prices)
    factor = Fraction(10) ** (len(str(MOST)) - 1)
    while largest * factor > MOST:
        factor /= 10
    return factor, tuple(rounded(price * factor) for price in prices)
