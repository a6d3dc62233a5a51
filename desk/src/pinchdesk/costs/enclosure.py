"""Enclosures: two numbers between which another one lies for certain.

Heats and temperatures are fractions, and what decides is decided in them; a logarithm or a power is enclosed last. The
arithmetic is mpmath's of intervals, by its functions that are told the precision (`mpmath.iv` has one for everybody,
and takes the float 0.6 for three fifths)."""
from __future__ import annotations

from collections.abc import Iterable
from dataclasses import dataclass
from fractions import Fraction
from typing import Any

from mpmath.libmp import from_rational, mpi_add, mpi_div, mpi_exp, mpi_log, mpi_mul, mpi_sub

from ..formats.shown import decimal

# Bits of each end, and the most digits that are shown.
PRECISION, MOST_DIGITS = 100, 12
Number = int | Fraction


@dataclass(frozen=True, eq=False)
class Enclosure:
    """A number that lies between `low` and `high`. `ends` is mpmath's pair of them."""

    ends: Any

    @property
    def low(self) -> Fraction:
        return fraction_of(self.ends[0])

    @property
    def high(self) -> Fraction:
        return fraction_of(self.ends[1])

    @property
    def middle(self) -> Fraction:
        """Where the number is about: for an order among several, never for what decides."""
        return (self.low + self.high) / 2

    @property
    def told(self) -> str:
        """The digits on which both ends agree, at most twelve."""
        return agreed(self.low, self.high)

    def shown(self, places: int) -> str:
        """The number with at most so many decimals, and fewer where the ends do not agree on them."""
        for fewer in range(places, -1, -1):
            text = decimal(self.low, fewer)
            if text == decimal(self.high, fewer):
                return text
        return self.told

    def __add__(self, other: Enclosure | Number) -> Enclosure:
        return Enclosure(mpi_add(self.ends, ends_of(other), PRECISION))

    def __sub__(self, other: Enclosure | Number) -> Enclosure:
        return Enclosure(mpi_sub(self.ends, ends_of(other), PRECISION))

    def __mul__(self, other: Enclosure | Number) -> Enclosure:
        return Enclosure(mpi_mul(self.ends, ends_of(other), PRECISION))

    def __truediv__(self, other: Enclosure | Number) -> Enclosure:
        return Enclosure(mpi_div(self.ends, ends_of(other), PRECISION))

    __radd__ = __add__
    __rmul__ = __mul__

    def __rsub__(self, other: Number) -> Enclosure:
        return enclosed(other) - self

    def __rtruediv__(self, other: Number) -> Enclosure:
        return enclosed(other) / self

    def __contains__(self, number: Number) -> bool:
        return self.low <= number <= self.high

    def __repr__(self) -> str:
        return f'Enclosure({self.told})'


def fraction_of(end: Any) -> Fraction:
    sign, mantissa, exponent, _ = end
    above = -int(mantissa) if sign else int(mantissa)
    return Fraction(above << exponent) if exponent >= 0 else Fraction(above, 1 << -exponent)


def ends_of(number: Enclosure | Number) -> Any:
    if isinstance(number, Enclosure):
        return number.ends
    above, below = number.numerator, number.denominator
    low = from_rational(above, below, PRECISION, 'f')
    return (low, low) if below == 1 and abs(above) < 1 << PRECISION else \
        (low, from_rational(above, below, PRECISION, 'c'))


def enclosed(number: Enclosure | Number) -> Enclosure:
    """The enclosure of a number."""
    return number if isinstance(number, Enclosure) else Enclosure(ends_of(number))


def between(low: Enclosure | Number, high: Enclosure | Number) -> Enclosure:
    """What lies between the low end of one and the high end of another."""
    return Enclosure((ends_of(low)[0], ends_of(high)[1]))


def total(numbers: Iterable[Enclosure | Number]) -> Enclosure:
    """The sum of numbers, the exact ones first."""
    exact, whole = Fraction(0), enclosed(0)
    for number in numbers:
        if isinstance(number, Enclosure):
            whole += number
        else:
            exact += number
    return whole + exact


def logarithm(number: Enclosure | Number) -> Enclosure:
    """The natural logarithm of a number above 0."""
    return Enclosure(mpi_log(ends_of(number), PRECISION))


def exponential(number: Enclosure | Number) -> Enclosure:
    return Enclosure(mpi_exp(ends_of(number), PRECISION))


def power(base: Enclosure | Number, exponent: Number) -> Enclosure:
    """A number above 0 to an exact power."""
    if exponent == 0:
        return enclosed(1)
    return enclosed(base) if exponent == 1 else exponential(logarithm(base) * exponent)


def square_root(number: Number) -> Enclosure:
    """The root of a fraction, exact where it is one."""
    from math import isqrt
    above, below = Fraction(number).numerator, Fraction(number).denominator
    roots = isqrt(above), isqrt(below)
    if (roots[0] ** 2, roots[1] ** 2) == (above, below):
        return enclosed(Fraction(*roots))
    shift = 4 ** PRECISION
    low = Fraction(isqrt(above * below * shift), below * 2 ** PRECISION)
    return between(low, low + Fraction(1, below * 2 ** PRECISION))


def agreed(low: Fraction, high: Fraction) -> str:
    """A number with as many significant digits, at most twelve, as both of its ends give rounded alike; `?` where they
    agree on none."""
    largest = max(abs(low), abs(high))
    if not largest:
        return '0'
    before = len(str(int(largest))) if largest >= 1 else -leading_zeros(largest)
    for digits in range(MOST_DIGITS, 0, -1):
        places = digits - before
        texts = {rounded_at(low, places), rounded_at(high, places)}
        if len(texts) == 1:
            return texts.pop()
    return '?'


def leading_zeros(number: Fraction) -> int:
    """How many zeros stand after the point of a number below 1."""
    zeros = 0
    while number * 10 < 1:
        number, zeros = number * 10, zeros + 1
    return zeros


def rounded_at(number: Fraction, places: int) -> str:
    """A number with so many decimals; below 0 to tens, hundreds and so on."""
    if places >= 0:
        return decimal(number, places)
    step = 10 ** -places
    return decimal(Fraction(decimal(number / step, 0)) * step, 0)
