"""The logarithmic mean of two differences, without cancellation where they are nearly equal."""
from __future__ import annotations

from fractions import Fraction
from functools import lru_cache

from .enclosure import PRECISION, Enclosure, Number, between, enclosed, logarithm

# Below this square of (a - b) / (a + b) a difference of logarithms loses digits, and a series is short.
NEAR = Fraction(1, 400)
# The series is summed in whole parts of this, as far as a power is a few of them.
ONE, SMALLEST = 1 << PRECISION + 12, 8


def log_mean(first: Number, second: Number) -> Enclosure:
    """The logarithmic mean of two differences above 0; a `ValueError` where one is not."""
    if first <= 0 or second <= 0:
        raise ValueError('a difference is not above 0')
    if first == second:
        return enclosed(first)
    part = Fraction(first - second) / (first + second)
    if part ** 2 < NEAR:
        return enclosed(Fraction(first + second) / 2) / series(part ** 2)
    return enclosed(Fraction(first - second)) / logarithm(Fraction(first) / second)


def over_log_mean(number: Number, first: Number, second: Number) -> Enclosure:
    """An exact number over the logarithmic mean of two differences above 0."""
    gap = Fraction(first - second)
    if first <= 0 or second <= 0 or (gap / (first + second)) ** 2 < NEAR:
        return enclosed(number) / log_mean(first, second)
    return number / gap * logarithm(Fraction(first) / second)


def series(square: Fraction) -> Enclosure:
    """artanh(p) / p by the square of p."""
    low, high = series_ends(square.numerator, square.denominator)
    return between(Fraction(low, ONE), Fraction(high, ONE))


def series_ends(above: int, below: int) -> tuple[int, int]:
    """Both ends, in whole parts, of artanh(p) / p by the square of p, which is `above` over `below` and at most a
    ninth: the sum of square^k / (2k + 1), and what is left of it."""
    low = high = low_power = high_power = ONE
    low_step = above * ONE // below
    odd = 1
    while high_power > SMALLEST:
        odd += 2
        low_power, high_power = low_power * low_step // ONE, high_power * (low_step + 1) // ONE + 1
        low, high = low + low_power // odd, high + high_power // odd + 1
    # All that is left is less than the last power, since each is less than half of the one before.
    return low, high + high_power


def logarithm_ends(above: int, below: int) -> tuple[int, int]:
    """Both ends, in whole parts, of the logarithm of a number of at least 1, which is `above` over `below`: as many
    times that of 2 as it goes in, and a series of the rest."""
    twos = above.bit_length() - below.bit_length()
    below <<= twos
    gap, both = above - below, above + below
    low, high = series_ends(gap * gap, both * both)
    rest = (2 * gap * low // both, -(-2 * gap * high // both))
    if gap < 0:
        rest = (2 * gap * high // both, -(-2 * gap * low // both))
    two = two_ends()
    return twos * two[0] + rest[0], twos * two[1] + rest[1]


@lru_cache(maxsize=1)
def two_ends() -> tuple[int, int]:
    """Both ends of the logarithm of 2, twice the artanh of a third."""
    low, high = series_ends(1, 9)
    return 2 * low // 3, -(-2 * high // 3)


def log_mean_between(first: Enclosure, second: Enclosure) -> Enclosure:
    """The logarithmic mean of two enclosures above 0. Where they are far apart no digit is lost between them; else it
    is taken at their ends, since it rises with both."""
    low, other = first.low, second.low
    if ((low - other) / (low + other)) ** 2 < NEAR:
        return between(log_mean(low, other), log_mean(first.high, second.high))
    return (first - second) / logarithm(first / second)
