"""Enclosures hold the number: logarithmic means, powers, roots and what is shown of them, beside fifty digits."""
from __future__ import annotations

from fractions import Fraction
from typing import Any

import pytest
from fifty import FIFTY, digits, holds, width
from hypothesis import given
from hypothesis import strategies as st

from pinchdesk.costs.cost_units import KNOWN, NoUnit, coefficient_factor
from pinchdesk.costs.enclosure import agreed, between, enclosed, power, square_root, total
from pinchdesk.costs.log_mean import ONE, log_mean, log_mean_between, logarithm_ends

DIFFERENCES = st.fractions(min_value=Fraction(1, 1000), max_value=500, max_denominator=10 ** 6)
SMALL_STEPS = st.integers(1, 40).map(lambda places: Fraction(1, 10 ** places))


def mean_of(first: Fraction, second: Fraction) -> Any:
    """The logarithmic mean with digits enough for differences that are nearly equal."""
    with FIFTY.workdps(150):
        return digits(first - second) / FIFTY.log(digits(first) / digits(second))


@given(DIFFERENCES, DIFFERENCES)
def test_a_logarithmic_mean_lies_in_its_enclosure(first: Fraction, second: Fraction) -> None:
    mean = log_mean(first, second)
    assert width(mean) < Fraction(1, 10 ** 20)
    if first != second:
        assert holds(mean, mean_of(first, second))
    assert holds(log_mean(second, first), digits(mean.middle))


@given(DIFFERENCES, SMALL_STEPS)
def test_nearly_equal_differences_lose_no_digit(first: Fraction, step: Fraction) -> None:
    second = first + step
    mean = log_mean(first, second)
    assert width(mean) < Fraction(1, 10 ** 20)
    assert holds(mean, mean_of(first, second))


def test_equal_differences_are_their_mean_exactly() -> None:
    mean = log_mean(20, 20)
    assert mean.low == mean.high == 20 and mean.told == '20'


@pytest.mark.parametrize(('first', 'second'), [(0, 10), (10, 0), (0, 0), (-5, 10), (10, -5)])
def test_a_difference_that_is_not_above_0_has_no_mean(first: int, second: int) -> None:
    with pytest.raises(ValueError, match='not above 0'):
        log_mean(first, second)


@given(DIFFERENCES, st.fractions(min_value=0, max_value=1, max_denominator=100))
def test_a_power_lies_in_its_enclosure(base: Fraction, exponent: Fraction) -> None:
    with FIFTY.workdps(60):
        assert holds(power(base, exponent), FIFTY.exp(FIFTY.log(digits(base)) * digits(exponent)))


@given(DIFFERENCES)
def test_a_root_lies_in_its_enclosure(number: Fraction) -> None:
    root = square_root(number)
    assert root.low ** 2 <= number <= root.high ** 2
    assert width(root) < Fraction(1, 10 ** 25)
    assert number in square_root(number ** 2)
    assert width(square_root(Fraction(25, 16))) == 0


@given(DIFFERENCES, DIFFERENCES, SMALL_STEPS)
def test_the_mean_of_enclosures_holds_all_means_between(first: Fraction, second: Fraction, step: Fraction) -> None:
    wide = log_mean_between(between(first, first + step), between(second, second + step))
    assert wide.low <= log_mean(first, second).high
    assert log_mean(first + step, second + step).low <= wide.high


def test_what_both_ends_agree_on_is_shown() -> None:
    assert agreed(Fraction('39.70384'), Fraction('39.70386')) == '39.704'
    assert agreed(Fraction('0.00123456'), Fraction('0.00123457')) == '0.0012346'
    assert agreed(Fraction(7409980), Fraction(7410020)) == '7410000'
    assert agreed(Fraction(0), Fraction(0)) == '0'
    assert agreed(Fraction(-1), Fraction(1)) == '?'
    assert (enclosed(1) / 3).told == '0.333333333333'
    assert (enclosed(2) / 3).shown(2) == '0.67'


def test_exact_numbers_are_added_exactly() -> None:
    assert total([Fraction(1, 10)] * 10).low == total([Fraction(1, 10)] * 10).high == 1
    assert (Fraction(3, 5) * enclosed(5)).low <= 3 <= (Fraction(3, 5) * enclosed(5)).high
    assert Fraction(3) in 5 - enclosed(2)
    assert Fraction(5, 2) in 5 / enclosed(2)


@given(st.integers(1, 10 ** 30), st.integers(0, 10 ** 30))
def test_a_logarithm_lies_between_its_ends(below: int, more: int) -> None:
    low, high = logarithm_ends(below + more, below)
    assert holds(between(Fraction(low, ONE), Fraction(high, ONE)), FIFTY.log(digits(Fraction(below + more, below))))
    assert high - low < 10 ** 5


# Units of coefficients, which are as pint has them.

WRITTEN = {'W': 'watt', 'h': 'hour', 's': 'second', 'm': 'meter', 'K': 'kelvin', '°F': 'delta_degF', 'inch': 'inch'}


def test_units_are_those_that_pint_has() -> None:
    from pinchdesk.tables.units import registry
    base = {(1, 0, 0, 0): 'joule', (1, -1, 0, 0): 'watt', (0, 1, 0, 0): 'second', (0, 0, 1, 0): 'meter',
            (0, 0, 0, 1): 'kelvin'}
    for name, (factor, dimensions) in KNOWN.items():
        amount = registry().Quantity(Fraction(1), WRITTEN.get(name, name)).to(base[dimensions])
        assert Fraction(amount.magnitude) == factor, name


@pytest.mark.parametrize(('text', 'factor'), [
    ('kW/m2K', 1000), ('W/(m2 K)', 1), ('W m-2 K-1', 1), ('kJ/h·m²·°C', Fraction(5, 18)), ('kW/cm2K', 10 ** 7),
    ('Btu/(h ft2 °F)', Fraction(1648525, 290322)),
    ('Btu/hr-ft2-F', Fraction(1648525, 290322)), ('kJ/h-m2-C', Fraction(5, 18)), ('kcal/(h m2 C)', Fraction(523, 450))])
def test_coefficients_are_read_as_people_write_them(text: str, factor: Fraction) -> None:
    assert coefficient_factor(text) == factor


@pytest.mark.parametrize('text', ['kW/K', 'x', '', 'kW/m2', '1/m2K', 'kW/m3K', 'kW/m2K' * 10, 'm2K/kW', 'kW/mK'])
def test_what_is_no_coefficient_is_none(text: str) -> None:
    with pytest.raises(NoUnit):
        coefficient_factor(text)
