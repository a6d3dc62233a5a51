"""Units and numbers: each is converted exactly, or refused."""
from __future__ import annotations

from decimal import Decimal
from fractions import Fraction

import pytest
from hypothesis import given
from hypothesis import strategies as some

from pinchdesk.formats.amounts import rounded
from pinchdesk.tables.numbers import NoNumber, Says, numeral_of, readings
from pinchdesk.tables.prices import PriceFault, price_unit_of, priced
from pinchdesk.tables.units import Kind, UnknownUnit, unit_of

KNOWN = [
    (Kind.TEMPERATURE, '°C', 150, 1500), (Kind.TEMPERATURE, 'K', Fraction('423.15'), 1500),
    (Kind.TEMPERATURE, '°F', 212, 1000), (Kind.TEMPERATURE, 'F', 50, 100), (Kind.TEMPERATURE, 'C', 5, 50),
    (Kind.TEMPERATURE, 'deg C', 5, 50), (Kind.TEMPERATURE, 'Celsius', 5, 50), (Kind.TEMPERATURE, '℃', 5, 50),
    (Kind.TEMPERATURE, 'Grad C', 5, 50), (Kind.TEMPERATURE, 'grad Celsius', 5, 50), (Kind.TEMPERATURE, '° C', 5, 50),
    (Kind.TEMPERATURE, 'Kelvin', Fraction('423.15'), 1500), (Kind.TEMPERATURE, 'degF', 212, 1000),
    (Kind.TEMPERATURE, 'degrees Celsius', 5, 50), (Kind.FLOW, 'MJ/(h K)', 36, 1000), (Kind.HEAT, 'kJ/s', 2, 2000),
    (Kind.TEMPERATURE, 'ºC', 5, 50), (Kind.TEMPERATURE, '°R', Fraction('491.67'), 0), (Kind.DIFFERENCE, 'K', 10, 100),
    (Kind.DIFFERENCE, '°C', 10, 100), (Kind.DIFFERENCE, '°F', 18, 100), (Kind.FLOW, 'kW/K', 2, 200),
    (Kind.FLOW, 'MW/K', 2, 200_000), (Kind.FLOW, 'MW/°C', 2, 200_000), (Kind.FLOW, 'kW per K', 2, 200),
    (Kind.FLOW, 'W/K', 2000, 200), (Kind.FLOW, '10 W/K', 7, 7), (Kind.FLOW, 'kJ/(s K)', 2, 200),
    (Kind.FLOW, 'kW·K⁻¹', 2, 200), (Kind.FLOW, 'kW K^-1', 2, 200), (Kind.FLOW, 'kW/C', 2, 200),
    (Kind.FLOW, 'kcal/h/°C', 4500, 523), (Kind.FLOW, 'Btu/(h °F)', 1_250_000, 65941), (Kind.HEAT, 'kW', 2, 2000),
    (Kind.HEAT, 'MW', 2, 2_000_000), (Kind.HEAT, 'W', 2, 2), (Kind.HEAT, 'GJ/h', 9, 2_500_000),
    (Kind.FLOW, 'KW/K', 2, 200), (Kind.HEAT, 'kw', 2, 2000), (Kind.HEAT, 'MJ/min', 6, 100_000),
    (Kind.HEAT, 'Btu/h', 225_000, 65941), (Kind.HEAT, 'kcal/h', 450, 523), (Kind.HEAT, 'MMBtu/h', 9, 2_637_640),
    (Kind.HEAT, 'M*KJ/HR', 9, 2_500_000), (Kind.HEAT, 'K*KJ/HR', 9, 2500), (Kind.HEAT, 'kW_th', 2, 2000),
    (Kind.HEAT, 'MWth', 2, 2_000_000), (Kind.HEAT, 'million Btu per hour', 9, 2_637_640),
    (Kind.HEAT, 'thousands of kJ/h', 9, 2500),
]
UNKNOWN = [
    (Kind.TEMPERATURE, 'kW'), (Kind.TEMPERATURE, 'x'), (Kind.TEMPERATURE, '9**9**9'), (Kind.TEMPERATURE, 'K^2'),
    (Kind.TEMPERATURE, 'rad K'), (Kind.HEAT, 'kW grade'), (Kind.HEAT, 'percent kW'), (Kind.FLOW, 'kW/K/rad'),
    (Kind.FLOW, 'kW'), (Kind.FLOW, 'kJ/kg/K'), (Kind.FLOW, 'kWh/a/K'), (Kind.FLOW, 'MBtu/h/F'), (Kind.FLOW, ''),
    (Kind.HEAT, 'mW'), (Kind.FLOW, 'mW/K'), (Kind.HEAT, 'MWh/month'), (Kind.HEAT, 'mJ/h'), (Kind.HEAT, '10e3 kW'),
    (Kind.HEAT, '1,000 kW'),
    (Kind.HEAT, 'kWh'), (Kind.HEAT, 'TJ/yr'), (Kind.HEAT, 'GJ/a'), (Kind.HEAT, 'MBtu/h'), (Kind.HEAT, 'EUR'),
    (Kind.HEAT, 'M*BTU/HR'), (Kind.HEAT, 'MkJ/h'),
    (Kind.HEAT, 'K*W'), (Kind.FLOW, 'K*W/K'), (Kind.HEAT, 'MWe'), (Kind.HEAT, 'million'),
    (Kind.HEAT, 'kW' * 30), (Kind.HEAT, '__import__("os")'), (Kind.HEAT, 'kW/K'), (Kind.DIFFERENCE, '%'),
]


@pytest.mark.parametrize('kind, text, number, wanted', KNOWN)
def test_a_unit_is_converted_exactly(kind: Kind, text: str, number: Fraction, wanted: int) -> None:
    assert unit_of(text, kind).exact(Fraction(number)) == wanted


@pytest.mark.parametrize('kind, text', UNKNOWN)
def test_what_is_no_unit_of_it_is_refused(kind: Kind, text: str) -> None:
    with pytest.raises(UnknownUnit):
        unit_of(text, kind)


@given(some.text(max_size=12), some.sampled_from(Kind))
def test_any_text_is_a_unit_or_refused(text: str, kind: Kind) -> None:
    try:
        assert unit_of(text, kind).factor > 0
    except UnknownUnit:
        pass


NUMBERS = [
    ('12', Says.NOTHING, '12'), ('12.5', Says.POINT, '12.5'), ('1.234,5', Says.COMMA, '1234.5'),
    ('0,250', Says.COMMA, '0.250'), ('1.234.567', Says.COMMA, '1234567'), ('1,234,567', Says.POINT, '1234567'),
    ('1 250', Says.NOTHING, '1250'), ('1 250,5', Says.COMMA, '1250.5'), ("1'250.75", Says.POINT, '1250.75'),
    ('1\u202f250', Says.NOTHING, '1250'), ('−5,0', Says.COMMA, '-5.0'), ('-5', Says.NOTHING, '-5'),
    ('+5', Says.NOTHING, '5'), ('.5', Says.POINT, '0.5'), ('1234.567', Says.POINT, '1234.567'),
    ('1.5E+03', Says.POINT, '1500'), ('1,000.000', Says.POINT, '1000.000'),
]
NO_NUMBERS = [
    '', 'x', '1,2,3', '1.23.456', '1 25', '1,00,000', '++5', '(60)', '0.5.', '1 2 3', '1,25.5', '#REF!', '٣', '५',
]


@pytest.mark.parametrize('text, says, value', NUMBERS)
def test_a_number_says_its_mark(text: str, says: Says, value: str) -> None:
    numeral = numeral_of(text)
    assert numeral.says is says
    assert numeral.value(says.value or '.') == Decimal(value)
    if says.value:
        with pytest.raises(NoNumber):
            numeral.value('.' if says.value == ',' else ',')


@pytest.mark.parametrize('text', NO_NUMBERS)
def test_what_is_no_number_is_refused(text: str) -> None:
    with pytest.raises(NoNumber):
        numeral_of(text).value('.')


@pytest.mark.parametrize('text, both', [('32.000', '32 or 32000'), ('1,250', '1250 or 1.25')])
def test_a_number_may_have_two_readings(text: str, both: str) -> None:
    assert numeral_of(text).says is Says.EITHER
    assert readings(numeral_of(text)) == both


@given(some.decimals(allow_nan=False, allow_infinity=False, min_value=-10 ** 9, max_value=10 ** 9, places=3),
       some.sampled_from(['.', ',']), some.sampled_from(['', ' ', "'", '\u00a0', 'other']))
def test_a_number_in_any_marks_is_read_as_itself(value: Decimal, mark: str, group: str) -> None:
    between = ('.' if mark == ',' else ',') if group == 'other' else group
    whole, _, part = f'{abs(value):,f}'.partition('.')
    text = ('-' if value < 0 else '') + whole.replace(',', between) + mark + part
    assert numeral_of(text + ' kW').value(mark) == value
    assert numeral_of(text + ' kW').says.value in (mark, '?')


@given(some.fractions())
def test_rounding_is_to_the_nearest(value: Fraction) -> None:
    assert abs(rounded(value) - value) <= Fraction(1, 2)
    assert rounded(-value) == -rounded(value)


PRICES = [
    ('EUR/MWh', 'EUR', 1_000_000, False), ('per kWh', '', 1000, False), ('€/(kW a)', '€', 1000, True),
    ('EUR/kW/a', 'EUR', 1000, True), ('per kW and year', '', 1000, True), ('EUR/kWa', 'EUR', 1000, True),
    ('EUR/kwh', 'EUR', 1000, False), ('EUR/KWh', 'EUR', 1000, False), ('$/MMBtu', '$', Fraction(2_637_640, 9), False),
    ('$/GJ', '$', Fraction(2_500_000, 9), False), ('ct/kWh', 'ct', 1000, False), ('US$/MWh', 'US$', 10 ** 6, False),
    ('€·MWh⁻¹', '€', 10 ** 6, False), ('$ kW^-1 yr^-1', '$', 1000, True), ('$ kW-1 y-1', '$', 1000, True),
]


@pytest.mark.parametrize('text, money, amount, yearly', PRICES)
def test_a_unit_of_prices_is_known(text: str, money: str, amount: Fraction, yearly: bool) -> None:
    unit = price_unit_of(text)
    assert (unit.money, unit.amount, unit.yearly) == (money, amount, yearly)


@pytest.mark.parametrize('text', ['EUR', 'EUR/kW', 'EUR/t', 'EUR/kWh/a', 'EUR/a', 'x' * 50, '1/MWh', 'EUR/MWh2', '',
                                  'EUR/(rad kWh)', '$ kW^-1', '€ m^-2', 'EUR/MBtu', 'EUR/mWh', 'EUR/h'])
def test_what_is_no_unit_of_prices_is_refused(text: str) -> None:
    with pytest.raises(UnknownUnit):
        price_unit_of(text)


def test_costs_come_back_in_the_unit_of_the_prices() -> None:
    made = priced([Fraction('35.5'), Fraction(2)], [price_unit_of('EUR/MWh')] * 2, None)
    assert made.prices == (355, 20)
    # 2 MW at 35.5 EUR/MWh are 71 EUR in an hour.
    assert 2_000_000 * 355 / made.basis.cost_divisor == 71
    assert (made.basis.price_unit, made.basis.cost_unit) == ('EUR/MWh', 'EUR/h')
    assert made.basis.price_divisor == 10


def test_prices_per_energy_and_per_year_go_together_by_the_hours() -> None:
    units = [price_unit_of('EUR/(kW a)'), price_unit_of('EUR/MWh')]
    made = priced([Fraction(120), Fraction(20)], units, Fraction(8000))
    assert made.prices == (120, 160)
    # 1 kW for a year at 120; 1 kW over 8000 h is 8 MWh at 20.
    assert [1000 * price / made.basis.cost_divisor for price in made.prices] == [120, 160]
    assert made.basis.cost_unit == 'EUR/a'
    with pytest.raises(PriceFault):
        priced([Fraction(120), Fraction(20)], units, None)
    with pytest.raises(PriceFault):
        priced([Fraction(1), Fraction(1)], [price_unit_of('EUR/MWh'), price_unit_of('ct/kWh')], None)
    with pytest.raises(PriceFault):
        priced([Fraction(1), Fraction(1)], [price_unit_of('EUR/MWh'), None], None)


@given(some.lists(some.decimals(allow_nan=False, allow_infinity=False, min_value=-10 ** 7, max_value=10 ** 7, places=4),
                  min_size=1, max_size=5))
def test_prices_keep_their_proportions_or_are_rounded(values: list[Decimal]) -> None:
    exact = [Fraction(given_price) for given_price in values]
    made = priced(exact, [None] * len(exact), None)
    assert all(abs(whole_price) <= 10 ** 6 for whole_price in made.prices)
    divisor = made.basis.price_divisor
    for at, (price, value) in enumerate(zip(made.prices, exact)):
        apart = Fraction(1, 2) if made.rounded(at) else Fraction(0)
        assert abs(price - value * divisor) <= apart
