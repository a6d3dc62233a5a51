"""Prices and costs of energy beside the money of cost laws: units that go together, and rows of which one is wrong."""
from __future__ import annotations

from fractions import Fraction

import pytest
from costed import SMALL, data_of

from pinchdesk import Refused

PRICE, COST = '#price,$/(kW a),1000,,,,', '#cost,$/a,1000000,,,,'


def year_of(price: str, cost: str, hours: str = '', units: str = '') -> Fraction:
    """By what a cost of the program is multiplied for a year in the money of the laws."""
    case = SMALL.replace(PRICE, f'#price,{price},,,,').replace(COST, f'#cost,{cost},,,,')
    return data_of(units + case.replace('recovery,0.1,5,,', f'recovery,0.1,5,{hours},')).year_of_cost


@pytest.mark.parametrize(('price', 'cost', 'hours', 'year'), [
    ('$/(kW a),1000', '$/a,1000000', '', Fraction(1, 10 ** 6)), ('$ per kW and year,1', '$/yr,1000', '', '1/1000'),
    ('$/kWh,1', '$/h,1000', '8000', 8), ('$/MWh,100', '$ per hour,100000000', '8000', '8/100000'),
    ('$/GJ,1', '$/h,2500000/9', '8000', '72/2500'), ('$/MWh,1', '$/a,125', '', '1/125'),
    ('$/MWh,1', '$/a,125', '8000', '1/125'), ('$/t,1', '$/a,12', '', '1/12')])
def test_units_of_prices_and_of_costs_go_together(price: str, cost: str, hours: str, year: str | int) -> None:
    """Of prices of energy a year has its hours in the divisor: a million over 8,000 is 125."""
    assert year_of(price, cost, hours) == Fraction(year)


@pytest.mark.parametrize(('price', 'cost', 'hours', 'told'), [
    ('$/(kW a),1', '$/a,1', '', r'prices in \$/\(kW a\), divided by 1, make costs in \$/a that are divided by 1000, '
     'and the row has 1$'),
    ('$/MWh,1', '$/h,1000', '8000', 'divided by 1000000, and the row has 1000$'),
    ('$/MWh,1', '$/a,1', '', 'with 8784 hours a year, and the row has 1$'),
    ('$/MWh,1', '$/a,125', '4000', 'divided by 250 with 4000 hours a year, and the row has 125$'),
    ('$/MWh,1', '$/month,1', '', r'`\$/month` is no cost of a year or of an hour: enter EUR/a or EUR/h')])
def test_divisors_that_do_not_go_together_are_refused(price: str, cost: str, hours: str, told: str) -> None:
    with pytest.raises(Refused, match=f'^case #cost: .*{told}'):
        year_of(price, cost, hours)


def test_heats_in_units_of_the_case_are_counted() -> None:
    """Parts of a tenth of Btu/h, prices in tenths of $/MMBtu: ten times ten times a million."""
    units = '#units,°C,Btu/h,65941/225000,10,0,10\n'
    assert year_of('$/MMBtu,10', '$/h,100000000', '8000', units) == Fraction(8000, 10 ** 8)
    with pytest.raises(Refused, match='divided by 100000000, and the row has 10000000'):
        year_of('$/MMBtu,10', '$/h,10000000', '8000', units)
