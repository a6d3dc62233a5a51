"""Areas and money in tables: a sheet `costs`, or rows below a title, become comment rows of the case."""
from __future__ import annotations

import io
from fractions import Fraction

import openpyxl
import pytest
from conftest import tried
from costed import SMALL
from hypothesis import given
from hypothesis import strategies as st
from tabled import TEN, made, refusal, saved, workbook

from pinchdesk import Pinch, print_case, read_case
from pinchdesk.costs.cost_target import CostTarget, cost_target
from pinchdesk.formats.comments import basis_rows
from pinchdesk.formats.cost_rows import Annual, AnnualForm, CostLaw, Service
from pinchdesk.tables.conversion import Wanted
from pinchdesk.tables.convert import checked
from pinchdesk.tables.understood import understood

STREAMS = '''Name;Supply °C;Target °C;CP kW/K;h kW/m2K;Price ($/kW a)
H;150;50;2;0.5;
C;40;160;1.5;0.4;
steam;200;200;;2;100
CW;20;20;;1;10
'''
COSTS = '''
Costs
cost law;10,000 + 400 A^0.8;m2
law of;exchanger
flow;counter-current
currency;$
installation factor;1
annual factor;recovery
interest;10 %
years;5
'''
TABLE = STREAMS + COSTS


def rows_of(text: str | bytes, wanted: Wanted = TEN, name: str = 't.csv') -> list[str]:
    """The comment rows of areas and money of a table's case, but for films."""
    rows = basis_rows(made(text, wanted, name).case.basis)
    return [','.join(row).rstrip(',') for row in rows if row[0] in ('#law', '#build', '#capital', '#annual')]


def test_rows_below_a_title_are_those_of_the_small_case(pinch: Pinch) -> None:
    table = checked(made(TABLE), pinch)
    rows = rows_of(TABLE)
    assert rows == ['#law,,,10000,400,0.8,m2', '#build,,counter-current,,,,exchanger', '#capital,$,1',
                    '#annual,recovery,0.1,5']
    assert all(row in [line.rstrip(',') for line in SMALL.split('\n')] for row in rows)
    assert read_case(print_case(table.case)) == table.case
    case = print_case(table.case).replace('contribution', '#range,CW,20,30,C,,\ncontribution')
    found = cost_target(case, pinch)
    assert isinstance(found, CostTarget) and found.cost.whole.shown(0) == '13913'


SHEET: list[list[object]] = [
    ['Name', 'Value', 'Unit'], ['Cost law', '40 000 + 500 A', 'with A in m²'],
    ['cost law, heaters', '7 * A ** 0.6', 'ft2'], ['cost law, material SS, coolers', '1e3 + 2 A', '$, m2'],
    ['Law of', 'per shell'], ['Flow', '1-2'], ['X_P', 0.9], ['Largest shell', 300, 'm2'], ['Currency', '$'],
    ['Lang factor', 3.5], ['Cost index now', 800], ['Cost index of the laws', 600], ['Annual factor', '(1+i)^n / n'],
    ['Interest rate', 0.08], ['Plant life', 10, 'years'], ['Hours a year', 8000, 'h'], ['contact', 'Ms Hall']]
PLAIN: list[list[object]] = [['Name', 'Supply °C', 'Target °C', 'CP kW/K'], ['H', 150, 50, 2], ['C', 40, 160, 1.5]]


@pytest.mark.parametrize('wanted', [TEN, Wanted(difference='10', sheet='Streams')])
def test_a_sheet_of_costs_is_read_beside_the_streams(wanted: Wanted) -> None:
    book = workbook(PLAIN, Costs=SHEET)
    assert rows_of(book, wanted, 't.xlsx') == [
        '#law,,,40000,500,1,m2', '#law,heater,,0,7,0.6,ft2', '#law,cooler,SS,1000,2,1,m2',
        '#build,,1-2,0.9,300,m2,shell', '#capital,$,3.5,4/3,1', '#annual,compound,0.08,10,8000']
    table = made(book, wanted, 't.xlsx')
    assert table.notes[-3:] == ('the sheet Costs is read for areas and money',
                                'sheet Costs row 1: passed over, no row of costs: `Name`',
                                'sheet Costs row 17: passed over, no row of costs: `contact`')
    shown = [(part.place, part.meaning, part.unit) for part in understood(table)]
    assert ('sheet Costs row 8', 'most area of a shell, kept as a comment', 'm2') in shown


def test_a_percentage_of_a_workbook_is_a_part() -> None:
    book = openpyxl.load_workbook(io.BytesIO(workbook(PLAIN, costs=SHEET)))
    book['costs']['B14'].number_format = '0 %'
    annual = next(row for row in made(saved(book), name='t.xlsx').case.basis.cost_rows if isinstance(row, Annual))
    assert (annual.form, annual.rate) == (AnnualForm.COMPOUND, Fraction(2, 25))


def test_both_forms_of_the_annual_factor_and_a_number_are_told_apart() -> None:
    for text, row in (('i(1+i)^n/((1+i)^n - 1)', 'recovery,0.1,5'), ('(1+i)ⁿ/n', 'compound,0.1,5'),
                      ('compound', 'compound,0.1,5'), ('0.2', 'factor,0.2')):
        assert rows_of(TABLE.replace('recovery', text))[-1] == f'#annual,{row}'


def test_an_annual_factor_that_is_a_number_has_no_interest() -> None:
    table = made(TABLE.replace('annual factor;recovery', 'annual factor;0.2'))
    assert table.notes[-2:] == ('row 14: passed over, since `annual factor` is a number: `interest`',
                                'row 15: passed over, since `annual factor` is a number: `years`')


@pytest.mark.parametrize(('old', 'new', 'told'), [
    ('law of;exchanger\n', '', 'row 8: of the costs `law of` (exchanger, or shell) is missing'),
    ('currency;$\ninstallation factor;1\n', '', '`currency` (EUR) and `installation factor` (1) are missing'),
    ('cost law;10,000 + 400 A^0.8;m2\n', '', '`cost law` (40000 + 500 A^0.8 and m2 beside it) is missing'),
    ('annual factor;recovery\n', '', '`annual factor` (a number, or recovery for i(1+i)^n/((1+i)^n-1), or compound'),
    ('years;5\n', '', 'row 13 column 2: `recovery` needs `years`'),
    ('recovery', 'annuity', 'row 13 column 2: `annual factor` is `annuity`: recovery or compound is needed'),
    ('10 %', '10', 'row 14 column 2: an interest of 10 may be 10 % or 10 times: write 10 %'),
    ('years;5', 'years;60;months', 'row 15 column 2: `years` has the unit `months`, and is a number of years'),
    ('years;5', 'years;some', '`years` needs a number: no number'),
    ('years;5', 'years;5\nyears;6', 'row 16 column 2: `years` stands twice'),
    (';m2', '', 'row 8 column 2: the unit of area has to stand beside it, as m2 or ft2, and `` is none'),
    (';m2', ';kW', 'and `kW` is none'), ('10,000 + 400 A^0.8', 'about 5', '`about 5` is no cost law'),
    ('A^0.8', 'A^2', 'the exponent 2 is above 1'), ('counter-current', 'cross', 'counter-current or 1-2 is needed'),
    ('flow;counter-current', 'flow;1-2', 'as 0.9'),
    ('cost law;', 'cost law of heaters;', '`cost law of heaters`: of a kind it is `cost law, heaters`'),
    ('cost law;', 'cost law, titanium;', 'of a material `cost law, material SS`'),
    ('law of;', 'cost law;5 + 6 A;m2\nlaw of;', 'two cost laws of one kind and material')])
def test_what_is_missing_or_unclear_is_refused_by_its_name(old: str, new: str, told: str) -> None:
    assert told in refusal(TABLE.replace(old, new))


def test_a_decimal_mark_that_nothing_settles_is_refused() -> None:
    """`10.000` alone may be ten or ten thousand."""
    whole = TABLE.replace('1.5', '3').replace('0.5', '5').replace('0.4', '4').replace('A^0.8', 'A')
    assert '`10,000` may be 10000 or 10: use --decimal' in refusal(whole)
    assert rows_of(whole, Wanted(difference='10', decimal='.'))[0] == '#law,,,10000,400,1,m2'
    assert rows_of(whole.replace('400', '400,5'))[0] == '#law,,,10,400.5,1,m2'


def test_a_title_without_rows_of_costs_is_a_note() -> None:
    assert rows_of(STREAMS + '\nCosts\nsee the report\n') == []


NUMBERS = st.fractions(min_value=0, max_value=10 ** 6, max_denominator=1).map(str)
EXPONENTS = st.integers(1, 99).map(lambda hundredths: f'0.{hundredths:02d}'.rstrip('0'))


@tried(4, 40)
@given(NUMBERS, NUMBERS, EXPONENTS, st.sampled_from(list(Service)))
def test_a_law_is_read_as_it_is_written(fixed: str, factor: str, exponent: str, service: Service) -> None:
    law = f'cost law, {service.value}s;{fixed} + {factor} A^{exponent};m2\n'
    found = [row for row in made(TABLE.replace('law of', f'{law}law of', 1)).case.basis.cost_rows
             if isinstance(row, CostLaw) and row.service]
    assert found == [CostLaw(service, '', Fraction(fixed), Fraction(factor), Fraction(exponent), 'm2')]
