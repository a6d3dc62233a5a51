"""A price study is in the unit of its case's prices: what is asked in it and what is answered are of one unit."""
from __future__ import annotations

from dataclasses import replace
from decimal import Decimal
from fractions import Fraction
from pathlib import Path

import pytest
from captured import Captured
from conftest import example
from hypothesis import assume, given
from hypothesis import strategies as some
from looking import svg_texts

import pinchdesk
from pinchdesk import Case, Pinch, Refused, read_case
from pinchdesk.figures import prices_figure
from pinchdesk.formats.case import Basis
from pinchdesk.formats.study import PriceScenario, Span, Study, print_study, read_study
from pinchdesk.program.answers import PriceScenarioAnswer, SpanAnswer
from pinchdesk.tables.study_prices import studied

PLANT = ('Stream;Kind;Supply (°C);Target (°C);CP (kW/K);Price (EUR/MWh)\n'
         'H1;;150;60;2;\nC1;;20;125;2,5;\nLP;heater;180;;;30,05\n')
STEAM = example('two-steam-levels.csv')


@pytest.fixture
def desk(capfd: pytest.CaptureFixture[str]) -> Captured:
    return Captured(capfd)


@pytest.fixture
def plant(tmp_path: Path, monkeypatch: pytest.MonkeyPatch, desk: Captured) -> Path:
    """A case of a table with prices in EUR/MWh: 82.5 kW of steam at 30.05."""
    monkeypatch.chdir(tmp_path)
    Path('plant.csv').write_text(PLANT)
    assert desk('case', '-d', '10', 'plant.csv', '-o', 'case.csv').status == 0
    return tmp_path


def test_a_study_is_in_the_unit_of_the_prices_of_its_case(plant: Path, desk: Captured) -> None:
    Path('study.csv').write_text('scenario,Today,,\nscenario,Winter,,\nprice,LP,50,\n')
    done = desk('prices', 'case.csv', 'study.csv', '--form', 'csv')
    # 82.5 kW at 30.05 and at 50 EUR/MWh.
    assert done.out == 'scenario,least cost EUR/h\r\nToday,2.479\r\nWinter,4.125\r\n'
    assert done.err == 'pinchdesk: study.csv: its prices are taken in EUR/MWh, as those of the case\n'
    for said in ('EUR/MWh', 'EUR per MWh'):
        Path('study.csv').write_text(f'#price,{said},,\nscenario,Winter,,\nprice,LP,50 EUR/MWh,\n')
        assert desk('prices', 'case.csv', 'study.csv', '--form', 'csv') == (
            type(done)(0, 'scenario,least cost EUR/h\r\nWinter,4.125\r\n', ''))
    Path('study.csv').write_text('#price,per W,,\nscenario,Winter,,\nprice,LP,5000,\n')
    assert 'Winter,4.125' in desk('prices', 'case.csv', 'study.csv', '--form', 'csv').out


def test_a_price_of_a_study_may_be_finer_than_those_of_the_case(plant: Path, desk: Captured) -> None:
    Path('study.csv').write_text('scenario,Winter,,\nprice,LP,"90,9091",\nspan,LP,0.001,1\n')
    done = desk('prices', 'case.csv', 'study.csv', '--form', 'csv')
    assert 'Winter,7.5\r\n' in done.out and 'LP,0.001,1,0,0.083,82.5' in done.out
    Path('study.csv').write_text('scenario,Winter,,\nprice,LP,"50,0004",\nspan,LP,0.001,20\n')
    done = desk('prices', 'case.csv', 'study.csv')
    assert done.status == 3 and 'row 3: from 0.001 to 20 EUR/MWh there are 199991 prices in steps of 0.0001' in done.err


def test_a_picture_of_a_span_is_in_the_unit_too(plant: Path, desk: Captured, pinch: Pinch) -> None:
    Path('study.csv').write_text('span,LP,10.5,40\n')
    done = desk('prices', 'case.csv', 'study.csv', '--form', 'csv')
    assert done.out.split('\r\n')[1] == 'LP,10.5,40,0.866,3.3,82.5'
    made = studied(b'span,LP,10.5,40\n', read_case(Path('case.csv').read_bytes()))
    texts = svg_texts(prices_figure(made.case, pinch.prices(made.case, made.content)))
    assert {'10.5: 0.866', '40: 3.3', '82.5 kW', 'price of LP, EUR/MWh', 'least cost, EUR/h'} <= set(texts)
    assert desk('draw', 'prices', 'case.csv', 'study.csv', '-o', 'out.svg').status == 0
    assert '40: 3.3' in Path('out.svg').read_text()


REFUSED = [('price,LP,20000,', 'row 2: 20000 EUR/MWh is too large or too fine: in steps of 0.01, which the prices '
                               'want, a case has at most 10000'),
           ('price,LP,0.000001,', 'row 2: 0.000001 EUR/MWh is too large or too fine'),
           ('price,LP,32.000,', 'row 2: `32.000` may be 32 or 32000'), ('price,LP,+5,', 'row 2: `+5` may be a change'),
           ('price,LP,dear,', 'row 2: `dear`: no number'), ('price,LP,,', 'row 2: ``: no number'),
           ('price,LP,5 USD/MWh,', 'the prices of the case are in EUR/MWh, and `USD/MWh` is another unit'),
           ('price,XP,5,', 'study row 2 UnknownName'), ('price,LP,5', 'study row 2 FieldCount'),
           ('span,LP,5,4', 'study row 2 BadRange'), ('#price,USD/MWh,,', 'row 2: the prices are in USD/MWh, and those'),
           ('#price,EUR/MWh,,\n#price,EUR/kWh,,', 'row 3: a second unit of its prices: EUR/MWh and EUR/kWh'),
           ('price,LP,1e99999999,', '`1e99999999`: a number with more than 30 zeros'),
           ('span,LP,0,2000', 'there are 200001 prices in steps of 0.01')]


@pytest.mark.parametrize('row, said', REFUSED, ids=range(len(REFUSED)))
def test_what_has_no_exact_price_is_refused_by_its_row(row: str, said: str, plant: Path, desk: Captured) -> None:
    Path('study.csv').write_text(f'scenario,Winter,,\n{row}\n')
    done = desk('prices', 'case.csv', 'study.csv')
    assert (done.status, done.out) == (3, '') and said in done.err
    assert done.err.startswith('pinchdesk: study.csv: study row ')


def test_where_hot_stands_in_prices_are_no_finer(pinch: Pinch) -> None:
    basis = Basis(price_unit='as in the table', price_divisor=Fraction(10), cost_unit='price times W',
                  cost_divisor=Fraction(10))
    case = replace(read_case(example('four-stream.csv')), basis=basis)
    assert studied(b'scenario,S,,\nprice,HOT,0.3,\n', case).content == b'scenario,S,,\nprice,HOT,3,\n'
    with pytest.raises(Refused, match='0.03 as in the table is too fine: without a heater of its own .* of 0.1'):
        studied(b'scenario,S,,\nprice,HOT,0.03,\n', case)


def test_a_case_without_units_has_whole_prices(desk: Captured, plant: Path) -> None:
    Path('steam.csv').write_bytes(STEAM)
    Path('study.csv').write_text('scenario,S,,\nprice,HP,5,\n')
    assert desk('prices', 'steam.csv', 'study.csv').err == ''
    Path('study.csv').write_text('scenario,S,,\nprice,HP,5.5,\n')
    assert 'study row 2 BadNumber' in desk('prices', 'steam.csv', 'study.csv').err
    Path('study.csv').write_text('#price,EUR/MWh,,\nscenario,S,,\nprice,HP,5,\n')
    done = desk('prices', 'steam.csv', 'study.csv')
    assert 'row 1: the prices are in EUR/MWh, and those of the case per W' in done.err


def test_a_study_in_another_unit_is_none_of_the_program(pinch: Pinch) -> None:
    with pytest.raises(Refused, match='study row 1: the prices are in EUR/MWh, and the program has them per W'):
        read_study('#price,EUR/MWh,,\nscenario,S,,\n')
    with pytest.raises(Refused, match='the program has them per W'):
        pinch.prices(STEAM, '#price,EUR/MWh,,\nscenario,S,,\n')


def test_studies_of_a_notebook_are_per_watt(plant: Path, pinch: Pinch) -> None:
    case = read_case(Path('case.csv').read_bytes())
    study = Study((PriceScenario('Winter', (('LP', 5000),)),))
    made = pinchdesk.many('prices', {'held': (case, study), 'text': (case, 'scenario,Winter,,\nprice,LP,50,\n')},
                          processes=1)
    assert [done.outcome.facts[0]['least cost EUR/h'] for done in made.done] == [Decimal('4.125')] * 2
    assert print_study(study).startswith('#price,per W,,\n')


prices = some.decimals(-500, 500, places=2)
divisors = some.sampled_from([1, 2, 10, 25, 1000])
units = some.sampled_from(['EUR/MWh', 'per kWh', '€/(kW a)'])


def priced_in(case: Case, unit: str, divisor: int) -> Case:
    """The case with prices and costs in a unit, of which so many are one of the program's."""
    return replace(case, basis=Basis(price_unit=unit, price_divisor=Fraction(divisor), cost_unit='EUR/h',
                                     cost_divisor=Fraction(divisor)))


def study_text(unit: str, asked: list[Decimal], start: Decimal) -> str:
    rows = [f'scenario,S{at},,\nprice,HP,{price},' for at, price in enumerate(asked)]
    return '\n'.join([f'#price,{unit},,', *rows, f'span,LP,{start},{start + 1}', ''])


def fit(asked: list[Decimal], start: Decimal, divisor: int, case: Case) -> bool:
    """Whether a case has room for these prices of its study beside its own largest one, all made whole."""
    largest = max(utility.price for utility in case.utilities)
    whole = [abs(price) * divisor for price in (*asked, start, start + 1)]
    times: int = next(10 ** digits for digits in range(4) if all(price * 10 ** digits % 1 == 0 for price in whole))
    return times * max([Decimal(largest), *whole]) <= 10 ** 6


too_fine = some.integers(20_000, 24_999).map(lambda half: Decimal(2 * half + 1) / 100)
too_large = some.decimals(1001, 5000, places=2)


@given(some.one_of(some.tuples(too_fine, some.just(25)), some.tuples(too_large, some.just(1000))),
       some.lists(prices, max_size=2), prices, units)
def test_prices_for_which_a_case_has_no_room_are_refused(odd: tuple[Decimal, int], others: list[Decimal],
                                                         start: Decimal, unit: str) -> None:
    (price, divisor), case = odd, read_case(STEAM)
    assert not fit([*others, price], start, divisor, case)
    with pytest.raises(Refused, match='is too large or too fine'):
        studied(study_text(unit, [*others, price], start).encode(), priced_in(case, unit, divisor))


@given(some.lists(prices, min_size=1, max_size=3), prices, divisors, units)
def test_the_answer_is_that_of_the_same_prices_per_watt(asked: list[Decimal], start: Decimal, divisor: int,
                                                        unit: str) -> None:
    """The plant of two steam levels with its prices in a unit, and as the program has them, a thousand times as
    fine."""
    pinch, case = Pinch(), read_case(STEAM)
    assume(fit(asked, start, divisor, case))
    study = studied(study_text(unit, asked, start).encode(), priced_in(case, unit, divisor))
    answers = pinch.prices(study.case, study.content).answers
    fine = replace(case, utilities=tuple(replace(utility, price=utility.price * 1000) for utility in case.utilities))
    whole = Study(tuple(PriceScenario(f'S{at}', (('HP', int(price * divisor * 1000)),))
                        for at, price in enumerate(asked) if abs(price * divisor * 1000) <= 10 ** 6))
    if len(whole.items) == len(asked):
        for answer, wanted in zip(answers, pinch.prices(fine, whole).answers):
            assert isinstance(answer, PriceScenarioAnswer) and isinstance(wanted, PriceScenarioAnswer)
            assert answer.cost is not None and wanted.cost is not None
            assert Fraction(answer.cost) / study.case.basis.cost_divisor == Fraction(wanted.cost, 1000 * divisor)
    span = answers[-1]
    assert isinstance(span, SpanAnswer)
    ends = (span.segments[0].first, span.segments[-1].last)
    assert [Fraction(price) / study.case.basis.price_divisor for price in ends] == [start, start + 1]
    assert isinstance(read_study(study.content).items[-1], Span)
