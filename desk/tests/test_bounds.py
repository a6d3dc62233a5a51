"""What is read is bounded: by its size, in a moment and in little memory, whatever stands in it."""
from __future__ import annotations

import time
from collections.abc import Callable
from fractions import Fraction
from pathlib import Path

import pytest
from conftest import EXAMPLES, Done, example, few_of
from hypothesis import given
from hypothesis import strategies as st
from tabled import refusal

from pinchdesk import Refused, print_case, read_case
from pinchdesk.analysis.change_table import read_changes
from pinchdesk.cli.main import main
from pinchdesk.formats.amounts import LONGEST, exact
from pinchdesk.formats.case import Basis
from pinchdesk.program.causes import lines_of
from pinchdesk.tables.convert import Wanted, case_of_table

TC3, TABLE = str(EXAMPLES / 'tc3.csv'), str(EXAMPLES / 'table.csv')
Desk = Callable[..., Done]
# Numbers that fill the memory where they are taken for what they say, and texts that are no numbers.
HUGE = ('1e400', '-1e400', '1e5000', '1e99999999', '1e-99999999', '1E+999999999999', '9' * 5000, '1/' + '9' * 5000,
        '0.' + '0' * 5000 + '1', '1e' + '9' * 5000, 'nan', 'inf', '-inf', '1_000', '１２', '0x10', '1/0', '')


@pytest.fixture
def desk(capfd: pytest.CaptureFixture[str]) -> Desk:
    def run(*words: str) -> Done:
        status = main(list(words))
        printed = capfd.readouterr()
        return Done(status, printed.out, printed.err)
    return run


# Numbers.

@given(st.one_of(st.fractions(), st.decimals(allow_nan=False, allow_infinity=False), st.text(max_size=50),
                 st.from_regex(r'-?[0-9]{1,3}(\.[0-9]{1,3})?([eE][+-]?[0-9]{1,9})?', fullmatch=True)))
def test_a_number_is_exact_or_none(value: object) -> None:
    text = str(value)
    try:
        number = exact(text)
    except ValueError:
        number = None
    assert number is None or len(text.strip()) <= LONGEST and number == Fraction(text.strip()) and text.isascii()


@pytest.mark.parametrize('text', few_of(HUGE, ('1e99999999', '9' * 5000, 'nan', '')))
@pytest.mark.parametrize('words', [
    ['network', TC3, '--cost=#'], ['network', TC3, '--above=#'], ['network', TC3, '--seconds=#'],
    ['tradeoff', TC3, '--seconds=#'], ['sweep', '--', TC3, '#', '10', '1'], ['sweep', '--', TC3, '0', '#', '1'],
    ['sweep', '--', TC3, '0', '10', '#'], ['case', TABLE, '-d#'], ['case', TABLE, '--scale=#'],
    ['case', TABLE, '--hours=#'],
    ['sweep', TC3, '0', '10', '1', '--workers=#'], ['whatif', TC3, '--workers=#'],
    ['many', 'targets', TC3, '--processes=#'], ['draw', 'grid', TC3, TC3, '--most=#', '-o', 'x.svg']])
def test_no_number_of_the_words_fills_the_memory(words: list[str], text: str, desk: Desk) -> None:
    ended = desk(*(word.replace('#', text) for word in words))
    assert ended.status in (2, 3) and ended.out == '' and ended.err.count('\n') == 1


ROWS = ('#scale,{},,,,,', '#price,EUR/MWh,{},,,,', '#cost,EUR/h,{},,,,')
COMMENTS = [*(row.format(text) for row in ROWS for text in (*HUGE, '-1', '0', 'ten')), '#scale,1e7,,,,,',
            '#scale,1e-7,,,,,']


@pytest.mark.parametrize('comment', COMMENTS)
def test_a_comment_says_what_can_be(comment: str, desk: Desk, tmp_path: Path) -> None:
    case = tmp_path / 'case.csv'
    case.write_bytes(comment.encode() + b'\n' + example('four-stream.csv'))
    ended = desk('targets', str(case))
    assert (ended.status, ended.out) == (3, '') and 'case row 1 #' in ended.err
    with pytest.raises(Refused):
        read_case(case.read_bytes())


@pytest.mark.parametrize('comment', few_of(COMMENTS, ('#scale,1e7,,,,,', '#price,EUR/MWh,ten,,,,',
                                                      '#cost,EUR/h,0,,,,')))
def test_a_comment_that_cannot_be_is_refused_by_each_word(comment: str, desk: Desk, tmp_path: Path) -> None:
    case = tmp_path / 'case.csv'
    case.write_bytes(comment.encode() + b'\n' + example('four-stream.csv'))
    for words in (['flow'], ['units'], ['network', '--seconds', '2'], ['whatif']):
        ended = desk(words[0], str(case), *words[1:])
        assert (ended.status, ended.out) == (3, '') and 'case row 1 #' in ended.err


@given(st.fractions(min_value=Fraction(1, 10 ** 6), max_value=10 ** 6).filter(lambda value: value > 0))
def test_a_scale_and_divisors_are_read_again(value: Fraction) -> None:
    basis = Basis(scale=value, price_unit='EUR/MWh', price_divisor=value * 10 ** 9, cost_unit='EUR/h',
                  cost_divisor=value / 10 ** 12)
    case = read_case(example('four-stream.csv'))
    text = print_case(type(case)(case.contribution, case.streams, case.utilities, case.forbids, basis))
    assert read_case(text).basis == basis


@pytest.mark.parametrize('text', ['1e400', '-1e400', '1e99999999', '1e-99999999', '9' * 41, '1E+31'])
def test_no_number_of_a_table_fills_the_memory(text: str) -> None:
    for cell in (text, f'{text} °C', f'"{text}"'):
        assert len(refusal(f'Stream;Supply;Target;CP\nH1;{cell};60;2\nC1;20;125;2.5\n')) < 400


# Texts.

TOO_LARGE = {
    'many brackets': '(' * 200_000 + '\n', 'a long cell': 'Stream;Supply;Target;CP\nH1;' + '1' * 40_000 + ';60;2\n',
    'many rows': 'Stream;Supply;Target;CP\n' + 'H;150;60;2\n' * 20_000,
    'many lines': '\n' * 1_000_000 + 'H;150;60;2\n',
    'many fields': ';' * 1_000_000, 'many cells': 'a;b;c;d;e;f\n' * 19_000, 'many places': ';' * 199 + 'x\n',
    'many quotes': '"";' * 300_000}
TOO_LARGE['many places'] *= 6_000


@pytest.mark.parametrize('name', few_of(TOO_LARGE, ('many brackets', 'a long cell', 'many rows', 'many quotes')))
def test_a_text_is_refused_by_its_size(name: str) -> None:
    begun = time.process_time()
    assert 'a table has at most 20000 rows and 200 columns' in refusal(TOO_LARGE[name])
    assert time.process_time() - begun < 3


LONG = 30_000
ATOMS = ['(', '[', ')', ']', '/', 'a/', '_', 'a_', '1', '0', '000 ', "1'", '1.', '.,', 'a', '+', '%', '°F ', 'kW/',
         'in ', 'x ', '10 ', '10^', '1e5', '1000 kcal/h ', 'deg ', 'per ', '\ufdfa', 'Δ', 'sum ', '#', 'us ',
         '(K)', 'a(b)', 'EUR/', '€', 'a\u0301', '１']
FORMS = [
    '{};;;\nStream;Supply;Target;CP\nH1;150;60;2\nC1;20;125;2.5\n', '{};150;60;2\nC1;20;125;2.5\n',
    'Stream;Supply {};Target ({});CP;{}\nH1;150;60;2\n', 'Stream;Supply;Target;CP\n;{};°C;kW/K\nH1;150;60;2\n',
    'kind;Stream;Supply;Target;CP;note\n{};H1;150;60;2;{}\n;{};20;125;2.5;\n{};;;;\n#{};;;;\n',
    'Stream;Supply;Target;CP\nH1;{};60;2\nH2;150 {};60;2\nH3;1{};60;2 {}\n',
    'kind;name;supply;target;CP;price {}\n;H1;150;60;2;\nheater;HP;180;;;30 {}\n', '{}\n', 'H1;150;60;2;;;{}\n']


@pytest.mark.parametrize('atom', few_of(ATOMS, ('(', 'a_', '1000 kcal/h ')))
def test_no_long_text_takes_long(atom: str) -> None:
    text = (atom * LONG)[:LONG]
    begun = time.process_time()
    for form in FORMS:
        for wanted in (Wanted(difference='10'), Wanted(difference='10', decimal='.')):
            try:
                case_of_table(form.replace('{}', text).encode(), 't.csv', wanted)
            except Refused as fault:
                assert max(map(len, lines_of(fault))) < 1200
    for cells in ('{};S1;supply;+1 K', 'a;{};supply;+1 K', 'a;S1;{};1', 'a;S1;supply;{}', 'a;S1;price;+1 {}'):
        try:
            read_changes(f'scenario;source;field;value\n{cells.replace("{}", text)}\n'.encode(), 't.csv', Basis())
        except Refused as fault:
            assert max(map(len, lines_of(fault))) < 1200
    # The units take a second to be made.
    assert time.process_time() - begun < 4
