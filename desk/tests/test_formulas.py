"""No text of a table that is written is a formula for a spreadsheet, a number stays one, and what is read again is the
same."""
from __future__ import annotations

import csv
import io
from collections.abc import Iterator
from decimal import Decimal
from pathlib import Path

import openpyxl
import pytest
from conftest import example, few_of, of_all
from hypothesis import given
from hypothesis import strategies as some
from tabled import made, streams

from pinchdesk.cli.main import main
from pinchdesk.report.sheet import Cell, Sheet, rendered
from pinchdesk.tables.spreadsheet import read_table
from pinchdesk.text import plain, read_again

BEGINNINGS = ('=', '+', '-', '@', '\t')
texts = some.text(some.sampled_from("=+-@'\taZ1, ;\"\r\n＝"), max_size=6)
HEAD = 'scenario;source;field;value\n'


@given(texts)
def test_a_text_made_plain_is_no_formula_and_is_read_again_as_it_was(text: str) -> None:
    assert not plain(text).startswith(BEGINNINGS)
    assert read_again(plain(text)) == text
    assert text.startswith((*BEGINNINGS, '\r', '\n', '＝', "'")) or plain(text) == text


@given(some.lists(some.one_of(texts, some.decimals(-1000, 1000, places=2)), min_size=1, max_size=4))
def test_cells_and_headings_are_no_formulas_in_any_form(cells: list[Cell]) -> None:
    headings = tuple(cell if isinstance(cell, str) else 'kW' for cell in cells)
    sheet = Sheet('', headings, (tuple(cells),))
    content = rendered([sheet], 'csv')
    assert isinstance(content, str)
    row = list(csv.reader(io.StringIO(content, newline='')))[-1]
    for cell, written in zip(cells, row):
        if isinstance(cell, Decimal):
            assert Decimal(written) == cell
        else:
            assert not written.startswith(BEGINNINGS)
    book = rendered([sheet], 'xlsx')
    assert isinstance(book, bytes)
    check_book(book)
    for filled, cell in zip(openpyxl.load_workbook(io.BytesIO(book)).active[2], cells):
        assert filled.data_type == ('n' if isinstance(cell, Decimal) else 's') or not cell


def check_book(content: bytes) -> None:
    """No cell of a workbook is a formula."""
    for page in openpyxl.load_workbook(io.BytesIO(content)):
        assert all(cell.data_type != 'f' for row in page.iter_rows() for cell in row)


def cells_of(content: str) -> Iterator[str]:
    return (cell for row in csv.reader(io.StringIO(content, newline='')) for cell in row)


def check_text(content: str) -> None:
    """No cell of a text with commas is a formula; one that begins with a sign is a number."""
    for cell in cells_of(content):
        assert not cell.startswith(BEGINNINGS) or cell == str(Decimal(cell)), cell


NAMES = ('=1+1', '-2-2', '+cmd', '@SUM(A1)', "'=x", '-5', '\t=9')


@pytest.fixture
def hostile(tmp_path: Path, monkeypatch: pytest.MonkeyPatch) -> Path:
    """A folder of cases with hostile names, units and networks, in which this process is."""
    monkeypatch.chdir(tmp_path)
    (tmp_path / 'cases').mkdir()
    for name in NAMES:
        head = "#price,'=1+1|x,1,,,,\n#cost,\"'@SUM(1,1)\",1,,,,\n#name,'-feed,S1,,,,\n"
        (tmp_path / 'cases' / f'{name}.csv').write_bytes(head.encode() + example('tc3.csv'))
        (tmp_path / 'cases' / f'{name}-network.txt').write_bytes(example('tc3-network.txt'))
        (tmp_path / 'cases' / f'{name}-study.txt').write_text('scenario,Today,,\nspan,HOT,0,3\n')
    (tmp_path / 'changes.csv').write_text(HEAD + '=x;S1;supply;+10 K\n-y;S2;CP;-5 %\n@z;S1;target;-10 K\n')
    return tmp_path


WORDS = ['targets', 'flow', 'audit', 'table', 'sweep 0 20 10', 'prices', 'units', 'rest', 'whatif',
         'network --seconds 0.2', 'tradeoff --seconds 0.2']


@pytest.mark.usefixtures('searched_here')
@pytest.mark.parametrize('words', few_of(WORDS, ('targets', 'table')))
def test_no_word_writes_a_formula(words: str, hostile: Path, capfd: pytest.CaptureFixture[str]) -> None:
    word, *more = words.split()
    place = str(hostile / 'cases' / '=1+1.csv')
    files = {'audit': [place[:-4] + '-network.txt'], 'prices': [place[:-4] + '-study.txt'], 'whatif': ['changes.csv']}
    files |= {other: files['audit'] for other in ('table', 'rest', 'units')}
    if word != 'network':
        assert main([word, place, *files.get(word, []), *more, '--form', 'csv']) == 0
        check_text(capfd.readouterr().out)
        assert main([word, place, *files.get(word, []), *more, '-o', 'out.xlsx']) == 0
        check_book(Path('out.xlsx').read_bytes())
    changes = ['--changes', 'changes.csv'] if word == 'whatif' else []
    for output in ('many.csv', 'many.xlsx'):
        main(['many', word, 'cases', *more, *changes, '--processes', of_all('1', '2'), '-o', output])
    check_text(Path('many.csv').read_text(encoding='utf-8'))
    check_book(Path('many.xlsx').read_bytes())


def test_what_many_wrote_names_the_same_cases_in_a_list(hostile: Path, capfd: pytest.CaptureFixture[str]) -> None:
    for output in ('out.csv', 'out.xlsx'):
        assert main(['many', 'targets', 'cases', '--processes', '1', '-o', output]) == 0
        names = [row.cell(0).text for row in read_table(Path(output).read_bytes(), output)[0].rows[1:]]
        # A tab steers a terminal, and is told as `?`.
        assert sorted(names) == sorted(f'{name}.csv'.replace('\t', '?') for name in NAMES)
        rows = ''.join(f'"{plain(name)}"\n' for name in names if '?' not in name)
        Path('cases/list').write_text(f'case\n{rows}', encoding='utf-8')
        capfd.readouterr()
        assert main(['many', 'targets', 'cases/list', '--processes', '1']) == 0
        assert f'{len(NAMES) - 1} cases: {len(NAMES) - 1} good' in capfd.readouterr().err


def test_scenarios_of_many_are_no_formulas_and_are_read_again(hostile: Path) -> None:
    main(['many', 'targets', 'cases', '--scenarios', 'changes.csv', '--processes', '1', '-o', 'many.csv'])
    check_text(Path('many.csv').read_text(encoding='utf-8'))
    rows = read_table(Path('many.csv').read_bytes(), 'many.csv')[0].rows
    assert {row.cell(1).text for row in rows[1:]} == {'base', '=x', '-y', '@z'}


def test_what_a_spreadsheet_kept_off_formulas_is_read_as_it_is_meant() -> None:
    table = "name;supply;target;CP\n'=H;150;60;2\n'-C;'-20;'-10;3\n"
    assert streams(table) == [('hot', 'H', 1500, 600, 200, 0), ('cold', 'C', -200, -100, 300, 0)]
    assert 'the name `=H` becomes H' in made(table).notes


def test_an_answer_with_one_pinch_below_zero_has_a_number(capfd: pytest.CaptureFixture[str], tmp_path: Path) -> None:
    case = tmp_path / 'cold.csv'
    case.write_text('contribution,,50,,,,\nhot,H,100,-900,100,,\ncold,C,-800,-150,50,,\n')
    (tmp_path / 'changes.csv').write_text(HEAD + 'x;H;CP;+10 %\n')
    for words in (['targets', str(case)], ['whatif', str(case), str(tmp_path / 'changes.csv')]):
        assert main([*words, '--form', 'csv']) == 0
        check_text(capfd.readouterr().out)
