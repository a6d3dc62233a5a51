"""Tables that would be wrong and look right: each is refused, with its place, or told."""
from __future__ import annotations

import io
from dataclasses import replace

import openpyxl
import pytest
from tabled import TEN, made, refusal, streams, workbook

from pinchdesk.tables.convert import Wanted

HEAD = 'name,supply,target,CP\n'
UNITS = 'name,supply °C,target °C,CP kW/K\n'
CASE = 'cold,C1,200,1350,200,,\nhot,H2,1700,600,300,,\n'


@pytest.mark.parametrize('words', ['All temperatures in °F', 'T [deg F]', 'supply and target in Fahrenheit',
                                   'Cp: kJ/kg K', 'heat in kcal per hour', '* in °F'])
def test_units_in_titles_notes_and_comments_are_not_passed_over(words: str) -> None:
    for text in (f'{words},,,\nrevision 2,,,\n{HEAD}A,400,340,2\n', f'{HEAD}A,400,340,2\n{words},,,\n'):
        assert 'names a unit, and the numbers have none' in refusal(text)
    assert streams(f'{words},,,\n{UNITS}A,150,60,2\n')[0][2:5] == (1500, 600, 200)


@pytest.mark.parametrize('words', ['Temperatures in K', 'Temperature (K)', 'Temperature / K', '# kelvins'])
def test_a_unit_that_words_give_to_all_temperatures_is_taken(words: str) -> None:
    for text in (f'{words},,,\nrevision 2,,,\n{HEAD}A,423.15,333.15,2\n', f'{HEAD}A,423.15,333.15,2\n{words},,,\n'):
        assert streams(text)[0][2:5] == (1500, 600, 200)
    assert streams(f'{words},,,\n{UNITS}A,150,60,2\n')[0][2:5] == (1500, 600, 200)


@pytest.mark.parametrize('words', ['Plant K, 20 MW furnace, dTmin = 10 K', 'Kemp, K. Smith (2007)', 'CP in kW/K',
                                   'temperatures in °C'])
def test_other_words_are_passed_over(words: str) -> None:
    assert streams(f'"{words}",,,\n{HEAD}A,150,60,2\n') == [('hot', 'A', 1500, 600, 200, 0)]


def test_units_alone_may_stand_above_the_headings() -> None:
    assert streams(f',°F,°F,MW/K\n{HEAD}A,302,140,0.002\n', Wanted('18 °F')) == [('hot', 'A', 1500, 600, 200, 0)]
    assert streams('A,B,C,D,E,F\nname,supply,target,CP,duty,contribution\nA,150,60,2,180,5\n')[0][2] == 1500


def test_some_numbers_with_a_unit_and_some_without_are_refused() -> None:
    assert 'none is given for the column `target`' in refusal('name,supply (K),target,CP\nA,423,60,2\n')
    assert refusal(f'{HEAD}A,423 K,333 K,2\nB,150,60,2\n').startswith('row 2 column 2: this number has the unit `K`')
    limited = 'kind,name,supply °C,target °C,duty (MW),most\nhot,A,150,60,1.8,\nheater,S,200,,,500\n'
    assert 'none is given for the column `most`' in refusal(limited)
    assert streams(f'{HEAD}A,150 °C,60,2\n') == [('hot', 'A', 1500, 600, 200, 0)]


def test_decimal_commas_between_commas_are_not_cut_off() -> None:
    assert refusal(f'{UNITS}A,150,60,2,5\n').startswith('row 2 column 5: `5` stands under no heading')
    noted = 'name,supply °C,target °C,CP kW/K,note\nA,150,60,2,5\n'
    assert '`2,5` may be one number' in refusal(noted)
    assert streams(noted, replace(TEN, decimal='.')) == [('hot', 'A', 1500, 600, 200, 0)]
    assert streams(noted.replace(',', ';')) == [('hot', 'A', 1500, 600, 200, 0)]
    assert 'passed over, under no heading: `top`' in made(f'{UNITS}A,150,60,2,top\n').notes[0]


@pytest.mark.parametrize('separator', ',;\t|')
def test_a_case_that_a_spreadsheet_has_saved_is_not_taken_for_a_table(separator: str) -> None:
    for text in (CASE, 'contribution,,50,,,,\n' + CASE):
        assert refusal(text.replace(',', separator), Wanted()).startswith('this is a case already')
    rows: list[list[object]] = [['contribution', None, 50], ['cold', 'C1', 200, 1350, 200],
                                ['hot', 'H2', 1700, 600, 300]]
    for case_rows in (rows, rows[1:]):
        assert refusal(workbook(case_rows)).startswith('this is a case already')
    assert streams('hot,H,150,60,2\n') == [('hot', 'H', 1500, 600, 200, 0)]


def sheet(**changes: object) -> bytes:
    """A workbook with two streams, and something done to cell D3: a format, a struck letter; or to row or column."""
    book = openpyxl.Workbook()
    page = book.active
    for row in (['name', 'supply', 'target', 'CP'], ['A', 150, 60, 2], ['B', 20, 60, 300]):
        page.append(row)
    for name, change in changes.items():
        if name == 'form':
            page['D3'].number_format = change
        elif name == 'struck':
            page[str(change)].font = openpyxl.styles.Font(strike=True)
        elif name == 'row':
            page.row_dimensions[change].hidden = True
        elif name == 'column':
            page.column_dimensions[str(change)].hidden = True
        else:
            book.create_sheet(str(change)).append(['x'])
            book[str(change)].append(['y'])
    made_of = io.BytesIO()
    book.save(made_of)
    return made_of.getvalue()


@pytest.mark.parametrize('changes, said', [
    ({'row': 3}, 'sheet Sheet row 3: the row is hidden'),
    ({'column': 'C'}, 'sheet Sheet row 1 column C: the column is hidden'),
    ({'struck': 'D3'}, 'sheet Sheet row 3 column D: `300`: struck out'),
    ({'struck': 'A3'}, 'sheet Sheet row 3 column A: `B`: struck out'),
    ({'form': '0.0,'}, 'sheet Sheet row 3 column D: `300`: shown as a thousandth'),
    ({'form': '#,##0,,"MW/K"'}, 'sheet Sheet row 3 column D: `300`: shown as a thousandth'),
    ({'form': '[>100]0.0" °F";0.0" °C"'}, 'sheet Sheet row 3 column D: `300`: its format'),
    ({'form': '0.0%'}, 'sheet Sheet row 3 column D: `300`: a percentage'),
    ({'form': '0 [$€-407]'}, 'sheet Sheet row 3 column D: the unit `€` is not known'),
])
def test_what_a_spreadsheet_shows_otherwise_is_refused(changes: dict[str, object], said: str) -> None:
    assert refusal(sheet(**changes)).startswith(said)


@pytest.mark.parametrize('form, flow', [('0.0 "W/K"', 30), ('0\\ \\W\\/\\K', 30), ('0 [$W/K]', 30),
                                        ('#,##0.00_);(#,##0.00)', 30_000), ('_-* #,##0.0_-', 30_000),
                                        ('0.0;[Red]-0.0', 30_000), ('0.0" kW/K";-0.0" kW/K";"-"', 30_000),
                                        ('General" kW/K"', 30_000), ('#,##0.0\\ ', 30_000)])
def test_the_unit_that_a_format_writes_is_seen(form: str, flow: int) -> None:
    units = 'the unit `W/K`' in refusal(sheet(form=form)) if flow == 30 else streams(sheet(form=form))[1][4] == flow
    assert units


def test_which_of_several_sheets_is_read_is_told() -> None:
    assert 'of the sheets the first one, Sheet, is read, not New (--sheet)' in made(sheet(sheet='New')).notes
    assert not any('of the sheets' in note for note in made(sheet(sheet='New'), replace(TEN, sheet='Sheet')).notes)
