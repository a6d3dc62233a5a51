"""Scenarios: what a table says, what it changes, what `pinch` says of the changed case; what more of a stream does."""
from __future__ import annotations

from dataclasses import replace
from fractions import Fraction
from pathlib import Path

import pytest
from conftest import EXAMPLES, as_objects, example
from hypothesis import given
from hypothesis import strategies as st
from tabled import workbook

from pinchdesk import Case, Pinch, Refused, print_case, read_case
from pinchdesk.analysis.change_table import read_changes
from pinchdesk.analysis.what_if import WhatIf, what_if
from pinchdesk.cli.main import main
from pinchdesk.formats.comments import Basis
from pinchdesk.report.what_if_sheets import rounding_notes, what_if_sheets

FOUR, STEAM, COLUMN = (example(f'{name}.csv') for name in ('four-stream', 'two-steam-levels', 'column'))
HEAD = 'scenario;source;field;value\n'


def asked(pinch: Pinch, case: bytes | str, table: str | bytes, name: str = 't.csv') -> WhatIf:
    content = table.encode() if isinstance(table, str) else table
    return what_if(case, read_changes(content, name, read_case(case).basis).variants, pinch)


def changed(pinch: Pinch, case: bytes | str, table: str | bytes, name: str = 't.csv') -> Case:
    """The case of the first scenario."""
    return asked(pinch, case, table, name).outcomes[0].case


def refusal(case: bytes | str, table: str | bytes, name: str = 't.csv') -> str:
    content = table.encode() if isinstance(table, str) else table
    with pytest.raises(Refused) as fault:
        what_if(case, read_changes(content, name, read_case(case).basis).variants, Pinch())
    assert fault.value.status == 3
    return fault.value.text


def stream(case: Case, name: str) -> tuple[object, ...]:
    found = case.source(name)
    return tuple(getattr(found, field) for field in ('supply', 'target', 'cp', 'load', 'contribution'))


VALUES = [
    ('C1;supply;30', 'C1', (300, 1350, 200, 0, 50)), ('C1;supply;+10', 'C1', (300, 1350, 200, 0, 50)),
    ('C1;supply;by 10 K', 'C1', (300, 1350, 200, 0, 50)), ('C1;supply;-5', 'C1', (150, 1350, 200, 0, 50)),
    ('C1;supply;to -5', 'C1', (-50, 1350, 200, 0, 50)), ('C1;supply;= -5 °C', 'C1', (-50, 1350, 200, 0, 50)),
    ('C1;supply;+18 °F', 'C1', (300, 1350, 200, 0, 50)), ('C1;supply;86 °F', 'C1', (300, 1350, 200, 0, 50)),
    ('C1;supply;303,15 K', 'C1', (300, 1350, 200, 0, 50)), ('H2;target;− 1,5 K', 'H2', (1700, 585, 300, 0, 50)),
    ('H2;CP;2,5', 'H2', (1700, 600, 250, 0, 50)), ('H2;cp;+0,0025 MW/K', 'H2', (1700, 600, 550, 0, 50)),
    ('H2;CP;-5 %', 'H2', (1700, 600, 285, 0, 50)), ('H2;CP;by 5%', 'H2', (1700, 600, 315, 0, 50)),
    ('H2;load;+110 kW', 'H2', (1700, 600, 400, 0, 50)), ('H2;duty;440 kW', 'H2', (1700, 600, 400, 0, 50)),
    ('H2;contribution;+2,5 K', 'H2', (1700, 600, 300, 0, 75)),
]


@pytest.mark.parametrize('row, name, wanted', VALUES)
def test_a_value_is_new_or_a_change_in_its_unit(row: str, name: str, wanted: tuple[int, ...], pinch: Pinch) -> None:
    made = changed(pinch, FOUR, HEAD + f'S;{row}\n')
    assert stream(made, name) == wanted
    others = [source for source in read_case(FOUR).streams if source.name != name]
    assert [source for source in made.streams if source.name != name] == others


def test_columns_of_fields_with_units_and_several_rows_are_one_scenario(pinch: Pinch) -> None:
    table = ('# what the plant asked,,,\nscenario,stream,supply [°F],CP (MW/K),note\nS,C1,+18,,warmer\n'
             'T,C3,,0.005,\nS,H2,,-10 %,less\n')
    made = asked(pinch, FOUR, table)
    assert [(outcome.variant.name, len(outcome.steps)) for outcome in made.outcomes] == [('S', 2), ('T', 1)]
    first, second = (outcome.case for outcome in made.outcomes)
    assert stream(first, 'C1')[0] == 300 and stream(first, 'H2')[2] == 270 and stream(second, 'C3')[2] == 500
    assert stream(second, 'C1')[0] == 200


def test_a_workbook_says_the_same(pinch: Pinch) -> None:
    rows: list[list[object]] = [['scenario', 'source', 'field', 'value'], ['S', 'C1', 'supply', '+10'],
                                ['S', 'H2', 'CP', 2.5]]
    made = changed(pinch, FOUR, workbook(rows), 't.xlsx')
    assert (stream(made, 'C1')[0], stream(made, 'H2')[2]) == (300, 250)
    rows[1][3] = -10
    assert refusal(FOUR, workbook(rows), 't.xlsx').startswith(
        'sheet Streams row 2 column D: -10 may be a change or a new value: write it as a text, `by -10` or `to -10`')


def test_utilities_and_latent_streams_and_the_whole_case_change(pinch: Pinch) -> None:
    made = changed(pinch, STEAM, HEAD + 'S;LP;level;100\nS;LP;most;0,5\nS;LP;least;0,25 kW\nS;LP;price;2\n')
    steam = made.source('LP')
    assert [getattr(steam, field) for field in ('level', 'most', 'least', 'price')] == [1000, 500, 250, 2]
    latent = changed(pinch, COLUMN, HEAD + 'S;reboiler;level;+2\nS;reboiler;load;-10 %\nS;all;contribution;+1\n')
    assert stream(latent, 'reboiler') == (1180, 1180, 0, 3_309_300, 25) and latent.contribution == 60
    assert {source.contribution for source in latent.streams} == {25, 60} and latent.utilities[0].contribution == 60


def test_prices_and_heats_are_in_the_units_of_the_table_that_the_case_came_from(pinch: Pinch) -> None:
    basis = Basis(Fraction(10), 'EUR/MWh', Fraction(100), 'EUR/h', Fraction(10) ** 8)
    case = print_case(replace(read_case(STEAM), basis=basis))
    made = changed(pinch, case, HEAD + 'S;LP;price;10,5 EUR/MWh\nS;LP;most;3\nS;H2;CP;0,1\n')
    assert [getattr(made.source('LP'), field) for field in ('price', 'most')] == [1050, 30_000]
    assert stream(made, 'H2')[2] == 100
    assert 'the prices of the case are EUR/MWh, and `EUR/GJ` is another unit' in \
        refusal(case, HEAD + 'S;LP;price;10 EUR/GJ\n')
    assert 'the prices of the case are per W, with no unit' in refusal(STEAM, HEAD + 'S;LP;price;10 EUR/MWh\n')


REFUSED = [
    ('S;X;supply;30', 'row 2 column 4: `X` is not a source of the case'),
    ('S;C1;level;30', 'C1 has no level: it has supply, '),
    ('S;HOT;price;3', '`HOT` is added where the case has no such utility'), ('S;C1;heat flow;3', '`heat flow` is no'),
    ('S;C1;supply;warm', 'row 2 column 4: `warm`: no number'), ('S;C1;supply;', 'a number is missing'),
    ('S;C1;supply;5 %', 'a temperature does not change by a percentage'),
    ('S;C1;CP;5 %', '`5 %` may be a part or a change'),
    ('S;C1;supply;30 kW', 'the unit `kW` is not known here: °C, K, °F'), (';C1;supply;30', 'the scenario is missing'),
    ('S;;supply;30', 'the source is missing'), ('S;C1;;30', 'the field is missing'),
    ('S;C1;CP;1,250', '`1,250` may be 1250 or 1.25: use --decimal'),
    ('S;C1;CP;2\nS;C1;load;200', 'row 3 column 4: scenario S changes this twice'),
    ('S;C1;supply;2\nS;C1;supply;3', 'scenario S changes this twice'),
    ('S;case;supply;2', '`case` is not a source of the case'),
]


@pytest.mark.parametrize('row, said', REFUSED)
def test_what_is_not_understood_or_ambiguous_is_refused_by_row_and_column(row: str, said: str) -> None:
    assert said in refusal(FOUR, HEAD + row + '\n')


def test_headings_are_known_or_refused() -> None:
    assert 'no row has the headings `scenario`, `source`' in refusal(FOUR, 'S;C1;supply;30\n')
    assert 'the heading `colour` is not known' in refusal(FOUR, 'scenario;source;supply;colour\nS;C1;30;red\n')
    assert 'no column has the heading scenario' in refusal(FOUR, 'source;supply;CP\nC1;30;2\n')
    assert 'changes are in columns of fields' in refusal(FOUR, 'scenario;source;field;value;CP\nS;C1;supply;30;2\n')
    assert 'row 2 column 5: `5` is under no heading' in refusal(FOUR, 'scenario,source,field,value\nS,C1,CP,2,5\n')
    assert 'the row changes nothing' in refusal(FOUR, 'scenario;source;supply;CP\nS;C1;;\n')
    assert 'the table has no scenario' in refusal(FOUR, HEAD)
    assert 'LP has no most that could be changed' in refusal(STEAM, HEAD + 'S;LP;most;+5 %\n')


def test_each_row_is_what_pinch_says_of_the_changed_case(pinch: Pinch) -> None:
    made = asked(pinch, STEAM, example('changes.csv'))
    assert not made.refused and not made.infeasible
    for outcome in (made.base, *made.outcomes):
        assert outcome.targets == pinch.targets(print_case(outcome.case)) and \
            outcome.flow == pinch.flow(print_case(outcome.case))
    rows = what_if_sheets(made)[0].rows
    assert [as_objects(*row[:6]) for row in rows[:3]] == [
        ('base', 20, None, 60, None, 85), ('feed warmer', 20, 0, 80, 20, 85),
        ('less product', Fraction('36.2'), Fraction('16.2'), Fraction('51.3'), Fraction('-8.7'), 85)]
    assert [as_objects(*row[6:8]) for row in rows[1:3]] == [(57_000, 0), (105_160, 48_160)]
    assert list(rounding_notes(made)) == ['row 4 column 4: CP of H4: 1.425 kW/K is rounded to 1.43 kW/K']


def test_what_is_refused_or_infeasible_says_so_in_its_row(pinch: Pinch, tmp_path: Path,
                                                          capsys: pytest.CaptureFixture[str]) -> None:
    table = HEAD + 'good;C1;supply;30\nturned;C1;supply;150\nfar;C1;target;4000\nempty;H4;CP;0\n'
    made = asked(pinch, FOUR, table)
    rows = what_if_sheets(made)[0]
    assert [str(row[5]) for row in rows.rows] == ['85', '85', *['refused'] * 3] and rows.marked == {2, 3, 4}
    assert rows.rows[2][8] == 'C1: a hot stream has to cool down, and a cold one to warm up (WrongWay)'
    assert str(rows.rows[3][8]).endswith('(OutOfRange)') and made.refused
    case, changes = tmp_path / 'case.csv', tmp_path / 'changes.csv'
    case.write_bytes(FOUR)
    changes.write_text(table)
    assert main(['whatif', str(case), str(changes)]) == 3
    said = capsys.readouterr()
    assert '> turned' in said.out and 'no unit is given for the column `value`: °C is taken' in said.err
    case.write_bytes(STEAM)
    changes.write_text(HEAD + 'none;HP;most;1 kW\n')
    assert main(['whatif', str(case), str(changes), '--form', 'csv']) == 1
    assert 'none,20,0,60,0,85,no heat flow,' in capsys.readouterr().out
    changes.write_text(HEAD + 'none;XP;most;1 kW\n')
    assert main(['whatif', str(case), str(changes)]) == 3
    assert f'pinchdesk: {changes}: row 2 column 4: `XP` is not a source of the case' in capsys.readouterr().err


def test_a_hostile_name_is_made_harmless(pinch: Pinch, tmp_path: Path, capsys: pytest.CaptureFixture[str]) -> None:
    case, changes = tmp_path / 'case.csv', tmp_path / 'changes.csv'
    case.write_bytes(FOUR)
    changes.write_text(HEAD + '=cmd|x;C1;supply;30\n\x1b[31m<b>;C1;supply;30\n', encoding='utf-8')
    for form in ('text', 'csv'):
        assert main(['whatif', str(case), str(changes), '--form', form]) == 0
        said = capsys.readouterr().out
        assert ("\n'=cmd|x," if form == 'csv' else '\n=cmd|x ') in said and '?[31m<b>' in said and '\x1b' not in said
    assert main(['whatif', str(case), str(changes), '-o', str(tmp_path / 'out.xlsx')]) == 0
    assert main(['whatif', str(case), str(changes), '--workers', '0']) == 2


def test_plus_and_minus_are_what_pinch_says_of_a_little_more(pinch: Pinch) -> None:
    made = {risen.stream.name: risen for risen in what_if(FOUR, (), pinch).plus_minus}
    # Above the pinch a hot stream's CP is a plus, and so is a cold one's that ends there (Linnhoff and Vredeveld 1984).
    assert [(made[name].size, made[name].supply, made[name].target) for name in ('C1', 'H2', 'C3', 'H4')] == [
        (550, 0, 2000), (-800, -3000, 0), (600, -1500, 4000), (-600, -1500, 0)]
    latent = {risen.stream.name: risen for risen in what_if(COLUMN, (), pinch).plus_minus}
    assert (latent['reboiler'].size, latent['reboiler'].supply, latent['condenser'].size) == (1000, 30_000, 0)
    sheet = what_if_sheets(what_if(COLUMN, (), pinch))[0]
    assert sheet.headings[2:] == (
        'CP +0.01 kW/K: kW', 'load +1 kW: kW', 'supply +1 K: kW', 'target +1 K: kW', 'level +1 K: kW')


def test_the_word_without_changes_has_plus_and_minus_alone(capsys: pytest.CaptureFixture[str]) -> None:
    assert main(['whatif', str(EXAMPLES / 'tc3.csv'), '--form', 'csv']) == 0
    rows = capsys.readouterr().out.split('\r\n')
    assert rows[0] == 'stream,side,CP +0.01 kW/K: kW,supply +1 K: kW,target +1 K: kW' and len(rows) == 6


@given(st.sampled_from(('supply', 'target', 'CP', 'contribution')), st.integers(-400, 400),
       st.sampled_from((';', '\t', '|')), st.sampled_from('.,'))
def test_a_change_is_the_same_in_any_table(field: str, tenths: int, separator: str, mark: str) -> None:
    """What is added in tenths of a K or in 0.1 kW/K is added to the case, whatever the signs of the table are."""
    number = f'{abs(tenths) // 10}{mark}{abs(tenths) % 10}'
    row = separator.join(('S', 'H2', field, ('-' if tenths < 0 else '+') + number))
    table = separator.join(('scenario', 'source', 'field', 'value')) + '\n' + row + '\n'
    change, = read_changes(table.encode(), 't.csv', Basis()).variants[0].changes
    assert change.value == tenths * (10 if field == 'CP' else 1)
