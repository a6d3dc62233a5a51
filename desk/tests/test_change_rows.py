"""Each row of a table of scenarios is read, or refused, or told with its text; what it leaves open is told."""
from __future__ import annotations

from pathlib import Path

import pytest
from conftest import pinchdesk
from tabled import workbook

from pinchdesk import Refused
from pinchdesk.analysis.change_table import CaseScenarios, read_changes
from pinchdesk.formats.comments import Basis

HEAD = 'scenario;source;field;value\n'


def read(text: str, basis: Basis = Basis()) -> CaseScenarios:
    return read_changes(text.encode(), 't.csv', basis)


def refusal(text: str, basis: Basis = Basis()) -> str:
    with pytest.raises(Refused) as fault:
        read(text, basis)
    return fault.value.text


def test_a_scenario_whose_name_begins_with_a_hash_is_one() -> None:
    table = read(f'{HEAD}#1 hotter;S1;supply;+10 K\nless;S3;target;115 °C\n')
    assert [variant.name for variant in table.variants] == ['#1 hotter', 'less']
    assert table.notes == ('row 2: taken as a scenario, since it has a value, not as a comment: '
                           '`#1 hotter S1 supply +10 K`',)
    assert 'may be a comment or a scenario' in refusal(f'{HEAD}# hotter;S1;supply;+10 K\nless;S3;target;115 °C\n')
    assert 'may be a comment or a scenario' in refusal('scenario;source;CP\n#;S1;5 kW/K\nless;S3;4 kW/K\n')


def test_comments_and_titles_are_told_with_their_texts() -> None:
    table = read(f'Plant 7;;;\n{HEAD}# by hand\nless;S3;target;115 °C\n')
    assert table.notes == ('row 1: passed over, above the headings: `Plant 7`',
                           'row 3: passed over, a comment: `# by hand`')
    noted = read('scenario;source;field;value;note\nless;S3;target;115 °C;agreed\n')
    assert noted.notes == ('passed over, the column `note`',)


@pytest.mark.parametrize('text', [
    f'ALL TEMPERATURES IN DEG F;;;\n{HEAD}less;S3;target;239\n', f'{HEAD}# in kelvins\nless;S3;target;388\n',
    f'{HEAD}less;S3;target;239 °F\nmore;S3;target;115\n', 'scenario;source;supply;note\nless;S3;388;in K\n',
    f'duties in 1000 kcal/h;;;\n{HEAD}less;S3;load;80\n'])
def test_a_unit_that_stands_elsewhere_is_not_passed_over(text: str) -> None:
    said = refusal(text)
    assert 'names a unit, and the numbers have none' in said or 'and none is given for' in said


def test_the_unit_of_prices_that_is_taken_is_told() -> None:
    basis = Basis(price_unit='EUR/MWh')
    assert read(f'{HEAD}dear;HP;price;35\n', basis).notes == (
        'the prices have no unit: EUR/MWh is taken, as in the case',)
    for unit in ('€/MWh', 'EUR/MWh', 'EUR / MWh'):
        assert read(f'{HEAD}dear;HP;price;35 {unit}\n', basis).notes == ()
    assert 'is another unit' in refusal(f'{HEAD}dear;HP;price;35 $/MWh\n', basis)


def test_which_sheet_of_scenarios_is_read_is_told() -> None:
    rows: list[list[object]] = [['scenario', 'source', 'field', 'value'], ['less', 'S3', 'target', '115 °C']]
    notes = read_changes(workbook(rows, Later=rows), 't.xlsx', Basis()).notes
    assert notes == ('of the sheets the first one, Streams, is read, not Later (--sheet)',)
    with pytest.raises(Refused) as fault:
        read_changes(workbook([['Cover']], Later=rows), 't.xlsx', Basis())
    assert fault.value.text == 'sheet Streams has no table of scenarios, and Later has one: use --sheet Later'


def test_many_cases_in_scenarios_tell_what_their_table_passes_over(tmp_path: Path) -> None:
    table = ('kind;name;supply °C;target °C;CP kW/K;price\ncold;C;20;135;2;\nhot;H;170;60;3;\n'
             'heater;HP;270;;;30 EUR/MWh\ncooler;W;9;;;1 EUR/MWh\n')
    (tmp_path / 'table.csv').write_text(table)
    assert pinchdesk('case', '-d', '10', 'table.csv', '-o', 'a.csv', cwd=tmp_path).status == 0
    (tmp_path / 'list').write_text('case\na.csv\n')
    (tmp_path / 's.csv').write_text(f'{HEAD}#1 dear;HP;price;35 €/MWh\n# agreed\n')
    done = pinchdesk('many', 'flow', 'list', '--scenarios', 's.csv', '--form', 'csv', cwd=tmp_path)
    assert done.status == 0 and [row.split(',')[1:3] for row in done.out.split('\r\n')[1:3]] == [
        ['base', 'good'], ['#1 dear', 'good']]
    assert 's.csv: row 3: passed over, a comment: `# agreed`' in done.err
