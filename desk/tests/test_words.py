"""The command: its answers, its errors, its statuses, and its files, which are written whole or not at all."""
from __future__ import annotations

import csv
import io
import os
import stat
from fractions import Fraction
from pathlib import Path

import openpyxl
import pytest
from captured import Captured
from conftest import CASES, EXAMPLES, NETWORKS, Done, command, example, few_of

from pinchdesk import Accepted, Pinch, completed, follow, read_case, read_network
from pinchdesk.analysis.joined import joined
from pinchdesk.formats.written_files import write_whole
from pinchdesk.words.all_words import PLACES

FOUR, FOUR_NETWORK = str(EXAMPLES / 'four-stream.csv'), str(EXAMPLES / 'four-stream-network.txt')
PREHEATER = [str(EXAMPLES / 'preheater.csv'), str(EXAMPLES / 'preheater-network.txt')]


@pytest.fixture
def desk(capfd: pytest.CaptureFixture[str]) -> Captured:
    return Captured(capfd)


# Answers.

def test_targets_are_shown_on_both_scales(desk: Captured) -> None:
    done = desk('targets', FOUR, '--form', 'csv')
    assert done == Done(0, 'hot utility,20,kW\r\ncold utility,60,kW\r\n\r\nshifted °C,hot side °C,cold side °C\r\n'
                           '85,90,80\r\n', '')


def test_an_audit_shows_cost_floor_and_what_is_above_it(desk: Captured) -> None:
    done = desk('audit', *PREHEATER)
    assert done.status == 0
    for line in ('excess over the hot target     1.5  kW', 'cost                          3500',
                 'cost above the floor          1500',
                 'exchanger Q1    1', 'line 11       0.5'):
        assert line in done.out


@pytest.mark.parametrize('name', NETWORKS)
def test_the_sums_of_a_table_are_those_of_the_audit(name: str, desk: Captured, pinch: Pinch) -> None:
    files = [str(EXAMPLES / f'{name}.csv'), str(EXAMPLES / f'{name}-network.txt')]
    done = desk('table', *files, '--form', 'csv')
    verdict = pinch.audit(example(f'{name}.csv'), example(f'{name}-network.txt'))
    assert done.status == 0 and isinstance(verdict, Accepted)
    rows = list(csv.reader(io.StringIO(done.out)))
    for side, wanted in (('hot', verdict.hot), ('cold', verdict.cold)):
        assert sum(Fraction(row[2]) * 1000 for row in rows if len(row) == 4 and row[1] == side) == wanted
    head = next(at for at, row in enumerate(rows) if row[:1] == ['exchanger'])
    lost = [row[15] for row in rows[head + 1:] if len(row) == 16]
    heats = {penalty.place.name: penalty.heat for penalty in verdict.penalties
             if penalty.place.kind.value == 'exchanger'}
    plant = joined(follow(completed(read_case(example(f'{name}.csv'))), read_network(example(f'{name}-network.txt'))))
    assert [round(Fraction(cell) * 1000) for cell in lost] == \
        [round(sum(heats[part.exchanger.name] for part in passage.parts)) for passage in plant.followed.passages]


def test_a_rejected_network_is_marked_in_its_row_and_is_no_good_answer(desk: Captured, tmp_path: Path) -> None:
    network = tmp_path / 'a network.txt'
    network.write_bytes(example('four-stream-network.txt').replace(b'E2 H4 C1 90000', b'E2 H4 C1 90050')
                        .replace(b'C1 20000', b'C1 19950').replace(b'COLD 60000', b'COLD 59950'))
    done = desk('table', FOUR, str(network))
    assert done.status == 1
    assert done.out.startswith('rejected at exchanger E2: too close at its cold end: the hot side leaves at 89.967 '
                               '(2699/30) °C, and the cold one enters so warm that 90 °C is needed (ColdEndApproach)')
    assert [line.split()[1] for line in done.out.split('\n') if line.startswith('> ')] == ['E2']
    rows = list(csv.reader(io.StringIO(desk('table', FOUR, str(network), '--form', 'csv').out)))
    assert [(row[0], row[16]) for row in rows if len(row) == 17][1:] == [
        ('E2', 'ColdEndApproach: 89.967 (2699/30) °C, wanted 90 °C')]
    assert desk('audit', FOUR, str(network)).status == 1
    output = tmp_path / 'out.xlsx'
    assert desk('table', FOUR, str(network), '-o', str(output)).status == 1
    page = openpyxl.load_workbook(output)['Exchangers']
    marked = [row[0].value for row in page.iter_rows() if row[0].fill.fill_type == 'solid']
    assert marked == ['E2']
    assert isinstance(page['F2'].value, (int, float))


def test_no_size_is_shown_at_invented_levels(desk: Captured) -> None:
    done = desk('table', FOUR, FOUR_NETWORK, '--form', 'csv')
    rows = [row for row in csv.reader(io.StringIO(done.out)) if len(row) == 16]
    sized = {row[0]: row[12] != '' for row in rows[1:]}
    assert sized == {'E1': True, 'E2': True, 'E3': True, 'E4': True, 'Q1': False, 'Q2': False}


def test_no_heat_flow_is_no_good_answer(desk: Captured) -> None:
    little = str(EXAMPLES / 'too-little-cooling.csv')
    done = desk('flow', little)
    assert done.status == 1 and 'have to give 5 kW, and all that they reach can take 2 kW at most' in done.out
    assert desk('sweep', little, '10', '10', '1').status == 1
    assert desk('targets', little).status == 0


def test_a_sweep_is_in_least_differences(desk: Captured) -> None:
    done = desk('sweep', FOUR, '0', '20', '10', '--workers', '2', '--form', 'csv')
    assert done.out.split('\r\n')[1:4] == ['0,0,40,0,', '10,20,60,20000,the case as it is', '20,65,105,65000,']
    for words, said in ((['x', '10', '1'], 'x is not a least difference'), (['0', '10', '0.1'], '0.1 is not a least'),
                        (['0', '10', '0'], 'the step is 0'), (['10', '0', '1'], '10 K, is above the last one, 0 K'),
                        (['0', '1000', '1'], '200 K at most, and 1000 is more'),
                        (['0', '200', '0.2'], '1000 rows at most, and this one would have 1001: take a step of 0.4 K'),
                        (['0', '10', '1', '--workers', '17'], '17 is not a number of workers: 1 to 16')):
        done = desk('sweep', FOUR, *words)
        assert done.status == 2 and said in done.err
    assert desk('sweep', FOUR, '0', '199.8', '0.2').status == 0


def test_a_sweep_says_what_it_replaces_and_has_the_case_as_it_is(desk: Captured) -> None:
    done = desk('sweep', str(EXAMPLES / 'own-contributions.csv'), '10', '30', '20')
    assert done.out.split('\n')[0] == 'Sweep: the contributions of their own of off-gas, reboiler, steam are replaced'
    assert [line.split()[:4] for line in done.out.split('\n')[2:5]] == [
        ['its', 'own', '93.75', '28.75'], ['10', '85', '20', '85000'], ['30', '165', '100', '165000']]
    assert [line.count('the case as it is') for line in done.out.split('\n')[2:5]] == [1, 0, 0]


def test_prices_are_of_utilities_by_name(desk: Captured, tmp_path: Path) -> None:
    case, study = tmp_path / 'case.csv', tmp_path / 'study.csv'
    heaters = b'heater,1,1700,0,1000000000000,3,\nheater,01,910,0,1000000000000,1,\n'
    case.write_bytes(example('four-stream.csv') + heaters)
    study.write_text('span,01,0,3\nspan,01,4,5\nspan,1,0,3\n')
    done = desk('prices', str(case), str(study), '--form', 'csv')
    rows = [row for row in csv.reader(io.StringIO(done.out)) if len(row) == 6][1:]
    assert [row[:3] for row in rows] == [['01', '0', '3'], ['01', '4', '5'], ['1', '0', '1'], ['1', '2', '3']]


def test_a_site_is_shown(desk: Captured) -> None:
    done = desk('site', str(EXAMPLES / 'three-plants.csv'), '--form', 'csv')
    assert done.status == 0 and done.out.startswith('boiler,25,kW\r\ncooling,9,kW\r\n')


def test_costs_are_in_the_unit_of_the_table(desk: Captured, tmp_path: Path) -> None:
    table, case = tmp_path / 'table.csv', tmp_path / 'case.csv'
    table.write_text('kind;name;supply;target;CP;price\ncold;C1;20;135;2;\nhot;H2;170;60;3;\ncold;C3;80;140;4;\n'
                     'hot;H4;150;30;1,5;\nheater;HP;170;;;30 EUR/MWh\nheater;LP;91;;;10,5 EUR/MWh\n')
    assert desk('case', '-d', '10', str(table), '-o', str(case)).status == 0
    done = desk('flow', str(case), '--form', 'csv')
    # 18.5 kW at 30 and 1.5 kW at 10.5 EUR/MWh.
    assert 'HP,gives,170,18.5,30,0.555\r\nLP,gives,91,1.5,10.5,0.016\r\n' in done.out
    assert 'price EUR/MWh,cost EUR/h' in done.out and 'all,,,,,0.571' in done.out


def test_what_was_scaled_is_divided_again(desk: Captured, tmp_path: Path) -> None:
    table, case = tmp_path / 'table.csv', tmp_path / 'case.csv'
    table.write_text('name;supply;target;CP\nC1;20;135;0,002\nH2;170;60;0,003\nC3;80;140;0,004\nH4;150;30;0,0015\n')
    assert desk('case', '-d', '10', '--scale', '1000', str(table), '-o', str(case)).status == 0
    assert desk('targets', str(case), '--form', 'csv').out.startswith('hot utility,0.02,kW\r\ncold utility,0.06,kW')


# Errors.

ERRORS = [
    (['case', '-d', '10', 'nowhere.xlsx'], 3, 'nowhere.xlsx: cannot be read: No such file or directory'),
    (['targets', 'nowhere.csv'], 3, 'nowhere.csv: cannot be read: No such file or directory'),
    (['targets', ''], 3, ': cannot be read: No such file or directory'), (['units', FOUR, ''], 3, 'cannot be read'),
    (['targets', 'nowhere.csv', '-o', 'out.pdf'], 2, 'out.pdf: this answer is a text'),
    (['targets', '.'], 3, '.: cannot be read: Is a directory'),
    (['audit', FOUR, 'nowhere.txt'], 3, 'nowhere.txt: cannot be read'),
    (['targets', 'bad.csv'], 3, 'bad.csv: case row 2 BadNumber'), (['flow', 'bad.csv'], 3, 'bad.csv: case row 2'),
    (['audit', FOUR, 'bad.txt'], 3, 'bad.txt: network line 1 UnknownName'),
    (['site', 'bad.csv'], 3, 'bad.csv: site row 2'),
    (['prices', FOUR, 'bad.csv'], 3, 'bad.csv: study row 1 FieldCount'),
    (['sweep', 'bad.csv', '0', '10', '1'], 3, 'bad.csv: case row'),
    (['table', 'bad.csv', 'bad.txt'], 3, 'bad.csv: case row 2'),
    (['table', FOUR, 'bad.txt'], 3, 'bad.txt: network line 1'),
    (['case', '-d', 'x', 'table.csv'], 2, 'x is not a least difference'),
    (['case', '--scale', '3', 'table.csv'], 2, '3 is not a scale'),
    (['case', '--hours', '-1', 'table.csv'], 2, '-1 is not a number of hours'),
    (['case', '--separator', ';;', 'table.csv'], 2, ';; is no'),
    (['case', 'table.csv'], 3, 'table.csv: no contribution'),
    (['case', '-d', '10', 'bad.csv'], 3, 'pinchdesk: bad.csv: row 1: the table has a contribution, and -d'),
    (['targets', 'table.csv'], 3, 'FieldCount: too many or too few fields, or a field that has to be empty is not'),
    (['targets', 'table.csv'], 3, '; to make a case from a table use `pinchdesk case`'),
    (['targets', FOUR, '-o', 'out.pdf'], 2, 'out.pdf: this answer is a text, .csv or .xlsx'),
    ([], 2, 'required: WORD'), (['draws'], 2, 'invalid choice'), (['targets'], 2, 'required: CASE'),
    (['targets', FOUR, FOUR], 2, 'unrecognized'), (['targets', FOUR, '-o', '.'], 2, '.: is a folder'),
    (['targets', FOUR, '-o', FOUR], 2, 'is an input'), (['targets', FOUR, '-o', 'link.csv'], 2, 'is an input'),
    (['targets', FOUR, '-o', 'no/such/file'], 2, 'there is no folder'),
    (['targets', FOUR, '-o', '/dev/null'], 2, 'not a plain file'),
    (['targets', FOUR, '--form', 'pdf'], 2, 'invalid choice'), (['targets', 'a\0b'], 3, 'cannot be read'),
]


@pytest.mark.parametrize('words, status, said', ERRORS)
def test_an_error_names_file_place_and_cause(words: list[str], status: int, said: str, tmp_path: Path, desk: Captured,
                                             monkeypatch: pytest.MonkeyPatch) -> None:
    monkeypatch.chdir(tmp_path)
    Path('bad.csv').write_text('contribution,,50,,,,\nhot,H,1000;500,10,,,\n')
    Path('bad.txt').write_text('exchanger E1 H9 C1 5\n')
    Path('table.csv').write_text('H,150,60,2\n')
    os.symlink(FOUR, 'link.csv')
    before = sorted(os.listdir())
    done = desk(*words)
    assert (done.status, done.out) == (status, '')
    assert done.err.startswith('pinchdesk: ') and said in done.err
    assert sorted(os.listdir()) == before and example('four-stream.csv')[:12] == b'contribution'


def test_a_case_that_the_program_refuses_is_refused(desk: Captured, tmp_path: Path) -> None:
    table, case = tmp_path / 'table.csv', tmp_path / 'case.csv'
    table.write_text('kind;name;supply;target;CP\nhot;A;150;60;2\nheater;A;250;;\n')
    done = desk('case', '-d', '10', str(table), '-o', str(case))
    assert (done.status, case.exists()) == (3, False)
    assert done.err == f'pinchdesk: {table}: row 3: the name is used above already (SameName)\n'


def test_hostile_paths_and_names(tmp_path: Path, desk: Captured, monkeypatch: pytest.MonkeyPatch) -> None:
    monkeypatch.chdir(tmp_path)
    for name in ('a plant.csv', '$(touch x).csv', ';rm -rf x.csv', 'a\nb.csv', '\x1b[31m.csv', '<script>.csv', 'ü.csv'):
        Path(name).write_bytes(example('four-stream.csv'))
        Path('out').mkdir(exist_ok=True)
        assert desk('targets', name, '-o', f'out/{name}').status == 0
        assert Path('out', name).read_text().startswith('Targets') or Path('out', name).read_text().startswith('hot')
        os.unlink(name)
        done = desk('targets', name)
        assert done.status == 3 and '\x1b' not in done.err and done.err.count('\n') == 1
    Path('-dash.csv').write_bytes(example('four-stream.csv'))
    assert desk('targets', '--', '-dash.csv').status == 0
    assert sorted(os.listdir()) == ['-dash.csv', 'out']


def test_files_that_are_too_long_are_refused(tmp_path: Path, desk: Captured) -> None:
    path = tmp_path / 'long.csv'
    rows = b'#' + b'x' * 1000 + b',,,,,,\n'
    path.write_bytes(example('four-stream.csv') + rows * (8_380_000 // len(rows)))
    assert desk('targets', str(path)).status == 0
    path.write_bytes(b'x' * 8_388_609)
    for words in (['targets', str(path)], ['case', '-d', '10', str(path)], ['audit', FOUR, str(path)]):
        done = desk(*words)
        assert done.status == 3 and 'too long' in done.err


def test_a_large_table_is_refused(tmp_path: Path, desk: Captured) -> None:
    path = tmp_path / 'large.csv'
    path.write_text('name;supply;target;CP\n' + 'H;150;60;2\n' * 20_001)
    assert 'at most' in desk('case', '-d', '10', str(path)).err


# Outputs.

def test_an_output_is_whole_or_is_left(tmp_path: Path, monkeypatch: pytest.MonkeyPatch) -> None:
    path = tmp_path / 'out.txt'
    path.write_text('before')
    os.chmod(path, 0o640)
    write_whole(str(path), 'behind')
    assert (path.read_text(), stat.S_IMODE(path.stat().st_mode)) == ('behind', 0o640)
    assert os.listdir(tmp_path) == ['out.txt']

    def full(*_: object) -> None:
        raise OSError(28, 'No space left on device')
    monkeypatch.setattr(os, 'replace', full)
    with pytest.raises(Exception, match='No space left'):
        write_whole(str(path), 'never')
    assert (path.read_text(), os.listdir(tmp_path)) == ('behind', ['out.txt'])


def test_a_closed_or_full_output_is_an_error() -> None:
    import subprocess
    import sys
    from conftest import DESK
    with open('/dev/full', 'wb') as full:
        done = subprocess.run([sys.executable, str(DESK / 'pinchdesk'), 'targets', FOUR], stdout=full, check=False,
                              stderr=subprocess.PIPE)
    said = b'pinchdesk: standard output: cannot be written: No space left on device\n'
    assert (done.returncode, done.stderr) == (2, said)


def test_the_launcher_runs_from_any_folder(tmp_path: Path) -> None:
    done = command('targets', FOUR, cwd=tmp_path)
    assert done == Done(0, desk_text(), '')


def desk_text() -> str:
    return ('Targets\nhot utility   20  kW\ncold utility  60  kW\n\nPinches\nshifted °C  hot side °C  cold side °C\n'
            '        85           90            80\n')


@pytest.mark.parametrize('word', few_of([*PLACES, 'many'], {*PLACES, 'many'} - {'network'}))
def test_help_has_an_example_that_runs(word: str, desk: Captured, monkeypatch: pytest.MonkeyPatch,
                                       tmp_path: Path) -> None:
    monkeypatch.chdir(EXAMPLES.parent)
    done = desk(word, '--help')
    line = ' '.join(done.out.split('example: ')[1].split()).removeprefix('pinchdesk ')
    assert done.status == 0
    words = [str(tmp_path / argument) if at and line.split()[at - 1] == '-o' else argument
             for at, argument in enumerate(line.split())]
    assert desk(*words).status == 0


def test_a_program_that_is_not_there_is_told(desk: Captured, monkeypatch: pytest.MonkeyPatch) -> None:
    monkeypatch.setenv('PINCH', '/nowhere/pinch')
    assert desk('targets', FOUR).err == 'pinchdesk: $PINCH is /nowhere/pinch, which is not a program\n'
    monkeypatch.setenv('PINCH', '/bin/false')
    assert desk('targets', FOUR) == Done(2, '', "pinchdesk: /bin/false answered what `pinch targets` does not: ''\n")


@pytest.mark.parametrize('name', CASES)
def test_each_example_has_targets(name: str, desk: Captured, pinch: Pinch) -> None:
    wanted = pinch.targets(example(f'{name}.csv'))
    done = desk('targets', str(EXAMPLES / f'{name}.csv'), '--form', 'csv')
    rows = list(csv.reader(io.StringIO(done.out)))
    assert [Fraction(row[1]) * 1000 for row in rows[:2]] == [wanted.hot, wanted.cold]
