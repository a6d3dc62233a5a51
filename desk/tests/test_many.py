"""One word over many cases: a table in the order of the input, whatever happens to one case or to whoever does it."""
from __future__ import annotations

import csv
import io
import os
import subprocess
import sys
from collections.abc import Callable, Iterator
from dataclasses import replace
from decimal import Decimal
from pathlib import Path
from typing import Any

import openpyxl
import pytest
from conftest import CASES, DESK, EXAMPLES, NETWORKS, Done, example
from tabled import workbook

import pinchdesk
from pinchdesk import Pinch, Refused, WordsError, read_case
from pinchdesk.batch.arguments import taken_of
from pinchdesk.batch.job import TRIES, Job, cells_of, done
from pinchdesk.cli.main import main
from pinchdesk.program.digests import digests
from pinchdesk.report.facts import Fact, FactTable, rows_of_tables
from pinchdesk.report.sheet import Sheet
from pinchdesk.words.all_words import word_of
from pinchdesk.words.network_word import NetworkOptions
from pinchdesk.words.word import Answer, Files, NoOptions, TextFile

LIST = str(EXAMPLES / 'list.txt')
Desk = Callable[..., Done]


@pytest.fixture
def desk(capfd: pytest.CaptureFixture[str]) -> Desk:
    """Runs words in this process, and in a test of processes by two of its own."""
    def run(*words: str) -> Done:
        status = main(['many', *words, *(['--processes', '2'] if '--help' not in words else [])])
        captured = capfd.readouterr()
        return Done(status, captured.out, captured.err)
    return run


@pytest.fixture
def folder(tmp_path: Path) -> Path:
    """A folder with three cases in an order that is not that of their letters, one of them refused."""
    place = tmp_path / 'cases'
    place.mkdir()
    (place / 'c10.csv').write_bytes(example('tc3.csv'))
    (place / 'c2.csv').write_bytes(example('four-stream.csv'))
    (place / 'c3.csv').write_text('contribution,,50,,,,\nhot,H,1000;500,10,,,\n')
    return place


def rows_of(done: Done) -> list[dict[str, str]]:
    return list(csv.DictReader(io.StringIO(done.out)))


def program(tmp_path: Path, monkeypatch: pytest.MonkeyPatch, lines: str) -> None:
    """A program that does something before it answers."""
    script = tmp_path / 'pinch'
    script.write_text(f'#!/bin/sh\n{lines}\nexec {Pinch().path} "$@"\n')
    script.chmod(0o755)
    monkeypatch.setenv('PINCH', str(script))


# What comes of it.

@pytest.mark.processes('--all')
def test_each_case_has_its_row_in_order_and_a_refusal_is_one(desk: Desk, folder: Path) -> None:
    done = desk('targets', str(folder), '--form', 'csv')
    rows = rows_of(done)
    assert [(row['case'], row['answer'], row['hot utility kW']) for row in rows] == [
        ('c2.csv', 'good', '20'), ('c3.csv', 'refused', ''), ('c10.csv', 'good', '107.5')]
    assert rows[1]['said'].startswith(f'{folder}/c3.csv: case row 2 BadNumber: a field that has to be a number')
    assert (done.status, done.err) == (3, 'pinchdesk: 3 cases: 2 good, 1 refused\n')


def test_the_answers_are_those_of_the_word_by_itself(pinch: Pinch) -> None:
    cases = {name: example(f'{name}.csv') for name in CASES}
    targets, flows = pinchdesk.many('targets', cases), pinchdesk.many('flow', cases)
    assert [result.name for result in targets.done] == CASES and targets.status == 0
    for result, flow in zip(targets.done, flows.done):
        alone, wanted = pinch.targets(cases[result.name]), pinch.flow(cases[result.name])
        assert result.outcome.facts[0]['hot utility kW'] * 1000 == alone.hot  # type: ignore[operator]
        assert (flow.answer == 'infeasible') == isinstance(wanted, pinchdesk.Cut)
    assert flows.status == 1


@pytest.mark.parametrize('form', ['text', 'xlsx'])
def test_a_row_that_is_not_good_is_marked(form: str, desk: Desk, folder: Path, tmp_path: Path) -> None:
    if form == 'text':
        done = desk('targets', str(folder))
        assert [line.split()[1] for line in done.out.split('\n') if line.startswith('> ')] == ['c3.csv']
        return
    output = tmp_path / 'out.xlsx'
    assert desk('targets', str(folder), '-o', str(output)).status == 3
    page = openpyxl.load_workbook(output)['targets']
    assert [row[0].value for row in page.iter_rows() if row[0].fill.fill_type == 'solid'] == ['c3.csv']


def test_a_rejected_network_is_no_good_row(desk: Desk, tmp_path: Path) -> None:
    (tmp_path / 'bad.txt').write_bytes(example('four-stream-network.txt').replace(b'E2 H4 C1 90000', b'E2 H4 C1 90050')
                                       .replace(b'C1 20000', b'C1 19950').replace(b'COLD 60000', b'COLD 59950'))
    text = f'{EXAMPLES}/four-stream.csv;bad.txt\n{EXAMPLES}/tc3.csv;{EXAMPLES}/tc3-network.txt\n'
    (tmp_path / 'list').write_text(text)
    done = desk('audit', str(tmp_path / 'list'), '--form', 'csv')
    rows = rows_of(done)
    assert (done.status, [row['answer'] for row in rows]) == (1, ['rejected', 'good'])
    assert rows[0]['said'].startswith('exchanger E2 ColdEndApproach; too close at its cold end')
    assert rows[1]['hot utility kW'] == '107.5' and rows[1]['excess over the hot target kW'] == '0'


@pytest.mark.processes('--all')
def test_a_word_of_several_rows_has_all_of_them(desk: Desk) -> None:
    done = desk('sweep', LIST, '0', '20', '10', '--form', 'csv')
    rows = rows_of(done)
    # Two cases with steam of their own have no heat flow at one of the differences, and two with contributions of
    # their own have a row more, of the case as it is.
    assert done.status == 1 and len(rows) == 23
    assert [row['case'] for row in rows if row['least difference K'] == 'its own'] == [
        'column.csv', 'own-contributions.csv']
    assert {row['answer'] for row in rows if row['least cost price times W'] == 'no heat flow'} == {'infeasible'}
    assert [row['least difference K'] for row in rows[:4]] == ['0', '10', '20', '0']
    assert {row['case'] for row in rows[:3]} == {'four-stream.csv'}


def test_one_study_may_be_that_of_all_cases(desk: Desk, tmp_path: Path) -> None:
    for name in ('one', 'two'):
        (tmp_path / f'{name}.csv').write_bytes(example('two-steam-levels.csv'))
    rows = rows_of(desk('prices', str(tmp_path), '--study', str(EXAMPLES / 'steam-prices.csv'), '--form', 'csv'))
    assert {row['case'] for row in rows} == {'one.csv', 'two.csv'}
    assert [row['scenario'] for row in rows if row['case'] == 'two.csv' and row['scenario']] == ['Today', 'Winter']


def test_what_an_answer_says_stands_in_no_column_of_the_case(desk: Desk, tmp_path: Path) -> None:
    (tmp_path / 'list').write_text(f'case;network;table\n{EXAMPLES}/tc3.csv;{EXAMPLES}/tc3-network.txt;x\n')
    rows = rows_of(desk('units', str(tmp_path / 'list'), '--form', 'csv'))
    assert {row['network'] for row in rows} == {f'{EXAMPLES}/tc3-network.txt'}
    assert [row['in the network'] for row in rows][:3] == ['7', '3', '4']
    changes = tmp_path / 'changes.csv'
    changes.write_text('scenario;source;field;value\nhotter;HP;level;+10 K\n')
    (tmp_path / 'list').write_text(f'case;study\n{EXAMPLES}/two-steam-levels.csv;{EXAMPLES}/steam-prices.csv\n')
    rows = rows_of(desk('prices', str(tmp_path / 'list'), '--scenarios', str(changes), '--form', 'csv'))
    assert [(row['scenario'], row['its scenario']) for row in rows if row['its scenario']] == [
        ('base', 'Today'), ('base', 'Winter'), ('hotter', 'Today'), ('hotter', 'Winter')]


def test_what_is_said_of_an_answer_stands_in_its_first_row() -> None:
    one = FactTable('One', ((Fact('pinch', '80'), Fact('', Decimal(5), 'kW')), (Fact('pinch', '90'),)))
    assert cells_of(Answer(facts=one.rows, headline='a remark')) == (
        {'pinch': '80', 'kW': 5, 'said': 'a remark'}, {'pinch': '90'})
    rows = rows_of_tables([one, replace(one, title='Two', rows=one.rows[:1])])
    assert [row['table'] for row in cells_of(Answer(facts=rows))] == ['One', 'One', 'Two']
    assert cells_of(Answer()) == ({},)
    assert one.sheet() == Sheet('One', ('pinch', 'kW'), (('80', Decimal(5)), ('90',)))


def test_the_words_of_a_call_are_those_that_the_word_declares() -> None:
    network = word_of(['network'])
    taken = taken_of(network, ['--above', '5', '--start', 'a.txt'])
    assert taken.common == {'start': ('a.txt',)} and taken.options == NetworkOptions(above='5', workers=1)
    assert [role.name for role in network.roles] == ['case', 'start']
    assert taken_of(word_of(['whatif']), []).options.workers == 1
    # What the command writes besides is written by it alone.
    for word, words in (('rest', ['--case', 'x']), ('network', ['--above', '5', '--cost', '6'])):
        with pytest.raises(WordsError):
            taken_of(word_of([word]), words)


@pytest.mark.parametrize('words, row', [
    (['site', 'sites'], {'site': 'three-plants.csv', 'boiler kW': '25', 'cooling kW': '9'}),
    (['case', 'tables', '-d', '10'], {'table': 'table.xlsx', 'answer': 'good'}),
    (['table', 'cases'], {'network': 'tc3-network.txt', 'said': 'accepted, 0 kW above the hot target'})])
def test_other_words_have_rows_too(words: list[str], row: dict[str, str], desk: Desk, tmp_path: Path,
                                   monkeypatch: pytest.MonkeyPatch) -> None:
    monkeypatch.chdir(tmp_path)
    for place, names in (('sites', ['three-plants.csv']), ('tables', ['table.xlsx']),
                         ('cases', ['tc3.csv', 'tc3-network.txt'])):
        Path(place).mkdir()
        for name in names:
            Path(place, name).write_bytes(example(name))
    ended = desk(*words, '--form', 'csv')
    assert ended.status == 0 and row.items() <= rows_of(ended)[0].items()


@pytest.mark.long
def test_the_answers_are_kept_where_it_is_asked(desk: Desk, folder: Path, tmp_path: Path) -> None:
    kept = tmp_path / 'kept'
    assert desk('draw', 'curves', str(folder), '--into', str(kept)).status == 3
    assert sorted(os.listdir(kept)) == ['c10.svg', 'c2.svg'] and b'<svg' in (kept / 'c2.svg').read_bytes()
    assert desk('targets', str(folder), '--into', str(kept), '--ending', 'csv').status == 3
    assert (kept / 'c2.csv').read_text().startswith('hot utility,20,kW')
    done = desk('targets', str(folder), '--into', str(folder), '--ending', 'csv')
    assert (done.status, 'c2.csv: is an input' in done.err) == (2, True)
    done = desk('targets', str(folder), '-o', str(folder / 'c2.csv'))
    assert (done.status, 'is an input' in done.err) == (2, True)
    assert (folder / 'c2.csv').read_bytes() == example('four-stream.csv')


def test_two_cases_of_one_name_are_kept_apart(desk: Desk, folder: Path, tmp_path: Path) -> None:
    (tmp_path / 'list').write_text('case\n' + 'cases/c2.csv\n' * 2 + f'{EXAMPLES}/tc3.csv\n')
    assert desk('targets', str(tmp_path / 'list'), '--into', str(tmp_path / 'kept')).status == 0
    assert sorted(os.listdir(tmp_path / 'kept')) == ['cases_c2-2.txt', 'cases_c2.txt', 'tc3.txt']


# Where the cases come from.

def test_networks_stand_beside_the_cases_of_a_folder(desk: Desk, tmp_path: Path) -> None:
    for name in NETWORKS[:3]:
        for file in (f'{name}.csv', f'{name}-network.txt'):
            (tmp_path / file).write_bytes(example(file))
    rows = rows_of(desk('audit', str(tmp_path), '--form', 'csv'))
    assert {row['network'] for row in rows} == {f'{name}-network.txt' for name in NETWORKS[:3]}
    os.unlink(tmp_path / f'{NETWORKS[1]}-network.txt')
    done = desk('audit', str(tmp_path))
    assert done.status == 2 and f'{NETWORKS[1]}.csv has no network' in done.err
    done = desk('audit', str(tmp_path), '--network', str(tmp_path / f'{NETWORKS[0]}-network.txt'), '--form', 'csv')
    assert sorted({row['answer'] for row in rows_of(done)}) == ['good', 'refused']


LISTS: list[bytes] = [
    b'four-stream.csv\n\ntc3.csv\n', b'# two cases\ncase\nfour-stream.csv\ntc3.csv\n',
    b'network,case,note\nx,four-stream.csv,"a, b"\n,tc3.csv\n',
    b'\xef\xbb\xbfname;Case\r\nA;four-stream.csv\r\nB;tc3.csv',
    workbook([['case', 'network'], ['four-stream.csv', 'x'], ['tc3.csv']])]


@pytest.mark.parametrize('content', LISTS, ids=['plain', 'headed', 'noted', 'named', 'workbook'])
def test_a_list_is_any_table(content: bytes, desk: Desk, tmp_path: Path, monkeypatch: pytest.MonkeyPatch) -> None:
    monkeypatch.chdir(EXAMPLES)
    (tmp_path / 'list').write_bytes(content)
    rows = rows_of(desk('targets', str(tmp_path / 'list'), '--form', 'csv'))
    assert [(row['case'], row['hot utility kW']) for row in rows] == [('four-stream.csv', '20'), ('tc3.csv', '107.5')]


FAULTS = [
    (b'', 3, 'there is no case in it'), (b'case\n', 3, 'there is no case in it'),
    (b'four.csv;x;y\n', 3, 'its columns are not clear'), (b'name\nx\n', 3, 'it has no column `case`'),
    (b'case;name\n;x\n', 3, 'row 2: there is no case'), (b'case\nfour.csv;x\n', 3, 'row 2 column 2: a cell under no'),
    (example('tc3.csv'), 3, 'this is one case, and a folder or a list'), (b'\0\0', 3, 'neither a workbook nor a text')]


@pytest.mark.parametrize('content, status, said', FAULTS, ids=range(len(FAULTS)))
def test_a_list_that_is_not_clear_is_refused(content: bytes, status: int, said: str, desk: Desk,
                                             tmp_path: Path) -> None:
    path = tmp_path / 'list.txt'
    path.write_bytes(content)
    done = desk('targets', str(path))
    assert (done.status, done.out) == (status, '') and done.err.startswith(f'pinchdesk: {path}: ') and said in done.err


def test_a_path_that_is_two_files_is_refused(desk: Desk, folder: Path, monkeypatch: pytest.MonkeyPatch) -> None:
    monkeypatch.chdir(folder.parent)
    Path('c2.csv').write_bytes(example('tc3.csv'))
    (folder / 'list').write_text('c2.csv\n')
    assert 'c2.csv is there twice' in desk('targets', 'cases/list').err
    (folder / 'list').write_text('c10.csv\nnowhere.csv\n')
    done = desk('targets', 'cases/list', '--form', 'csv')
    assert [row['answer'] for row in rows_of(done)] == ['good', 'refused']
    assert 'nowhere.csv: cannot be read: No such file' in rows_of(done)[1]['said']


def test_an_empty_folder_has_no_case(desk: Desk, tmp_path: Path) -> None:
    assert desk('targets', str(tmp_path)) == Done(3, '', f'pinchdesk: {tmp_path}: there is no case in it\n')


WRONG = [(['targets', LIST, '--processes', '0'], '0 is not a number of processes'),
         (['page', LIST], 'required: --into'), (['draw', LIST], 'invalid choice'), (['many', LIST], 'invalid choice'),
         (['prices', LIST], 'four-stream.csv has no study: give the list a column `study`'),
         (['sweep', LIST], 'required: FIRST, LAST, STEP')]


@pytest.mark.parametrize('words, said', WRONG)
def test_words_that_are_none(words: list[str], said: str, capfd: pytest.CaptureFixture[str]) -> None:
    assert main(['many', *words]) == 2
    assert said in capfd.readouterr().err


def test_without_a_program_nothing_is_begun(desk: Desk, monkeypatch: pytest.MonkeyPatch) -> None:
    monkeypatch.setenv('PINCH', '/nowhere/pinch')
    assert desk('targets', LIST) == Done(2, '', 'pinchdesk: $PINCH is /nowhere/pinch, which is not a program\n')


def test_each_case_is_taken_in_each_scenario(desk: Desk, tmp_path: Path) -> None:
    changes = tmp_path / 'changes.csv'
    changes.write_text('scenario;source;field;value\nhotter;H2;supply;+10 K\nless;H2;CP;-5 %\n')
    (tmp_path / 'bad.csv').write_text('contribution,,50,,,,\nhot,H,1000;500,10,,,\n')
    (tmp_path / 'list').write_text(f'{EXAMPLES}/four-stream.csv\n{EXAMPLES}/column.csv\nbad.csv\n')
    words = ['targets', str(tmp_path / 'list'), '--scenarios', str(changes), '--form', 'csv']
    done = desk(*words, '--into', str(tmp_path / 'kept'))
    rows = [(row['scenario'], row['answer'], row['hot utility kW']) for row in rows_of(done)]
    assert rows[:3] == [('base', 'good', '20'), ('hotter', 'good', '0'), ('less', 'good', '32')]
    assert [row[:2] for row in rows[3:]] == [
        ('base', 'good'), *[(name, 'refused') for name in ('hotter', 'less', 'base', 'hotter', 'less')]]
    assert {row['said'].split(' BadNumber')[0] for row in rows_of(done)[6:]} == {f'{tmp_path}/bad.csv: case row 2'}
    assert (done.status, len(os.listdir(tmp_path / 'kept'))) == (3, 4)
    assert 'four-stream-hotter.txt' in os.listdir(tmp_path / 'kept')


# From a notebook.

@pytest.mark.processes('--all')
def test_scenarios_are_cases_by_name() -> None:
    case = read_case(example('tc3.csv'))
    hotter = replace(case, streams=(replace(case.streams[0], supply=case.streams[0].supply + 10), *case.streams[1:]))
    results = pinchdesk.many('targets', {'base': case, 'hotter': hotter}, processes=1)
    assert [(result.name, result.outcome.facts[0]['hot utility kW']) for result in results.done][0][0] == 'base'
    assert results.told == '2 cases: 2 good' and results.sheet().headings[:2] == ('case', 'answer')
    network = pinchdesk.read_network(example('tc3-network.txt'))
    results = pinchdesk.many('audit', {'base': (case, network), 'hotter': (hotter, network)}, processes=2)
    assert [result.answer for result in results.done] == ['good', 'rejected']
    results = pinchdesk.many('sweep', {'base': case}, '0', '20', '10', processes=1)
    assert len(results.done[0].outcome.facts) == 3


def test_a_call_that_is_not_clear_is_an_error() -> None:
    for word, words in (('nothing', ()), ('draw', ()), ('sweep', ()), ('targets', ('--more',)), ('audit', ())):
        with pytest.raises(WordsError):
            pinchdesk.many(word, {'a': example('tc3.csv')}, *words)
    with pytest.raises(Refused):
        pinchdesk.many('targets', EXAMPLES / 'tc3.csv')


# Whatever happens.

@pytest.mark.processes
def test_a_process_that_dies_loses_no_case(folder: Path, tmp_path: Path, monkeypatch: pytest.MonkeyPatch) -> None:
    program(tmp_path, monkeypatch, f'mkdir {tmp_path}/died 2> /dev/null && kill -9 $PPID')
    results = pinchdesk.many('targets', folder, processes=2)
    assert [(result.name, result.answer) for result in results.done] == [('c2.csv', 'good'), ('c3.csv', 'refused'),
                                                                         ('c10.csv', 'good')]
    assert (tmp_path / 'died').is_dir()


@pytest.mark.long
@pytest.mark.processes
def test_a_case_at_which_each_process_dies_is_given_up(folder: Path, tmp_path: Path,
                                                       monkeypatch: pytest.MonkeyPatch) -> None:
    program(tmp_path, monkeypatch, f'grep -q "1000;500" case && echo >> {tmp_path}/deaths && kill -9 $PPID')
    results = pinchdesk.many('targets', folder, processes=2)
    assert [result.answer for result in results.done] == ['good', 'failed', 'good'] and results.status == 2
    assert results.done[1].outcome.told == 'the process that did it died, 3 times: by signal 9'
    assert (tmp_path / 'deaths').read_text() == '\n' * TRIES


def test_an_error_of_the_desk_is_an_outcome(monkeypatch: pytest.MonkeyPatch) -> None:
    def broken(*_: object) -> Answer:
        raise ZeroDivisionError('here')
    monkeypatch.setattr('pinchdesk.words.targets_word.targets_sheets', broken)
    job = Job(0, ('targets',), NoOptions(), Files({'case': (TextFile('tc3.csv', example('tc3.csv')),)}))
    outcome = done(job)
    assert outcome.status == 70 and outcome.told.startswith('the desk failed, please report this line: ZeroDivisionErr')


@pytest.mark.long
def test_processes_that_cannot_be_forked_are_started(folder: Path, tmp_path: Path) -> None:
    """As after a search for networks in a notebook or a script, which is not run once more."""
    script = tmp_path / 'script.py'
    script.write_text('import sys, types\nimport pinchdesk\nsys.modules["scipy.optimize"] = types.ModuleType("x")\n'
                      f'print(pinchdesk.many("targets", {str(folder)!r}, processes=2).told)\n')
    ended = subprocess.run([sys.executable, str(script)], capture_output=True, check=False, text=True,
                           env={**os.environ, 'PYTHONPATH': str(DESK / 'src')})
    assert (ended.stdout, ended.stderr) == ('3 cases: 2 good, 1 refused\n', '')


@pytest.mark.processes('--all')
def test_what_was_done_is_kept_when_it_is_stopped(desk: Desk, folder: Path, monkeypatch: pytest.MonkeyPatch) -> None:
    def stop(text: str) -> None:
        if text.startswith('2 of 3'):
            raise KeyboardInterrupt
    monkeypatch.setattr('pinchdesk.cli.answering.tell', stop)
    done = desk('targets', str(folder), '--form', 'csv')
    assert done.status == 130
    assert sorted(row['answer'] for row in rows_of(done)) in (['good', 'good', 'not done'],
                                                              ['good', 'not done', 'refused'])
    assert 'not done' in done.err


# By a cluster. The package takes long to load: these tests are one worker's.

CLUSTER = pytest.mark.xdist_group('cluster')


@pytest.fixture(scope='module')
def scheduler() -> Iterator[str]:
    """A scheduler with one worker, both in this process."""
    distributed: Any = pytest.importorskip('distributed')
    with distributed.LocalCluster(n_workers=1, threads_per_worker=2, processes=False, dashboard_address=None,
                                  protocol='tcp://', host='127.0.0.1') as cluster:
        yield cluster.scheduler_address


@CLUSTER
def test_a_cluster_gives_the_same_table(scheduler: str, desk: Desk, folder: Path) -> None:
    here = desk('targets', str(folder), '--form', 'csv')
    there = desk('targets', str(folder), '--form', 'csv', '--scheduler', scheduler)
    assert there == here
    bad = rows_of(there)[1]
    assert bad['answer'] == 'refused' and bad['said'].startswith(f'{folder}/c3.csv')


@CLUSTER
def test_a_worker_of_another_version_is_told(scheduler: str, folder: Path, desk: Desk,
                                             monkeypatch: pytest.MonkeyPatch) -> None:
    own = digests()
    for other, said in ((replace(own, desk='0' * 64), 'it has another pinchdesk'),
                        (replace(own, program='1' * 64), 'it has another pinch (digest ')):
        monkeypatch.setattr('pinchdesk.batch.cluster.digests', lambda changed_digests=other: changed_digests)
        done = desk('targets', str(folder), '--scheduler', scheduler)
        assert (done.status, done.out) == (2, '')
        assert f'no worker at {scheduler} can be asked; tcp://' in done.err and said in done.err


@CLUSTER
def test_without_a_scheduler_or_the_package_it_is_told(desk: Desk, monkeypatch: pytest.MonkeyPatch) -> None:
    pytest.importorskip('distributed')
    monkeypatch.setattr('pinchdesk.batch.cluster.ANSWERS', 0.2)
    for address in ('tcp://127.0.0.1:1', 'nothing://x'):
        done = desk('targets', LIST, '--scheduler', address)
        assert done.status == 2 and done.err.startswith(f'pinchdesk: {address}: there is no scheduler')
    modules: dict[str, Any] = sys.modules
    monkeypatch.setitem(modules, 'distributed', None)
    done = desk('targets', LIST, '--scheduler', 'tcp://127.0.0.1:1')
    assert done.status == 2 and done.err.count('\n') == 1 and 'needs the package distributed' in done.err
