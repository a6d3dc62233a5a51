"""How a word ends: each status means one thing, whatever happens to the machine, to standard output or to the desk."""
from __future__ import annotations

import os
import subprocess
import sys
from collections.abc import Callable
from pathlib import Path

import pytest
from conftest import DESK, EXAMPLES, Done, example, few_rows

from pinchdesk.cli.main import main
from pinchdesk.batch.job import Job, done
from pinchdesk.batch.results import Done as Row
from pinchdesk.words.word import Answer, Files, NoOptions, TextFile

TC3, FOUR = str(EXAMPLES / 'tc3.csv'), str(EXAMPLES / 'four-stream.csv')
STEAM, PRICES = str(EXAMPLES / 'two-steam-levels.csv'), str(EXAMPLES / 'steam-prices.csv')
NETWORK = str(EXAMPLES / 'four-stream-network.txt')
Desk = Callable[..., Done]


@pytest.fixture
def desk(capfd: pytest.CaptureFixture[str]) -> Desk:
    def run(*words: str) -> Done:
        status = main(list(words))
        printed = capfd.readouterr()
        return Done(status, printed.out, printed.err)
    return run


def shell(line: str, cwd: Path | None = None) -> Done:
    """A line of the shell, in which `$D` is the desk and `$1` the examples."""
    environment = {**os.environ, 'D': f'{sys.executable} {DESK}/pinchdesk'}
    ended = subprocess.run(['sh', '-c', line, 'sh', str(EXAMPLES)], capture_output=True, check=False, cwd=cwd,
                           env=environment, stdin=subprocess.DEVNULL, timeout=60)
    return Done(ended.returncode, ended.stdout.decode(), ended.stderr.decode())


# One is no heat flow, or a network that is rejected.

def test_a_scenario_by_the_name_of_infeasible_is_none(desk: Desk, tmp_path: Path) -> None:
    study = tmp_path / 'study.csv'
    study.write_text('scenario,infeasible,,\n')
    assert desk('prices', STEAM, str(study)).status == 0
    study.write_text('span,LP,1,5\n')
    picture = str(tmp_path / 'infeasible.svg')
    assert desk('draw', 'prices', STEAM, str(study), '-o', picture).status == 0
    case = tmp_path / 'case.csv'
    case.write_bytes(example('two-steam-levels.csv').replace(b'LP', b'infeasible'))
    study.write_text('span,infeasible,1,5\n')
    assert desk('prices', str(case), str(study)).status == 0
    assert desk('draw', 'prices', str(case), str(study), '-o', picture).status == 0


def test_no_heat_flow_in_a_study_is(desk: Desk, tmp_path: Path) -> None:
    study = tmp_path / 'study.csv'
    case = tmp_path / 'case.csv'
    case.write_bytes(example('too-little-cooling.csv'))
    name = next(row.split(b',')[1] for row in case.read_bytes().split(b'\n') if row.startswith((b'cooler', b'heater')))
    for text in ('scenario,S,,\n', f'span,{name.decode()},1,5\n'):
        study.write_text(text)
        assert desk('prices', str(case), str(study)).status == 1


FINE = '1/281474976710655'
BY_NETWORK = [['audit'], ['table'], ['units'], ['rest'], ['draw', 'grid', '-o', 'x.svg'], ['page', '-o', 'x.html'],
              ['tradeoff', '--seconds', '1'], ['network', '--start']]


@pytest.mark.usefixtures('without_curves')
@pytest.mark.parametrize('words', BY_NETWORK, ids=str)
def test_a_network_that_is_too_fine_is_not_rejected(words: list[str], desk: Desk, tmp_path: Path,
                                                    monkeypatch: pytest.MonkeyPatch) -> None:
    monkeypatch.chdir(tmp_path)
    Path('case.csv').write_text('contribution,,50,,,,\nhot,H,1000,500,2,,\n')
    Path('fine.txt').write_text(f'exchanger E1 H COLD {FINE}\npass H E1 a\nend a\n')
    Path('bad.txt').write_text('exchanger E1 H COLD 1\npass H E1 a\nend a\n')
    word = 2 if words[0] == 'draw' else 1
    for network, status in (('fine.txt', 9), ('bad.txt', 1)):
        files = ['case.csv', *words[word:], network] if '--start' in words else ['case.csv', network, *words[word:]]
        assert desk(*words[:word], *files).status == status


def test_many_says_what_a_status_of_one_is(desk: Desk, tmp_path: Path) -> None:
    for name in ('too-little-cooling.csv', 'four-stream.csv'):
        (tmp_path / name).write_bytes(example(name))
    (tmp_path / 'bad.txt').write_text('exchanger E1 H2 COLD 1\npass H2 E1 a\nend a\n')
    (tmp_path / 'list').write_text('case;network\ntoo-little-cooling.csv;bad.txt\nfour-stream.csv;bad.txt\n')
    ended = desk('many', 'units', str(tmp_path / 'list'), '--form', 'csv', '--processes', '1')
    assert ended.status == 1 and ended.err.endswith('pinchdesk: 2 cases: 1 infeasible, 1 rejected\n')


def test_a_cost_that_no_network_has_is_no_answer(desk: Desk) -> None:
    ended = desk('network', TC3, '--cost', '1')
    assert ended.status == 2 and 'no network costs less' in ended.err


# An error of the desk's own.

def broken(*_: object) -> Answer:
    raise ZeroDivisionError('here')


def test_an_error_of_the_desk_is_one_line(desk: Desk, monkeypatch: pytest.MonkeyPatch) -> None:
    monkeypatch.setattr('pinchdesk.words.targets_word.targets_sheets', broken)
    ended = desk('targets', FOUR)
    assert (ended.status, ended.out, ended.err.count('\n')) == (70, '', 1)
    said = 'pinchdesk: the desk failed, please report this line: ZeroDivisionError: here (targets_word.py line'
    assert ended.err.startswith(said)
    monkeypatch.setenv('PINCHDESK_TRACE', '1')
    assert 'Traceback' in desk('targets', FOUR).err


@pytest.mark.parametrize('fault, said', [(MemoryError(), 'there is not enough memory'),
                                         (OSError(28, 'No space left on device', '/tmp/x'), '/tmp/x: No space left'),
                                         (ModuleNotFoundError('No module', name='pint'), 'the package pint is needed')])
def test_what_the_machine_has_not_is_one_line(fault: Exception, said: str, desk: Desk,
                                              monkeypatch: pytest.MonkeyPatch) -> None:
    def failing(*_: object) -> Answer:
        raise fault
    monkeypatch.setattr('pinchdesk.words.targets_word.targets_sheets', failing)
    ended = desk('targets', FOUR)
    assert (ended.status, ended.out, ended.err.count('\n')) == (2, '', 1) and said in ended.err
    files = Files({'case': (TextFile('a.csv', example('tc3.csv')),)})
    outcome = done(Job(0, ('targets',), NoOptions(), files))
    assert outcome.status == 2 and said in outcome.told and Row({'case': 'a'}, outcome).answer == 'failed'


# Standard output and error.

CLOSED = [
    ('$D targets $1/tc3.csv >&-', 2, 'pinchdesk: standard output: cannot be written: it is closed\n'),
    ('$D targets $1/tc3.csv > /dev/full', 2, 'standard output: cannot be written: No space'),
    ('$D targets $1/tc3.csv -o out.txt >&-', 0, ''), ('$D targets $1/tc3.csv <&- >&- 2>&-', 2, ''),
    ('$D case -d 10 t.csv > out.csv 2>&-', 2, ''), ('$D case -d 10 t.csv > out.csv 2> /dev/full', 2, ''),
    ('$D targets nowhere 2> /dev/full', 3, ''), ('$D targets nowhere 2>&-', 3, ''), ('$D targets 2>&-', 2, ''),
    ('$D --help > /dev/full', 2, 'No space'), ('$D --help >&-', 2, 'closed'),
    ('$D --version > /dev/full', 2, 'No space'),
    ('$D targets nowhere >&-', 3, 'nowhere: cannot be read'),
    ('$D draw curves $1/tc3.csv -o out.svg >&- 2>&-', 0, ''), ('$D many targets $1/list.txt >&-', 2, 'it is closed'),
    ('$D network $1/tc3.csv --seconds 2 -o out.txt <&- >&- 2>&-', 2, ''),
    ('$D targets $1/tc3.csv | true; true', 0, ''), ('python3 -u ${D#* } targets $1/tc3.csv > /dev/full', 2, 'No space')]


@pytest.mark.parametrize('line, status, said', few_rows(CLOSED, [CLOSED[at][0] for at in (0, 1, 3, 4)]))
def test_a_closed_or_full_output_is_no_traceback(line: str, status: int, said: str, tmp_path: Path) -> None:
    (tmp_path / 't.csv').write_text('H1;150;60;2\n')
    ended = shell(line, tmp_path)
    assert ended.status == status and said in ended.err and ended.err.count('\n') <= 2 and 'Trace' not in ended.err
    if 'out.csv' in line:
        # What was to be told was not; what it would have been told of stands.
        assert (tmp_path / 'out.csv').read_text().endswith('contribution,,50,,,,\nhot,H1,1500,600,200,,\n')
    if 'network' in line:
        assert 'exchangers' in (tmp_path / 'out.txt').read_text()
    if 'out.svg' in line:
        assert (tmp_path / 'out.svg').read_text().startswith('<?xml')


# Limits of the machine.

LIMITED = [
    ('ulimit -n 12; $D many targets $1/list.txt', 2, '7 cases: 7 failed'),
    ('ulimit -n 8; $D targets $1/tc3.csv', 2, 'Too many open files'),
    ('ulimit -n 6; $D many targets $1/list.txt', 2, 'Too many open files'),
    ('ulimit -n 8; $D page $1/tc3.csv -o x.html', 2, 'Too many open files'),
    ('ulimit -f 0; $D targets $1/tc3.csv 2>&1 | cat >&2', 0, 'No usable temporary directory'),
    ('ulimit -f 1; $D targets $1/tc3.csv -o x.xlsx 2>&1 | cat >&2', 0, 'this machine has no room left'),
    ('ulimit -f 1; $D draw curves $1/tc3.csv -o x.svg 2>&1 | cat >&2', 0, 'x.svg: cannot be written: File too large'),
    ('ulimit -v 30000; $D targets $1/tc3.csv', 2, 'there is not enough memory'),
    ('ulimit -v 250000; $D whatif $1/tc3.csv --workers 16', 2, 'room'),
    ('mkfifo f; $D targets f', 3, 'f: is not a plain file'),
    ('mkfifo f; $D targets $1/tc3.csv -o f', 2, 'is not a plain file')]


@pytest.mark.parametrize('line, status, said', few_rows(LIMITED, [LIMITED[at][0] for at in (1, 7, 9)]))
def test_a_machine_without_room_is_one_line(line: str, status: int, said: str, tmp_path: Path) -> None:
    ended = shell(line, tmp_path)
    assert (ended.status, ended.err.count('\n')) == (status, 1) and said in ended.err
