"""Where an answer is written: never over a file that is read, whatever it is called there, and no two into one."""
from __future__ import annotations

import csv
import io
import os
from collections.abc import Callable
from dataclasses import replace
from pathlib import Path

import pytest
from conftest import Done, example, few_of
from hypothesis import given
from hypothesis import strategies as st

import pinchdesk
from pinchdesk.cli.main import main
from pinchdesk.batch.kept_files import names_of
from pinchdesk.batch.inputs import Listed
from pinchdesk.batch.scenarios import SCENARIO

Desk = Callable[..., Done]
CHANGES = 'scenario;source;field;value\nhotter;S1;supply;+1 K\n'


@pytest.fixture
def desk(capfd: pytest.CaptureFixture[str]) -> Desk:
    def run(*words: str) -> Done:
        status = main(list(words))
        printed = capfd.readouterr()
        return Done(status, printed.out, printed.err)
    return run


@pytest.fixture
def here(tmp_path: Path, monkeypatch: pytest.MonkeyPatch) -> Path:
    """A folder with a case, its network, a study, scenarios and lists of them."""
    monkeypatch.chdir(tmp_path)
    for name, file in (('tc3.csv', 'tc3.csv'), ('net.txt', 'tc3-network.txt'), ('steam.csv', 'two-steam-levels.csv'),
                       ('study.csv', 'steam-prices.csv'), ('site.csv', 'three-plants.csv'), ('table.csv', 'table.csv')):
        Path(name).write_bytes(example(file))
    Path('changes.csv').write_text(CHANGES)
    Path('tc3.txt').write_text('case;network\ntc3.csv;net.txt\n')
    Path('steam.txt').write_text('case;study\nsteam.csv;study.csv\n')
    return tmp_path


# A word with its files, and which of them an output may not be.
READ = [
    ('case -d 10', 'table.csv'), ('targets', 'tc3.csv'), ('flow', 'tc3.csv'), ('audit', 'tc3.csv net.txt'),
    ('table', 'tc3.csv net.txt'), ('units', 'tc3.csv net.txt'), ('rest', 'tc3.csv net.txt'),
    ('whatif', 'tc3.csv changes.csv'), ('prices', 'steam.csv study.csv'), ('site', 'site.csv'),
    ('tradeoff --seconds 1', 'tc3.csv net.txt'), ('network --seconds 1 --start', 'net.txt tc3.csv'),
    ('many targets', 'tc3.txt'), ('many targets --scenarios changes.csv', 'tc3.txt'), ('many audit', 'tc3.txt'),
    ('many prices', 'steam.txt'), ('many audit --network net.txt', '.')]
MORE = {'many targets': 'tc3.csv', 'many targets --scenarios changes.csv': 'tc3.csv changes.csv',
        'many audit': 'tc3.csv net.txt', 'many prices': 'steam.csv study.csv',
        'many audit --network net.txt': 'tc3.csv net.txt'}


def unchanged(folder: Path) -> dict[str, bytes]:
    return {path.name: path.read_bytes() for path in folder.iterdir() if path.is_file()}


@pytest.mark.parametrize('words, files', READ, ids=[words for words, _ in READ])
def test_no_output_goes_over_a_file_that_is_read(words: str, files: str, desk: Desk, here: Path) -> None:
    before = unchanged(here)
    for name in dict.fromkeys((*files.split(), *MORE.get(words, '').split())):
        if not Path(name).is_file():
            continue
        os.symlink(name, 'soft')
        os.link(name, 'hard')
        for output in (name, f'./{name}', str(here / name), f'../{here.name}/{name}', 'soft', 'hard'):
            ended = desk(*words.split(), *files.split(), '--form', 'text', '-o', output) \
                if words.split()[0] not in ('case', 'network') else desk(*words.split(), *files.split(), '-o', output)
            assert (ended.status, ended.out) == (2, '') and 'is an input' in ended.err
        os.unlink('soft')
        os.unlink('hard')
    assert unchanged(here) == before


@pytest.mark.parametrize('words', ['draw curves tc3.csv', 'draw grid tc3.csv net.txt', 'page tc3.csv net.txt',
                                   'draw prices steam.csv study.csv', 'draw site site.csv', 'draw sweep tc3.csv 0 9 3'])
def test_no_picture_goes_over_a_file_that_is_read(words: str, desk: Desk, here: Path) -> None:
    for name in [word for word in words.split() if '.' in word]:
        os.link(name, 'x.html' if words.startswith('page') else 'x.svg')
        ended = desk(*words.split(), '-o', 'x.html' if words.startswith('page') else 'x.svg')
        assert ended.status == 2 and 'is an input' in ended.err
        os.unlink('x.html' if words.startswith('page') else 'x.svg')


@pytest.mark.parametrize('words, over', [
    ('targets tc3.txt --into .', 'tc3.txt'), ('targets list --into . --ending csv', 'tc3.csv'),
    ('audit list --into x', 'net.txt'), ('targets list --into x --scenarios changes.csv', 'changes.csv')])
def test_no_answer_that_is_kept_goes_over_a_file_that_is_read(words: str, over: str, desk: Desk, here: Path) -> None:
    os.rename('tc3.txt', 'list') if 'list' in words else None
    Path('x').mkdir()
    if '--into x' in words:
        # By a link, so that its name tells nothing.
        os.symlink(f'../{over}', 'x/tc3-base.txt' if 'scenarios' in words else 'x/tc3.txt')
    before = unchanged(here)
    ended = desk('many', *words.split())
    assert ended.status == 2 and 'is an input' in ended.err and unchanged(here) == before


def test_the_rest_and_the_trade_off_write_no_file_twice(desk: Desk, here: Path) -> None:
    assert 'is an input' in desk('rest', 'tc3.csv', 'net.txt', '--case', 'net.txt').err
    assert 'is an input' in desk('rest', 'tc3.csv', 'net.txt', '--case', 'x.csv', '-o', './x.csv').err
    os.rename('net.txt', 'tc3-7.txt')
    before = unchanged(here)
    for words in (['tc3-7.txt'], ['-o', 'tc3-99.txt']):
        ended = desk('tradeoff', 'tc3.csv', *words, '--seconds', '1', '--networks', '.')
        assert ended.status == 2 and 'may be written there' in ended.err
    Path('nets').mkdir()
    os.symlink('../tc3.csv', 'nets/tc3-3.txt')
    assert 'may be written there' in desk('tradeoff', 'tc3.csv', '--seconds', '1', '--networks', 'nets').err
    assert unchanged(here) == before


def test_two_answers_never_go_to_one_file(desk: Desk, here: Path) -> None:
    for name in ('a.csv', 'b.csv'):
        Path(name).write_bytes(example('tc3.csv'))
    Path('a-2.csv').write_bytes(example('four-stream.csv'))
    Path('list').write_text('case\na.csv\na.csv\na-2.csv\nb.csv\n')
    assert desk('many', 'targets', 'list', '--into', 'r').status == 0
    assert sorted(os.listdir('r')) == ['a-2.txt', 'a-3.txt', 'a.txt', 'b.txt']
    assert 'hot utility   20 ' in Path('r/a-2.txt').read_text()
    os.unlink('r/b.txt')
    os.symlink('a.txt', 'r/b.txt')
    ended = desk('many', 'targets', 'list', '--into', 'r')
    assert ended.status == 2 and 'two answers would go there' in ended.err
    ended = desk('many', 'targets', 'list', '--into', 'r', '-o', 'r/a-3.txt')
    assert ended.status == 2 and 'two answers would go there' in ended.err
    for ending in ('', '/x', '/../x', '.'):
        assert desk('many', 'targets', 'list', '--into', 'r', '--ending', ending).status == 2


def test_an_answer_that_cannot_be_written_is_one_row(desk: Desk, here: Path) -> None:
    Path('list').write_text('case\ntc3.csv\nsteam.csv\n')
    os.makedirs('r/tc3.txt')
    ended = desk('many', 'targets', 'list', '--into', 'r', '--form', 'csv')
    rows = list(csv.DictReader(io.StringIO(ended.out)))
    assert ended.status == 2 and [row['answer'] for row in rows] == ['failed', 'good']
    assert 'r/tc3.txt: is a folder' in rows[0]['said'] and Path('r/steam.txt').is_file()
    os.rmdir('r/tc3.txt')
    os.mkfifo('r/tc3.txt')
    ended = desk('many', 'targets', 'list', '--into', 'r')
    assert ended.status == 2 and 'is not a plain file' in ended.out
    assert 'cannot be made a folder' in desk('many', 'targets', 'list', '--into', 'tc3.csv').err


@pytest.mark.parametrize('name', few_of(('.', '..', '/', 'x' * 300, 'ü' * 300, 'a/../b', '~', 'v1.2', ' ', '-', 'a\tb'),
                                        ('..', '/', 'ü' * 300, 'a\tb')))
def test_any_name_of_a_case_is_kept(name: str, desk: Desk, here: Path) -> None:
    Path('list').write_text(f'name;case\n{name};tc3.csv\n{name};steam.csv\n')
    ended = desk('many', 'targets', 'list', '--into', 'r')
    assert ended.status == 0 and len(os.listdir('r')) == 2
    results = pinchdesk.many('targets', {name: example('tc3.csv'), name + 'x': example('tc3.csv')}, processes=1,
                             into='s')
    assert results.status == 0 and len(os.listdir('s')) == 2


LETTERS = st.text(st.sampled_from('ab-2./'), min_size=1, max_size=6)


@given(st.lists(st.tuples(LETTERS, st.sampled_from(['', 'base', 's/1', '2'])), min_size=1, max_size=8))
def test_names_of_answers_are_apart_and_fit(cases: list[tuple[str, str]]) -> None:
    rows = [Listed({'case': name}, {}) for name, _ in cases]
    rows = [replace(row, names={**row.names, SCENARIO: scenario}) if scenario else row
            for row, (_, scenario) in zip(rows, cases)]
    names = names_of(rows, 'txt')
    assert len(set(names)) == len(rows) and all('/' not in file_name and file_name not in ('', '.', '..')
                                                for file_name in names)


# What is read.

def test_a_pipe_or_a_device_is_no_file(desk: Desk, here: Path) -> None:
    os.mkfifo('pipe')
    for path in ('pipe', '/dev/zero', '/dev/null'):
        for words in (['targets', path], ['case', '-d', '10', path], ['audit', 'tc3.csv', path], ['site', path],
                      ['prices', 'tc3.csv', path], ['whatif', 'tc3.csv', path], ['many', 'targets', path],
                      ['many', 'targets', 'tc3.txt', '--scenarios', path], ['network', 'tc3.csv', '--start', path]):
            ended = desk(*words)
            assert ended.status == 3 and f'{path}: is not a plain file' in ended.err
    Path('list').write_text('pipe\ntc3.csv\n')
    ended = desk('many', 'targets', 'list', '--form', 'csv')
    assert [row['answer'] for row in csv.DictReader(io.StringIO(ended.out))] == ['refused', 'good']
