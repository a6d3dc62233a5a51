"""The word `open`: what it takes and refuses, the address that it tells, and how it ends."""
from __future__ import annotations

import http.client
import os
import re
import shutil
import signal
import subprocess
import sys
from collections.abc import Iterator
from contextlib import contextmanager
from pathlib import Path

import pytest
from conftest import DESK, EXAMPLES, pinchdesk

pytest.importorskip('starlette')
pytest.importorskip('uvicorn')

ADDRESS = re.compile(r'The desk is open at http://127\.0\.0\.1:([0-9]+)(/[A-Za-z0-9_-]{43}/) and ends by Ctrl-C\.\n')


@contextmanager
def running(folder: Path, *words: str) -> Iterator[tuple[subprocess.Popen[str], int, str]]:
    """The command in a folder, with its port and its token."""
    process = subprocess.Popen([sys.executable, str(DESK / 'pinchdesk'), 'open', '--no-browser', *words], cwd=folder,
                               stdout=subprocess.PIPE, stderr=subprocess.PIPE, stdin=subprocess.DEVNULL, text=True,
                               env=dict(os.environ))
    try:
        assert process.stdout
        told = ADDRESS.fullmatch(process.stdout.readline())
        assert told, process.communicate(timeout=20)
        yield process, int(told[1]), told[2]
    finally:
        process.kill()
        process.communicate(timeout=20)


def status_of(port: int, path: str) -> int:
    connection = http.client.HTTPConnection('127.0.0.1', port, timeout=20)
    try:
        connection.request('GET', path)
        return connection.getresponse().status
    finally:
        connection.close()


def test_it_answers_as_soon_as_its_address_is_told_and_ends_by_ctrl_c(tmp_path: Path) -> None:
    shutil.copy(EXAMPLES / 'tc3.csv', tmp_path)
    with running(tmp_path, 'tc3.csv') as (process, port, token):
        assert status_of(port, f'{token}view') == 200 and status_of(port, '/view') == 404
        again = subprocess.run([sys.executable, str(DESK / 'pinchdesk'), 'open', '--no-browser', 'tc3.csv'],
                               cwd=tmp_path, capture_output=True, text=True, check=False)
        assert again.returncode == 2 and 'is open in another live desk already' in again.stderr
        process.send_signal(signal.SIGINT)
        out, err = process.communicate(timeout=20)
        assert (process.returncode, out, err) == (0, '', '')
    assert [path.name for path in tmp_path.iterdir()] == ['tc3.csv']


@pytest.mark.long
def test_a_desk_that_was_killed_opens_again(tmp_path: Path) -> None:
    shutil.copy(EXAMPLES / 'tc3.csv', tmp_path)
    with running(tmp_path, 'tc3.csv') as (process, _, _):
        process.kill()
        process.communicate(timeout=20)
    with running(tmp_path, 'tc3.csv') as (_, port, token):
        assert status_of(port, f'{token}view') == 200


@pytest.mark.long
def test_a_table_is_read_and_its_case_kept_where_it_is_said(tmp_path: Path) -> None:
    shutil.copy(EXAMPLES / 'table.csv', tmp_path)
    with running(tmp_path, 'table.csv', '--case', 'mine.csv', '-d', '10') as (_, port, token):
        assert status_of(port, f'{token}view') == 200
    assert (tmp_path / 'table.csv').read_bytes() == (EXAMPLES / 'table.csv').read_bytes()


@pytest.mark.long
def test_a_table_is_opened_and_the_page_asks_where_its_case_is_kept(tmp_path: Path) -> None:
    """In the units of the table, unless others are said."""
    shutil.copy(EXAMPLES / 'table.csv', tmp_path)
    with running(tmp_path, 'table.csv', '-d', '10') as (_, port, token):
        assert status_of(port, f'{token}view') == 200
        assert [path.name for path in tmp_path.iterdir()] == ['table.csv']


@pytest.mark.parametrize('words, told', [
    (['tc3.csv', '--case', 'x.csv'], '--case is for tables'),
    (['table.csv', '--case', 'tc3.csv'], 'is there already'), (['nothing.csv'], 'there is no such file'),
    (['tc3.csv', 'tc3.csv'], 'two answers would go there')])
def test_what_it_refuses(words: list[str], told: str, tmp_path: Path) -> None:
    for name in ('table.csv', 'tc3.csv'):
        shutil.copy(EXAMPLES / name, tmp_path)
    done = pinchdesk('open', '--no-browser', *words, cwd=tmp_path)
    assert done.status == 2 and told in done.err


def test_the_command_loads_nothing_of_it_for_other_words() -> None:
    script = 'import sys; from pinchdesk.cli.main import main; main(["--version"]); ' \
             'assert not {"starlette", "uvicorn", "pinchdesk.live.bench", "matplotlib"} & set(sys.modules)'
    done = subprocess.run([sys.executable, '-c', script], capture_output=True, text=True, check=False,
                          env={**os.environ, 'PYTHONPATH': str(DESK / 'src')})
    assert done.returncode == 0, done.stderr
