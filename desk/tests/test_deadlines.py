"""A search is over when its time is: with an answer, in any thread, and whatever it is at."""
from __future__ import annotations

import os
import signal
import subprocess
import sys
import tempfile
import threading
import time
from collections.abc import Callable
from fractions import Fraction
from pathlib import Path

import pytest
from conftest import DESK, EXAMPLES, example, few_of

from pinchdesk import Accepted, Pinch, ProgramError, find_network, tradeoff
from pinchdesk.cli.start_time import started
from pinchdesk.search import child
from pinchdesk.search.accepted import NotAccepted
from pinchdesk.search.budget import GRACE
from pinchdesk.search.child import Child, Gone, Silent
from pinchdesk.search.find import NoNetwork

# A second, and what may come after it.
SECONDS, AFTER = 1, 2


def taken(call: Callable[[], object]) -> float:
    """How long a call takes: the least of some, since other work of the machine is none of the search's."""
    times: list[float] = []
    while not times or min(times) > SECONDS + AFTER and len(times) < 3:
        begun = time.monotonic()
        call()
        times.append(time.monotonic() - begun)
    return min(times)


@pytest.mark.parametrize('name', few_of(('crude', 'refinery'), ('crude',)))
def test_a_network_is_there_when_its_time_is_over(name: str, pinch: Pinch) -> None:
    case = example(f'{name}.csv')

    def search() -> None:
        found = find_network(case, pinch=pinch, seconds=SECONDS)
        verdict = pinch.audit(case, found.network)
        assert isinstance(verdict, Accepted) and verdict.cost == verdict.floor == found.verdict.cost
        assert 1 < found.bound <= found.exchangers and found.ended == 'time over'
    assert taken(search) < SECONDS + AFTER


@pytest.mark.long
def test_a_trade_off_is_there_when_its_time_is_over(pinch: Pinch) -> None:
    case = example('refinery.csv')

    def search() -> None:
        traded = tradeoff(case, pinch=pinch, seconds=SECONDS)
        assert traded.rows and all(isinstance(pinch.audit(case, row.network), Accepted) for row in traded.rows)
    assert taken(search) < SECONDS + AFTER


@pytest.mark.long
def test_in_another_thread_the_time_is_kept_too(pinch: Pinch) -> None:
    found: list[int] = []

    def search() -> None:
        thread = threading.Thread(target=lambda: found.append(
            find_network(example('crude.csv'), pinch=pinch, seconds=SECONDS).exchangers))
        thread.start()
        thread.join()
    assert taken(search) < SECONDS + AFTER and found


def test_a_time_that_was_over_before_gives_the_network_of_the_design(pinch: Pinch) -> None:
    case = example('tc3.csv')
    found = find_network(case, pinch=pinch, seconds=1, begun=time.monotonic() - 10)
    assert found.text.count('\nexchanger ') == pinch.design(case).text.count('exchanger ') == found.exchangers
    assert found.bounds == 'bound: at least 2 in any network at this cost (in fractions)'
    assert found.ended == 'time over'
    traded = tradeoff(case, pinch=pinch, seconds=1, begun=time.monotonic() - 10)
    assert [row.exchangers for row in traded.rows] == [found.exchangers] and traded.left_begun is False


def test_a_network_to_begin_with_stays_where_there_is_no_time(pinch: Pinch) -> None:
    case, network = example('tc3.csv'), example('tc3-network.txt')
    found = find_network(case, pinch=pinch, seconds=1, start=network, begun=time.monotonic() - 10)
    assert found.exchangers == 7
    traded = tradeoff(case, network, pinch, 1, begun=time.monotonic() - 10)
    assert [row.exchangers for row in traded.rows] == [7] and traded.rows[0].judged.splits == 1


def test_what_the_search_refuses_is_refused_by_its_call(pinch: Pinch) -> None:
    with pytest.raises(NotAccepted, match='the network is rejected'):
        tradeoff(example('tc3.csv'), 'end S1\n', pinch, 1)
    with pytest.raises(NoNetwork, match='no heat flow'):
        tradeoff(example('too-little-cooling.csv'), pinch=pinch, seconds=1)


def test_a_process_that_does_not_begin_is_told(pinch: Pinch, monkeypatch: pytest.MonkeyPatch) -> None:
    monkeypatch.setattr(child, 'SOURCE', Path('/nowhere'))
    with pytest.raises(ProgramError, match='the process of the search ends as soon as it is started'):
        find_network(example('tc3.csv'), pinch=pinch, seconds=60)


@pytest.mark.long
def test_without_the_solver_the_package_is_named(tmp_path: Path) -> None:
    (tmp_path / 'scipy').mkdir()
    (tmp_path / 'scipy' / '__init__.py').write_text('raise ImportError("not here", name="scipy")\n')
    done = subprocess.run([DESK / 'pinchdesk', 'network', EXAMPLES / 'tc3.csv'], capture_output=True, check=False,
                          text=True, env={**os.environ, 'PYTHONPATH': str(tmp_path)})
    assert (done.returncode, done.stdout) == (2, '')
    assert done.stderr == 'pinchdesk: the package scipy is needed, and cannot be loaded: not here\n'


def test_nothing_is_left_of_a_search(pinch: Pinch, tmp_path: Path, monkeypatch: pytest.MonkeyPatch) -> None:
    monkeypatch.setattr(tempfile, 'tempdir', str(tmp_path))
    find_network(example('crude.csv'), pinch=pinch, seconds=SECONDS)
    assert list(tmp_path.iterdir()) == []


def processes_with(word: str) -> list[int]:
    found = []
    for folder in Path('/proc').glob('[0-9]*'):
        try:
            if word.encode() in (folder / 'environ').read_bytes():
                found.append(int(folder.name))
        except OSError:
            pass
    return found


@pytest.mark.long
def test_a_search_ends_with_whoever_asked_for_it(tmp_path: Path) -> None:
    mark = f'SEARCH_OF_A_TEST={tmp_path}'
    with subprocess.Popen([sys.executable, str(DESK / 'pinchdesk'), 'network', str(EXAMPLES / 'refinery.csv')],
                          stdout=subprocess.DEVNULL, env={**os.environ, **dict([mark.split('=')]),
                                                          'TMPDIR': str(tmp_path)}) as process:
        until = time.monotonic() + 60
        while len(processes_with(mark)) < 3 and time.monotonic() < until:
            time.sleep(0.1)
        process.send_signal(signal.SIGKILL)
    while processes_with(mark) and time.monotonic() < until:
        time.sleep(0.1)
    assert processes_with(mark) == []


def test_a_child_is_asked_and_ended() -> None:
    apart = Child('pinchdesk.search.solver.process', True)
    until = time.monotonic() + 60
    assert apart.told(until) is None
    with pytest.raises(Silent):
        apart.told(time.monotonic())
    apart.process.kill()
    with pytest.raises(Gone):
        apart.told(until)
    apart.end()
    assert not Path(apart.folder.name).exists() if apart.folder else False


def test_the_start_of_the_command_is_before_now() -> None:
    assert time.monotonic() - 60 < started() <= time.monotonic() and Fraction(GRACE) < AFTER
