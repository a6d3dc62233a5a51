"""A search by steps finds the same network each time, byte for byte: by one worker or by four, alone or beside a
load."""
from __future__ import annotations

import os
import pickle
import signal
import subprocess
import sys
import time
from collections.abc import Callable
from contextlib import suppress
from fractions import Fraction
from importlib.metadata import version
from pathlib import Path
from random import Random

import pytest
from conftest import DESK, EXAMPLES, example, few_of

from pinchdesk import Cut, Network, Pinch, completed, find_network, read_case
from pinchdesk.search.accepted import Judge, Judged
from pinchdesk.search.budget import SearchWay
from pinchdesk.search.ticking.plant_search import JobRow, Pace, PlantSearch

PLANT = EXAMPLES.parent / 'checks' / 'plant'
JOBS, QUICK = 20, Pace(steps=40, tries=10, growths=10)


class Row:
    """A search of a case by so many jobs, and what it accepts."""

    def __init__(self, pinch: Pinch, name: str, seed: int) -> None:
        case = completed(read_case(example(f'{name}.csv')))
        flow = pinch.flow(case)
        assert not isinstance(flow, Cut)
        self.found: list[Judged] = []
        self.search = PlantSearch(Judge(pinch, case), {use.name: use.heat for use in flow.uses}, Fraction(flow.cost),
                                  self.found.append, seed=seed, pace=QUICK)
        self.jobs = JobRow(self.search)

    @property
    def networks(self) -> list[Network]:
        return [judged.network for judged in self.found]

    def stops(self) -> bool:
        return self.search.taken >= JOBS

    def run(self, workers: int, first: Callable[[list[int]], int]) -> list[Network]:
        """What so many workers find; of the jobs that they are at, one is the first that is done."""
        busy: dict[int, object] = {}
        number = 0
        while not self.stops():
            while len(busy) < workers and (job := self.jobs.job(number)) is not None:
                busy[number] = pickle.loads(pickle.dumps(job)).run()
                number += 1
            done = first(sorted(busy))
            self.jobs.end(done, busy.pop(done), self.stops)
        return self.networks


@pytest.mark.parametrize('name', few_of(('preheater', 'four-stream', 'tc3', 'column', 'three-levels', '10sp1'),
                                        ('preheater', 'four-stream')))
def test_whichever_worker_is_done_first_the_same_is_found(pinch: Pinch, name: str) -> None:
    alone = Row(pinch, name, 3)
    networks = alone.run(1, min)
    assert networks and alone.search.taken == JOBS
    firsts: tuple[Callable[[list[int]], int], ...] = (max, Random(1).choice)
    for first in firsts:
        again = Row(pinch, name, 3)
        assert again.run(4, first) == networks and again.search.taken == JOBS


def processes_of(root: int) -> list[int]:
    """A process, those that it has started, and those that these have, as Linux tells."""
    children: dict[int, list[int]] = {}
    for stat in Path('/proc').glob('[0-9]*/stat'):
        # One may end while it is looked at.
        with suppress(OSError):
            parent = stat.read_text().rpartition(')')[2].split()[1]
            children.setdefault(int(parent), []).append(int(stat.parent.name))
    found = [root]
    for process in found:
        found += children.get(process, [])
    return found


def stall(process: int, seconds: float) -> None:
    """Takes the processor from a process for a while."""
    with suppress(ProcessLookupError):
        os.kill(process, signal.SIGSTOP)
        try:
            time.sleep(seconds)
        finally:
            os.kill(process, signal.SIGCONT)


def beside_a_load(case: Path, steps: int, out: Path) -> bytes:
    """What the word writes, by four processes. A load is made here of processes that are stalled by chance, one or
    another: so it goes beside what takes all processors, and this takes none."""
    words = ['network', str(case), '--steps', str(steps), '--seed', '7', '--workers', '4', '-o', str(out)]
    chance = Random(steps)
    with subprocess.Popen([sys.executable, str(DESK / 'pinchdesk'), *words]) as process:
        while process.poll() is None:
            time.sleep(chance.uniform(0.02, 0.1))
            stall(chance.choice(processes_of(process.pid)), chance.uniform(0.05, 0.4))
    assert process.returncode == 0
    return out.read_bytes()


@pytest.mark.long
@pytest.mark.usefixtures('searched_here')
@pytest.mark.parametrize('case, steps', [(EXAMPLES / 'four-stream.csv', 20), (EXAMPLES / '10sp1.csv', 16),
                                         (PLANT / 'g20-1.csv', 24)], ids=['four-stream', '10sp1', 'g20-1'])
def test_the_word_writes_the_same_bytes_beside_a_load(case: Path, steps: int, pinch: Pinch, tmp_path: Path) -> None:
    """As the call finds alone, in this process."""
    alone = find_network(case.read_bytes(), pinch=pinch, way=SearchWay(seed=7, steps=steps, workers=1)).text
    assert beside_a_load(case, steps, tmp_path / 'found.txt') == alone.encode()
    libraries = f'numpy {version("numpy")} and scipy {version("scipy")}'
    assert f'\n# the same again with the same seed and steps by {libraries}\n' in alone
