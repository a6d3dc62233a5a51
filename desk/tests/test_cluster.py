"""What is given to workers of a cluster, and taken back: by a cluster that is made up, each step of which is told."""
from __future__ import annotations

from collections.abc import Callable, Iterator
from typing import Any

import pytest
from conftest import example

from pinchdesk import WordsError
from pinchdesk.batch.cluster import Cluster
from pinchdesk.batch.job import Job, JobOutcome
from pinchdesk.program.digests import digests
from pinchdesk.words.word import Files, NoOptions, TextFile


class KilledWorker(Exception):
    """As distributed calls a job at which worker after worker died."""


class Future:
    """A job that was given out, and what becomes of it."""

    def __init__(self, job: Job, workers: list[str]) -> None:
        self.job, self.workers, self.status, self.outcome = job, workers, 'pending', None

    def ends(self, status: str, outcome: Any = None) -> None:
        self.status, self.outcome = status, outcome

    def done(self) -> bool:
        return self.status != 'pending'

    def result(self, timeout: float) -> Any:
        if isinstance(self.outcome, Exception):
            self.status, outcome, self.outcome = 'pending', self.outcome, None
            raise outcome
        return self.outcome

    def exception(self) -> Any:
        return self.outcome

    def cancel(self) -> None:
        self.status = 'cancelled'


class Client:
    """Workers by their addresses, with what each answers when it is asked, and the jobs that are open."""

    def __init__(self, **workers: Any) -> None:
        self.workers, self.open = workers, list[Future]()
        self.steps: list[Callable[[], None]] = []

    def scheduler_info(self) -> Any:
        return {'workers': {worker: {'nthreads': 1} for worker in self.workers}}

    def run(self, question: object, workers: list[str], on_error: str) -> Any:
        return {worker: self.workers[worker] for worker in workers}

    def submit(self, function: object, job: Job, key: str, pure: bool, workers: list[str]) -> Future:
        self.open.append(Future(job, workers))
        return self.open[-1]


def jobs(count: int) -> Iterator[Job]:
    for number in range(count):
        files = Files({'case': (TextFile('tc3.csv', example('tc3.csv')),)})
        yield Job(number, ('targets',), NoOptions(), files)


@pytest.fixture
def good() -> tuple[str, str]:
    here = digests()
    return here.desk, here.program


@pytest.fixture(autouse=True)
def quick(monkeypatch: pytest.MonkeyPatch) -> None:
    monkeypatch.setattr('pinchdesk.batch.cluster.LOOK', 0.0)
    monkeypatch.setattr('pinchdesk.batch.cluster.PAUSE', 0.0)


def answers(client: Client, count: int, *steps: Callable[[list[Future]], None]) -> tuple[list[JobOutcome], Cluster]:
    """All outcomes where each look finds what the next step did to the open jobs; then all of them end well."""
    cluster = Cluster(client, 'tcp://there')
    left = list(steps)

    def wait(_: object) -> None:
        pending = [future for future in client.open if future.status == 'pending']
        if left:
            left.pop(0)(pending)
        else:
            for future in pending:
                future.ends('finished', JobOutcome(future.job.number, 0))
    with pytest.MonkeyPatch.context() as patch:
        patch.setattr('pinchdesk.batch.cluster.wait_for_one', wait)
        return list(cluster.outcomes(jobs(count))), cluster


def test_workers_are_given_a_little_more_than_they_do(good: tuple[str, str]) -> None:
    client = Client(a=good, b=good)
    outcomes, cluster = answers(client, 9, lambda pending: None)
    assert sorted(outcome.number for outcome in outcomes) == list(range(9)) and not cluster.notes
    assert all(set(future.workers) == {'a', 'b'} for future in client.open)


def test_only_fit_workers_are_given_anything(good: tuple[str, str]) -> None:
    client = Client(a=good, b='it has no pinch: none', c=(good[0], '0' * 64), d=OSError('gone'), e=('1' * 64, good[1]))
    outcomes, cluster = answers(client, 5)
    assert len(outcomes) == 5 and {tuple(future.workers) for future in client.open} == {('a',)}
    assert cluster.notes == ['b is left out: it has no pinch: none',
                             f'c is left out: it has another pinch (digest {"0" * 12}, here {good[1][:12]})',
                             f'e is left out: it has another pinchdesk (digest {"1" * 12}, here {good[0][:12]})']
    with pytest.raises(WordsError, match='no worker at tcp://there can be asked; b is left out'):
        answers(Client(b='it has no pinch: none'), 1)


def test_what_only_workers_have_that_are_gone_is_given_out_anew(good: tuple[str, str]) -> None:
    client = Client(a=good)

    def replaced(pending: list[Future]) -> None:
        client.workers = {'b': good}
    outcomes, _ = answers(client, 2, replaced)
    assert sorted(outcome.number for outcome in outcomes) == [0, 1]
    assert [(future.job.number, future.workers) for future in client.open] == [
        (0, ['a']), (1, ['a']), (1, ['b']), (0, ['b'])]


def test_an_outcome_that_is_lost_on_the_way_is_waited_for_or_asked_again(good: tuple[str, str]) -> None:
    client = Client(a=good)
    outcomes, _ = answers(client, 3, lambda pending: pending[0].ends('finished', OSError('worker gone')),
                          lambda pending: pending[0].ends('lost'), lambda pending: pending[0].ends('cancelled'))
    assert sorted(outcome.number for outcome in outcomes) == [0, 1, 2]


def test_a_job_that_kills_its_workers_is_given_up(good: tuple[str, str]) -> None:
    outcomes, _ = answers(Client(a=good), 2, lambda pending: pending[0].ends('error', KilledWorker()),
                          lambda pending: pending[0].ends('error', ImportError('pinchdesk')))
    assert [(outcome.status, outcome.told) for outcome in outcomes] == [
        (2, 'the process that did it died, 3 times: several workers'),
        (2, 'no worker could do it: ImportError: pinchdesk')]


def test_without_a_worker_it_ends_with_what_is_done(good: tuple[str, str], monkeypatch: pytest.MonkeyPatch) -> None:
    client = Client(a=good)

    def gone(pending: list[Future]) -> None:
        pending[0].ends('finished', JobOutcome(0, 0))
        client.workers = {}
        monkeypatch.setattr('pinchdesk.batch.cluster.PATIENCE', -1.0)
    outcomes, cluster = answers(client, 3, gone)
    assert ([outcome.number for outcome in outcomes], cluster.notes) == ([0], ['no worker is left at tcp://there'])
