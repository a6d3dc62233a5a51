"""Jobs done by the workers of a cluster, by `dask.distributed`.

A worker is given work only after it told what it has: the same desk and the same program, by their digests. One that
has not, or has others, is left out, and that is told. A worker that dies loses no job: the scheduler gives it to
another one; where none is left that may have it, it is given out anew. Each outcome counts once, whoever has it."""
from __future__ import annotations

import asyncio
import importlib
import logging
import time
import uuid
from collections.abc import Callable, Collection, Generator, Iterator
from concurrent.futures import ThreadPoolExecutor
from contextlib import closing, contextmanager
from typing import Any

from ..errors import Status, WordsError
from ..program.digests import Digests, digests
from .job import Job, JobOutcome, done, following, lost

# How long a scheduler may take to answer, and how long there may be no worker, in seconds.
ANSWERS, PATIENCE = 10.0, 60.0
# How often it is asked which workers there are, and how long a pause is between two looks at what came.
LOOK, PAUSE = 1.0, 0.02
# What a thread of a worker has waiting beside the job that it does.
AHEAD = 2


def question() -> Callable[[], Any]:
    """What a worker is asked. A function inside of one is sent as it is written, not by its name: a worker without a
    desk can answer it too."""
    def has() -> Any:
        try:
            from pinchdesk.program.digests import digests as asked
        except ImportError as fault:
            return f'it has no pinchdesk of this version ({fault})'
        try:
            found = asked()
        except Exception as fault:  # Whatever it is, it is told.
            return f'it has no pinch: {fault}'
        return found.desk, found.program
    return has


class Cluster:
    """The workers of a scheduler, and the jobs that they have."""

    def __init__(self, client: Any, address: str) -> None:
        self.client, self.address, self.own = client, address, digests()
        self.fit: dict[str, int] = {}
        self.known: dict[str, str] = {}
        self.open: dict[Any, tuple[Job, frozenset[str]]] = {}
        self.notes: list[str] = []
        self.again: list[Job] = []
        self.run, self.submissions = uuid.uuid4().hex, 0
        self.looked = self.served = time.monotonic()

    def look(self) -> None:
        """Which workers there are; those that are new are asked what they have."""
        workers = self.client.scheduler_info()['workers']
        self.known = {worker: fault for worker, fault in self.known.items() if worker in workers}
        new = [worker for worker in workers if worker not in self.known]
        told = self.client.run(question(), workers=new, on_error='return') if new else {}
        for worker, answer in told.items():
            # One that died meanwhile, or cannot be reached, is asked again with the next look.
            if not isinstance(answer, Exception):
                self.known[worker] = fault_of(answer, self.own)
                self.notes += [f'{worker} is left out: {self.known[worker]}'] * bool(self.known[worker])
        self.fit = {worker: told['nthreads'] for worker, told in workers.items() if self.known.get(worker) == ''}
        self.looked = time.monotonic()
        if self.fit:
            self.served = self.looked

    def give(self, job: Job) -> None:
        """Gives out a job to any worker that is fit now."""
        self.submissions += 1
        allowed = frozenset(self.fit)
        future = self.client.submit(done, job, key=f'pinchdesk-{self.run}-{job.number}-{self.submissions}',
                                    pure=False, workers=list(allowed))
        self.open[future] = job, allowed

    def fill(self, jobs: Iterator[Job]) -> None:
        room = AHEAD * sum(self.fit.values()) - len(self.open)
        while room > 0:
            job = following(self.again, jobs)
            if not job:
                return
            self.give(job)
            room -= 1

    def renew(self) -> None:
        """Takes back what only workers may do that are gone."""
        for future, (job, allowed) in list(self.open.items()):
            if future.status == 'pending' and not allowed & self.fit.keys():
                self.take_back(future, job)

    def take_back(self, future: Any, job: Job) -> None:
        future.cancel()
        del self.open[future]
        self.again.append(job)

    def ended(self) -> Iterator[JobOutcome]:
        """The outcomes that are there."""
        for future, (job, _) in list(self.open.items()):
            if future.status in ('cancelled', 'lost'):
                self.take_back(future, job)
            elif future.status == 'error':
                del self.open[future]
                yield failed(job, future.exception())
            elif future.status == 'finished':
                try:
                    outcome = future.result(timeout=ANSWERS)
                except (OSError, TimeoutError):
                    # The worker died with it: it is being done again.
                    continue
                del self.open[future]
                yield outcome

    def outcomes(self, jobs: Iterator[Job]) -> Iterator[JobOutcome]:
        """All outcomes, as they come; where nobody is left to do them, those that came."""
        self.look()
        if not self.fit:
            raise WordsError('; '.join([f'no worker at {self.address} can be asked', *self.notes]))
        while True:
            self.fill(jobs)
            if not self.open and not self.again:
                return
            wait_for_one(self.open)
            yield from self.ended()
            if time.monotonic() - self.looked > LOOK:
                self.look()
                self.renew()
            if time.monotonic() - self.served > PATIENCE:
                self.notes.append(f'no worker is left at {self.address}')
                return


def fault_of(answer: Any, own: Digests) -> str:
    """Why a worker is left out; nothing where it is fit."""
    if isinstance(answer, str):
        return answer
    for what, there, here in zip(('pinchdesk', 'pinch'), answer, (own.desk, own.program)):
        if there != here:
            return f'it has another {what} (digest {there[:12]}, here {here[:12]})'
    return ''


def failed(job: Job, fault: BaseException) -> JobOutcome:
    """The outcome of a job that no worker could do."""
    if type(fault).__name__ == 'KilledWorker':
        return lost(job, 'several workers')
    return JobOutcome(job.number, Status.FAILED, told=f'no worker could do it: {type(fault).__name__}: {fault}')


def wait_for_one(futures: Collection[Any]) -> None:
    """Waits until one of them has ended, a look long at most. What the client knows of them comes by itself."""
    until = time.monotonic() + LOOK
    while time.monotonic() < until and not any(future.done() for future in futures):
        time.sleep(PAUSE)


def package() -> Any:
    """The package `distributed`; `WordsError` where it is not installed."""
    try:
        return importlib.import_module('distributed')
    except ImportError as fault:
        raise WordsError('--scheduler needs the package distributed, which is not installed (Debian: '
                         f'python3-distributed): {fault}') from fault


def connected(address: str) -> Any:
    """A client of a scheduler; `WordsError` where there is none."""
    distributed = package()
    try:
        # A client that fails to begin says so once more when it is thrown away; a thread has no loop of a notebook.
        with ThreadPoolExecutor(1) as pool:
            pool.submit(lambda: asyncio.run(reached(address))).result()
        return distributed.Client(address, timeout=ANSWERS, set_as_default=False)
    except (OSError, ValueError, TimeoutError) as fault:
        raise WordsError(f'{address}: there is no scheduler: {str(fault) or type(fault).__name__}') from fault


async def reached(address: str) -> None:
    """Whether somebody answers there; an `OSError` where nobody does, a `ValueError` where this is no address."""
    distributed = package()
    how = distributed.Security().get_connection_args('client')
    await (await distributed.comm.connect(address, timeout=ANSWERS, **how)).close()


@contextmanager
def quiet() -> Iterator[None]:
    """What the package logs of workers and schedulers that come and go is told in the desk's words alone."""
    package()
    loggers = [logging.getLogger(name) for name in list(logging.root.manager.loggerDict)
               if name.partition('.')[0] in ('distributed', 'tornado', 'asyncio')]
    levels = [logger.level for logger in loggers]
    for logger in loggers:
        logger.setLevel(logging.CRITICAL + 1)
    try:
        yield
    finally:
        for logger, level in zip(loggers, levels):
            logger.setLevel(level)


def by_cluster(jobs: Iterator[Job], address: str, notes: list[str]) -> Generator[JobOutcome, None, None]:
    """The outcomes of jobs, as they come, by the workers of a scheduler; what is to be told goes to `notes`."""
    with quiet(), closing(connected(address)) as client:
        cluster = Cluster(client, address)
        cluster.notes = notes
        try:
            yield from cluster.outcomes(jobs)
        except (OSError, TimeoutError) as fault:
            notes.append(f'{address}: the scheduler no longer answers: {str(fault) or type(fault).__name__}')
