"""Jobs done on the processors of this machine: by processes that are started once and do one job after the other.

A process that dies (by the system, without memory) is replaced, and its job is tried again; the pools of the standard
library break as a whole where one process of them dies."""
from __future__ import annotations

import multiprocessing
import os
import signal
import sys
from collections import Counter
from collections.abc import Generator, Iterable, Iterator
from contextlib import contextmanager, suppress
from multiprocessing.connection import Connection, wait
from types import FrameType, ModuleType
from typing import Any

from .job import TRIES, Job, JobOutcome, done, following, lost

# How long a process may take to end when it is told to, in seconds.
PATIENCE = 2.0
# By fork a process has at once all that is loaded here; but the solver of scipy has threads of its own, for which a
# fork of it waits for ever.
SOLVER = 'scipy.optimize'


def processors() -> int:
    """How many processors this process may use, 16 at most."""
    return min(16, len(os.sched_getaffinity(0)))


def work(jobs: Connection, others: list[Connection]) -> None:
    """What a process of the crew does until nobody gives it a job. It lets go of the ends of pipes that are not its
    own, so that each process sees its pipe closed when this one ends."""
    def ended(number: int, frame: FrameType | None) -> None:
        # A program that is running is ended with it.
        sys.exit(0)
    for other in others:
        other.close()
    signal.signal(signal.SIGINT, signal.SIG_IGN)
    signal.signal(signal.SIGTERM, ended)
    sys.stdout = sys.stderr = open(os.devnull, 'w', encoding='utf-8')
    with suppress(EOFError, OSError):
        while True:
            jobs.send(done(jobs.recv()))


@contextmanager
def without_main() -> Iterator[None]:
    """A process that is spawned runs the script of this one once more, but for this: it needs nothing of it."""
    main = sys.modules['__main__']
    sys.modules['__main__'] = ModuleType('__main__')
    try:
        yield
    finally:
        sys.modules['__main__'] = main


class Hand:
    """A process of the crew, and the job that it has."""

    def __init__(self, others: Iterable[Connection]) -> None:
        forked = SOLVER not in sys.modules
        context: Any = multiprocessing.get_context('fork' if forked else 'spawn')
        self.pipe, there = context.Pipe()
        self.job: Job | None = None
        self.process = context.Process(target=work, args=(there, [*others, self.pipe] if forked else []), daemon=True)
        try:
            with without_main():
                self.process.start()
        except OSError:
            self.pipe.close()
            raise
        finally:
            there.close()

    def give(self, job: Job | None) -> None:
        self.job = job
        if job:
            # One that died while it had nothing to do is noticed as any other: its pipe has an end.
            with suppress(OSError):
                self.pipe.send(job)

    def taken(self) -> JobOutcome | None:
        """The outcome of its job; None where it died."""
        try:
            outcome = self.pipe.recv()
        except (EOFError, OSError):
            return None
        self.job = None
        assert isinstance(outcome, JobOutcome)
        return outcome

    def end(self) -> str:
        """Ends the process, and says how it ended."""
        self.pipe.close()
        self.process.terminate()
        self.process.join(PATIENCE)
        if self.process.is_alive():
            self.process.kill()
            self.process.join()
        code = self.process.exitcode or 0
        return f'by signal {-code}' if code < 0 else f'with the status {code}'


class Crew:
    """The processes, and the jobs that are to be done again."""

    def __init__(self) -> None:
        self.hands: list[Hand] = []
        self.again: list[Job] = []
        self.deaths: Counter[int] = Counter()

    def begin(self, count: int) -> None:
        """Hires so many, or as many as the system has files and processes for; an `OSError` where it has none."""
        for _ in range(count):
            try:
                self.hire()
            except OSError:
                if not self.hands:
                    raise
                return

    def hire(self) -> None:
        self.hands.append(Hand([hand.pipe for hand in self.hands]))

    def outcomes(self, jobs: Iterator[Job]) -> Iterator[JobOutcome]:
        """All outcomes, as they come: each job has one."""
        while True:
            for hand in self.hands:
                if not hand.job:
                    hand.give(following(self.again, jobs))
            busy = {hand.pipe: hand for hand in self.hands if hand.job}
            if not busy:
                return
            for pipe in wait(list(busy)):
                assert isinstance(pipe, Connection)
                outcome = busy[pipe].taken() or self.replaced(busy[pipe])
                if outcome:
                    yield outcome

    def replaced(self, hand: Hand) -> JobOutcome | None:
        """Another process in place of one that died; the outcome of its job where that is given up."""
        job, how = hand.job, hand.end()
        assert job
        self.hands.remove(hand)
        self.begin(1)
        self.deaths[job.number] += 1
        if self.deaths[job.number] >= TRIES:
            return lost(job, how)
        self.again.append(job)
        return None

    def end(self) -> None:
        for hand in self.hands:
            hand.process.terminate()
        for hand in self.hands:
            hand.end()


def by_processes(jobs: Iterator[Job], count: int) -> Generator[JobOutcome, None, None]:
    """The outcomes of jobs, in the order in which they come, by so many processes."""
    crew = Crew()
    try:
        crew.begin(count)
        yield from crew.outcomes(jobs)
    finally:
        crew.end()
