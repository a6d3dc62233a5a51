"""Processes that do the jobs of a search side by side."""
from __future__ import annotations

import os
import select
import time
from collections.abc import Callable, Sequence
from dataclasses import dataclass, field

from ..child import Child, Failed, Gone, Parent, Silent, portable
from .jobs import ChainJob, CombineJob, DropJob, GrowJob, Job, StartJob, ThinJob, end_of
from .plant_search import LAG, JobRow

# So often it is asked at least whether it stops, in seconds.
LONG = 1.0


def processors() -> int:
    """How many processors there are for this process."""
    return min(LAG, len(os.sched_getaffinity(0)))


@dataclass
class Numbers:
    """The numbers of the jobs that are still to be done: those that are to be done again, and then all others."""

    first: int = 0
    again: list[int] = field(default_factory=list)

    @property
    def next(self) -> int:
        return self.again[-1] if self.again else self.first

    def take(self) -> int:
        if self.again:
            return self.again.pop()
        self.first += 1
        return self.first - 1


def told_end(end: object) -> object:
    """The end of a job; what failed there fails here."""
    if isinstance(end, Failed):
        raise end.fault
    return end


class JobCrew:
    """So many processes. None are begun where one is enough: then jobs are done here. One that ends on the way is left
    out, and its job is done again."""

    def __init__(self, count: int) -> None:
        self.members = [Child(__name__, False) for _ in range(count if count > 1 else 0)]

    def run(self, row: JobRow, stops: Callable[[], bool], until: float) -> None:
        """Does the jobs of a row until it stops, or until a time by `time.monotonic`."""
        numbers = Numbers()
        busy: dict[Child, int] = {}
        while not stops() and time.monotonic() < until:
            if not self.members:
                job = row.job(numbers.next)
                assert job is not None
                row.end(numbers.take(), end_of(job), stops)
                continue
            for member in list(self.members):
                job = row.job(numbers.next)
                if member not in busy and job is not None:
                    busy[member] = numbers.take()
                    self.ask(member, job, busy, numbers, until)
            for member in self.ready(list(busy), until):
                try:
                    end = member.told(until)
                except Silent:
                    return
                except Gone:
                    self.leave_out(member, busy, numbers)
                else:
                    row.end(busy.pop(member), told_end(end), stops)

    def ask(self, member: Child, job: Job, busy: dict[Child, int], numbers: Numbers, until: float) -> None:
        try:
            member.ask(job, until)
        except (Gone, Silent):
            self.leave_out(member, busy, numbers)

    def leave_out(self, member: Child, busy: dict[Child, int], numbers: Numbers) -> None:
        self.members.remove(member)
        member.end()
        numbers.again.append(busy.pop(member))

    def ready(self, members: Sequence[Child], until: float) -> list[Child]:
        """Those that have said something, once one has; none where it takes too long."""
        outlets = {member.outlet: member for member in members}
        left = max(0.0, min(LONG, until - time.monotonic()))
        heard = select.select(list(outlets), [], [], left)[0]
        return [outlets[outlet] for outlet in heard]

    def end(self) -> None:
        for member in self.members:
            member.end()


def serve() -> None:
    """What a process does: jobs, until nobody asks."""
    parent = Parent()
    for job in parent.asked():
        assert isinstance(job, ChainJob | CombineJob | ThinJob | StartJob | GrowJob | DropJob)
        try:
            parent.tell(end_of(job))
        except Exception as fault:  # Whatever it is, the parent raises it.
            parent.tell(Failed(portable(fault)))
