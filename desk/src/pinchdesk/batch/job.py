"""One row of many: a word of the desk over its files, done here or on another machine.

A job carries what its files hold, so that whoever does it needs none of them. What comes of it is an outcome, whatever
happens: a file that is refused spoils no other."""
from __future__ import annotations

import threading
from collections.abc import Iterator, Mapping
from contextlib import AbstractContextManager, nullcontext
from dataclasses import dataclass, field
from typing import Any

from ..errors import INFEASIBLE, DeskError, Status
from ..failures import failure_of
from ..program.causes import lines_of
from ..report.sheet import Cell
from ..search.budget import nobody
from ..words.all_words import word_of
from ..words.forms import PICTURES
from ..words.word import Answer, Files, Word

# How often a job is tried whose process or worker dies.
TRIES = 3
# The heading of what is said of a row.
SAID = 'said'
# matplotlib is not to draw two pictures at once; a worker of a cluster may have several threads.
DRAWING = threading.Lock()
Cells = Mapping[str, Cell]


@dataclass(frozen=True)
class Job:
    """A word over one case: its place among all jobs, the word with its part, its options, its files, and, where the
    answer is kept, a file's name that says its form."""

    number: int
    words: tuple[str, ...]
    options: Any
    files: Files
    output: str | None = None


@dataclass(frozen=True)
class JobOutcome:
    """What came of a job: the status with which the word would have ended (None where it was not done), its rows as
    cells by their headings, what is said, the answer where it is kept, and what a status of 1 says."""

    number: int
    status: int | None
    facts: tuple[Cells, ...] = ({},)
    told: str = ''
    notes: tuple[str, ...] = ()
    content: str | bytes | None = field(default=None, repr=False)
    no: str = INFEASIBLE


def following(again: list[Job], jobs: Iterator[Job]) -> Job | None:
    """The next job: one that is to be done again, else one that was not yet begun."""
    if again:
        return again.pop()
    return next(jobs, None)


def done(job: Job) -> JobOutcome:
    """Does a job. Whatever goes wrong is said in the outcome."""
    try:
        return outcome_of(job, word_of(job.words))
    except DeskError as fault:
        return JobOutcome(job.number, fault.status, told='; '.join(lines_of(fault)), no=fault.no)
    except Exception as fault:  # Whatever it is, the other rows have to go on.
        status, told = failure_of(fault)
        return JobOutcome(job.number, status, told=told)


def outcome_of(job: Job, word: Word[Any]) -> JobOutcome:
    form = None if job.output is None else word.forms.of(job.output, None)
    with drawing(word, form):
        answer = word.answer(job.files, job.options, nobody)
        content = None if form is None else answer.content(form)
    return JobOutcome(job.number, answer.status, cells_of(answer), notes=answer.notes, content=content, no=answer.no)


def drawing(word: Word[Any], form: str | None) -> AbstractContextManager[object]:
    if word.to_file or form in PICTURES:
        return DRAWING
    return nullcontext()


def cells_of(answer: Answer) -> tuple[Cells, ...]:
    """The rows that stand for an answer, one at least; what is said of it stands in the first."""
    first, *others = [{fact.heading: fact.value for fact in row} for row in answer.facts or ((),)]
    return ({**first, SAID: answer.headline} if answer.headline else first, *others)


def lost(job: Job, how: str) -> JobOutcome:
    """The outcome of a job that ended whoever did it."""
    return JobOutcome(job.number, Status.FAILED, told=f'the process that did it died, {TRIES} times: {how}')
