"""What goes wrong: each error has the status with which a word ends."""
from __future__ import annotations

import enum
from collections.abc import Iterator
from contextlib import contextmanager
from typing import Any


class Status(enum.IntEnum):
    """How a word ends (desk/README.md, *Words*). NO is no heat flow, or a rejected network, and nothing else."""

    GOOD = 0
    NO = 1
    FAILED = 2
    REFUSED = 3
    TOO_FINE = 9
    BROKEN = 70
    STOPPED = 130


# What a status of 1 says, in a word.
INFEASIBLE, REJECTED = 'infeasible', 'rejected'


class DeskError(Exception):
    """An error that a word shows on standard error; `status` is how the word ends, and `no` what a status of 1 says."""

    status = Status.FAILED
    no = INFEASIBLE


class WordsError(DeskError):
    """The words ask for what cannot be done."""


class OutputError(DeskError):
    """An output that cannot be written."""


class ProgramError(DeskError):
    """There is no `pinch`, or it ended in a way that is none of its own."""


class Refused(DeskError):
    """A file is refused, by `pinch` or by the desk.

    `answered` is the status with which `pinch` ended (3 where the desk refuses), `place` says where (`case row 14`,
    `network line 2`, or of a table `sheet S row 4 column CP`), `cause` why, `text` is the whole answer, and `file` the
    path where it is known."""

    status = Status.REFUSED

    def __init__(self, answered: int, place: str, cause: str, text: str, file: str = '') -> None:
        super().__init__(text)
        self.answered = answered
        self.place = place
        self.cause = cause
        self.text = text
        self.file = file

    def __str__(self) -> str:
        return f'{self.file}: {self.text}' if self.file else self.text

    def __reduce__(self) -> tuple[Any, ...]:
        """How it goes from process to process."""
        return Refused, (self.answered, self.place, self.cause, self.text, self.file)


@contextmanager
def about(**files: str) -> Iterator[None]:
    """A refusal that is raised inside is of one of these files, by its role: `about(case='plant.csv',
    network='n.txt')`."""
    try:
        yield
    except Refused as fault:
        for role, path in files.items():
            if not fault.file and role in fault.text.split():
                fault.file = path
        raise


@contextmanager
def of_file(path: str) -> Iterator[None]:
    """A refusal that is raised inside is of this file, unless it says another one."""
    try:
        yield
    except Refused as fault:
        fault.file = fault.file or path
        raise


def refused_row(role: str, row: int, cause: str) -> Refused:
    """A refusal by the desk in the words of `pinch`: `case row 14 BadNumber`."""
    count = 'line' if role in ('network', 'report') else 'row'
    place = f'{role} {count} {row}'
    return Refused(4 if role in ('network', 'report', 'study') else 3, place, cause, f'{place} {cause}')
