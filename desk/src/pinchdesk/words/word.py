"""What a word of the desk is: a function of files and options, which it declares as data. It knows no path, no command
and no stream; whoever asks it loads the files, and writes the answer."""
from __future__ import annotations

from collections.abc import Callable, Mapping, Sequence
from dataclasses import dataclass, field, replace
from typing import Any, Generic, TypeVar

from ..errors import INFEASIBLE, Status
from ..formats.case import rounding_of, said_in_si
from ..report.facts import FactRow
from ..report.range_sheets import ranges_told, with_ranges_sheet
from ..report.sheet import Sheet, rendered
from ..search.budget import Telling
from .forms import TABLE, Forms

Options = TypeVar('Options')


@dataclass(frozen=True)
class TextFile:
    """A file by the name by which it is told, and what it holds."""

    name: str
    content: bytes


@dataclass(frozen=True)
class Role:
    """What a file is for a word: the name of it, whether there may be several or none, what the command says of it,
    and the flag by which it is given where that is not by its place."""

    name: str
    help: str
    several: bool = False
    needed: bool = True
    flag: str = ''
    metavar: str = ''

    @property
    def option(self) -> str:
        """The name of the files of this role among options."""
        return f'{self.name}s' if self.several else self.name


def placed(roles: Sequence[Role]) -> Sequence[Role]:
    """The roles whose files may be told by their places: none behind one that takes all further files."""
    ends = [at for at, role in enumerate(roles, 1) if role.several]
    return roles[:ends[0]] if ends else roles


@dataclass(frozen=True)
class Files:
    """The files of a word by the names of their roles."""

    by_role: Mapping[str, tuple[TextFile, ...]]

    def one(self, role: str) -> TextFile:
        """The only file of a role."""
        file, = self.by_role[role]
        return file

    def get(self, role: str) -> TextFile | None:
        """The only file of a role that may have none."""
        return next(iter(self.several(role)), None)

    def several(self, role: str) -> tuple[TextFile, ...]:
        return self.by_role.get(role, ())

    def each_of(self, role: str, change: Callable[[bytes], bytes]) -> Files:
        """The files with what those of a role hold changed."""
        return self | {role: tuple(replace(file, content=change(file.content)) for file in self.several(role))}

    def __or__(self, other: Mapping[str, tuple[TextFile, ...]]) -> Files:
        return Files({**self.by_role, **other})


@dataclass(frozen=True)
class Option:
    """An option of a word: the field of its options that it fills, with flags or by its place. Of options that share
    the name `one_of` one excludes the others; `in_many` is the value where many cases are done side by side, unless
    another one is said. A `switch` has no value: it is true where its flag stands."""

    name: str
    help: str
    flags: tuple[str, ...] = ()
    reads: Callable[[str], Any] = str
    default: object = None
    choices: tuple[str, ...] = ()
    metavar: str = ''
    one_of: str = ''
    in_many: object = None
    switch: bool = False


@dataclass(frozen=True)
class FurtherOutput:
    """Further files of an answer that the command alone writes where a flag asks for them: one file, or a folder of
    several."""

    name: str
    flag: str
    help: str
    folder: bool = False


@dataclass(frozen=True)
class FurtherFiles:
    """The texts of further files by what tells their names apart, and what is told where they are written; or why
    there is none."""

    texts: Mapping[str, str] = field(default_factory=dict)
    notes: tuple[str, ...] = ()
    missing: str = ''


@dataclass(frozen=True)
class Answer:
    """What a word answers: tables, or what else `in_form` makes of it. `facts` are the rows that stand for it in a
    table of many answers, and `headline` is what is said beside the first of them. `status` is how the word ends, and
    `no` what a status of 1 says; `notes` are told beside it; `further` are files by the names of their outputs."""

    sheets: tuple[Sheet, ...] = ()
    in_form: Callable[[str], str | bytes] | None = None
    facts: tuple[FactRow, ...] = ()
    headline: str = ''
    notes: tuple[str, ...] = ()
    status: int = Status.GOOD
    no: str = INFEASIBLE
    further: Mapping[str, FurtherFiles] = field(default_factory=dict)

    def content(self, form: str) -> str | bytes:
        """The answer as a file of this form (`forms`)."""
        return self.in_form(form) if self.in_form else rendered(self.sheets, form)


@dataclass(frozen=True)
class Word(Generic[Options]):
    """A word: what it reads, its options as a dataclass and as they are declared, and the function that answers.
    `to_file` where the answer only goes to a file; `ending` is that of the file where nobody says another one."""

    name: str
    summary: str
    example: str
    roles: tuple[Role, ...]
    options: type[Options]
    run: Callable[[Files, Options, Telling], Answer]
    declared: tuple[Option, ...] = ()
    forms: Forms = TABLE
    further: tuple[FurtherOutput, ...] = ()
    to_file: bool = False
    ending: str = 'txt'

    def answer(self, files: Files, options: Options, tell: Telling) -> Answer:
        """What it answers; a case in units of its own is shown in °C and kW where the options say so. How far what the
        table of a case rounded takes its targets is told beside all that is said of it, and so are its utilities with a
        range."""
        if getattr(options, 'units', '') == 'SI':
            files = files.each_of('case', said_in_si)
        answer = self.run(files, options, tell)
        said = [(file.name, rounding_of(file.content)) for file in files.several('case')]
        sheets = answer.sheets
        for file in files.several('case'):
            sheets = with_ranges_sheet(sheets, file.content)
            said += [] if sheets else [(file.name, told) for told in ranges_told(file.content)]
        notes = [f'{name}: {told}' for name, told in said if told]
        return replace(answer, sheets=sheets,
                       notes=(*answer.notes, *(note for note in notes if note not in answer.notes)))


@dataclass(frozen=True)
class WordGroup:
    """Words that follow one that is nothing by itself."""

    name: str
    summary: str
    example: str
    parts: tuple[Word[Any], ...]


@dataclass(frozen=True)
class NoOptions:
    """The options of a word that has none."""


def feasibility(feasible: bool) -> Status:
    """How a word ends whose answer is a heat flow, or the proof that there is none."""
    return Status.GOOD if feasible else Status.NO
