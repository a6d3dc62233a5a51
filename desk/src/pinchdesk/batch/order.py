"""One word of the desk over many cases: what is to be done, and who does it."""
from __future__ import annotations

import importlib
import os
from collections.abc import Generator, Iterator, Mapping, Sequence
from contextlib import closing
from dataclasses import dataclass, field
from typing import Any

from ..errors import OutputError, Refused, WordsError
from ..failures import failure_of
from ..formats.case import Case
from ..formats.network import Network
from ..formats.plain_files import read_bytes
from ..formats.study import Study, print_study
from ..formats.written_files import check_apart, made_folder, write_whole
from ..program.causes import lines_of
from ..program.run import as_bytes, case_bytes, found, network_bytes
from ..search.budget import Telling, nobody
from ..tables.units import registry
from ..words.all_words import word_of
from ..words.word import Files, Role, TextFile, placed
from .arguments import taken_of
from .inputs import Listed, listed
from .job import Job, JobOutcome
from .kept_files import names_of
from .loaded_files import FilesOfRows, read_files
from .local import by_processes, processors
from .results import Done, Results
from .scenarios import SCENARIO, ScenarioTable

Held = Case | Network | Study | str | bytes


@dataclass(frozen=True)
class Order:
    """A word with its part, its options, and who does it: so many processes here, or the workers of a scheduler.
    `into` is the folder where each answer is kept, and `ending` what the files there end with; `scenarios` is a table
    of changes, by each of which each case is taken too; `place` is the list, and `output` where the table goes."""

    words: tuple[str, ...]
    options: Any
    scheduler: str | None = None
    processes: int = field(default_factory=processors)
    into: str | None = None
    ending: str | None = None
    scenarios: str | None = None
    place: str | None = None
    output: str | None = None

    def kept(self, rows: Sequence[Listed]) -> list[str]:
        """The names of the files of the answers."""
        ending = self.ending.removeprefix('.') if self.ending is not None else word_of(self.words).ending
        if not ending or os.sep in ending or '\0' in ending:
            raise WordsError(f'{self.ending} is not an ending of a file')
        return names_of(rows, ending)

    def read(self, rows: Sequence[Listed]) -> list[str]:
        """The paths of all files that are read."""
        of_rows = [path for row in rows for paths in row.paths.values() for path in paths]
        return [*dict.fromkeys(of_rows), *(path for path in (self.place, self.scenarios) if path is not None)]


class Work:
    """The jobs of an order, their outcomes, and what is to be told."""

    def __init__(self, order: Order, rows: Sequence[Listed], tell: Telling = nobody) -> None:
        self.order, self.rows, self.tell = order, rows, tell
        self.notes: list[str] = []
        self.table: ScenarioTable | None = None
        if order.scenarios is not None:
            self.table = ScenarioTable(TextFile(order.scenarios, read_bytes(order.scenarios)))
            self.rows = self.table.rows(rows)
            self.notes += self.table.notes
        self.outcomes: dict[int, JobOutcome] = {}
        self.names = order.kept(self.rows) if order.into is not None else None
        self.stopped = False

    def check(self) -> None:
        """`OutputError` where an answer would be written over one of the files that are read, or over another."""
        outputs = [] if self.order.output is None else [self.order.output]
        check_apart([*outputs, *(self.path(number) for number in range(len(self.names or ())))],
                    self.order.read(self.rows))
        if self.order.into is not None:
            made_folder(self.order.into, parents=True)

    def path(self, number: int) -> str:
        """Where the answer of a row is kept."""
        assert self.order.into is not None and self.names is not None
        return os.path.join(self.order.into, self.names[number])

    def jobs(self) -> Iterator[Job]:
        """The jobs, each with what its files hold when it is its turn. A file that cannot be read is an outcome."""
        files_of_rows = FilesOfRows(self.rows)
        for number, row in enumerate(self.rows):
            try:
                files = self.varied(row, files_of_rows.of_row(row))
            except Refused as fault:
                self.take(JobOutcome(number, fault.status, told='; '.join(lines_of(fault))))
                continue
            except Exception as fault:  # Whatever it is, the other rows have to go on.
                status, told = failure_of(fault)
                self.take(JobOutcome(number, status, told=told))
                continue
            yield self.job(number, files)

    def varied(self, row: Listed, files: Files) -> Files:
        """The files with the case in the scenario of its row, where there are scenarios."""
        if self.table is None:
            return files
        return files | {'case': (self.table.varied(files.one('case'), row.names[SCENARIO]),)}

    def job(self, number: int, files: Files) -> Job:
        return Job(number, self.order.words, self.order.options, files, self.names[number] if self.names else None)

    def take(self, outcome: JobOutcome) -> None:
        """Takes an outcome, once, and keeps its answer; where that cannot be written, it failed."""
        if outcome.number in self.outcomes:
            return
        if outcome.content is not None and self.names is not None:
            try:
                write_whole(self.path(outcome.number), outcome.content)
            except OutputError as fault:
                outcome = JobOutcome(outcome.number, fault.status, told=str(fault))
        self.outcomes[outcome.number] = outcome
        bad = sum(kept.status != 0 for kept in self.outcomes.values())
        self.tell(f'{len(self.outcomes)} of {len(self.rows)}' + (f', {bad} not good' if bad else ''))

    def run(self, jobs: Iterator[Job]) -> None:
        """Does the jobs, until all are done or it is stopped (Ctrl-C): what was done by then stays."""
        try:
            with closing(self.begun(jobs)) as outcomes:
                for outcome in outcomes:
                    self.take(outcome)
        except KeyboardInterrupt:
            self.stopped = True

    def begun(self, jobs: Iterator[Job]) -> Generator[JobOutcome, None, None]:
        if self.order.scheduler is None:
            # That there is no program is no outcome of each case.
            found()
            load(self.order.words[0])
            return by_processes(jobs, min(self.order.processes, len(self.rows)))
        from .cluster import by_cluster
        return by_cluster(jobs, self.order.scheduler, self.notes)

    def results(self) -> Results:
        """What came of all rows, in their order."""
        # The order of the input is that of the rows, whoever was quicker.
        done = tuple(Done(row.names, self.outcomes.get(number) or JobOutcome(number, None))
                     for number, row in enumerate(self.rows))
        notes = [f'{case.name}: {note}' for case in done for note in case.outcome.notes]
        return Results(' '.join(self.order.words), done, (*self.notes, *notes), self.stopped)


def load(word: str) -> None:
    """Loads here what takes long to load, so that no process has to do it for itself."""
    if word == 'case':
        registry()
    if word in ('draw', 'page'):
        for module in ('grid.diagram', 'curves'):
            importlib.import_module(f'pinchdesk.figures.{module}')


def done_all(order: Order, rows: Sequence[Listed], tell: Telling = nobody) -> Results:
    """Does an order over cases whose files are read here."""
    work = Work(order, rows, tell)
    work.check()
    work.run(work.jobs())
    return work.results()


def many(word: str, cases: str | os.PathLike[str] | Mapping[str, Held | Sequence[Held]], *words: str,
         scheduler: str | None = None, processes: int | None = None, into: str | None = None,
         ending: str | None = None) -> Results:
    """One word of the desk (`draw grid` is one too) over many cases: those of a folder or of a list, or cases by their
    names, each alone or with the further files that the word needs. `words` are those that follow the files of the
    word at the command (`'0', '20', '2'` of `sweep`)."""
    names = tuple(word.split())
    try:
        found_word = word_of(names)
    except KeyError as fault:
        raise WordsError(f'{word} is not a word that takes many cases') from fault
    taken = taken_of(found_word, words)
    order = Order(names, taken.options, scheduler, processes or processors(), into, ending)
    if not isinstance(cases, Mapping):
        return done_all(order, listed(os.fspath(cases), found_word.roles, taken.common))
    first = found_word.roles[0].name
    work = Work(order, [Listed({first: name}, taken.common) for name in cases])
    work.check()
    common = read_files(taken.common)
    work.run(work.job(number, common | files_of(name, content, found_word.roles))
             for number, (name, content) in enumerate(cases.items()))
    return work.results()


def files_of(name: str, contents: Held | Sequence[Held], roles: Sequence[Role]) -> Mapping[str, tuple[TextFile, ...]]:
    """The files of a case that is held here, in the order in which the word takes them."""
    listed_contents = [contents] if isinstance(contents, (Case, Network, Study, str, bytes)) else list(contents)
    roles = placed(roles)
    needed = [role for role in roles if role.needed]
    if len(listed_contents) < len(needed) or len(listed_contents) > len(roles) and not roles[-1].several:
        raise WordsError(f'{name}: {", ".join(role.name for role in roles)} are needed, and {len(listed_contents)} are '
                         'given')
    files: dict[str, tuple[TextFile, ...]] = {}
    for at, content in enumerate(listed_contents):
        role = roles[min(at, len(roles) - 1)].name
        further = f' {at - len(roles) + 2}' if at >= len(roles) else ''
        file = TextFile(f'{name} {role}{further}' if at else name, held_bytes(content))
        files[role] = (*files.get(role, ()), file)
    return files


def held_bytes(content: Held) -> bytes:
    """A file as it would be written."""
    if isinstance(content, Study):
        return print_study(content).encode()
    if isinstance(content, Network):
        return network_bytes(content)
    return case_bytes(content) if isinstance(content, Case) else as_bytes(content)
