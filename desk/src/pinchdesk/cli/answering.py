"""A word at the command: its files are read, it is asked, and its answer is told and written."""
from __future__ import annotations

from argparse import Namespace
from collections.abc import Mapping, Sequence
from dataclasses import replace
from pathlib import Path
from typing import TYPE_CHECKING, Any

from ..batch.arguments import options_of, paths_of
from ..batch.loaded_files import read_files
from ..errors import OutputError, WordsError
from ..formats.written_files import check_place, write_whole
from ..report.sheet import rendered
from ..words.forms import TABLE
from ..words.word import Answer, Word
from .further_files import check_further, write_further
from .progress import progress, tell
from .standard_streams import put, say

if TYPE_CHECKING:
    from ..batch.results import Results

MOST_PROCESSES = 256


def answered(word: Word[Any], _: tuple[str, ...], parsed: Namespace) -> int:
    """Answers a word."""
    paths = paths_of(word.roles, parsed)
    inputs = [path for told in paths.values() for path in told]
    if parsed.output is not None:
        check_place(parsed.output, inputs)
    form = word.forms.of(parsed.output, getattr(parsed, 'form', None))
    with progress(word.name):
        files = read_files(paths)
        others = [*inputs, *([parsed.output] if parsed.output is not None else [])]
        places = further_places(word, parsed, others)
        answer = word.answer(files, counted(options_of(word, parsed), parsed.begun), tell)
        content = answer.content(form)
        notes = with_further(word, answer, places, others)
    write(content, notes, parsed.output, inputs)
    return answer.status


def counted(options: Any, begun: float) -> Any:
    """Options whose seconds, if they have any, count from when the command was started."""
    return replace(options, begun=begun) if hasattr(options, 'begun') else options


def further_places(word: Word[Any], parsed: Namespace, others: Sequence[str]) -> Mapping[str, str]:
    """Where further files are asked for, beside others of which the case is the first; `OutputError` where they cannot
    be written there."""
    places = {output.name: getattr(parsed, output.name) for output in word.further
              if getattr(parsed, output.name) is not None}
    for output in word.further:
        if output.name in places:
            check_further(output, places[output.name], Path(others[0]).stem, others)
    return places


def with_further(word: Word[Any], answer: Answer, places: Mapping[str, str], others: Sequence[str]) -> Sequence[str]:
    """The notes of an answer, with those of its further files, which are written."""
    notes = list(answer.notes)
    for output in word.further:
        if output.name in places:
            told = write_further(output, answer.further[output.name], places[output.name], Path(others[0]).stem, others)
            notes = [*told, *notes] if output.folder else [*notes, *told]
    return notes


def write(content: str | bytes, notes: Sequence[str], output: str | None, inputs: Sequence[str]) -> None:
    """Tells the notes of an answer, and writes it. Where they cannot be told it stands, and that is the error."""
    untold = None
    try:
        for note in notes:
            say(note)
    except OutputError as fault:
        untold = fault
    if output is None:
        put(content)
    else:
        write_whole(output, content, inputs)
    if untold:
        raise untold


def results_of(word: Word[Any], names: tuple[str, ...], parsed: Namespace) -> Results:
    """What comes of a word over many cases, for which more is loaded than for one."""
    from ..batch.inputs import listed
    from ..batch.order import Order, done_all
    rows = listed(parsed.place, word.roles, paths_of(word.roles[1:], parsed))
    order = Order(names, options_of(word, parsed), parsed.scheduler, parsed.processes, parsed.into, parsed.ending,
                  getattr(parsed, 'scenarios', None), parsed.place, parsed.output)
    return done_all(order, rows, tell)


def done_over_many(word: Word[Any], names: tuple[str, ...], parsed: Namespace) -> int:
    """Does a word over many cases: a table of what came of them."""
    inputs = [parsed.place]
    if parsed.output is not None:
        check_place(parsed.output, inputs)
    if not 1 <= parsed.processes <= MOST_PROCESSES:
        raise WordsError(f'{parsed.processes} is not a number of processes: 1 to {MOST_PROCESSES}')
    form = TABLE.of(parsed.output, parsed.form)
    with progress(word.name):
        results = results_of(word, names, parsed)
    write(rendered([results.sheet()], form), (*results.notes, results.told), parsed.output, inputs)
    return results.status
