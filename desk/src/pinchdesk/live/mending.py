"""A network that no plan holds, as one that it does: its branches are joined across one another, or a stream does not
end at its target. What cannot stay is open then: the end of the stream, then its exchangers from there, as few as are
found."""
from __future__ import annotations

from dataclasses import dataclass, fields, replace
from typing import Any

from ..errors import Refused
from ..formats.case import Case, Stream
from ..formats.network import End, Exchanger, Mix, Pass, Split, Statement, read_network, words_of
from .gestures import NotDone
from .network_lines import TextLayout, any_utility, read_plan
from .pieces import HandPlan, fresh_open, pair_with

# A line of a text that is no statement, or a statement.
Entry = str | Statement


@dataclass(frozen=True)
class Mended:
    """A plan with its layout, and the exchangers that are open in it."""

    plan: HandPlan
    layout: TextLayout
    opened: tuple[str, ...]

    @property
    def told(self) -> str:
        """What is open, in words."""
        *first, last = self.opened or ('what is missing at the ends',)
        return f'{", ".join(first)} and {last} open' if first else f'{last} open'


def mended(case: Case, text: str) -> Mended:
    """The plan of a text that has none as it is. `NotDone` where none was found."""
    entries = entries_of(text)
    before = names_of(entries)
    while True:
        try:
            plan, layout = read_plan(case, text_of_entries(entries))
            left = names_of(entries)
            return Mended(plan, layout, tuple(name for name in before if name not in left))
        except Refused as fault:
            made = with_less(case, entries, fault)
            if made == entries:
                raise NotDone(f'This network can be changed by its text alone: {fault.text}.') from fault
            entries = made


def entries_of(text: str) -> list[Entry]:
    """The lines of a text in their order, those that are statements read."""
    statements = iter(read_network(text).statements)
    lines = text.split('\n')
    return [next(statements) if line.strip(' \t\r') and not line.strip(' \t\r').startswith('#') else line
            for line in (lines if lines[-1] else lines[:-1])]


def text_of_entries(entries: list[Entry]) -> str:
    return ''.join((entry if isinstance(entry, str) else ' '.join(words_of(entry))) + '\n' for entry in entries)


def names_of(entries: list[Entry]) -> list[str]:
    return [entry.name for entry in entries if isinstance(entry, Exchanger)]


def with_less(case: Case, entries: list[Entry], fault: Refused) -> list[Entry]:
    """The lines with one thing less of what is at fault: an exchanger that no stream passes; of a stream its end, then
    its last exchanger, then all its branches. The same where nothing is left to go."""
    kind, name = fault.place.split()[-2:]
    if kind == 'exchanger':
        return [entry for entry in entries if not (isinstance(entry, Exchanger) and entry.name == name)]
    streams = branch_streams(case, entries)
    stream = next(stream for stream in case.streams if stream.name == streams.get(name, name))
    own = [entry for entry in entries if not isinstance(entry, (str, Exchanger))
           and streams[entry.first if isinstance(entry, Mix) else entry.branch] == stream.name]
    gone = [entry for entry in own if isinstance(entry, End)]
    passed = [entry.exchanger for entry in own if isinstance(entry, Pass)]
    if not gone and passed:
        return without_exchanger(case, entries, stream, passed[-1])
    return [entry for entry in entries if entry not in (gone or own)]


def branch_streams(case: Case, entries: list[Entry]) -> dict[str, str]:
    """The stream of each branch."""
    found = {stream.name: stream.name for stream in case.streams}
    for entry in entries:
        match entry:
            case Split(branch, first, _, second):
                found[first] = found[second] = found[branch]
            case Pass(branch, _, to) | Mix(branch, _, to):
                found[to] = found[branch]
    return found


def without_exchanger(case: Case, entries: list[Entry], stream: Stream, exchanger: str) -> list[Entry]:
    """The lines without an exchanger on this stream; on another one an open piece stands in its place."""
    opened = fresh_open(names_of(entries))
    others = {other.name: other for other in case.streams if other.name != stream.name}
    streams, made, renamed = branch_streams(case, entries), list[Entry](), dict[str, str]()
    for entry in entries:
        match entry:
            case Exchanger(name, hot, cold, duty) if name == exchanger:
                other = others.get(hot) or others.get(cold)
                made += [Exchanger(opened, *pair_with(other, any_utility(case, other)), duty)] if other else []
            case Pass(branch, name, to) if name == exchanger and streams[branch] == stream.name:
                renamed[to] = renamed.get(branch, branch)
            case Pass(branch, name, to) if name == exchanger:
                made.append(Pass(branch, opened, to))
            case str() | Exchanger():
                made.append(entry)
            case _:
                made.append(with_branches(entry, renamed))
    return made


def with_branches(statement: Statement, renamed: dict[str, str]) -> Statement:
    """A statement with other names of branches."""
    changes: dict[str, Any] = {field.name: renamed[value] for field in fields(statement)
                               for value in [getattr(statement, field.name)]
                               if field.name != 'exchanger' and isinstance(value, str) and value in renamed}
    return replace(statement, **changes)
