"""Streams of several segments in a table: a name that stands in several rows, or rows below one that has a name,
without names, indented, or called segments, where the ends of these rows meet. Each row becomes a stream of the case,
`CRUDE-1`, `CRUDE-2`, and so on."""
from __future__ import annotations

import re
from collections.abc import Iterator, Mapping, Sequence
from contextlib import suppress
from dataclasses import dataclass, replace
from fractions import Fraction
from itertools import count, groupby

from ..formats.case import Side
from ..formats.segments import SegmentedStream
from .cells import CellReader, Told
from .rows import Body, Line
from .sections import section_of
from .spreadsheet import Cell, TableRow
from .units import Kind, UnknownUnit, unit_of
from .vocabulary import Heading, words


# Names that say that a row is a part of the stream above it.
PART = re.compile(r'(?:segment|seg\.?|part|parte|partie|teil|abschnitt|segmento|tramo|tron[cç]on|step)[\s.#:-]*'
                  r'(?:[0-9]{1,2}|[a-z]|[ivx]{1,4})', re.I)

# What a stream has as a whole beside its heat.
BESIDE = (Heading.CONTRIBUTION, Heading.FILM, Heading.OVERALL)
# Titles of rows that are streams, and no segments of one.
UNITS = frozenset('unit units plant section area train system process anlage abschnitt werk unite atelier planta '
                  'unidad seccion impianto sezione unita'.split())
# What a whole and its segments say of their heat may differ by this part.
MOST_APART = Fraction(1, 100)


@dataclass(frozen=True)
class SegmentRows:
    """The names that the segments of a stream of the table have, from its supply to its target; of a utility they are
    in proportion."""

    name: str
    segments: tuple[str, ...]
    is_utility: bool = False


def with_segments(body: Body, reader: CellReader, told: Told) -> tuple[Body, tuple[SegmentRows, ...]]:
    """The lines of a table, those of a stream in several rows with a name for each of them. What is no such stream is a
    fault."""
    lines = carried_down(below_names(body, reader, told), reader)
    groups: dict[str, list[int]] = {}
    for at, line in enumerate(lines):
        if line.name() and (line.is_stream or is_utility_segment(line)):
            groups.setdefault(line.name(), []).append(at)
    taken = {line.name() for line in lines}
    made: list[SegmentRows] = []
    for name, places in groups.items():
        if len(places) < 2:
            continue
        chain = chained([lines[at] for at in places], reader, told)
        if chain is None:
            continue
        names = segment_names(name, len(chain), taken)
        side = side_of(chain, reader)
        for place in places:
            line = lines[place]
            lines[place] = named(line, names[chain.index(line)], side)
        is_utility = not chain[0].is_stream
        made.append(SegmentRows(name, names, is_utility))
        rows = 'has a heating curve' if chain[0].layout.curve else f'stands in {len(chain)} rows whose ends meet'
        what = 'utility' if is_utility else 'stream'
        told.note(chain[0].row.number, None, f'`{name}` {rows}: one {what} with the segments {names[0]} to '
                  f'{names[-1]}')
    return replace(body, lines=tuple(lines)), tuple(made)


def is_utility_segment(line: Line) -> bool:
    """Whether a row may be a segment of a utility: it has both temperatures, and a size."""
    return line.kind in ('heater', 'cooler', 'utility') and line.has(Heading.TARGET) and any(
        line.has(heading) for heading in (Heading.CP, Heading.LOAD, Heading.SPECIFIC, Heading.LATENT))


def below_names(body: Body, reader: CellReader, told: Told) -> list[Line]:
    """The lines, those that are parts of the stream above them with its name, where they meet. The row above may have
    a name alone, or the ends of the whole too: then it is passed over, since its heat is that of its segments."""
    titles = {passed.row: passed.text for passed in body.over if passed.why == 'a note'}
    numbers = [row.number for row in told.table.rows]
    above = dict(zip(numbers[1:], numbers))
    made: list[Line] = []
    for is_part, lines in part_runs(body.lines, told.table.rows):
        if not is_part or not are_met(lines, reader):
            made += lines
            continue
        before = above.get(lines[0].row.number, 0)
        whole = made[-1] if made and made[-1].is_stream and before == made[-1].row.number else None
        same = ends_met(whole, lines, reader) if whole else [False]
        if whole and all(same):
            made.pop()
            made += [part_of(whole, line) for line in lines]
            check_whole(whole, lines, reader, told)
        elif whole and any(same):
            told.fault(whole.row.number, None, f'`{whole.name()}` may be the whole of the rows below it, from '
                       f'`{lines[0].name()}` on, which do not go from its supply to its target: take it out, or give '
                       'them other names')
        else:
            title = titles.get(before, '')
            made += [named(line, title, None) for line in lines] if names_stream(title, lines) else lines
    return made


def part_runs(lines: Sequence[Line], rows: Sequence[TableRow]) -> Iterator[tuple[bool, list[Line]]]:
    """The lines in runs, each with whether they are parts of what stands above it: called `segment 1` and so on,
    without a name, or indented."""
    above = {behind.number: before for before, behind in zip(rows, rows[1:])}
    marked: list[tuple[bool, int, Line]] = []
    base = 0
    for line in lines:
        before = above.get(line.row.number)
        goes_on = bool(marked) and marked[-1][0] and before is marked[-1][2].row
        if not goes_on and before:
            base = next((cell.indent for _, cell in before.filled()), 0)
        inner = not line.name() or PART.fullmatch(line.name()) or line.cell(Heading.NAME).indent > base
        part = bool(line.is_stream and inner and not line.layout.curve)
        run = marked[-1][1] if marked and marked[-1][0] == part and (goes_on or not part) else len(marked)
        marked.append((part, run, line))
    for (is_part, _), group in groupby(marked, lambda mark: mark[:2]):
        yield is_part, [line for _, _, line in group]


def names_stream(title: str, lines: Sequence[Line]) -> bool:
    """Whether a title is the name of the stream whose segments stand below it. Rows with names of their own may be the
    streams of a unit."""
    own = any(line.name() and not PART.fullmatch(line.name()) for line in lines)
    return bool(title) and section_of(title) is None and not (own and set(words(title)) & UNITS)


def part_of(whole: Line, line: Line) -> Line:
    """A segment with the name of its stream, and what that has beside its heat."""
    cells = list(line.row.cells) + [Cell()] * (len(whole.row.cells) - len(line.row.cells))
    for heading in BESIDE:
        column = whole.at(heading)
        if column is not None and whole.has(heading) and not line.has(heading):
            cells[column] = whole.row.cell(column)
    row = TableRow(line.row.number, tuple(cells), line.row.hidden)
    return named(replace(line, row=row, kind=line.kind or whole.kind), whole.name(), None)


def check_whole(whole: Line, lines: Sequence[Line], reader: CellReader, told: Told) -> None:
    """Tells that a row is passed over as the whole of its segments; a fault where it has another heat than they."""
    said, parts = heat(whole, reader), [heat(line, reader) for line in lines]
    made = sum((part for part in parts if part is not None), Fraction(0))
    if said is not None and None not in parts and abs(said - made) > MOST_APART * made:
        told.fault(whole.row.number, None, f'`{whole.name()}` as a whole has {Kind.HEAT.shown(said)}, and its segments '
                   f'below it have {Kind.HEAT.shown(made)}')
        return
    told.note(whole.row.number, None, f'passed over, `{whole.name()}` as a whole: its segments stand below it')


def heat(line: Line, reader: CellReader) -> Fraction | None:
    """The heat of a row in W by its duty, or its CP; None where it has none, of which nothing is told here."""
    duty = size(line, Heading.LOAD, Kind.HEAT, reader)
    if duty is not None:
        return duty
    flow = size(line, Heading.CP, Kind.FLOW, reader)
    supply, target = (temperature(line, heading, reader) for heading in (Heading.SUPPLY, Heading.TARGET))
    return None if flow is None or supply is None or target is None else flow * abs(target - supply)


def size(line: Line, heading: Heading, kind: Kind, reader: CellReader) -> Fraction | None:
    """A duty or a CP of a row without its sign; None where it is none."""
    column = line.at(heading)
    number = reader.quiet(line.row, column) if line.has(heading) else None
    if number is None or column is None:
        return None
    with suppress(UnknownUnit):
        return abs(unit_of(reader.unit_beside(line.row, column) or kind.default, kind).exact(number))
    return None


def are_met(lines: Sequence[Line], reader: CellReader) -> bool:
    return len(lines) > 1 and all(meet(before, behind, reader) for before, behind in zip(lines, lines[1:]))


def ends_met(whole: Line, lines: Sequence[Line], reader: CellReader) -> list[bool]:
    """Whether a row begins where some segments do, and whether it ends there."""
    pairs = ((lines[0], Heading.SUPPLY), (lines[-1], Heading.TARGET))
    return [temperature(whole, heading, reader) == temperature(line, heading, reader) for line, heading in pairs]


def carried_down(lines: Sequence[Line], reader: CellReader) -> list[Line]:
    """The lines, each that has no name and begins where the one above it ends with the name of that."""
    made: list[Line] = []
    for line in lines:
        above = made[-1] if made else None
        if above and line.is_stream and above.is_stream and not line.name() and above.name() and \
                above.layout is line.layout and meet(above, line, reader):
            line = named(line, above.name(), None)
        made.append(line)
    return made


def meet(before: Line, behind: Line, reader: CellReader) -> bool:
    """Whether a row begins at the temperature at which another one ends."""
    end, begin = temperature(before, Heading.TARGET, reader), temperature(behind, Heading.SUPPLY, reader)
    return end is not None and end == begin


def temperature(line: Line, heading: Heading, reader: CellReader) -> Fraction | None:
    """A temperature of a row in tenths of °C; None where it is none, of which nothing is told here."""
    column = line.at(heading)
    number = reader.quiet(line.row, column)
    if number is None or column is None:
        return None
    try:
        return unit_of(reader.unit_beside(line.row, column) or Kind.TEMPERATURE.default,
                       Kind.TEMPERATURE).exact(number)
    except UnknownUnit:
        return None


def chained(lines: Sequence[Line], reader: CellReader, told: Told) -> list[Line] | None:
    """The rows of a stream from its supply to its target; None where they do not meet, or run both ways, which is a
    fault."""
    for order in (list(lines), list(reversed(lines))):
        if all(meet(before, behind, reader) for before, behind in zip(order, order[1:])):
            runs = {side for side in (run_of(line, reader) for line in order) if side}
            if len(runs) > 1:
                told.fault(order[1].row.number, order[1].at(Heading.NAME), f'`{order[0].name()}` cools down in one row '
                           'and warms up in another: a stream does one of both')
                return None
            return order
    if any(temperature(line, heading, reader) is None for line in lines
           for heading in (Heading.SUPPLY, Heading.TARGET)):
        # That is told where the row is read.
        return None
    before, behind = next((one, other) for one, other in zip(lines, lines[1:]) if not meet(one, other, reader))
    end, begin = before.cell(Heading.TARGET).text, behind.cell(Heading.SUPPLY).text
    told.fault(behind.row.number, behind.at(Heading.SUPPLY), f'`{before.name()}` stands in several rows, and one ends '
               f'at {end} where the next begins at {begin}: the segments of a stream meet, and two streams need two '
               'names')
    return None


def run_of(line: Line, reader: CellReader) -> Side | None:
    """The side of a row by its temperatures."""
    supply, target = (temperature(line, heading, reader) for heading in (Heading.SUPPLY, Heading.TARGET))
    if supply is None or target is None or supply == target:
        return None
    return Side.HOT if supply > target else Side.COLD


def side_of(lines: Sequence[Line], reader: CellReader) -> Side | None:
    """The side of a stream, which its latent segments do not say themselves."""
    return next((side for side in (run_of(line, reader) for line in lines) if side), None)


def segment_names(name: str, size: int, taken: set[str]) -> tuple[str, ...]:
    """Names for the segments of a stream that no other row has; they are taken then."""
    for marks in count(1):
        names = tuple(f'{name}{"-" * marks}{at}' for at in range(1, size + 1))
        if not taken & set(names):
            break
    taken |= set(names)
    return names


def named(line: Line, name: str, side: Side | None) -> Line:
    """A line with another name, and where its kind is open with that of this side."""
    column = line.columns[Heading.NAME]
    cells = [*line.row.cells, *[Cell()] * (column + 1 - len(line.row.cells))]
    cells[column] = replace(cells[column], text=name, number=None)
    row = TableRow(line.row.number, tuple(cells), line.row.hidden)
    return replace(line, row=row, kind=line.kind or (side.value if side else ''))


def fit_segments(segmented: Sequence[SegmentRows], names: Mapping[str, str]) -> tuple[SegmentedStream, ...]:
    """The streams with the names that the case has for them and for their segments."""
    return tuple(SegmentedStream(names[stream.name], tuple(names[segment] for segment in stream.segments))
                 for stream in segmented)
