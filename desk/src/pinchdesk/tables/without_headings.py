"""Tables without headings: a row has the columns of a case file behind its kind, or those of a stream: name, supply,
target, CP, duty, contribution. Which columns are taken is told, and refused where others are as likely."""
from __future__ import annotations

import re
from collections.abc import Sequence
from decimal import Decimal

from .cells import Told
from .headings import EMPTY
from .numbers import LONGEST, NoNumber, numeral_of
from .rows import Line
from .sections import kind_of
from .spreadsheet import Cell, TableRow
from .vocabulary import Heading

STREAM_COLUMNS = (Heading.NAME, Heading.SUPPLY, Heading.TARGET, Heading.CP, Heading.LOAD, Heading.CONTRIBUTION)
UTILITY_COLUMNS = (Heading.NAME, Heading.SUPPLY, Heading.LEAST, Heading.MOST, Heading.PRICE, Heading.CONTRIBUTION)
# Names that say which way a stream runs.
RUNS = {'hot': re.compile(r'h(?:ot)?[\s_-]*[0-9]*', re.I), 'cold': re.compile(r'c(?:old)?[\s_-]*[0-9]*', re.I)}
# A CP is told from temperatures and from duties by its size: temperatures are at least so many times as large.
APART = 2


def plain_line(row: TableRow, told: Told) -> Line | None:
    """A row of a table without headings as a line; None where it has too many columns, which is a fault."""
    kind = kind_of(row.cell(0).text) or '' if len(row.cell(0).text) > 2 else ''
    order = UTILITY_COLUMNS if kind in ('heater', 'cooler') else STREAM_COLUMNS
    shift = 1 if kind else 0
    beyond = [column for column, _ in row.filled() if column >= len(order) + shift]
    if beyond:
        told.fault(row.number, beyond[0], f'there are {len(order) + shift} columns at most where there are no headings')
        return None
    return Line(row, kind, {heading: at + shift for at, heading in enumerate(order)})


def check_order(lines: Sequence[Line], mark: str, told: Told) -> None:
    """Tells which columns are taken, and a fault where others are as likely."""
    streams = [line for line in lines if line.is_stream]
    utilities = [line for line in lines if line.kind in ('heater', 'cooler')]
    tell_columns(streams, STREAM_COLUMNS, 'a stream', told)
    tell_columns(utilities, UTILITY_COLUMNS, 'a utility', told)
    for line in utilities:
        if [heading for heading in UTILITY_COLUMNS[2:5] if given(line.cell(heading))] == [Heading.LEAST]:
            column = line.at(Heading.LEAST)
            told.fault(line.row.number, column, 'without headings this may be the least heat or a price: give headings')
    check_names(streams, told)
    for line in streams:
        check_run(line, mark, told)
    check_sizes([line for line in streams if size_alone(line)], mark, told)


def tell_columns(lines: Sequence[Line], order: Sequence[Heading], what: str, told: Told) -> None:
    used = [heading.name for heading in order if any(given(line.cell(heading)) for line in lines)]
    if used:
        names = ', '.join(name if name == 'CP' else name.lower() for name in used)
        told.notes.append(f'there are no headings: the columns of {what} are taken as {names}')


def given(cell: Cell) -> bool:
    return not cell.empty and cell.text not in EMPTY


def size_alone(line: Line) -> bool:
    """Whether of a stream both temperatures and a CP stand there alone and without units. A duty beside the CP has to
    agree with it, so that it says which is which."""
    cells = [line.cell(heading) for heading in (Heading.SUPPLY, Heading.TARGET, Heading.CP)]
    return all(given(cell) for cell in cells) and not given(line.cell(Heading.LOAD)) and not cells[0].unit \
        and not cells[2].unit and not any(re.search(r'[^\W\d]|[°%]', cell.text) for cell in (cells[0], cells[2]))


def value(cell: Cell, mark: str) -> Decimal | None:
    if cell.number is not None:
        return cell.number
    try:
        return numeral_of(cell.text).value(mark)
    except NoNumber:
        return None


def check_names(streams: Sequence[Line], told: Told) -> None:
    """Names that are numbers count the rows; else a number stands where the name is wanted."""
    last = -1
    for line in streams:
        name = line.name()
        if not re.fullmatch(r'[-+−]?[0-9.,]+', name):
            continue
        number = int(name) if name.isdigit() and len(name) <= LONGEST else -1
        if number <= last:
            told.fault(line.row.number, line.at(Heading.NAME), f'`{name}` is where a name is expected: give headings')
        last = max(number, last)


def check_run(line: Line, mark: str, told: Told) -> None:
    """A stream that is called H1 or C1 runs as its name says."""
    supply, target = (value(line.cell(heading), mark) for heading in (Heading.SUPPLY, Heading.TARGET))
    if line.kind or supply is None or target is None or supply == target:
        return
    other = 'cold' if supply > target else 'hot'
    if RUNS[other].fullmatch(line.name()):
        told.fault(line.row.number, line.at(Heading.SUPPLY), f'{line.name()} would run from {supply} to {target}, '
                   f'and is {other} by its name: without headings the columns may be others, so give headings')


def check_sizes(lines: Sequence[Line], mark: str, told: Told) -> None:
    """The third number is taken as the CP: it may be a duty, or the CP may be the first one. Refused where its size
    does not tell it from temperatures, or where the second and the third number look more like a pair than the first
    and the second."""
    rows = [[value(line.cell(heading), mark) for heading in (Heading.SUPPLY, Heading.TARGET, Heading.CP)]
            for line in lines]
    numbers = [[number for number in row if number is not None] for row in rows]
    numbers = [row for row in numbers if len(row) == 3]
    if not numbers:
        return
    warmest = max(abs(temperature) for row in numbers for temperature in row[:2])
    largest = max(abs(row[2]) for row in numbers)
    first, second, third = (sum((abs(row[at]) for row in numbers), Decimal(0)) for at in range(3))
    swapped = all(row[0] > 0 for row in numbers) and alike(second, third) < APART * alike(first, second) \
        and not any(line.kind and (row[1] > row[2]) != (line.kind == 'hot') for line, row in zip(lines, numbers))
    if APART * largest > warmest or swapped:
        cause = 'there are no headings, and the columns may be name, supply, target, CP, or name, CP, supply, ' \
                'target, or name, supply, target, duty: give headings'
        told.fault(lines[0].row.number, None, cause)


def alike(one: Decimal, other: Decimal) -> Decimal:
    """How many times the larger of two sums is the smaller one."""
    smaller, larger = sorted((one, other))
    return larger / smaller if smaller else Decimal(10 ** 9)
