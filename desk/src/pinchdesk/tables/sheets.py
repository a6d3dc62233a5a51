"""Which sheets of a workbook are read: that with the streams, and those with its utilities, beside a cover sheet and
notes."""
from __future__ import annotations

from collections.abc import Sequence
from dataclasses import dataclass, replace
from decimal import Decimal

from ..errors import Refused
from ..formats.case import Side
from .blocks import Band, bands_of, groups_of, is_block
from .headings import is_number
from .layouts import SIZES
from .numbers import NoNumber, numeral_of
from .spreadsheet import Cell, Table, TableRow, joined_sheets, workbook_tables
from .two_ends import with_two_ends
from .vocabulary import Heading


@dataclass(frozen=True)
class SheetSummary:
    """What a sheet has: streams, and of which sides, heating curves alone, or utilities alone."""

    table: Table
    streams: bool
    utilities: bool
    sides: frozenset[Side]
    curves: bool = False


def chosen_sheets(content: bytes) -> Table:
    """The sheets of a workbook that have the streams and their utilities, as one table; `Refused` where more than one
    has streams and it is open which is meant."""
    tables = workbook_tables(content)
    if not tables:
        raise Refused(3, '', 'empty', 'the table is empty')
    found = [summary_of(table) for table in tables]
    streams = [summary for summary in found if summary.streams]
    curves = [summary for summary in found if summary.curves]
    if not streams and not curves:
        return with_others([tables[0]], tables)
    if len(streams) > 1 and not are_parts(streams):
        whole = streams[0].table is tables[0] and len(streams[0].sides) == 2
        if not whole:
            names = [summary.table.sheet for summary in streams]
            cause = f'the sheets {" and ".join(names)} have streams: use --sheet {names[0]}'
            raise Refused(3, f'sheet {names[0]}', 'sheets', cause)
        streams = streams[:1]
    utilities = [summary for summary in found if summary.utilities]
    return with_others([summary.table for summary in (*streams, *curves, *utilities)], tables)


def with_others(chosen: Sequence[Table], tables: Sequence[Table]) -> Table:
    """Sheets as one table, with the names of those that are not read."""
    names = [table.sheet for table in chosen]
    others = tuple(table.sheet for table in tables if table.sheet not in names)
    return replace(joined_sheets(chosen), others=others, first=chosen[0] is tables[0])


def are_parts(streams: Sequence[SheetSummary]) -> bool:
    """Whether sheets are the hot and the cold streams of one plant."""
    sides = [summary.sides for summary in streams]
    return len(streams) == 2 and all(len(found) == 1 for found in sides) and sides[0] != sides[1]


def summary_of(table: Table) -> SheetSummary:
    bands = [band for band in bands_of(table, list(with_two_ends(table).rows))
             if any(is_block(band.draft, group) for group in groups_of(band))]
    curves = [band for band in bands if any(band.draft.is_curve(group) for group in groups_of(band))]
    streams = [band for band in bands if has_sizes(band) and not any(band is curve for curve in curves)]
    sides = frozenset(side for band in streams for row in band.rows for side in sides_of(band, row))
    return SheetSummary(table, bool(streams), bool(bands) and not streams and not curves, sides,
                        bool(curves) and not streams)


def has_sizes(band: Band) -> bool:
    """Whether a row has a CP or a duty, which no utility has."""
    columns = [column for column, heading in band.draft.headings.items() if heading in SIZES]
    return any(is_number(row.cell(column)) for row in band.rows for column in columns)


def sides_of(band: Band, row: TableRow) -> list[Side]:
    """The side of a row's stream, by its temperatures."""
    ends = [[column for column, heading in band.draft.headings.items() if heading is wanted]
            for wanted in (Heading.SUPPLY, Heading.TARGET)]
    found = []
    for supply, target in zip(*ends):
        first, last = value_of(row.cell(supply)), value_of(row.cell(target))
        if first is not None and last is not None and first != last:
            found.append(Side.HOT if first > last else Side.COLD)
    return found


def value_of(cell: Cell) -> Decimal | None:
    """The number of a cell, for a comparison alone."""
    if cell.number is not None:
        return cell.number
    try:
        numeral = numeral_of(cell.text)
        return numeral.value(numeral.says.value.replace('?', '.') or '.')
    except NoNumber:
        return None
