"""A table whose streams stand side by side, a column each: it is turned, so that each is a row."""
from __future__ import annotations

from dataclasses import replace

from .headings import known
from .spreadsheet import NOTHING, Table, TableRow
from .two_ends import with_two_ends
from .workbook_bounds import MOST_COLUMNS

# So many headings in one column, and in no row so many, are those of a table that lies on its side.
HEADINGS, FEWER = 3, 2


def headings(table: Table) -> int:
    """The most headings of a row."""
    return max((known(row) for row in table.rows), default=0)


def upright(tables: tuple[Table, ...]) -> tuple[Table, ...]:
    """The readings of a file, each end of a stream in a column of its own; where none has rows of headings, and columns
    of them do, those turned."""
    tables = tuple(map(with_two_ends, tables))
    if max(map(headings, tables)) >= FEWER:
        return tables
    found = [with_two_ends(turned(table)) for table in tables if may_turn(table)]
    return tuple(table for table in found if headings(table) >= HEADINGS) or tables


def may_turn(table: Table) -> bool:
    """Whether a table is one sheet with all that is in it in sight, and short enough to be turned."""
    bare = not (table.more or table.merged or table.hidden or table.inserted)
    plain = bare and not any(row.hidden for row in table.rows)
    return plain and bool(table.rows) and table.rows[-1].number <= MOST_COLUMNS


def turned(table: Table) -> Table:
    """The table with its columns as rows."""
    rows = {row.number: row for row in table.rows}
    columns = ([rows[number].cell(column) if number in rows else NOTHING for number in range(1, max(rows) + 1)]
               for column in range(max(len(row.cells) for row in table.rows)))
    made = (TableRow(at, tuple(cells)) for at, cells in enumerate(columns, 1)
            if any(not cell.empty for cell in cells))
    return replace(table, rows=tuple(made), turned=True)
