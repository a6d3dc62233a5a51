"""The sheets of a workbook beside the one that is read."""
from __future__ import annotations

from collections.abc import Callable

from ..errors import Refused
from .spreadsheet import Table, read_table

# So many of them are looked at.
MOST_SHEETS = 8


def told(table: Table) -> tuple[str, ...]:
    """What is told where a workbook has several sheets, and nobody said which is meant."""
    if table.more:
        others = f', not {", ".join(table.others)} (--sheet)' if table.others else ''
        return (f'the sheets {", ".join((table.sheet, *table.more))} are read{others}',)
    if not table.others:
        return ()
    if not table.first:
        return (f'of the sheets {table.sheet} is read, which has a table, not {", ".join(table.others)} (--sheet)',)
    return (f'of the sheets the first one, {table.sheet}, is read, not {", ".join(table.others)} (--sheet)',)


def check(content: bytes, name: str, first: Table, what: str, is_one: Callable[[Table], bool]) -> None:
    """`Refused` where the sheet that was read is no table of what is wanted, and other ones are."""
    found = [sheet for sheet in first.others[:MOST_SHEETS] if is_such(content, name, sheet, is_one)]
    if found:
        has = 'has one' if len(found) == 1 else 'have one'
        cause = f'sheet {first.sheet} has no table of {what}, and {", ".join(found)} {has}: use --sheet {found[0]}'
        raise Refused(3, f'sheet {first.sheet}', 'no table', cause)


def is_such(content: bytes, name: str, sheet: str, is_one: Callable[[Table], bool]) -> bool:
    """Whether another sheet is such a table; one that cannot be read, or is too large, is none."""
    try:
        return is_one(read_table(content, name, sheet)[0])
    except Refused:
        return False
