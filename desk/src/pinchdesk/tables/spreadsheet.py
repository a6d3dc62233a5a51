"""Tables as spreadsheets write them: `.xlsx`, or text with separators, become one list of rows.

Rows and columns are counted as the spreadsheet shows them. A number of a workbook is taken with the fifteen digits
that a spreadsheet shows of it; a formula has the value that was saved with it."""
from __future__ import annotations

import csv
import datetime
import io
import math
import re
import warnings
from collections.abc import Iterable, Iterator, Sequence
from dataclasses import dataclass, field, replace
from decimal import Decimal
from typing import Any

from ..errors import Refused
from ..formats.amounts import MOST_ZEROS
from ..formats.long_fields import long_fields
from ..text import read_again
from .workbook_bounds import MOST_CELLS, MOST_COLUMNS, MOST_PLACES, MOST_ROWS, MOST_SIGNS, TooLarge, hidden_by_merging

SEPARATORS = {';': '`;`', '\t': 'a tab', ',': '`,`', '|': '`|`'}
# The fields of a text, filled or not; an empty line is one.
MOST_FIELDS, LONGEST_SHOWN = 1_000_000, 40
# The rows of one sheet are counted below this.
SHEET_ROWS = 1_000_000
HINT = re.compile(r'sep=(.)(\r\n|\r|\n)')
# What a format writes as it is: in quotes, behind `\`, as a currency; then what it leaves room for, and conditions.
LITERAL = re.compile(r'"([^"]*)"|\\(.)|\[\$([^\]-]*)[^\]]*\]|[_*].|\[[^\]]*\]')
RULE = re.compile(r'[:+]?[-=_+]{2,}:?')
THOUSANDTH = re.compile(r'[0#?],+(?![0#?,])')
PLACE = re.compile('[0#?]|General')


@dataclass(frozen=True)
class Cell:
    """A cell: its text, its number where the file has one as such, what is wrong with it, the unit of its format, the
    remark that a spreadsheet has at it, and how far its text is indented, which tells no two cells apart."""

    text: str = ''
    number: Decimal | None = None
    fault: str = ''
    unit: str = ''
    remark: str = ''
    indent: int = field(default=0, compare=False)

    @property
    def empty(self) -> bool:
        return not self.text and self.number is None and not self.fault


NOTHING = Cell()


@dataclass(frozen=True)
class TableRow:
    """A row with its number; cells behind the last one are empty. `hidden` where the spreadsheet does not show it."""

    number: int
    cells: tuple[Cell, ...]
    hidden: bool = False

    def cell(self, column: int) -> Cell:
        return self.cells[column] if 0 <= column < len(self.cells) else Cell()

    def filled(self) -> Iterator[tuple[int, Cell]]:
        return ((column, cell) for column, cell in enumerate(self.cells) if not cell.empty)


@dataclass(frozen=True)
class Doubt:
    """A cell that may be something else than it is taken for, and why; `by_kind` where a kind beside it settles it."""

    row: int
    column: int
    cause: str
    by_kind: bool = False


@dataclass(frozen=True)
class Table:
    """The rows of a table that are not empty. `sheet` is the name of the sheet, and empty of a text, which has a
    `separator`; `merged` has the columns that a merged cell covers, by its row and its first column, `hidden` those
    that are not shown, each with the number of its sheet, `others` the sheets that are shown beside it. Of several
    sheets the rows of the second one are counted from `SHEET_ROWS` on, and so on; `more` has their names. Where it is
    `turned` its rows are the columns of the file. `inserted` are columns that the file has not, each with the number of
    its sheet, whose cells stand in the column before; `doubts` what these leave open. `costs` is what the file says of
    areas and money (`costs_block`)."""

    sheet: str
    rows: tuple[TableRow, ...]
    merged: tuple[tuple[int, int, int], ...] = ()
    separator: str = ''
    hidden: frozenset[tuple[int, int]] = frozenset()
    others: tuple[str, ...] = ()
    more: tuple[str, ...] = ()
    first: bool = True
    turned: bool = False
    inserted: frozenset[tuple[int, int]] = frozenset()
    doubts: tuple[Doubt, ...] = ()
    costs: Table | None = None

    def sheet_of(self, row: int) -> str:
        """The sheet on which a row stands."""
        return (self.sheet, *self.more)[row // SHEET_ROWS]

    def hides(self, row: int, column: int) -> bool:
        """Whether the column of a cell is not shown."""
        return (row // SHEET_ROWS, column) in self.hidden

    def place(self, row: int, column: int | None = None) -> str:
        """A place in words: `sheet Streams row 4 column C`."""
        if column is not None:
            column -= sum(sheet == row // SHEET_ROWS and at <= column for sheet, at in self.inserted)
        if self.turned:
            return self.turned_place(row, column)
        where = f'sheet {self.sheet_of(row)} row {row % SHEET_ROWS}' if self.sheet else f'row {row}'
        if column is None:
            return where
        return f'{where} column {letters(column)}' if self.sheet else f'{where} column {column + 1}'

    def turned_place(self, row: int, column: int | None) -> str:
        """The place in the file of one that is turned."""
        where = f'column {letters(row - 1)}' if self.sheet else f'column {row}'
        sheet = f'sheet {self.sheet} ' if self.sheet else ''
        return sheet + (where if column is None else f'row {column + 1} {where}')

    def refusal(self, row: int, column: int | None, cause: str) -> Refused:
        place = self.place(row, column)
        return Refused(3, place, cause, f'{place}: {cause}')


def letters(column: int) -> str:
    """The letters of a column of a spreadsheet, counted from 0."""
    column_letters = ''
    column += 1
    while column:
        column, rest = divmod(column - 1, 26)
        column_letters = chr(ord('A') + rest) + column_letters
    return column_letters


def read_table(content: bytes, name: str, sheet: str | None = None, separator: str | None = None) -> tuple[Table, ...]:
    """The table of a file: a workbook by what it begins with, else a text. Of a text there is one reading for each
    separator that it may have. `Refused` where it is neither."""
    if is_workbook(content):
        return (workbook_table(content, sheet),)
    if content.startswith(b'\xd0\xcf\x11\xe0') or name.lower().endswith(('.xlsx', '.xlsm')):
        raise Refused(3, '', 'no workbook', 'this is not an .xlsx workbook: save it as .xlsx, or as text (.csv)')
    if sheet is not None:
        raise Refused(3, '', 'no sheets', 'this is a text, and has no sheets')
    text = text_of(content)
    hint = HINT.match(text)
    if hint:
        # A spreadsheet's own line on what separates; it counts as a row.
        text, separator = text[hint.end():], separator or hint[1]
        return tuple(moved(table, 1) for table in text_tables(text, [separator]))
    separators = [separator] if separator else [sign for sign in SEPARATORS if sign in text] or [',']
    return text_tables(text, separators)


def text_tables(text: str, separators: list[str]) -> tuple[Table, ...]:
    """The readings of a text; `Refused` where no separator gives one."""
    made: list[Table] = []
    faults: list[Refused] = []
    for separator in separators:
        try:
            made.append(text_table(text, separator))
        except Refused as fault:
            faults.append(fault)
    if not made:
        raise faults[0]
    return tuple(made)


def text_of(content: bytes) -> str:
    """A text in UTF-8, in UTF-16 with its mark, or in Latin-1 (Windows-1252)."""
    if content.startswith((b'\xff\xfe', b'\xfe\xff')):
        encodings = ['utf-16']
    else:
        encodings = ['utf-8-sig', 'cp1252', 'latin-1']
    for encoding in encodings:
        try:
            text = content.decode(encoding)
        except UnicodeDecodeError:
            continue
        if '\0' not in text:
            return text
    raise Refused(3, '', 'no text', 'this is neither a workbook nor a text')


@long_fields()
def text_table(text: str, separator: str) -> Table:
    reader = csv.reader(io.StringIO(text, newline=''), delimiter=separator, strict=True)
    rows: list[TableRow] = []
    at = filled = places = 0
    try:
        for at, fields in enumerate(reader, 1):
            places += max(1, len(fields))
            if len(rows) >= MOST_ROWS or len(fields) > MOST_COLUMNS or places > MOST_FIELDS:
                raise too_large()
            if any(len(text) > MOST_SIGNS for text in fields):
                raise too_large(f'row {at} is too long: ')
            cells = tuple(text_cell(text) if text else NOTHING for text in fields)
            filled += sum(not cell.empty for cell in cells)
            if filled > MOST_CELLS:
                raise too_large()
            if any(not cell.empty for cell in cells) and not is_rule(cells):
                rows.append(TableRow(at, cells))
    except csv.Error as fault:
        place = f'row {at + 1}'
        raise Refused(3, place, 'quotes', f'{place}: the quotes of a field do not close ({fault})') from fault
    return Table('', tuple(rows), separator=separator)


def text_cell(text: str) -> Cell:
    return Cell(clean(read_again(text)), indent=indent_of(text))


def is_rule(cells: Sequence[Cell]) -> bool:
    """Whether a row is a line that is drawn below headings, as `---|---:`."""
    texts = [cell.text for cell in cells if not cell.empty]
    return all(RULE.fullmatch(text) for text in texts) and any(len(text) > 2 for text in texts)


def indent_of(text: str) -> int:
    """How many blanks stand before a text."""
    return len(text) - len(text.lstrip())


def moved(table: Table, rows: int) -> Table:
    """The table as it stands below so many rows."""
    return replace(table, rows=tuple(replace(row, number=row.number + rows) for row in table.rows))


def too_large(what: str = '') -> Refused:
    cause = f'{what}a table has at most {MOST_ROWS} rows and {MOST_COLUMNS} columns, {MOST_CELLS} cells that are ' \
            f'filled, {MOST_PLACES} of a workbook from its first to its last, and {MOST_SIGNS} signs in each'
    return Refused(3, '', 'too large', cause)


def clean(text: str) -> str:
    """A text without blanks around it, on one line."""
    return ' '.join(text.replace('\u00a0', ' ').split())


def is_workbook(content: bytes) -> bool:
    return content.startswith(b'PK\x03\x04')


def workbook_table(content: bytes, sheet: str | None) -> Table:
    """A sheet of a workbook: the first one that is shown, or the one of this name."""
    check_bounds(content)
    values, formulas = opened(content, True), opened(content, False)
    shown = [page.title for page in values.worksheets if page.sheet_state == 'visible']
    wanted = sheet if sheet is not None else shown[0] if shown else ''
    if wanted not in [page.title for page in values.worksheets]:
        names = ', '.join(page.title for page in values.worksheets)
        raise Refused(3, f'sheet {wanted}', 'no such sheet', f'there is no sheet {wanted}: the workbook has {names}')
    others = tuple(name for name in shown if name != wanted and is_filled(values[name])) if sheet is None else ()
    return replace(sheet_table(values[wanted], formulas[wanted]), others=others)


def workbook_tables(content: bytes) -> tuple[Table, ...]:
    """All sheets of a workbook that are shown and have something."""
    check_bounds(content)
    values, formulas = opened(content, True), opened(content, False)
    pages = [page for page in values.worksheets if page.sheet_state == 'visible' and is_filled(page)]
    return tuple(sheet_table(page, formulas[page.title]) for page in pages)


def is_filled(page: Any) -> bool:
    return page.dimensions != 'A1:A1' or page['A1'].value is not None


def sheet_table(page: Any, formulas: Any) -> Table:
    """The table of one sheet, by its values and by what is written there."""
    if page.max_row > MOST_ROWS or page.max_column > MOST_COLUMNS:
        raise too_large()
    merged = tuple((area.min_row, area.min_col - 1, area.max_col) for area in page.merged_cells.ranges)
    columns = [column for column in page.column_dimensions.values() if column.hidden and column.min and column.max]
    hidden = frozenset((0, at - 1) for column in columns for at in range(column.min, min(column.max, MOST_COLUMNS) + 1))
    return Table(page.title, tuple(rows_of(page, formulas)), merged, hidden=hidden)


def joined_sheets(tables: Sequence[Table]) -> Table:
    """Several sheets as one table, whose rows say on which of them they stand."""
    first, *rest = tables
    rows, merged, hidden = list(first.rows), list(first.merged), set(first.hidden)
    for at, table in enumerate(rest, 1):
        rows += [replace(row, number=row.number + at * SHEET_ROWS) for row in table.rows]
        merged += [(row + at * SHEET_ROWS, begin, end) for row, begin, end in table.merged]
        hidden |= {(at, column) for _, column in table.hidden}
    return replace(first, rows=tuple(rows), merged=tuple(merged), hidden=frozenset(hidden),
                   more=tuple(table.sheet for table in rest))


def check_bounds(content: bytes) -> None:
    """Refuses a workbook that unfolds to more than a table has, or in which a merged cell hides another."""
    try:
        hidden = hidden_by_merging(content)
    except TooLarge as fault:
        raise too_large(f'this workbook is too large, {fault}: ') from fault
    except ValueError as fault:
        raise Refused(3, '', 'no workbook', f'this workbook cannot be read: {fault}') from fault
    for part, places in hidden.items():
        for row, column in places:
            where = f'{letters(column - 1)}{row}'
            cause = f'cell {where} of {part} lies under a merged cell, which hides it: unmerge it, or take it out'
            raise Refused(3, '', 'merged', cause)


def opened(content: bytes, values: bool) -> Any:
    import openpyxl
    try:
        with warnings.catch_warnings():
            # What it leaves out of a workbook (pictures, validation) is no part of a table.
            warnings.simplefilter('ignore')
            return openpyxl.load_workbook(io.BytesIO(content), data_only=values)
    except Exception as fault:
        # openpyxl has no error of its own for what is no workbook.
        raise Refused(3, '', 'no workbook', f'this workbook cannot be read: {fault}') from fault


def rows_of(page: Any, formulas: Any) -> Iterable[TableRow]:
    for values, written in zip(page.iter_rows(), formulas.iter_rows()):
        cells = tuple(with_remark(cell_of(value, formula), value) for value, formula in zip(values, written))
        if any(not cell.empty for cell in cells):
            number = values[0].row
            yield TableRow(number, cells, bool(page.row_dimensions[number].hidden))


def with_remark(cell: Cell, value: Any) -> Cell:
    return replace(cell, remark=clean(str(value.comment.text))) if value.comment else cell


def cell_of(value: Any, written: Any) -> Cell:
    """A cell of a workbook, by its value and by what is written there."""
    content = value.value
    if content is not None and value.font is not None and value.font.strike:
        return Cell(str(content), fault='struck out: take it out, or show it as it is meant')
    if written.data_type == 'f' and content is None:
        return Cell(str(written.value), fault='a formula without a saved value: open and save the workbook')
    if value.data_type == 'e':
        return Cell(str(content), fault=f'the error {content}')
    if isinstance(content, bool):
        return Cell(str(content), fault='a truth value')
    if isinstance(content, (datetime.date, datetime.time, datetime.timedelta)):
        return Cell(str(content), fault='a date: the spreadsheet took the number for one')
    if isinstance(content, (int, float)):
        return numbered(content, value.number_format or '')
    if content is None:
        return Cell()
    steps = int(value.alignment.indent) if value.alignment else 0
    return Cell(clean(str(content)), indent=indent_of(str(content)) + steps)


def numbered(stored: int | float, form: str) -> Cell:
    """A number as a workbook has it, with the fifteen digits that are shown of it."""
    if isinstance(stored, float) and not math.isfinite(stored):
        return Cell(str(stored), fault='no number of a workbook')
    number = Decimal(format(stored, '.15g') if isinstance(stored, float) else str(stored))
    if number and abs(number.adjusted()) > MOST_ZEROS:
        return Cell(str(stored)[:LONGEST_SHOWN], fault=f'a number with more than {MOST_ZEROS} zeros')
    return number_cell(number, form)


def number_cell(number: Decimal, form: str) -> Cell:
    """A number with the unit that its format writes beside it."""
    text, first = f'{number:f}', sections(form)[0]
    plain = LITERAL.sub('', first)
    if '%' in plain:
        return Cell(text, number, 'a percentage')
    if THOUSANDTH.search(plain):
        return Cell(text, number, f'shown as a thousandth or less of what it is, by its format {form}')
    units = list(dict.fromkeys(unit_of_format(section) for section in sections(form)
                               if PLACE.search(LITERAL.sub('', section))))
    fault = f'its format {form} writes one unit or another' if len(units) > 1 else ''
    return Cell(text, number, fault, units[0] if units else unit_of_format(first))


def unit_of_format(section: str) -> str:
    return ''.join(quoted or escaped or money for quoted, escaped, money in LITERAL.findall(section)).strip('- ')


def sections(form: str) -> list[str]:
    """The sections of a format: that of positive numbers, or of the first condition, and those behind it."""
    return re.findall(r'(?:"[^"]*"|\\.|\[[^\]]*\]|[^;])+', form) or ['']
