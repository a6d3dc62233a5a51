"""Tables that are printed: as text, as CSV, or as a workbook. Numbers in them are `Decimal`, rounded already."""
from __future__ import annotations

import csv
import io
from collections.abc import Sequence
from dataclasses import dataclass
from decimal import Decimal
from typing import Any

from ..errors import WordsError
from ..text import plain, printable
from .frames import Cell as Cell
from .frames import columns_of

FORMS = ('text', 'csv', 'xlsx')


@dataclass(frozen=True)
class Sheet:
    """A table with a title and headings; `marked` are the rows that stand out, counted from 0; a row may be short."""

    title: str
    headings: tuple[str, ...]
    rows: tuple[tuple[Cell, ...], ...]
    marked: frozenset[int] = frozenset()

    def frame(self) -> Any:
        """The rows as a `pandas.DataFrame` with numbers as floats (`frames`); `WordsError` where pandas is not
        installed."""
        try:
            import pandas
        except ImportError as fault:
            raise WordsError('frame() needs pandas, which is not installed') from fault
        return pandas.DataFrame(columns_of(self.headings, self.rows))


def form_of(output: str | None, told: str | None) -> str:
    """The form of an answer: the one that is told, else by the name of the file, else text; `WordsError` where the name
    says another one."""
    if told:
        return told
    ending = output.rpartition('.')[2].lower() if output else ''
    if ending in ('pdf', 'html', 'htm', 'svg', 'png', 'docx', 'xls', 'ods'):
        raise WordsError(f'{output}: this answer is a text, .csv or .xlsx; `draw` makes pictures, and `page` a page')
    return ending if ending in ('csv', 'xlsx') else 'text'


def rendered(sheets: Sequence[Sheet], form: str) -> str | bytes:
    """The sheets in a form, one below the other; a workbook has a sheet for each."""
    if form == 'text':
        return '\n'.join(as_text(sheet) for sheet in sheets)
    if form == 'csv':
        return '\r\n'.join(as_csv(sheet) for sheet in sheets)
    if form == 'xlsx':
        return as_workbook(sheets)
    raise WordsError(f'{form} is not a form of a table: {", ".join(FORMS)}')


def text_of(cell: Cell) -> str:
    return '' if cell is None else f'{cell:f}' if isinstance(cell, Decimal) else printable(cell)


def as_text(sheet: Sheet) -> str:
    """Columns that are aligned, numbers to the right; a marked row begins with `>`."""
    width = max([len(sheet.headings), *(len(row) for row in sheet.rows)])
    body = [[*row, *[None] * (width - len(row))] for row in sheet.rows]
    head = [*sheet.headings, *[''] * (width - len(sheet.headings))]
    cells = [head, *[[text_of(cell) for cell in row] for row in body]]
    widths = [max(len(row[at]) for row in cells) for at in range(width)]
    right = [any(isinstance(row[at], Decimal) for row in body) for at in range(width)]
    lines = [sheet.title] if sheet.title else []
    for number, row in enumerate(cells):
        if number == 0 and not any(row):
            continue
        padded = (text.rjust(widths[at]) if right[at] else text.ljust(widths[at]) for at, text in enumerate(row))
        mark = '> ' if number - 1 in sheet.marked else '  ' if sheet.marked else ''
        lines.append((mark + '  '.join(padded)).rstrip())
    return '\n'.join(lines) + '\n'


def as_csv(sheet: Sheet) -> str:
    """Comma-separated, with a decimal point; lines end as spreadsheets write them. No text is a formula."""
    written = io.StringIO(newline='')
    head = [sheet.headings] if any(sheet.headings) else []
    csv.writer(written).writerows([text_of(cell) if isinstance(cell, Decimal) else plain(text_of(cell)) for cell in row]
                                  for row in (*head, *sheet.rows))
    return written.getvalue()


def as_workbook(sheets: Sequence[Sheet]) -> bytes:
    """An `.xlsx` workbook; a text is never taken for a formula."""
    import openpyxl
    from openpyxl.styles import Font, PatternFill
    book = openpyxl.Workbook()
    book.remove(book.active)
    for number, sheet in enumerate(sheets, 1):
        page = book.create_sheet(title_of(sheet.title, number))
        for at, row in enumerate([sheet.headings, *sheet.rows], 1):
            for column, cell in enumerate(row, 1):
                place = page.cell(at, column)
                place.value = printable(cell) if isinstance(cell, str) else cell
                place.data_type = 'n' if isinstance(cell, Decimal) else 's'
                if at == 1:
                    place.font = Font(bold=True)
                if at - 2 in sheet.marked:
                    place.fill = PatternFill('solid', fgColor='F8C9C4')
        fit_columns(page, sheet)
    workbook = io.BytesIO()
    book.save(workbook)
    return workbook.getvalue()


def fit_columns(page: object, sheet: Sheet) -> None:
    from openpyxl.utils import get_column_letter
    for column in range(max(len(row) for row in [sheet.headings, *sheet.rows])):
        texts = [text_of(row[column]) for row in [sheet.headings, *sheet.rows] if column < len(row)]
        page.column_dimensions[get_column_letter(column + 1)].width = min(60, max(map(len, texts)) + 3)  # type: ignore


def title_of(title: str, number: int) -> str:
    """A title that a sheet of a workbook may have."""
    fit = ''.join(' ' if letter in '[]:*?/\\' else letter for letter in title).strip()[:31].strip("' ")
    return fit or f'Sheet {number}'
