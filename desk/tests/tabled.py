"""What the tests of tables share: a table read in one call, its refusal, a workbook of rows."""
from __future__ import annotations

import io
from collections.abc import Sequence

import openpyxl
import pytest

from pinchdesk import Refused
from pinchdesk.tables.convert import Converted, Wanted, case_of_table

TEN = Wanted(difference='10')


def made(text: str | bytes, wanted: Wanted = TEN, name: str = 't.csv') -> Converted:
    return case_of_table(text.encode() if isinstance(text, str) else text, name, wanted)


def streams(text: str | bytes, wanted: Wanted = TEN) -> list[tuple[object, ...]]:
    return [(stream.side.value, stream.name, stream.supply, stream.target, stream.cp, stream.load)
            for stream in made(text, wanted).case.streams]


def refusal(text: str | bytes, wanted: Wanted = TEN) -> str:
    with pytest.raises(Refused) as fault:
        made(text, wanted)
    assert fault.value.status == 3
    return fault.value.text


def workbook(rows: Sequence[Sequence[object]], **sheets: Sequence[Sequence[object]]) -> bytes:
    book = openpyxl.Workbook()
    page = book.active
    page.title = 'Streams'
    for row in rows:
        page.append(row)
    for title, more in sheets.items():
        other = book.create_sheet(title)
        for row in more:
            other.append(row)
    return saved(book)


def saved(book: openpyxl.Workbook) -> bytes:
    buffer = io.BytesIO()
    book.save(buffer)
    return buffer.getvalue()
