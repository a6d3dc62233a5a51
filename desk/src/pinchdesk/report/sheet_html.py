"""Tables as HTML, as a notebook shows them: every text is escaped, numbers stand to the right."""
from __future__ import annotations

from collections.abc import Iterable
from decimal import Decimal
from html import escape

from .sheet import Cell, Sheet, text_of

MARKED = ' style="background-color: #f8c9c4; color: #222222"'


def as_html(sheets: Iterable[Sheet], notes: Iterable[str] = ()) -> str:
    """The tables one below the other, and what is told below them."""
    told = ''.join(f'<li>{escape(text_of(note))}</li>' for note in notes)
    return '<div>' + ''.join(map(table_of, sheets)) + (f'<ul>{told}</ul>' if told else '') + '</div>'


def table_of(sheet: Sheet) -> str:
    """A table with its title; a marked row has a colour."""
    title = f'<caption style="text-align: left">{escape(text_of(sheet.title))}</caption>' if sheet.title else ''
    heads = ''.join(f'<th>{escape(text_of(heading))}</th>' for heading in sheet.headings)
    head = f'<thead><tr>{heads}</tr></thead>' if any(sheet.headings) else ''
    rows = ''.join(f'<tr{MARKED if at in sheet.marked else ""}>{"".join(map(cell_of, row))}</tr>'
                   for at, row in enumerate(sheet.rows))
    return f'<table>{title}{head}<tbody>{rows}</tbody></table>'


def cell_of(cell: Cell) -> str:
    side = 'right' if isinstance(cell, Decimal) else 'left'
    return f'<td style="text-align: {side}">{escape(text_of(cell))}</td>'
