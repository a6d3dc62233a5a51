"""Where a table of changes has what: its columns, the fields that change, and the units that stand with them."""
from __future__ import annotations

import enum
from collections.abc import Iterator, Mapping
from dataclasses import dataclass

from ..errors import Refused
from ..tables.headings import LONGEST, bracketed, is_note_column, splits, squeezed, unknown_headings
from ..tables.spreadsheet import Table, TableRow
from ..tables.units import Kind


class Field(enum.Enum):
    """What of a source may change. The words are those that name it in a heading or a cell, as in `layout`."""

    SUPPLY = 'supply supplytemperature tsupply ts tin in inlet inlettemperature from start'
    TARGET = 'target targettemperature ttarget tt tout out outlet outlettemperature to end'
    LEVEL = 'level temperature temp'
    CP = 'cp mcp fcp heatcapacityflow heatcapacityflowrate heatcapacityrate'
    LOAD = 'load heat duty q heatload heatduty'
    CONTRIBUTION = 'contribution dtcont dtcontribution dtmin2 deltatcont'
    LEAST = 'least minimum min'
    MOST = 'most maximum max'
    PRICE = 'price cost preis'

    @property
    def word(self) -> str:
        return self.name if self is Field.CP else self.name.lower()


class Column(enum.Enum):
    """The columns of a table of changes beside those of fields."""

    SCENARIO = 'scenario scenarios variant alternative szenario variante'
    SOURCE = 'source stream streams utility streamname quelle strom'
    FIELD = 'field what quantity feld'
    VALUE = 'value change new newvalue wert'


KINDS = {Field.SUPPLY: Kind.TEMPERATURE, Field.TARGET: Kind.TEMPERATURE, Field.LEVEL: Kind.TEMPERATURE,
         Field.CP: Kind.FLOW, Field.LOAD: Kind.HEAT, Field.LEAST: Kind.HEAT, Field.MOST: Kind.HEAT,
         Field.CONTRIBUTION: Kind.DIFFERENCE}
FIELDS = {word: field for field in Field for word in field.value.split()}
COLUMNS = {word: column for column in Column for word in column.value.split()}


@dataclass(frozen=True)
class ChangeLayout:
    """The columns of a table of changes, those of fields, the units and titles of columns, and the row of headings."""

    columns: Mapping[Column, int]
    fields: Mapping[int, Field]
    units: Mapping[int, str]
    titles: Mapping[int, str]
    head: int


def meaning_of(text: str) -> tuple[Column | Field | None, str]:
    """What a heading means, and the unit that stands with it."""
    for name, unit in parts_of(text) if len(text) <= LONGEST else ():
        squeezed_name = squeezed(name)
        found = COLUMNS.get(squeezed_name) or FIELDS.get(squeezed_name)
        if found:
            return found, unit
    return None, ''


def parts_of(text: str) -> Iterator[tuple[str, str]]:
    yield text, ''
    parts = bracketed(text)
    if parts:
        yield parts
    yield from splits(text)


def headings(row: TableRow) -> int:
    return len({meaning_of(cell.text)[0] for _, cell in row.filled() if cell.number is None} - {None})


def layout_of(table: Table) -> ChangeLayout:
    """The columns of a table of changes; `Refused` where a heading is not known or one is missing."""
    head = next((row for row in table.rows if headings(row) > 2), None)
    if head is None:
        wanted = '`scenario`, `source`, and `field` and `value`, or fields as `supply` and `CP`'
        raise Refused(3, '', 'no headings', f'no row has the headings {wanted}')
    columns: dict[Column, int] = {}
    fields: dict[int, Field] = {}
    units: dict[int, str] = {}
    strange = [(at, cell.text) for at, cell in head.filled()
               if meaning_of(cell.text)[0] is None and not is_note_column(cell.text)]
    if strange:
        raise unknown_headings(table, head, strange, known_headings())
    for at, cell in head.filled():
        found, unit = meaning_of(cell.text)
        if found in columns or found in fields.values():
            raise table.refusal(head.number, at, f'a second column `{cell.text}`')
        if isinstance(found, Column):
            columns[found] = at
        elif found:
            fields[at] = found
        if unit:
            units[at] = unit
    check_columns(table, head, columns, fields)
    return ChangeLayout(columns, fields, units, {at: cell.text for at, cell in head.filled()}, head.number)


def check_columns(table: Table, head: TableRow, columns: Mapping[Column, int], fields: Mapping[int, Field]) -> None:
    for needed_column in (Column.SCENARIO, Column.SOURCE):
        if needed_column not in columns:
            raise table.refusal(head.number, None, f'no column has the heading {needed_column.name.lower()}')
    pair = [column in columns for column in (Column.FIELD, Column.VALUE)]
    if any(pair) and (not all(pair) or fields) or not any(pair) and not fields:
        cause = 'changes are in columns of fields (supply, CP ..), or in the two columns field and value'
        raise table.refusal(head.number, None, cause)


def known_headings() -> str:
    words = [column.name.lower() for column in Column] + [field.word for field in Field]
    return ', '.join(words) + '; take the column out, or give it the heading `note`'
