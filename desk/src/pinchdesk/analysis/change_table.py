"""A table of changes: scenarios by name, each with fields of sources and their new values, read as any table of the
desk is (`tables`, `layout`, `cells`).

A row names its scenario and its source; what changes stands in columns of the fields themselves (`supply`,
`CP (MW/K)`), or in two columns, `field` and `value`. A value with a sign before it, `+10` or `-5 %`, or behind `by`, is
a change; any other one, or one behind `to` or `=`, is the new value. Several rows with the same name are one
scenario."""
from __future__ import annotations

import enum
import re
from collections.abc import Iterator
from dataclasses import dataclass, replace
from fractions import Fraction

from ..errors import Refused
from ..formats.comments import Basis
from ..tables import other_sheets
from ..tables.cells import CellReader, Told, decimal_mark
from ..tables.doubts import units_in_words
from ..tables.headings import EMPTY, Words, is_comment, squeezed
from ..tables.numbers import NoNumber, numeral_of
from ..tables.prices import price_unit_of
from ..tables.rows import joined, remarks, shortened, words_of
from ..tables.spreadsheet import Cell, Table, TableRow, read_table
from ..tables.units import Kind, UnknownUnit
from ..text import printable
from .change_columns import FIELDS, KINDS, ChangeLayout, Column, Field, headings, layout_of

WRITTEN = re.compile(r'(?:(?P<to>to\b|=)|(?P<by>by\b))?\s*(?P<number>.*)', re.I | re.S)
SIGNED = '+-−'
# A row with so many headings is that of the headings.
LEAST_HEADINGS = 3
SOURCES = frozenset(('case', 'all'))


class Way(enum.Enum):
    """How a value is meant: as the new one, as what is added, or as a percentage that is added."""

    TO = 'to'
    BY = 'by'
    PERCENT = '%'


@dataclass(frozen=True)
class Change:
    """A change of a field of a source; `case` and `all` are the whole case, whose contribution alone may change.
    `value` is exact and in the program's units, or percent; of a price it is in the unit of the case's prices.
    `place` is that of the table, `written` what stands there."""

    source: str
    field: Field
    way: Way
    value: Fraction
    place: str
    written: str


def refusal(change: Change, cause: str) -> Refused:
    """The refusal of a change, by its place."""
    return Refused(3, change.place, 'change', f'{change.place}: {cause}')


@dataclass(frozen=True)
class CaseScenario:
    """A scenario with its changes, in the order of their rows."""

    name: str
    changes: tuple[Change, ...]


@dataclass(frozen=True)
class CaseScenarios:
    """The scenarios of a table, in the order in which they are first named; `notes` is told."""

    variants: tuple[CaseScenario, ...]
    notes: tuple[str, ...] = ()


def read_changes(content: bytes, name: str, basis: Basis | None, sheet: str | None = None,
                 decimal: str | None = None) -> CaseScenarios:
    """The scenarios of a table's file, for a case of this basis, or for cases whose units of prices are not known yet;
    `Refused`, by row and column, where something is not understood, or is ambiguous."""
    best = max(read_table(content, name, sheet), key=most_headings)
    told = Told(best)
    if most_headings(best) < LEAST_HEADINGS:
        other_sheets.check(content, name, best, 'scenarios', lambda table: most_headings(table) >= LEAST_HEADINGS)
    layout = layout_of(best)
    rows, passed = rows_of(layout, told)
    mark = decimal_mark(best, numbers_of(rows, layout), decimal)
    reader = ChangeReader(told, CellReader(told, mark, dict(layout.units), dict(layout.titles)), layout, basis)
    changes_of_scenario: dict[str, list[Change]] = {}
    for row in rows:
        scenario, changes = reader.row(row)
        changes_of_scenario.setdefault(scenario, []).extend(changes)
    reader.cells.settle_units()
    units_in_words(passed, told, reader.cells.taken)
    told.settle()
    if not changes_of_scenario:
        raise Refused(3, '', 'no scenario', 'the table has no scenario')
    told.notes += other_sheets.told(best)
    scenarios = tuple(CaseScenario(printable(name), tuple(changes)) for name, changes in changes_of_scenario.items())
    return CaseScenarios(scenarios, tuple(told.notes))


def most_headings(table: Table) -> int:
    return max((headings(row) for row in table.rows), default=0)


def rows_of(layout: ChangeLayout, told: Told) -> tuple[list[TableRow], list[Words]]:
    """The rows that say something, and the words that are passed over, which are told. A row that begins with `#` is a
    comment where it has no value, and a scenario where it has one; behind a blank it may be one that was to be left
    out."""
    rows: list[TableRow] = []
    passed = remarks(told.table.rows)
    valued = {*layout.fields, *([layout.columns[Column.VALUE]] if Column.VALUE in layout.columns else [])}
    notes = [column for column in layout.titles if column not in {*layout.columns.values(), *layout.fields}]
    for row in told.table.rows:
        text, why = joined(row), ''
        if is_comment(row) and not any(column in valued for column, _ in row.filled()):
            why = 'a comment'
        elif row.number < layout.head:
            why = 'above the headings'
        elif is_comment(row) and row.number > layout.head and not next(row.filled())[1].text[1:2].strip():
            told.fault(row.number, None, f'`{shortened(text)}` may be a comment or a scenario: take the row out, or '
                       'the `#`; a comment has no value')
        elif row.number > layout.head:
            if is_comment(row):
                cause = f'taken as a scenario, since it has a value, not as a comment: `{shortened(text)}`'
                told.note(row.number, None, cause)
            rows.append(row)
            passed += [Words(row.number, column, row.cell(column).text) for column in notes]
        if why:
            told.note(row.number, None, f'passed over, {why}: `{shortened(text)}`')
            passed += words_of(row)
    told.notes += [f'passed over, the column `{layout.titles[column]}`' for column in notes]
    return rows, passed


def written_of(cell: Cell) -> tuple[str, str]:
    """What stands before the number of a cell (`to`, `by` or nothing) and its number."""
    match = WRITTEN.fullmatch(cell.text)
    assert match is not None
    return 'to' if match['to'] else 'by' if match['by'] else '', match['number'].strip()


def numbers_of(rows: list[TableRow], layout: ChangeLayout) -> Iterator[tuple[int, int, Cell]]:
    """The cells that have to be numbers and stand there as texts, without the words before them."""
    for row in rows:
        for at in (*layout.fields, *([layout.columns[Column.VALUE]] if Column.VALUE in layout.columns else [])):
            cell = row.cell(at)
            if cell.number is None and not cell.fault and cell.text not in EMPTY:
                yield row.number, at, replace(cell, text=written_of(cell)[1])


@dataclass
class ChangeReader:
    """Reads the rows of a table of changes; what is wrong is told as a fault."""

    told: Told
    cells: CellReader
    layout: ChangeLayout
    basis: Basis | None

    def text(self, row: TableRow, column: Column) -> str:
        text = row.cell(self.layout.columns[column]).text
        if not text or column is not Column.SOURCE and text in EMPTY:
            self.told.fault(row.number, self.layout.columns[column], f'the {column.name.lower()} is missing')
        return text

    def row(self, row: TableRow) -> tuple[str, list[Change]]:
        """The scenario of a row and its changes."""
        for at, cell in row.filled():
            if at not in self.layout.titles:
                self.told.fault(row.number, at, f'`{cell.text}` is under no heading')
        scenario, source = self.text(row, Column.SCENARIO), self.text(row, Column.SOURCE)
        if Column.FIELD in self.layout.columns:
            text = self.text(row, Column.FIELD)
            found = FIELDS.get(squeezed(text))
            if text and found is None:
                fields = ', '.join(field.word for field in Field)
                self.told.fault(row.number, self.layout.columns[Column.FIELD], f'`{text}` is not a field: use {fields}')
            fields_at = {self.layout.columns[Column.VALUE]: found} if found else {}
        else:
            fields_at = {at: field for at, field in self.layout.fields.items() if self.cells.given(row, at)}
            if not fields_at:
                self.told.fault(row.number, None, 'the row changes nothing')
        made = [self.change(row, at, source, field) for at, field in fields_at.items() if field]
        return scenario, [change for change in made if change]

    def change(self, row: TableRow, at: int, source: str, field: Field) -> Change | None:
        """A change that stands in a cell; None where it is none, which is told."""
        cell = row.cell(at)
        if cell.number is not None and cell.number < 0:
            cause = (f'{cell.text} may be a change or a new value: write it as a text, `by {cell.text}` or '
                     f'`to {cell.text}` (a workbook does not keep the sign `+` of a number)')
            self.told.fault(row.number, at, cause)
            return None
        word, number = written_of(cell)
        if number.endswith('%'):
            return self.percentage(row, at, source, field, word, number)
        way = Way.BY if word == 'by' or not word and number[:1] in tuple(SIGNED) else Way.TO
        bare = TableRow(row.number, (*row.cells[:at], replace(cell, text=number), *row.cells[at + 1:]))
        value = self.price(bare, at) if field is Field.PRICE else self.measured(bare, at, field, way)
        if value is None:
            return None
        return Change(source, field, way, value, self.told.table.place(row.number, at), cell.text)

    def percentage(self, row: TableRow, at: int, source: str, field: Field, word: str, number: str) -> Change | None:
        kind = KINDS.get(field)
        cause = ''
        if kind is Kind.TEMPERATURE:
            cause = 'a temperature does not change by a percentage: give the change in K'
        elif word == 'to' or not word and number[0] not in SIGNED:
            cause = f'`{number}` may be a part or a change: `+5 %` and `-5 %` are changes'
        try:
            value = Fraction(numeral_of(number.removesuffix('%')).value(self.cells.mark))
        except NoNumber as fault:
            cause = f'`{number}`: {fault}'
        if cause:
            self.told.fault(row.number, at, cause)
            return None
        return Change(source, field, Way.PERCENT, value, self.told.table.place(row.number, at), row.cell(at).text)

    def measured(self, row: TableRow, at: int, field: Field, way: Way) -> Fraction | None:
        """A value in the program's unit, or in that of the case, with its scale; a change of a temperature is a
        difference."""
        kind = KINDS[field]
        taken = Kind.DIFFERENCE if kind is Kind.TEMPERATURE and way is Way.BY else kind
        entered = self.cells.measured(row, at, taken)
        if entered is None or not self.has_unit(row, at):
            return None
        value = self.in_units_of_case(entered.value, taken)
        return value * self.basis.scale if self.basis and kind in (Kind.FLOW, Kind.HEAT) else value

    def has_unit(self, row: TableRow, at: int) -> bool:
        """Whether a number has a unit, as those need for a case in units of its own: one without is told as a fault."""
        units, number = self.basis.units if self.basis else None, self.cells.number(row, at)
        if units is None or number and number[2] or self.layout.units.get(at):
            return True
        self.told.fault(row.number, at, f'the case is in {units.temperature} and {units.heat}: write with the number '
                        'its unit')
        return False

    def in_units_of_case(self, value: Fraction, kind: Kind) -> Fraction:
        """A number in tenths of °C, W or 10 W/K as the case has it."""
        units = self.basis.units if self.basis else None
        if units is None:
            return value
        of_kind = {Kind.TEMPERATURE: units.of_tenths, Kind.DIFFERENCE: units.of_tenths_between,
                   Kind.HEAT: units.of_watts, Kind.FLOW: units.of_flow}
        return of_kind[kind](value)

    def price(self, row: TableRow, at: int) -> Fraction | None:
        """A price in the unit of the case's prices, which it may name and no other."""
        number_with_unit = self.cells.number(row, at)
        if number_with_unit is None or self.basis is None:
            return number_with_unit[0] if number_with_unit else None
        value, _, own = number_with_unit
        if not own and at not in self.layout.units and self.basis.price_unit:
            self.told.once(f'the prices have no unit: {self.basis.price_unit} is taken, as in the case')
        for text in (own, self.layout.units.get(at, '')):
            try:
                if text and (not self.basis.price_unit or price_unit_of(text) != price_unit_of(self.basis.price_unit)):
                    raise UnknownUnit(text)
            except UnknownUnit:
                unit = self.basis.price_unit or 'per W, with no unit'
                self.told.fault(row.number, at, f'the prices of the case are {unit}, and `{text}` is another unit')
                return None
        return value
