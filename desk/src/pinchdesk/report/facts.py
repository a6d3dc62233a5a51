"""What an answer says of itself: facts, each with a name, a value and a unit. A sheet lays them out, a line each or in
rows; a table of many answers has them as cells."""
from __future__ import annotations

from collections.abc import Sequence
from dataclasses import dataclass

from .sheet import Cell, Sheet


@dataclass(frozen=True)
class Fact:
    """A value with its name and its unit."""

    name: str
    value: Cell
    unit: str = ''

    @property
    def heading(self) -> str:
        """What stands above it in a table: its name with its unit."""
        return f'{self.name} {self.unit}'.strip()


FactRow = tuple[Fact, ...]


@dataclass(frozen=True)
class FactTable:
    """Rows of facts under a title; `marked` are the rows that stand out. A row may lack the last facts; `columns` are
    all headings where each row may."""

    title: str
    rows: tuple[FactRow, ...]
    marked: frozenset[int] = frozenset()
    columns: tuple[str, ...] = ()

    def sheet(self) -> Sheet:
        """The table laid out: a column for each name."""
        headings = tuple(dict.fromkeys((*self.columns, *(fact.heading for row in self.rows for fact in row))))
        return Sheet(self.title, headings, tuple(tuple(fact.value for fact in row) for row in self.rows), self.marked)


def lines_sheet(title: str, facts: Sequence[Fact]) -> Sheet:
    """Facts laid out a line each: name, value, unit."""
    return Sheet(title, ('', '', ''), tuple((fact.name, fact.value, fact.unit) for fact in facts))


def rows_of_tables(tables: Sequence[FactTable]) -> tuple[FactRow, ...]:
    """The rows of all tables, each with the title of its own where there are several."""
    if len(tables) == 1:
        return tables[0].rows
    return tuple((Fact('table', table.title), *row) for table in tables for row in table.rows)
