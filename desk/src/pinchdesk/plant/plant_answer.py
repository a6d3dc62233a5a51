"""What each answer of a plant is: tables that a notebook shows, data frames, and numbers with their units in their
names, rounded as the tables have them, and exact."""
from __future__ import annotations

from collections.abc import Mapping
from dataclasses import dataclass
from decimal import Decimal
from fractions import Fraction
from typing import Any

from ..errors import WordsError
from ..formats.shown import decimal
from ..report.sheet import Sheet, rendered
from ..report.sheet_html import as_html


@dataclass(frozen=True, kw_only=True)
class PlantAnswer:
    """An answer with its tables. `notes` is what is reported about it, `text` what `pinch` printed."""

    sheets: tuple[Sheet, ...]
    notes: tuple[str, ...] = ()
    text: str = ''

    def _repr_html_(self) -> str:
        return as_html(self.sheets, self.notes)

    def __str__(self) -> str:
        return '\n'.join([str(rendered(self.sheets, 'text')), *(f'note: {note}' for note in self.notes)])

    def frame(self, table: int | str = 0) -> Any:
        """A table of the answer as a `pandas.DataFrame`: by its number, or by its title. `WordsError` where there is no
        such table, or pandas is not installed."""
        return self.sheet(table).frame()

    def sheet(self, table: int | str) -> Sheet:
        titles = [sheet.title for sheet in self.sheets]
        at = titles.index(table) if isinstance(table, str) and table in titles else table
        if not isinstance(at, int) or not -len(titles) <= at < len(titles):
            raise WordsError(f'there is no table {table}: there are {", ".join(titles)}')
        return self.sheets[at]


def celsius(exact: Fraction) -> Decimal:
    """°C or K as tables have them."""
    return Decimal(decimal(exact, 2))


def kilowatts(exact: Fraction) -> Decimal:
    return Decimal(decimal(exact, 3))


def cost(exact: Fraction) -> Decimal:
    return Decimal(decimal(exact, 3))


def cost_if_any(exact: Fraction | None) -> Decimal | None:
    return None if exact is None else cost(exact)


def each_kilowatts(exact: Mapping[str, Fraction]) -> dict[str, Decimal]:
    return {name: kilowatts(heat) for name, heat in exact.items()}
