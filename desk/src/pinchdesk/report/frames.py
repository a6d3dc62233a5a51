"""Tables as columns for a data frame: each heading once, and numbers as floats in columns of their own."""
from __future__ import annotations

from collections.abc import Sequence
from decimal import Decimal
from math import nan

Cell = str | Decimal | None
Column = list[float] | list[str | None]
# The headings of a table of facts, which is printed without.
FACTS = {3: ('what', 'value', 'unit'), 4: ('what', 'side', 'value', 'unit')}
SAID = ', said'


def columns_of(headings: Sequence[str], rows: Sequence[Sequence[Cell]]) -> dict[str, Column]:
    """The columns by their headings. What is said in a column of numbers in place of one, as `no heat flow`, stands in
    a column beside it."""
    width = max([len(headings), *map(len, rows)])
    made: dict[str, Column] = {}
    for at, name in enumerate(names_of(headings, width)):
        cells = [row[at] if at < len(row) else None for row in rows]
        texts = [cell if isinstance(cell, str) else None for cell in cells]
        if any(isinstance(cell, str) for cell in cells) and not any(isinstance(cell, Decimal) for cell in cells):
            made[name] = texts
            continue
        made[name] = [float(cell) if isinstance(cell, Decimal) else nan for cell in cells]
        if any(texts):
            made[name + SAID] = texts
    return made


def names_of(headings: Sequence[str], width: int) -> list[str]:
    """As many headings as there are columns, none of them blank, and none twice."""
    blank = not any(headings)
    given = FACTS[width] if blank and width in FACTS else [*headings, *[''] * (width - len(headings))]
    names: list[str] = []
    for at, heading in enumerate(given, 1):
        name = heading or ('what' if at == 1 else f'column {at}')
        names.append(name if name not in names else f'{name} ({at})')
    return names
