"""How a table was understood: each column with its meaning and its unit, and all that is passed over, with why."""
from __future__ import annotations

from collections.abc import Iterator
from dataclasses import dataclass

from .conversion import Converted
from .costs_block import lines_of
from .headings import KINDS
from .layouts import Layout
from .spreadsheet import Table, letters
from .vocabulary import Heading

MEANT = {Heading.SUPPLY: 'supply temperature', Heading.TARGET: 'target temperature', Heading.LOAD: 'duty',
         Heading.CP: 'CP', Heading.FILM: 'film coefficient, kept as a comment',
         Heading.OVERALL: 'overall coefficient, kept as a comment', Heading.MASS: 'mass flow',
         Heading.SPECIFIC: 'specific heat', Heading.LATENT: 'latent heat'}


CURVE = {Heading.SUPPLY: 'temperature of a heating curve', Heading.LOAD: 'enthalpy of a heating curve'}


@dataclass(frozen=True)
class Understood:
    """A column or a row of a table: where it stands, what stands there, how it is taken, and in which unit."""

    place: str
    text: str
    meaning: str
    unit: str = ''


def understood(converted: Converted) -> tuple[Understood, ...]:
    """The columns of all blocks, then what is passed over, in the order of the table."""
    found = [part for block in converted.blocks.blocks for part in columns_of(block.layout, converted)]
    if not converted.blocks.headed and converted.body.lines:
        line = converted.body.lines[0]
        found += [Understood(f'column {letters(column)}', 'no heading', meaning_of(heading), usual(heading))
                  for heading, column in line.columns.items()]
    over = sorted(converted.body.over, key=lambda passed: (passed.row, -1 if passed.column is None else passed.column))
    found += [Understood(converted.table.place(passed.row, passed.column), passed.text, f'passed over: {passed.why}')
              for passed in over]
    return (*found, *of_costs(converted.table.costs))


def of_costs(costs: Table | None) -> Iterator[Understood]:
    """The rows of areas and money; what of them is passed over stands among the notes."""
    for line in lines_of(costs.rows) if costs else ():
        if line.meaning and line.cells and costs:
            yield Understood(costs.place(line.row.number), line.label, f'{line.meaning}, kept as a comment',
                             line.unit)


def columns_of(layout: Layout, converted: Converted) -> Iterator[Understood]:
    meanings = {column: heading for heading, column in layout.columns.items()}
    for column in sorted({*meanings, *layout.twins}):
        place = converted.table.place(layout.head, column)
        title = layout.titles.get(column, 'no heading')
        if column in layout.twins:
            meaning = f'{meaning_of(layout.twins[column])} again, checked'
            yield Understood(place, title, meaning, layout.units.get(column, ''))
            continue
        heading = meanings[column]
        if layout.curve and heading is Heading.NAME and column not in layout.titles:
            # The title of the curve has the name.
            continue
        if layout.curve and heading in CURVE:
            yield Understood(place, title, CURVE[heading], layout.units.get(column, '') or usual(heading))
            continue
        if layout.curve and heading is Heading.TARGET:
            # The table has no such column: it is that of the pieces of a curve.
            continue
        yield Understood(place, title, meaning_of(heading), layout.units.get(column, '') or usual(heading))


def meaning_of(heading: Heading) -> str:
    return MEANT.get(heading, heading.name.lower())


def usual(heading: Heading) -> str:
    """What is said of the unit of a column that has none."""
    return f'{KINDS[heading].default}, unless a number has its own' if heading in KINDS else ''
