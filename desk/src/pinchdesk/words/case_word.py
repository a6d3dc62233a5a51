"""The word `case`."""
from __future__ import annotations

from dataclasses import dataclass, replace

from ..analysis.range_sizes import with_sizes
from ..errors import Refused, of_file
from ..formats.case import print_case, print_comments
from ..formats.comments import DIFFERENCE, basis_rows
from ..formats.shown import Shown
from ..program.run import Pinch
from ..report.range_sheets import range_told
from ..report.understood_sheet import understood_sheet
from ..search.budget import Telling, nobody
from ..tables.convert import Converted, Wanted, case_of_table, checked
from ..tables.wanted import wanted_by
from .forms import TEXT_OR_TABLE
from .shared import DECIMAL, SEPARATOR, SHEET, told_of
from .word import Answer, Files, Option, Role, TextFile, Word

TABLE_FILE = Role('table', 'streams and utilities: .xlsx, or text with separators')
DECLARED = (
    Option('difference', 'the least difference, where the table has none; in K, or with its unit',
           ('-d', '--difference'), metavar='K'),
    SHEET, SEPARATOR, DECIMAL,
    Option('scale', 'multiplies all CPs and heats by N (10, 100, 0.1 ..)', ('--scale',), default='1', metavar='N'),
    Option('tolerance', 'how far the segments of a stream may be from its heating curve, in K, on the safe side (0 '
           'unless given)', ('--tolerance',), default='0', metavar='K'),
    Option('hours', 'the operating hours a year: costs are then per year', ('--hours',), metavar='H'),
    Option('units', 'SI, or `table`: exact in the units of the table, which all words then show', ('--units',),
           default='SI', choices=('SI', 'table')),
    Option('ranges', 'a utility with a range is a stream with the least CP that is enough; or with `level` it has the '
           'end that is worth less as its level', ('--ranges',), default='stream', choices=('stream', 'level')),
    Option('show', 'shows in place of the case how the table was understood', ('--show',), default=False, switch=True))
# How long what is said of a case is in a table of many.
LONGEST = 300


@dataclass(frozen=True)
class CaseOptions:
    """How a table is to be read, in the words of the command."""

    difference: str | None = None
    sheet: str | None = None
    separator: str | None = None
    decimal: str | None = None
    scale: str = '1'
    hours: str | None = None
    units: str = 'SI'
    tolerance: str = '0'
    ranges: str = 'stream'
    show: bool = False

    @property
    def wanted(self) -> Wanted:
        wanted = wanted_by(self.difference, self.sheet, self.separator, self.decimal, self.scale, self.hours,
                           self.tolerance)
        return replace(wanted, own_units=self.units == 'table', levels=self.ranges == 'level')


def converted(pinch: Pinch, file: TextFile, wanted: Wanted) -> Converted:
    """The case of a table, which the program takes."""
    with of_file(file.name):
        return with_ranges(checked(case_of_table(file.content, file.name, wanted), pinch), pinch)


def with_ranges(table: Converted, pinch: Pinch) -> Converted:
    """A case with its utilities with a range, of the sizes that are found for them; what is refused of one is refused
    by its row."""
    if not table.ranges:
        return table
    try:
        made = with_sizes(pinch, table.case, [utility for _, utility in table.ranges], table.range_forbids)
    except Refused as fault:
        row = next((at for at, utility in table.ranges if fault.text.startswith(f'{utility.name} ')), None)
        if row is None:
            raise
        raise table.table.refusal(row, None, fault.text) from fault
    shown = Shown(made.case.basis)
    rows = {utility.name: at for at, utility in table.ranges}
    told = [f'{table.table.place(rows[checked.utility.name], None)}: {range_told(checked, shown)}'
            for checked in made.checked]
    return replace(table, case=made.case, notes=(*table.notes, *told, *made.notes))


def case_text(table: Converted) -> str:
    """A case as a file, with what is told of its table as comments at its head."""
    return print_comments([*table.comments, DIFFERENCE + table.difference]) + print_case(table.case)


def case_told(table: Converted) -> str:
    """What the comments of a case say: those of its table, and its basis."""
    rows = (','.join(cell for cell in row if cell) for row in basis_rows(table.case.basis))
    return '; '.join(text.strip('#, ') for text in (*table.comments, *rows))[:LONGEST]


def case(files: Files, options: CaseOptions = CaseOptions(), tell: Telling = nobody) -> Answer:
    file = files.one('table')
    table = converted(Pinch(), file, options.wanted)
    notes = told_of(file, table.notes)
    if options.show:
        return Answer((understood_sheet(table),), headline=case_told(table), notes=notes)
    return Answer(in_form=lambda form: case_text(table), headline=case_told(table), notes=notes)


CASE_OF_TABLE = Word('case', 'a case from a table of streams and utilities, as a spreadsheet has it',
                     'pinchdesk case -d 10 examples/table.csv -o case.csv', (TABLE_FILE,), CaseOptions, case, DECLARED,
                     TEXT_OR_TABLE, ending='csv')
