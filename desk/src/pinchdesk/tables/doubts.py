"""What stands beside the numbers of a table and says that they may be something else than they seem: a unit in a title
or in a note, a number under no heading, a case in tenths of °C that a spreadsheet has saved, rows that are hidden.

Each is a fault with its place, since the numbers would be wrong and nobody would see it."""
from __future__ import annotations

import csv
import io
import re
from collections.abc import Iterable, Mapping, Sequence

from ..formats.case import Side
from .blocks import Blocks
from .cells import Told
from .headings import Words, is_note_column, is_number
from .layouts import Layout
from .rows import Body, Line, shortened
from .spreadsheet import SHEET_ROWS, Table, TableRow
from .unit_mentions import names_other_unit
from .units import Kind, is_unit, same_unit
from .vocabulary import Heading
from .without_headings import RUNS

CASE_FIELDS = 7


def doubts_of(blocks: Blocks, lines: Sequence[Line], told: Told, settled: bool) -> None:
    """Tells each fault of the table's form; `settled` where the decimal mark was told."""
    for block in blocks.blocks:
        of_columns(block.layout, told)
    for line in lines:
        of_row(line, told)
        if line.layout.headed:
            beside(line, lines, told, settled)


def of_columns(layout: Layout, told: Told) -> None:
    """Columns that are hidden, and what is told of one that has both ends of each stream."""
    for column in sorted(set(layout.columns.values())):
        if told.table.hides(layout.head, column):
            told.fault(layout.head, column, 'the column is hidden: show it, or take it out')
    target = layout.columns.get(Heading.TARGET, -1)
    if (layout.head // SHEET_ROWS, target) in told.table.inserted:
        told.note(layout.head, target, 'the column has both ends of each stream: they are taken as supply and target')


def of_row(line: Line, told: Told) -> None:
    """A row that is hidden, and cells of it that may be something else."""
    for doubt in told.table.doubts:
        if doubt.row == line.row.number and not (doubt.by_kind and is_sided(line)):
            told.fault(doubt.row, doubt.column, doubt.cause)
    if line.row.hidden:
        told.fault(line.row.number, None, 'the row is hidden: show it, or take it out')


def is_sided(line: Line) -> bool:
    """Whether a kind or a title says of a row whether it is hot or cold, or a utility."""
    return bool(line.kind or line.section and line.section.side)


def beside(line: Line, lines: Sequence[Line], told: Told, settled: bool) -> None:
    """What a row has under no heading, and numbers among notes that may be the decimals of the number before."""
    layout = line.layout
    for column, cell in line.row.filled():
        if column in layout.columns.values() or column in layout.twins or line.kind == 'forbid':
            continue
        if column not in layout.titles and is_number(cell):
            cause = f'`{cell.text}` stands under no heading: a decimal comma needs quotes, or `;` between the fields'
            told.fault(line.row.number, column, cause)
        elif column not in layout.titles:
            told.note(line.row.number, column, f'passed over, under no heading: `{cell.text[:60]}`')
        elif told.table.separator == ',' and not settled and cell.text.isdigit() and decimals_before(
                line.row, column) and not is_of_numbers(layout, column, lines):
            cause = f'`{line.row.cell(column - 1).text},{cell.text}` may be one number: quote it, or use --decimal .'
            told.fault(line.row.number, column, cause)


def decimals_before(row: TableRow, column: int) -> bool:
    return row.cell(column - 1).text.isdigit()


def is_of_numbers(layout: Layout, column: int, lines: Sequence[Line]) -> bool:
    """Whether a column that is none of notes has a number in each row, so that none is cut off from another one."""
    return not is_note_column(layout.titles[column]) and all(
        is_number(line.row.cell(column)) for line in lines if line.layout is layout)


def note_words(lines: Sequence[Line]) -> list[Words]:
    """What stands in rows that are read, in columns of notes or under no heading, and the titles of columns that are
    passed over."""
    found = []
    for line in lines:
        layout = line.layout
        passed = [(column, cell.text) for column, cell in line.row.filled()
                  if layout.headed and line.kind != 'forbid' and column not in layout.columns.values()]
        found += [Words(line.row.number, column, text) for column, text in passed
                  if is_note_column(layout.titles.get(column, 'note'))]
    layouts = {line.layout.head: line.layout for line in lines if line.layout.headed}
    for head, layout in layouts.items():
        found += [Words(head, column, title) for column, title in layout.titles.items()
                  if column not in layout.columns.values() and column not in layout.twins]
    return found


def units_in_words(passed: Sequence[Words], told: Told, taken: Iterable[Kind]) -> None:
    """Tells a fault for each title, note or comment that names another unit than the one that is taken because none
    stands with the numbers."""
    faults: set[int] = set()
    for words in passed:
        kinds = [kind for kind in taken if names_other_unit(words.text, kind)]
        if kinds and words.row not in faults:
            faults.add(words.row)
            units = ' and '.join(kind.default for kind in kinds)
            cause = f'`{shortened(words.text)}` names a unit, and the numbers have none, so that {units} would be ' \
                    'taken: write the unit with the heading'
            told.fault(words.row, words.column, cause)


def two_units(blocks: Blocks, body: Body, told: Told) -> None:
    """Tells a fault for each sum, and each unit in a row of units that is passed over, that has another unit than its
    column."""
    for layout in (block.layout for block in blocks.blocks):
        kinds = layout.kinds
        units = [(row, column, unit) for row, _, column, unit in body.others]
        cells = [(words.row, words.column, words.text.strip('()[] ')) for words in body.passed
                 if words.column is not None]
        no_units = {row for row, column, text in cells if column not in kinds or not is_unit(text, kinds[column])}
        units += [cell for cell in cells if cell[0] not in no_units]
        for row, column, unit in units:
            headed = layout.units.get(column, '')
            if headed and column in kinds and not same_unit(unit, headed, kinds[column]) and len(blocks.blocks) == 1:
                told.fault(row, column, f'two units, `{headed}` in the heading and `{unit}` here')


def below_titles(lines: Sequence[Line], sides: Mapping[int, Side], told: Told) -> None:
    """Tells a fault for each row without a kind below a title that may say that it is a utility, or that it is of the
    other side; `sides` has the side of each stream by its line."""
    for line in lines:
        section, side = line.section, sides.get(id(line))
        if section is None or line.kind:
            continue
        if section.doubtful:
            told.fault(line.row.number, None, f'it stands below `{shortened(section.text)}`: a column `kind` has to '
                       'say heater or cooler, or hot or cold')
        elif side and section.side and side is not section.side:
            way = 'cools down' if side is Side.HOT else 'warms up'
            told.fault(line.row.number, None, f'below `{shortened(section.text)}` stands a stream that {way}')


def open_pairs(lines: Sequence[Line], sides: Mapping[int, Side], told: Told) -> None:
    """Tells a fault for columns that may be supply and target, or the other way round, where no stream says which way
    it runs, and for each stream that says another one than its numbers; `sides` has the side of each by its line."""
    says: dict[tuple[str, str], list[str]] = {}
    for line in lines:
        pair, side = line.layout.open_pair, sides.get(id(line))
        if pair is None or side is None:
            continue
        said = said_side(line)
        says.setdefault(pair, []).append(said)
        if said not in ('', side.value):
            told.fault(line.row.number, line.at(Heading.SUPPLY), f'{line.name()} is {said}, and would run the other '
                       f'way from `{pair[0]}` to `{pair[1]}`: give other headings')
    for pair in (pair for pair, said in says.items() if not any(said)):
        head = next(line for line in lines if line.layout.open_pair == pair)
        told.fault(head.layout.head, head.at(Heading.SUPPLY), f'`{pair[0]}` and `{pair[1]}` may be supply and target, '
                   'or others: say in a column `kind` which streams are hot, or give other headings')


def said_side(line: Line) -> str:
    """What a row, its title or its name (`H1`) says of its side; empty where none does."""
    section = line.section.side.value if line.section and line.section.side else ''
    return line.kind or section or side_of_name(line)


def side_of_name(line: Line) -> str:
    """What the name of a row says of its side, as `H1` or `Cold 2`; empty where it says nothing."""
    numbered = re.search('[0-9]', line.name())
    return next((side for side, name in RUNS.items() if numbered and name.fullmatch(line.name())), '')


def as_case(table: Table) -> tuple[bytes, ...]:
    """The rows of a table as a case would have them, also where they stand between other separators, in a workbook, or
    without a contribution; nothing where they cannot be one."""
    output = io.StringIO()
    writer = csv.writer(output, lineterminator='\n')
    for row in table.rows:
        fields = [cell.text for cell in row.cells]
        # Rows of a workbook have no end.
        fields += [''] * (CASE_FIELDS - len(fields)) if table.sheet else []
        if len(fields) != CASE_FIELDS:
            return ()
        writer.writerow(fields)
    text = output.getvalue().encode()
    return (text, text + b'contribution,,0,,,,\n') if text else ()
