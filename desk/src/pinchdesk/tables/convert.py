"""From a table to a case: the whole way, with what is told of it and the row of the table behind each row of the
case."""
from __future__ import annotations

from collections.abc import Iterable, Sequence
from dataclasses import replace
from fractions import Fraction

from ..errors import Refused
from ..formats.case import is_case as is_case
from ..formats.case import print_case
from ..formats.limits import MOST_COLD, MOST_HOT, MOST_UTILITIES
from ..program.causes import CAUSES
from ..program.run import Pinch
from . import other_sheets
from .blocks import Blocks, blocks_of
from .cells import CellReader, Told, decimal_mark, settled_mark
from .conversion import Converted as Converted
from .conversion import Wanted as Wanted
from .costs_block import cost_rows_of, with_costs
from .doubts import as_case, doubts_of
from .heating_curve import with_curves
from .making import Maker
from .money import following
from .names import fit_names
from .roundings import told as how_far_off
from .row_words import with_equipment, with_row_words
from .rows import Body, Line, body_of
from .segmented import with_segments
from .sheets import chosen_sheets
from .sources import Entries
from .spreadsheet import Cell, Table, is_workbook, read_table
from .title_units import told_of, with_said
from .turning import headings, upright
from .vocabulary import Heading
from .without_headings import check_order, plain_line

# More rows of sources than this are none of a case, and are not looked at one by one.
MOST_READ = 500


def case_of_table(content: bytes, name: str, wanted: Wanted) -> Converted:
    """The case of a table's file. `Refused`, by sheet, row and column, where something is not understood, or is
    ambiguous."""
    if is_workbook(content) and wanted.sheet is None:
        tables: tuple[Table, ...] = (chosen_sheets(content),)
    else:
        tables = read_table(content, name, wanted.sheet, wanted.separator)
    if is_case(content) or any(is_case(rows) for table in tables for rows in as_case(table)):
        raise Refused(3, '', 'a case already', 'this is a case already, in tenths of °C, 10 W/K and W: it needs no '
                      'conversion, but commas between its fields. If it is a table in °C, give it headings')
    tables = upright(tuple(with_costs(table, content) for table in tables))
    best = max(headings(table) for table in tables)
    if best > 1:
        tables = tuple(table for table in tables if headings(table) == best)
    return tables_converted(tables, wanted)


def tables_converted(tables: Sequence[Table], wanted: Wanted) -> Converted:
    """Of the readings of a text the one that is a case; `Refused` where none is, or more than one."""
    cases: list[Converted] = []
    faults: list[tuple[int, Refused]] = []
    for table in tables:
        try:
            cases.append(converted(table, wanted))
        except Refused as fault:
            faults.append((sum(len(list(row.filled())) for row in table.rows), fault))
    if len(cases) > 1:
        raise Refused(3, '', 'separator', 'the fields may be separated by one sign or another: use --separator')
    if not cases:
        raise max(faults, key=lambda fault: fault[0])[1]
    return cases[0]


def converted(table: Table, wanted: Wanted) -> Converted:
    """The case of one table."""
    told = Told(table)
    if not table.rows:
        raise Refused(3, '', 'empty', 'the table is empty')
    if table.turned:
        told.once('the table lies on its side: each of its columns is taken as a row')
    blocks = blocks_of(table)
    body = body_of(blocks, told, () if blocks.headed else [plain_line(row, told) for row in table.rows])
    blocks, said = with_said(blocks, body)
    body = with_row_words(with_layouts(body, blocks), told)
    for words, text in told_of(said, {words.row: words.text for words in reversed(body.passed)}):
        told.note(words.row, words.column, text)
    doubts_of(blocks, body.lines, told, wanted.decimal is not None)
    told.settle()
    mark = decimal_mark(table, numbers_of(body.lines), wanted.decimal)
    whole_curves = with_curves(blocks, body, mark, Fraction(0), Told(table))[1] if wanted.tolerance else None
    blocks, body = with_curves(blocks, body, mark, wanted.tolerance, told)
    layouts = {row.number: [block.layout for block in blocks.blocks if row.number in block.numbers]
               for row in table.rows}
    reader = CellReader(told, mark, {}, {}, layouts=layouts)
    if not blocks.headed:
        check_order(body.lines, mark, told)
    body, segmented = with_segments(with_equipment(body, reader, told), reader, told)
    check_count(body.lines, table)
    costs = cost_rows_of(table.costs, settled_mark(numbers_of(body.lines), wanted.decimal), told) if table.costs else ()
    names = fit_names([*(line.name() for line in body.lines if line.kind not in ('contribution', 'forbid')
                         and line.name()), *(stream.name for stream in segmented)])
    made = {segment for stream in segmented for segment in stream.segments}
    for old, new in names.items():
        if old != new and old not in made:
            told.notes.append(f'the name `{old}` becomes {new}')
    told.notes += other_sheets.told(table)
    entries = Entries(reader, told, names, wanted.scale, wanted.own_units, wanted.levels)
    maker = Maker(told, reader, entries, blocks, wanted, segmented, costs)
    maker.whole_curves = tuple(line for line in whole_curves.lines if line.layout.curve) if whole_curves else ()
    return maker.made(body, names)


def with_layouts(body: Body, blocks: Blocks) -> Body:
    """The lines of a table with the layouts of its blocks as they are now."""
    layouts = {(block.layout.head, min(block.layout.columns.values())): block.layout for block in blocks.blocks}
    lines = (replace(line, layout=layouts[line.layout.head, min(line.columns.values())]) if line.layout.headed else line
             for line in body.lines)
    return replace(body, lines=tuple(lines))


def check_count(lines: Sequence[Line], table: Table) -> None:
    """`Refused` where a table has more rows of sources than are looked at one by one."""
    sources = [line for line in lines if line.kind not in ('contribution', 'forbid')]
    if len(sources) > MOST_READ:
        cause = f'a case has at most {MOST_HOT} hot and {MOST_COLD} cold streams and {MOST_UTILITIES} heaters and ' \
                f'coolers, and the table has {len(sources)} rows of them'
        raise table.refusal(sources[MOST_READ].row.number, None, cause)


def numbers_of(lines: Iterable[Line]) -> Iterable[tuple[int, int, Cell]]:
    """The cells of the lines that have to be numbers and stand there as texts."""
    for line in lines:
        for heading, column in line.columns.items():
            cell = line.row.cell(column)
            words = line.kind == 'forbid' or heading in (Heading.NAME, Heading.NUMBER, Heading.KIND)
            if not words and cell.number is None and not cell.fault:
                yield line.row.number, column, replace(cell, text=following(cell.text))
        for column in line.layout.twins:
            yield line.row.number, column, line.row.cell(column)


def checked(made: Converted, pinch: Pinch) -> Converted:
    """What was made, where the program takes it, with what is told of its targets where numbers were rounded; what it
    refuses is refused by the row of the table."""
    try:
        targets = pinch.targets(print_case(made.case))
    except Refused as fault:
        row = made.origins[int(fault.place.split()[-1]) - 1] if fault.place.split()[-1].isdigit() else 0
        cause = f'{CAUSES.get(fault.cause, "refused")} ({fault.cause})'
        if not row:
            raise Refused(3, '', fault.cause, cause) from fault
        raise made.table.refusal(row, None, cause) from fault
    units = made.case.basis.units
    hot, cold = (units.in_watts(heat) if units else Fraction(heat) for heat in (targets.hot, targets.cold))
    said = how_far_off(made.exact, hot, cold, made.case.basis.scale, made.tolerance)
    if not said:
        return made
    said += ', without its utilities with a range' if made.ranges else ''
    return replace(made, notes=(*made.notes, said), comments=(*made.comments, f'# {said}'))
