"""The blocks of a table: streams below each other or side by side, utilities below them or on another sheet, headings
that are repeated on each page. Each has a head of its own, and rows that are cut to its columns."""
from __future__ import annotations

from collections.abc import Sequence
from dataclasses import dataclass, replace
from functools import cached_property
from itertools import groupby

from .curve_titles import curve_title, is_unnamed_curve, with_name
from .headings import has_unit, heading_of, is_comment, is_number, known_in
from .layouts import OF_UTILITIES, Draft, Layout, with_first
from .sections import Section, is_equipment, kind_of, section_of
from .spreadsheet import NOTHING, SHEET_ROWS, Cell, Table, TableRow
from .units import Kind, is_unit
from .vocabulary import Heading

# So many rows a head has at most below its first one.
MOST_HEADS = 10
# A row with so many headings below a table begins another one, also without temperatures.
OTHER_TABLE = 3
NAMING = (Heading.NAME, Heading.NUMBER)
# The headings whose second one begins a block beside the first.
MEASURED = frozenset(heading for heading in Heading if has_unit(heading))
BEGINNING = (Heading.NAME, Heading.NUMBER, Heading.KIND, Heading.SUPPLY)


@dataclass(frozen=True)
class TableBlock:
    """A head with its rows. `section` is what the titles above it say of them; `again` where its head is that of the
    block before, on another page."""

    layout: Layout
    rows: tuple[TableRow, ...]
    section: Section | None = None
    again: bool = False

    @cached_property
    def numbers(self) -> frozenset[int]:
        """The numbers of its rows."""
        return frozenset(row.number for row in self.rows)


@dataclass(frozen=True)
class Blocks:
    """The blocks of a table in their order, the rows that stand above a head, and those of tables of something else."""

    blocks: tuple[TableBlock, ...] = ()
    above: tuple[TableRow, ...] = ()
    foreign: tuple[TableRow, ...] = ()

    @property
    def headed(self) -> bool:
        return bool(self.blocks)

    @property
    def head(self) -> int:
        return self.blocks[0].layout.head if self.blocks else 0


@dataclass
class Band:
    """A head over the whole width of a sheet, the rows above it and below it."""

    draft: Draft
    above: list[TableRow]
    rows: list[TableRow]

    @property
    def texts(self) -> list[tuple[int, str]]:
        return [(column, cell.text) for column, cell in self.draft.row.filled()]


def blocks_of(table: Table) -> Blocks:
    """The blocks of a table; none where no row has headings. `Refused` where those of its only block are not enough."""
    blocks: list[TableBlock] = []
    above: list[TableRow] = []
    foreign: list[TableRow] = []
    bands = [bands_of(table, list(rows)) for _, rows in groupby(table.rows, lambda row: row.number // SHEET_ROWS)]
    some = any(is_block(band.draft, group) for sheet in bands for band in sheet for group in groups_of(band))
    for sheet in bands:
        before: Band | None = None
        for band in sheet:
            above += band.above
            groups = [group for group in groups_of(band) if not some or is_block(band.draft, group)]
            if not groups:
                foreign += [band.draft.row, *band.rows]
                continue
            again = before is not None and before.texts == band.texts
            if again and before:
                band.draft.units = {**before.draft.units, **band.draft.units}
            blocks += [block_of(table, band, group, len(groups) > 1, again, not blocks) for group in groups]
            before = band
    heads = {row for block in blocks for row in block.layout.heads}
    return Blocks(tuple(blocks), tuple(row for row in above if row.number not in heads), tuple(foreign))


def bands_of(table: Table, rows: list[TableRow]) -> list[Band]:
    """The heads of one sheet, each with its rows."""
    bands: list[Band] = []
    above: list[TableRow] = []
    at = 0
    while at < len(rows):
        row = rows[at]
        if not is_head(row, bands):
            (bands[-1].rows if bands else above).append(row)
            at += 1
            continue
        draft, at = drafted(table, rows, at)
        bands.append(Band(draft, cut_titles(bands) if bands else above, []))
        draft.rows = bands[-1].rows
    if not bands and above:
        return []
    return bands


def is_head(row: TableRow, bands: Sequence[Band]) -> bool:
    """Whether a row is that of headings; below others it has to have temperatures, or to begin another table."""
    found = known_in(row) if not is_titled(row) else set()
    if not bands or len(found) < 2:
        return len(found) > 1
    texts = [(column, cell.text) for column, cell in row.filled()]
    size = sum(heading_of(text)[0] is not None for _, text in texts)
    return Heading.SUPPLY in found or size >= OTHER_TABLE or any(texts == band.texts for band in bands)


def is_titled(row: TableRow) -> bool:
    """Whether a row has titles alone that say what the rows below are, as `Streams to be cooled`."""
    return all(section_of(cell.text) for _, cell in row.filled())


def drafted(table: Table, rows: list[TableRow], at: int) -> tuple[Draft, int]:
    """The head that begins at a row, with its further rows, and where its body begins. Comments in it are left to the
    body."""
    draft = Draft(table, rows[at])
    taken = at
    for below in range(at + 1, min(at + 1 + MOST_HEADS, len(rows))):
        row = rows[below]
        if not is_titled(row) and draft.is_more(row):
            draft.take(row)
            taken = below
        elif not is_comment(row):
            break
    # A comment between two rows of the head stands below it then.
    between = [row for row in rows[at + 1:taken] if row.number not in draft.heads]
    rows[taken + 1 - len(between):taken + 1] = between
    return draft, taken + 1 - len(between)


def cut_titles(bands: list[Band]) -> list[TableRow]:
    """The rows without numbers right above a head: they are its titles, and no rows of the block before."""
    rows = bands[-1].rows
    size = len(rows)
    while size and is_title(rows[size - 1], bands[-1].draft):
        size -= 1
    titles = rows[size:]
    del rows[size:]
    return titles


def is_title(row: TableRow, draft: Draft) -> bool:
    """Whether a row is none of the block before: it has no numbers, forbids no match, and has no texts in place of
    temperatures."""
    ends = [column for column, heading in draft.headings.items() if heading in (Heading.SUPPLY, Heading.TARGET)]
    texts = [row.cell(column).text for column in ends]
    open_ends = all(texts) and not all(is_unit(text.strip('()[] '), Kind.TEMPERATURE) for text in texts)
    cells = [cell for _, cell in row.filled()]
    if len(cells) == 1 and not any(heading in NAMING for heading in draft.headings.values()):
        # Of a curve without names a text alone is the title of the next one.
        open_ends = False
    return not open_ends and not any(is_number(cell) or kind_of(cell.text) == 'forbid' for cell in cells)


def groups_of(band: Band) -> list[range]:
    """The columns of the blocks that stand side by side below one row of headings."""
    headings, titles = band.draft.headings, band.draft.titles
    begins, found = [0], set[Heading]()
    last = -1
    for column in sorted(headings):
        heading = headings[column]
        if heading in found and heading in BEGINNING:
            free = next((at for at in range(last + 1, column) if at not in titles), column)
            begins.append(free)
            found = set()
        found.add(heading)
        last = column
    width = max([len(row.cells) for row in band.rows] + [len(band.draft.row.cells)])
    groups = [range(begin, end) for begin, end in zip(begins, [*begins[1:], width])]
    whole = [range(0, width)]
    return groups if all(is_block(band.draft, group) and is_named(band, group) for group in groups) else whole


def is_block(draft: Draft, group: range) -> bool:
    """Whether columns are those of streams or of utilities."""
    found = {heading for column, heading in draft.headings.items() if column in group}
    names = [draft.titles.get(column, '') for column, heading in draft.headings.items()
             if column in group and heading is Heading.NAME]
    if any(is_equipment(draft.titles[column]) for column in draft.titles if column in group
           and draft.headings.get(column) not in MEASURED) and not names:
        return False
    sections = [section_of(name) for name in names]
    utilities = any(heading in found for heading in (*OF_UTILITIES, Heading.KIND)) or any(
        section and section.utilities for section in sections)
    ends = Heading.SUPPLY in found and (Heading.TARGET in found or utilities)
    return bool(draft.pairs(group)) or draft.is_curve(group) or ends


def is_named(band: Band, group: range) -> bool:
    """Whether columns have one of names, with a heading or without."""
    if any(band.draft.headings.get(column) in NAMING for column in group):
        return True
    if is_unnamed_curve(band.draft, group):
        return curve_title(cut(band.above[-1], group) if band.above else None) is not None
    first = min(column for column in band.draft.headings if column in group)
    return any(row.cell(column).text and not is_number(row.cell(column)) for row in band.rows
               for column in range(group.start, first))


def check_names(table: Table, layout: Layout, sure: bool) -> None:
    """`Refused` where a further block has its names below a heading that is not known: it may be none of streams."""
    column = layout.columns[Heading.NAME]
    title = layout.titles.get(column, '')
    strange = layout.named and title and heading_of(title)[0] is None
    if strange and (not sure or is_equipment(title)) and not layout.sides:
        raise table.refusal(layout.head, column, f'a further table, of `{title}`: head the column `Stream` where it is '
                            'one of streams, or take the table out')


def block_of(table: Table, band: Band, group: range, beside: bool, again: bool, first: bool) -> TableBlock:
    """A block of a band; `beside` another one its rows are cut to its columns."""
    rows = [cut(row, group) for row in band.rows] if beside else band.rows
    rows = [row for row in rows if any(not cell.empty for cell in row.cells)]
    draft = band.draft.within(group) if beside else band.draft
    titles = [cut(row, group) if beside else row for row in band.above]
    named = curve_title(titles[-1] if titles else None) if is_unnamed_curve(draft, group) else None
    rows = with_name(draft, rows, named.name) if named else draft.with_one_duty(rows)
    layout = draft.layout(rows)
    check_names(table, layout, again or first)
    if titles and any(titles[-1].filled()):
        layout = with_first(layout, titles[-1], table.merged)
    section = said_of_curve(titles) if layout.curve else None
    titled = next((found for found in map(title_section, reversed(titles)) if found), None)
    section = section or titled or layout.section
    if section is None and table.more:
        section = section_of(table.sheet_of(band.draft.row.number))
    return TableBlock(layout, tuple(rows), section, again)


def said_of_curve(titles: Sequence[TableRow]) -> Section | None:
    """The side that the title right above a curve says, as `Cooling curve of S1`."""
    title = curve_title(titles[-1]) if titles else None
    return title.section if title else None


def title_section(row: TableRow) -> Section | None:
    """What a row of titles says of the rows below it."""
    texts = [cell.text for _, cell in row.filled()]
    found = section_of(texts[0]) if len(texts) == 1 else None
    # Above the headings a title has to be nothing else.
    return found.at(row.number) if found and not found.doubtful else None


def cut(row: TableRow, group: range) -> TableRow:
    """A row with what stands in some columns alone."""
    cells: list[Cell] = [cell if column in group else NOTHING for column, cell in enumerate(row.cells)]
    return replace(row, cells=tuple(cells))
