"""The rows of a table, one by one: which of them are sources, and which are notes, sums and comments, which are passed
over and told with their texts."""
from __future__ import annotations

import re
from collections.abc import Mapping, Sequence
from dataclasses import dataclass, replace

from .blocks import Blocks, TableBlock
from .cells import Told
from .headings import EMPTY, KINDS, VARIABLE, Words, bracketed, heading_of, is_comment, is_number, squeezed
from .layouts import Layout
from .numbers import NoNumber, numeral_of
from .sections import UTILITY_NAME, Section, kind_of, kind_of_name, section_of
from .spreadsheet import Cell, TableRow, letters
from .units import Kind
from .vocabulary import Heading

SUM_WORDS = r'(?:sum|sums|total|totals|subtotal|summe|gesamt|gesamtsumme|insgesamt|somme|suma|somma|totale|totaux|' \
            r'grand\s+total|average|mean|mittel|mittelwert|durchschnitt|moyenne|media|promedio|net|balance|imbalance|' \
            r'saldo|bilanz|bilan|bilancio)'
SUM = re.compile(rf'{SUM_WORDS}\b.*|[Σ∑].*', re.I)
# Such a name alone is hardly that of a stream, also where temperatures stand with it.
SUM_ALONE = re.compile(rf'(?:{SUM_WORDS}|min|max|minimum|maximum|[Σ∑])[\s.:]*', re.I)
# What a spreadsheet writes in place of a value.
ERROR = re.compile(r'#[A-Z0-9/]+[!?]|#N/A|#NV')
# What stands below a table, and is no stream.
OF_COSTS = re.compile(r'(?:annual\s+|yearly\s+)?(?:operating|operation)\s+(?:hours|time)|'
                      r'(?:hours|years)\s+of\s+operation|'
                      r'(?:rate\s+of\s+)?interest(?:\s+rate)?|(?:plant\s+|project\s+)?life(?:\s*time)?|'
                      r'annuali[sz]ation\s+factor|(?:heat\s+)?exchangers?\s+(?:capital\s+)?costs?|capital\s+costs?|'
                      r'betriebsstunden|zinssatz|nutzungsdauer|heures\s+de\s+fonctionnement|taux\s+d.int[ée]r[êe]t|'
                      r'horas\s+de\s+operaci[óo]n|tasa\s+de\s+inter[ée]s|ore\s+di\s+funzionamento|'
                      r'tasso\s+di\s+interesse', re.I)
# `1) design case` below a table.
FOOTNOTE = re.compile(r'[0-9]{1,2}\)\s*[^\W\d]')
LONGEST = 120
BESIDE_HEADING, LEGEND = 'beside a heading', 'a legend'


@dataclass(frozen=True)
class Line:
    """A row with what kind it is; `''` is a stream whose side its temperatures say, and `utility` a utility whose side
    is open yet. `layout` is that of its block, `section` what the title above it says."""

    row: TableRow
    kind: str
    columns: Mapping[Heading, int]
    layout: Layout = Layout()
    section: Section | None = None

    def at(self, heading: Heading) -> int | None:
        return self.columns.get(heading)

    def cell(self, heading: Heading) -> Cell:
        column = self.at(heading)
        return Cell() if column is None else self.row.cell(column)

    def has(self, heading: Heading) -> bool:
        """Whether there is something in a column; a dash is nothing."""
        cell = self.cell(heading)
        return not cell.empty and not (cell.number is None and cell.text in EMPTY)

    def name(self) -> str:
        """The name of the row; a dash is none."""
        text = self.cell(Heading.NAME).text
        return '' if text in EMPTY else text

    @property
    def is_stream(self) -> bool:
        return self.kind in ('', 'hot', 'cold')


@dataclass(frozen=True)
class Passed:
    """A row, a column or words that are passed over, with their place and why."""

    row: int
    column: int | None
    why: str
    text: str


@dataclass(frozen=True)
class Body:
    """The rows below the headings: those that say something, and the words of those that are passed over; `comments`
    has the comments of the whole table, `others` the units that stand with numbers of sums: row, kind, column, unit;
    `over` is all that is passed over, for who asks how the table was understood."""

    lines: tuple[Line, ...]
    passed: tuple[Words, ...]
    comments: tuple[str, ...]
    others: tuple[tuple[int, Kind, int, str], ...]
    over: tuple[Passed, ...] = ()


def joined(row: TableRow) -> str:
    return ' '.join(cell.text for _, cell in row.filled())


def shortened(text: str) -> str:
    return text if len(text) <= LONGEST else text[:LONGEST] + ' ..'


class BodyReader:
    """Sorts the rows of a table. What is passed over is told."""

    def __init__(self, told: Told) -> None:
        self.told = told
        self.lines: list[Line] = []
        self.passed: list[Words] = []
        self.comments: list[str] = []
        self.others: list[tuple[int, Kind, int, str]] = []
        self.over: list[Passed] = []

    def pass_over(self, row: TableRow, why: str) -> None:
        text = shortened(joined(row))
        self.told.note(row.number, None, f'passed over, {why}: `{text}`')
        self.over.append(Passed(row.number, None, why, text))
        self.passed += words_of(row)
        self.comments += [joined(row)] if is_comment(row) else []

    def above(self, blocks: Blocks) -> None:
        """The rows above the heads, and those of other tables."""
        for row in blocks.above:
            if row.number < blocks.head and is_above(row, blocks.blocks[0].layout):
                self.told.fault(row.number, None, f'a stream above the headings: `{shortened(joined(row))}`')
            self.pass_over(row, 'a comment' if is_comment(row) else 'above the headings')
        for row in blocks.foreign:
            self.pass_over(row, 'of another table')

    def block(self, block: TableBlock, section: Section | None) -> Section | None:
        """The rows of a block; gives the section with which it ends."""
        begun = len(self.lines)
        for row in block.rows:
            line = headed_line(row, block.layout, section, self.told)
            why = why_passed(line, self.told, len(self.lines) > begun) if line else ''
            if why:
                self.pass_over(row, why)
                self.others += units_beside(block.layout, row) if why == 'a sum' else []
                title = section_of(joined(row)) if why == 'a note' else None
                section = title.at(row.number) if title else section
            elif line:
                self.lines.append(line)
        return section

    def plain(self, rows: Sequence[TableRow], lines: Sequence[Line | None]) -> None:
        """The rows of a table without headings, with the line that each would be."""
        for row, line in zip(rows, lines):
            why = why_passed(line, self.told, bool(self.lines)) if line else ''
            if why:
                self.pass_over(row, why)
                self.others += units_beside(Layout(), row) if why == 'a sum' else []
            elif line:
                self.lines.append(line)

    def columns(self, blocks: Blocks) -> None:
        """Tells the columns that are passed over, and what stands beside headings."""
        for layout in (block.layout for block in blocks.blocks):
            for column, title in layout.titles.items():
                if column not in layout.columns.values() and column not in layout.twins:
                    self.told.once(f'passed over, the column `{title}`')
                    self.over.append(Passed(layout.head, column, 'a column', title))
            if not layout.named:
                title = layout.titles.get(layout.columns[Heading.NUMBER], 'the number')
                self.told.once(f'no column has the heading name: {title} is taken')
            elif heading_of(layout.titles.get(layout.columns[Heading.NAME], 'name'))[0] is None:
                title = layout.titles[layout.columns[Heading.NAME]]
                self.told.once(f'no column has the heading name: {title} is taken')
            elif layout.columns[Heading.NAME] not in layout.titles and not layout.curve:
                place = self.told.table.place(layout.head, layout.columns[Heading.NAME])
                self.told.once(f'no column has the heading name: {place} is taken, which has no heading')
            for words in layout.beside:
                self.told.note(words.row, words.column, f'passed over, beside a heading: `{shortened(words.text)}`')
                self.over.append(Passed(words.row, words.column, BESIDE_HEADING, words.text))
                self.passed.append(words)

    def body(self) -> Body:
        for words in remarks(self.told.table.rows):
            self.told.note(words.row, words.column, f'passed over, a remark: `{shortened(words.text)}`')
            self.over.append(Passed(words.row, words.column, 'a remark', words.text))
            self.passed.append(words)
        return Body(tuple(self.lines), tuple(self.passed), tuple(self.comments), tuple(self.others), tuple(self.over))


def body_of(blocks: Blocks, told: Told, plain: Sequence[Line | None] = ()) -> Body:
    """Sorts the rows of a table; `plain` has the line that each row would be where there are no headings."""
    reader = BodyReader(told)
    if not blocks.headed:
        reader.plain(told.table.rows, plain)
        return reader.body()
    reader.above(blocks)
    section: Section | None = None
    for block in blocks.blocks:
        section = reader.block(block, block.section or (section if block.again else None))
    reader.columns(blocks)
    return reader.body()


def is_above(row: TableRow, layout: Layout) -> bool:
    """Whether a row above the headings has numbers where a stream has its temperatures."""
    return all(is_number(row.cell(layout.columns.get(heading, -1))) for heading in (Heading.SUPPLY, Heading.TARGET))


def remarks(rows: Sequence[TableRow]) -> list[Words]:
    """What a spreadsheet has at its cells beside what stands in them."""
    return [Words(row.number, column, cell.remark) for row in rows for column, cell in row.filled() if cell.remark]


def words_of(row: TableRow) -> list[Words]:
    """The words of a row that is passed over, of all of it and of each cell; none of the letters of the columns."""
    cells = [(column, cell.text) for column, cell in row.filled()]
    if all(text == letters(column) for column, text in cells):
        return []
    return [Words(row.number, None, joined(row)), *(Words(row.number, column, text) for column, text in cells)]


def headed_line(row: TableRow, layout: Layout, section: Section | None, told: Told) -> Line | None:
    """A row below headings as a line; None where its kind is none, which is a fault."""
    column = layout.columns.get(Heading.KIND)
    text = row.cell(column).text if column is not None else ''
    letter = layout.letters.get(text.strip('. ').lower())
    kind = letter or (kind_of(text) if text and text not in EMPTY else '')
    if kind is None and len(list(row.filled())) > 1 and not SUM.fullmatch(text) and not is_comment(row):
        told.fault(row.number, column, f'`{text}` is not a kind: use hot, cold, heater, cooler, contribution or forbid')
        return None
    of_duty = layout.sides.get(row.number, '')
    if of_duty and kind in ('hot', 'cold') and kind != of_duty:
        told.fault(row.number, layout.columns[Heading.LOAD], f'the duty of a {kind} stream stands below '
                   f'`{layout.titles[layout.columns[Heading.LOAD]]}`, where {of_duty} ones have theirs')
    line = Line(row, kind or of_duty, layout.columns, layout, section)
    found = utility_kind(line)
    if found == 'utility' and not line.kind and is_unsized_utility(line):
        told.note(row.number, None, f'`{shortened(line.name())}` has neither a CP nor a duty: it is taken as a utility')
    return replace(line, kind=found)


def utility_kind(line: Line) -> str:
    """The kind of a line, where its title or its name says that it is a utility."""
    sized = line.has(Heading.CP) or line.has(Heading.LOAD)
    if line.kind in ('hot', 'cold') and line.section and line.section.utilities and not sized:
        return 'heater' if line.kind == 'hot' else 'cooler'
    if line.kind:
        return line.kind
    if line.section and line.section.utilities:
        named = kind_of_name(line.name())
        return named if named in ('heater', 'cooler') and not line.section.side else line.section.kind
    if sized or not line.has(Heading.SUPPLY):
        return ''
    # What has a price or a range, and neither a CP nor a duty, is no stream.
    priced = any(line.has(heading) for heading in (Heading.PRICE, Heading.LEAST, Heading.MOST))
    named = kind_of_name(line.name())
    if named and not priced and not line.has(Heading.TARGET):
        # A number beside `Hot utility` may be a temperature, or what the plant needs.
        return ''
    return named or ('utility' if (priced or is_variable(line) or is_unsized_utility(line)) and not line.has(
        Heading.MASS) else '')


def is_unsized_utility(line: Line) -> bool:
    """Whether a row without a CP and a duty has the name of a utility, as `Steam`."""
    sized = any(line.has(heading) for heading in (Heading.CP, Heading.LOAD, Heading.MASS))
    return not sized and line.has(Heading.TARGET) and UTILITY_NAME.fullmatch(line.name()) is not None


def is_variable(line: Line) -> bool:
    """Whether a row says that its CP or its duty is what is still to be found, as that of a utility."""
    return any(line.cell(heading).text in VARIABLE for heading in (Heading.CP, Heading.LOAD))


def has_numbers(line: Line) -> bool:
    """Whether numbers stand where a stream has them."""
    named = {line.at(heading) for heading in (Heading.NAME, Heading.KIND, Heading.NUMBER)}
    columns = {column for column in line.columns.values() if column not in named}
    return any(column in columns and is_number(cell) for column, cell in line.row.filled())


def why_passed(line: Line, told: Told, below: bool) -> str:
    """Why a row says nothing; empty where it says something, or is a fault. `below` where a line stands above it."""
    row = line.row
    filled = [cell for _, cell in row.filled()]
    if is_comment(row):
        return why_comment(line, told)
    if all(cell.text in EMPTY and cell.number is None and not cell.fault for cell in filled):
        return 'a note'
    if len(filled) == 1 and filled[0].number is None and not filled[0].fault and (
            not re.match('[0-9]', filled[0].text) or FOOTNOTE.match(filled[0].text)):
        return 'a note'
    if line.kind in ('contribution', 'forbid'):
        return ''
    if is_legend(line):
        return LEGEND
    if below and OF_COSTS.fullmatch(line.name()) and not is_number(line.cell(Heading.TARGET)) and not any(
            line.has(heading) for heading in (Heading.CP, Heading.LOAD)):
        return 'of costs, which stand below a title `Costs`'
    if not line.name() and below and is_sum_beside(line):
        return 'a sum'
    if not (line.cell(Heading.SUPPLY).empty and line.cell(Heading.TARGET).empty):
        if SUM_ALONE.fullmatch(line.name()):
            told.fault(row.number, line.at(Heading.NAME), f'`{line.name()}` may be a sum or a stream: take the row '
                       'out, or give it another name')
        return ''
    if line.name() and not SUM.fullmatch(line.name()):
        return ''
    if not line.name() and not below and has_numbers(line):
        told.fault(row.number, None, f'`{shortened(joined(row))}` has no name and no temperatures: a unit stands with '
                   'the heading, and a sum below the streams')
        return ''
    return 'a sum'


def is_legend(line: Line) -> bool:
    """Whether a row says in words what the heading of a column is."""
    cells = [cell for _, cell in line.row.filled()]
    if len(cells) < 2 or any(is_number(cell) or cell.fault for cell in cells):
        return False
    titles = {squeezed(part) for column, title in line.layout.titles.items() if column in line.columns.values()
              for part in (title, (bracketed(title) or (title,))[0])}
    return squeezed(cells[0].text) in titles


def is_sum_beside(line: Line) -> bool:
    """Whether the one text of a row calls it a sum, in a column of numbers."""
    texts = [cell.text for _, cell in line.row.filled() if not is_number(cell)]
    ends = any(is_number(line.cell(heading)) for heading in (Heading.SUPPLY, Heading.TARGET))
    return len(texts) == 1 and SUM_ALONE.fullmatch(texts[0]) is not None and not ends


def why_comment(line: Line, told: Told) -> str:
    """A row that begins with `#` is a comment where it has no number, and a stream where it has one. Behind a blank it
    may be a stream that was to be left out."""
    row, text = line.row, next(line.row.filled())[1].text
    if not has_numbers(line):
        return 'a comment'
    if ERROR.fullmatch(text):
        told.fault(row.number, None, f'`{text}`: an error of the spreadsheet')
    elif not text[1:2].strip():
        told.fault(row.number, None, f'`{shortened(joined(row))}` may be a comment or a stream: take the row out, or '
                   'the `#`; a comment has no numbers in the columns of a stream')
    else:
        told.note(row.number, None, f'a stream, since it has numbers, and no comment: `{shortened(joined(row))}`')
    return ''


def units_beside(layout: Layout, row: TableRow) -> list[tuple[int, Kind, int, str]]:
    """The numbers of a sum that have a unit of their own."""
    found = []
    for heading, column in layout.columns.items():
        cell = row.cell(column)
        if heading in KINDS and is_number(cell):
            unit = cell.unit or unit_behind(cell.text)
            found += [(row.number, KINDS[heading], column, unit)] if unit else []
    return found


def unit_behind(text: str) -> str:
    try:
        return numeral_of(text).unit
    except NoNumber:
        return ''
