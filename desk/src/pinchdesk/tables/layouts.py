"""The layout of one block of a table: its columns, the units that stand with them, and the rows of its head."""
from __future__ import annotations

import re
from collections.abc import Iterable, Mapping, Sequence
from copy import copy
from dataclasses import dataclass, field, replace

from .headings import (EMPTY, KINDS, Words, bracketed, fits, has_unit, heading_of, is_comment, is_note_column,
                       is_number, splits, unknown_headings)
from .sections import COLD, HOT, Section, kind_of, section_of
from .spreadsheet import NOTHING, Cell, Table, TableRow
from .units import Kind, is_multiple, is_unit
from .vocabulary import OPEN_PAIRS, PAIRS, WARM, WARMED, Heading, meaning, squeezed, words

# What the title over several columns is about.
ABOUT = {Kind.TEMPERATURE: re.compile(r'temp|supply|target|inlet|outlet|\bT\b|°', re.I),
         Kind.DIFFERENCE: re.compile(r'differ|contribution|approach|[dΔ∆]\s*T', re.I),
         Kind.FLOW: re.compile(r'CP\b|capacit|flow|wärmekap', re.I),
         Kind.HEAT: re.compile(r'heat|dut(?:y|ies)|load|enthalp|power|energy|\bQ\b|[dΔ∆]H\b|wärme|leistung|'
                               r'puissance|chaleur|carga|carico|calor|least|most', re.I)}
# Columns of which a second one is merely passed over, since no number of the case stands in them.
SEVERAL = frozenset((Heading.NAME, Heading.NUMBER, Heading.FILM, Heading.OVERALL, Heading.MASS, Heading.SPECIFIC,
                     Heading.LATENT, Heading.PRESSURE))
TEXTS = (Heading.NAME, Heading.NUMBER, Heading.KIND)
# What says how much heat a stream has.
SIZES = (Heading.CP, Heading.LOAD, Heading.MASS)
OF_UTILITIES = (Heading.PRICE, Heading.LEAST, Heading.MOST)
# Letters of kinds in French, Spanish and Italian (`C` and `F`), and in German (`H` and `K`).
LETTERS = ({'c': 'hot', 'f': 'cold'}, {'h': 'hot', 'k': 'cold'})
OF_TEMPERATURE = re.compile(r'temp|t(?![a-z])|t_?(?:s|t|in|out|supply|target|start|end)(?![a-z])', re.I)
# What a stream has one of, and the words of its two ends.
OF_STREAMS = (Heading.LOAD, Heading.CP, Heading.SPECIFIC, Heading.LATENT)
BEGUN = frozenset('in inlet ein eingang entree entrada ingresso supply start initial feed'.split())
ENDED = frozenset('out outlet aus ausgang sortie salida uscita target end final product'.split())
# What heads the heat of a heating curve, and what no table of such curves has.
ENTHALPY = frozenset('h enthalpy enthalpie enthalpiestrom entalpia enthalpyflow heatcontent cumulativeenthalpy heatflow'
                     .split())
# Two columns of duties, one of what is taken from hot streams and one of what cold ones need.
DUTIES = {side: frozenset(named.split()) for side, named in (
    ('hot', 'coolingduty coolingload coolingrequired coolingdemand coolingrequirement qab warmeabgabe '
            'warmeabfuhr heatavailable heatreleased heatremoved heattoremove heatgiven '
            'kuhlleistung kuhllast kuhlbedarf chaleurcedee calorcedido caloreceduto heatrejected'),
    ('cold', 'heatingduty heatingload heatingrequired heatingdemand heatingrequirement qzu warmeaufnahme '
             'warmezufuhr heatrequired heatrequirement heatabsorbed heatadded heattoadd heatneeded '
             'heizleistung heizlast heizbedarf chaleurrecue calorabsorbido caloreassorbito heatdemand'))}
NO_CURVE = (Heading.TARGET, Heading.CP, Heading.MASS, Heading.SPECIFIC, Heading.LATENT, *OF_UTILITIES)


@dataclass(frozen=True)
class Layout:
    """The columns of a block with the units that the table gives them, the numbers of the rows of its head, and the
    words there that are neither headings nor units of a number; `named` is False where the numbers of the streams
    stand in for names, `twins` has columns that say the same in another unit, `section` what the heading of the names
    says of the streams, `open_pair` the titles of a supply and a target that may be the other way round; `curve` where
    its rows are points of heating curves; `sides` has the kind of each row that the column of its duty says,
    `letters` what letters in the column of kinds mean, where they are those of another language."""

    columns: Mapping[Heading, int] = field(default_factory=dict)
    units: Mapping[int, str] = field(default_factory=dict)
    titles: Mapping[int, str] = field(default_factory=dict)
    heads: tuple[int, ...] = ()
    beside: tuple[Words, ...] = ()
    named: bool = True
    twins: Mapping[int, Heading] = field(default_factory=dict)
    section: Section | None = None
    curve: bool = False
    open_pair: tuple[str, str] | None = None
    sides: Mapping[int, str] = field(default_factory=dict)
    letters: Mapping[str, str] = field(default_factory=dict)

    @property
    def headed(self) -> bool:
        return bool(self.columns)

    @property
    def head(self) -> int:
        """The row of the headings; 0 where there are none."""
        return self.heads[0] if self.heads else 0

    @property
    def measured(self) -> frozenset[int]:
        """The columns whose numbers have a unit."""
        return frozenset(column for heading, column in self.columns.items() if has_unit(heading))

    @property
    def kinds(self) -> Mapping[int, Kind]:
        """The kinds of numbers of the columns, by column."""
        return {column: KINDS[heading] for heading, column in self.columns.items() if heading in KINDS}


class Draft:
    """A head while its rows are read: the meaning, the unit and the title of each column."""

    def __init__(self, table: Table, row: TableRow) -> None:
        self.table, self.row = table, row
        self.headings: dict[int, Heading] = {}
        self.units: dict[int, str] = {}
        self.titles = {column: cell.text for column, cell in row.filled()}
        self.heads = [row.number]
        self.beside: list[Words] = []
        # Those below it, as far as they are known.
        self.rows: Sequence[TableRow] = ()
        self.sides: dict[int, str] = {}
        for column, cell in row.filled():
            heading, unit = heading_of(cell.text)
            if heading:
                self.headings[column] = heading
            if unit:
                self.units.update(dict.fromkeys(range(column, merged_end(table, row, column)), unit))

    def is_more(self, row: TableRow) -> bool:
        """Whether a row below the headings has units, or headings of columns that have none. A multiple of a unit, as
        `1000 kcal/h`, is a number too: it is none where the row has a name and no other unit."""
        cells = {column: cell for column, cell in row.filled() if cell.text not in EMPTY}
        kinds = {column: KINDS[heading] for column, heading in self.headings.items() if heading in KINDS}
        multiples = {column for column, cell in cells.items() if cell.number is None and is_number(cell)
                     and column in kinds and is_multiple(cell.text, kinds[column])}
        if is_comment(row) or any(is_number(cell) for column, cell in cells.items() if column not in multiples):
            return False
        units = [column for column in cells if has_unit(self.headings.get(column, Heading.NAME))]
        if multiples:
            return len(units) > len(multiples) or len(cells) == len(multiples)
        return bool(units) or any(heading_of(cell.text)[0] for cell in cells.values())

    def take(self, row: TableRow) -> None:
        """One more row of the head: each cell is a heading with its unit, or a unit. Where two rows name a column the
        lower one is meant, as in `Temperature` over `Supply` and `Target`."""
        self.heads.append(row.number)
        for column, cell in row.filled():
            heading, unit = heading_of(cell.text)
            if heading and has_unit(heading) and self.headings.get(column) in TEXTS:
                # No temperature or heat stands below a heading of names.
                heading, unit = None, ''
            if heading in WARMED and not unit:
                self.reach(column)
            if heading:
                self.drop_words(column, heading, cell.text)
                self.headings[column], self.titles[column] = heading, cell.text
            elif has_unit(self.headings.get(column, Heading.NAME)) and cell.text not in EMPTY:
                unit = stripped(cell.text)
            else:
                unit = ''
                self.beside.append(Words(row.number, column, cell.text))
            if unit and self.is_strange(column, unit):
                # `Supply shift` over `°C` is no supply in the unit `shift`.
                del self.headings[column], self.units[column]
                continue
            if unit and self.units.setdefault(column, unit) != unit:
                cause = f'two units, `{self.units[column]}` above and `{unit}` here'
                raise self.table.refusal(row.number, column, cause)

    def reach(self, column: int) -> None:
        """Gives an end below a title over several columns, as `Temperature (°F)` or `Pressure (bar)`, its unit, where
        the title stands in the first of them alone."""
        before = [at for at, cell in self.row.filled() if at <= column]
        if len(self.heads) == 2 and before and before[-1] == column - 1 and self.units.get(before[-1]):
            self.units.setdefault(column, self.units[before[-1]])

    def drop_words(self, column: int, heading: Heading, title: str) -> None:
        """Takes what stands above another heading, as `CP in kW/K` above `Supply`, for words beside the headings."""
        unit, before = self.units.get(column, ''), self.headings.get(column)
        # `Pressure (bar)` stands above its own `in` and `out`.
        whole = heading not in WARMED or OF_TEMPERATURE.match(title) is not None
        if before and before is not heading and unit and whole and not fits(heading, unit):
            self.beside.append(Words(self.heads[-2], column, self.titles[column]))
            del self.units[column]

    def is_strange(self, column: int, unit: str) -> bool:
        """Whether what stands behind a heading is no unit of it, and a unit of it stands below."""
        heading = self.headings.get(column)
        above = self.units.get(column, '')
        return heading is not None and above != '' and not fits(heading, above) and fits(heading, unit)

    def layout(self, rows: Sequence[TableRow]) -> Layout:
        """The layout of this head over these rows; `Refused` where a column that is needed is missing, or stands
        twice."""
        self.pair()
        self.check_ends()
        self.tell_specific()
        self.drop_unfit()
        columns, twins = self.chosen(rows)
        columns = named_columns(columns, self.titles, rows)
        named = Heading.NAME in columns
        if Heading.NUMBER in columns:
            columns.setdefault(Heading.NAME, columns[Heading.NUMBER])
        self.check(columns)
        measured = {column for heading, column in columns.items() if has_unit(heading)} | set(twins)
        beside = [Words(self.row.number, column, unit) for column, unit in self.units.items()
                  if column in self.titles and column not in measured and column in columns.values()]
        section = section_of(self.titles.get(columns[Heading.NAME], ''))
        return Layout(columns, self.units, self.titles, tuple(self.heads), (*beside, *self.beside), named, twins,
                      section, self.is_curve(range(max(self.titles, default=0) + 1)), self.open_pair(columns),
                      self.sides, letters_of(columns.get(Heading.KIND), rows))

    def open_pair(self, columns: Mapping[Heading, int]) -> tuple[str, str] | None:
        """The titles of supply and target, where these may be the other way round."""
        titles = [self.titles.get(columns.get(heading, -1), '') for heading in (Heading.SUPPLY, Heading.TARGET)]
        names = tuple(named_with_unit(title)[0] for title in titles)
        return (titles[0], titles[1]) if names in OPEN_PAIRS else None

    def within(self, group: range) -> Draft:
        """The head of the columns of one block."""
        part = copy(self)
        part.headings = {column: heading for column, heading in self.headings.items() if column in group}
        part.units = {column: unit for column, unit in self.units.items() if column in group}
        part.titles = {column: title for column, title in self.titles.items() if column in group}
        part.beside = [words for words in self.beside if words.column in group]
        return part

    def is_curve(self, group: range) -> bool:
        """Whether columns have the points of heating curves: a temperature and an enthalpy, and no other number, in
        several rows for a name; with one row for each they are properties of streams."""
        headings = {heading: column for column, heading in self.headings.items() if column in group}
        if not {Heading.SUPPLY, Heading.LOAD} <= headings.keys() or any(heading in headings for heading in NO_CURVE):
            return False
        warm, heat = (named_with_unit(self.titles[headings[heading]])[0] for heading in (Heading.SUPPLY, Heading.LOAD))
        named = headings.get(Heading.NAME, headings.get(Heading.NUMBER, -1))
        names = [row.cell(named).text for row in self.rows if is_number(row.cell(headings[Heading.SUPPLY]))]
        return warm in WARM and heat in ENTHALPY and len(names) > len({name for name in names if name not in EMPTY})

    def pairs(self, group: range) -> dict[int, Heading]:
        """Headings that their partner explains: `Te` and `Ts`, `Ti` and `Tf`."""
        names = {column: named_with_unit(title)[0] for column, title in self.titles.items() if column in group}
        for pair, meanings in PAIRS.items():
            found = [[column for column, name in names.items() if name == word] for word in pair]
            if all(len(columns) == 1 for columns in found):
                return {column: heading for (column,), heading in zip(found, meanings)}
        return {}

    def pair(self) -> None:
        pairs = self.pairs(range(max(self.titles, default=0) + 1))
        self.headings.update(pairs)
        for column in pairs:
            unit = named_with_unit(self.titles[column])[1]
            if unit:
                self.units.setdefault(column, unit)

    def with_one_duty(self, rows: Sequence[TableRow]) -> list[TableRow]:
        """The rows with the duties of two columns, one of hot and one of cold streams, in the first of them; each then
        has the kind that its column says. Rows that have both, as sums, stay."""
        found = {side: [column for column, title in self.titles.items() if named_with_unit(title)[0] in known]
                 for side, known in DUTIES.items()}
        others = {column for column, heading in self.headings.items() if heading is Heading.LOAD}
        if [len(columns) for columns in found.values()] != [1, 1] or others - {*found['hot'], *found['cold']}:
            return list(rows)
        sides = {columns[0]: side for side, columns in found.items()}
        first, second = sorted(sides)
        units = {named_with_unit(self.titles[column])[1] or self.units.get(column, '') for column in sides}
        if len(units) > 1:
            return list(rows)
        self.titles[first] = f'{self.titles[first]} | {self.titles.pop(second)}'
        self.headings[first] = Heading.LOAD
        self.headings.pop(second, None)
        self.units.pop(second, None)
        self.units |= {first: unit for unit in units if unit}
        return [self.with_duty(row, sides) for row in rows]

    def with_duty(self, row: TableRow, sides: Mapping[int, str]) -> TableRow:
        """A row with the one duty that it has in the first of these columns."""
        first, second = sorted(sides)
        filled = [column for column in sides if not is_nothing(row.cell(column))]
        if len(filled) != 1:
            return row
        self.sides[row.number] = sides[filled[0]]
        cells = [*row.cells, *[NOTHING] * (second + 1 - len(row.cells))]
        cells[first], cells[second] = cells[filled[0]], NOTHING
        return replace(row, cells=tuple(cells))

    def tell_specific(self) -> None:
        """Takes a CP whose unit is that of a specific heat, which may stand in a row of its own, as one."""
        for column, heading in self.headings.items():
            if heading is Heading.CP and not self.is_fit(column) and fits(Heading.SPECIFIC, self.units[column]):
                self.headings[column] = Heading.SPECIFIC

    def drop_unfit(self) -> None:
        """Passes over a CP or a duty in a unit that is none of them, where the other one is there."""
        for heading, other in ((Heading.CP, Heading.LOAD), (Heading.LOAD, Heading.CP)):
            others = [column for column, found in self.headings.items() if found is other and self.is_fit(column)]
            for column, found in list(self.headings.items()):
                if found is heading and not self.is_fit(column) and others:
                    del self.headings[column]

    def is_fit(self, column: int) -> bool:
        unit = self.units.get(column, '')
        return not unit or fits(self.headings[column], unit)

    def chosen(self, rows: Sequence[TableRow]) -> tuple[dict[Heading, int], dict[int, Heading]]:
        """One column for each heading, and those that say the same in another unit."""
        by_heading: dict[Heading, list[int]] = {}
        for column in sorted(self.headings):
            by_heading.setdefault(self.headings[column], []).append(column)
        columns: dict[Heading, int] = {}
        twins: dict[int, Heading] = {}
        for heading, candidates in by_heading.items():
            left = self.likely(heading, candidates, rows)
            if not left:
                continue
            columns[heading] = left[0]
            units = {self.units.get(column, '') for column in left}
            if len(left) == 1 or heading in SEVERAL or all(same_cells(rows, left[0], column) for column in left):
                continue
            if heading in KINDS and '' not in units and len(units) == len(left):
                twins.update(dict.fromkeys(left[1:], heading))
                continue
            raise self.table.refusal(self.row.number, left[1], f'a second column `{self.titles[left[1]]}`')
        return columns, twins

    def likely(self, heading: Heading, columns: list[int], rows: Sequence[TableRow]) -> list[int]:
        """The columns that a heading may mean, without those that have none of its units, no numbers, or a word for
        any temperature."""
        if heading is Heading.KIND:
            return kind_columns(columns, self.titles, rows)
        if len(columns) == 1:
            return columns
        tests = [self.is_fit]
        if has_unit(heading):
            tests.append(lambda column: any(is_number(row.cell(column)) for row in rows))
        tests.append(lambda column: named_with_unit(self.titles.get(column, ''))[0] not in WARM)
        for test in tests:
            columns = [column for column in columns if test(column)] or columns
        return columns

    def check_pairs(self, unknown: Sequence[tuple[int, str]]) -> None:
        """`Refused` where headings that are not known speak of a hot and of a cold side."""
        hot, cold = ([column for column, title in unknown if side & set(words(title))] for side in (HOT, COLD))
        if hot and cold:
            raise self.table.refusal(self.row.number, hot[0], 'a row has a hot and a cold stream, as those of an '
                                     'exchanger: give each stream a row of its own, with its own duty')

    def check_ends(self) -> None:
        """`Refused` where two columns have heats or CPs at both ends of a stream, as `Enthalpy in` and `Enthalpy out`:
        neither is that of the stream."""
        names = {column: words((bracketed(title) or (title, ''))[0]) for column, title in self.titles.items()}
        for column, parts in names.items():
            begun = len(parts) > 1 and parts[-1] in BEGUN and meaning(' '.join(parts[:-1])) in OF_STREAMS
            if begun or len(parts) > 1 and parts[-1] in BEGUN and parts[:-1] == ['h']:
                others = [title for at, title in self.titles.items()
                          if names[at][:-1] == parts[:-1] and names[at][-1] in ENDED]
                if others:
                    cause = f'`{self.titles[column]}` and `{others[0]}` are those at both ends of a stream: give the ' \
                            'difference as its duty, or its CP'
                    raise self.table.refusal(self.row.number, column, cause)

    def check(self, columns: Mapping[Heading, int]) -> None:
        """`Refused` where a column is missing, with the headings that are not known."""
        missing = [heading for heading in (Heading.NAME, Heading.SUPPLY) if heading not in columns]
        sized = any(heading in columns for heading in SIZES)
        utilities = any(heading in columns for heading in OF_UTILITIES)
        unknown = [(column, title) for column, title in self.titles.items()
                   if column not in columns.values() and column not in self.headings and not is_note_column(title)]
        open_end = Heading.TARGET not in columns and not self.is_curve(range(max(self.titles, default=0) + 1))
        if missing:
            self.check_pairs(unknown)
        if unknown and (missing or sized and open_end or not sized and not utilities):
            names = ', '.join(heading.name.lower() for heading in list(Heading)[:10])
            raise unknown_headings(self.table, self.row, unknown, f'{names} are, and others are passed over where '
                                   'these are enough')
        if missing:
            names = ' and none '.join(heading.name.lower() for heading in missing)
            raise self.table.refusal(self.row.number, None, f'no column has the heading {names}')


def is_nothing(cell: Cell) -> bool:
    """Whether there is nothing in a cell, or a 0, beside the column where a duty stands."""
    return cell.number == 0 or cell.number is None and not cell.fault and (
        cell.text in EMPTY or re.fullmatch('0(?:[.,]0*)?', cell.text) is not None)


def letters_of(column: int | None, rows: Sequence[TableRow]) -> Mapping[str, str]:
    """What the letters of a column of kinds mean: `C` is cold beside `H`, and hot beside `F`, as in French."""
    found = {row.cell(column).text.strip('. ').lower() for row in rows} if column is not None else set()
    letters = {text for text in found if len(text) == 1 and text not in EMPTY}
    return next((meant for meant in LETTERS if letters == set(meant)), {})


def merged_end(table: Table, row: TableRow, column: int) -> int:
    """The column behind a cell, or behind all that a merged cell covers."""
    return next((end for at, begin, end in table.merged if (at, begin) == (row.number, column)), column + 1)


def stripped(text: str) -> str:
    """A unit without the brackets around it."""
    parts = bracketed(text)
    return parts[1] if parts and not parts[0] else text.strip()


def named_with_unit(title: str) -> tuple[str, str]:
    """The words of a heading without its unit, squeezed, and the unit."""
    parts = bracketed(title)
    if parts is None:
        parts = next(((name, unit) for name, unit in reversed(list(splits(title))) if any(
            is_unit(unit, kind) for kind in Kind)), (title, ''))
    return squeezed(parts[0]), parts[1]


def same_cells(rows: Sequence[TableRow], first: int, second: int) -> bool:
    """Whether two columns have the same cells in each row."""
    return all(row.cell(first) == row.cell(second) for row in rows)


def kind_columns(columns: list[int], titles: Mapping[int, str], rows: Sequence[TableRow]) -> list[int]:
    """The columns that say what kind a row is. `Type` may head something else, as `liquid` and `gas`."""
    def says(column: int) -> bool:
        return any(kind_of(row.cell(column).text) for row in rows)
    found = [column for column in columns if says(column)]
    if found:
        return found
    return [column for column in columns if squeezed(titles[column]) == 'kind'][:1]


def named_columns(columns: Mapping[Heading, int], titles: Mapping[int, str],
                  rows: Sequence[TableRow]) -> dict[Heading, int]:
    """The columns with one for names, where no heading says which: the first one with a text of its own in each row
    that has temperatures. A column without a heading that counts the rows is none."""
    found = dict(columns)
    supply = columns.get(Heading.SUPPLY, -1)
    lines = [row for row in rows if is_number(row.cell(supply))]
    free = sorted({column for row in lines for column, _ in row.filled()} - set(columns.values()))
    for column in free:
        if column not in titles and lines and counts(row.cell(column).text for row in lines):
            found.setdefault(Heading.NUMBER, column)
    if Heading.NAME in found or Heading.NUMBER in columns or not lines:
        return found
    for column in free:
        texts = [row.cell(column).text for row in lines]
        if len(set(texts)) == len(texts) and not any(text in EMPTY or text[0] in '#' for text in texts) and not any(
                is_number(row.cell(column)) for row in lines):
            found[Heading.NAME] = column
            break
    return found


def counts(texts: Iterable[str]) -> bool:
    """Whether texts are 1, 2, 3 and so on."""
    return all(text == str(at) for at, text in enumerate(texts, 1))


def with_first(layout: Layout, row: TableRow, merged: tuple[tuple[int, int, int], ...]) -> Layout:
    """The layout with the units of a row right above the headings: units alone, or as `Temperatures (°C)` over two
    columns: each holds as far as its merged cell reaches, or to the next title. The row is one of the head where all
    its cells are such."""
    kinds = layout.kinds
    filled = [column for column, _ in row.filled()]
    alone = {column: stripped(cell.text) for column, cell in row.filled() if cell.text not in EMPTY}
    if all(column in kinds and is_unit(text, kinds[column]) for column, text in alone.items()):
        return replace(layout, units={**alone, **layout.units}, heads=(*layout.heads, row.number))
    units, used = dict(layout.units), 0
    for column, cell in row.filled():
        parts = bracketed(cell.text)
        end = next((end for at, begin, end in merged if (at, begin) == (row.number, column)), None)
        following = [other for other in filled if other > column]
        reach = range(column, end or (following[0] if following else max(layout.columns.values(), default=0) + 1))
        meant = [at for at in reach if parts and at in kinds and is_unit(parts[1], kinds[at])
                 and kinds[at] in kinds_of(parts[0])]
        units.update({at: parts[1] for at in meant if parts and at not in layout.units})
        used += bool(meant)
    return replace(layout, units=units, heads=(*layout.heads, *[row.number] * (used == len(filled))))


def kinds_of(title: str) -> frozenset[Kind]:
    """The kinds of numbers that a title over several columns is about."""
    found = frozenset(kind for kind, pattern in ABOUT.items() if pattern.search(title))
    return found - {Kind.TEMPERATURE} if Kind.DIFFERENCE in found else found
