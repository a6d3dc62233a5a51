"""Both temperatures of a stream in one cell, as `170 → 60`, `170 -> 60 °C` or `170–60`: the column becomes two, of
supply and target, where its heading is that of temperatures.

An arrow says which way the stream runs. Other signs may stand for a mere range, and then a kind has to say it, or the
other rows of the column, which run both ways; and a dash may be a minus, which is refused."""
from __future__ import annotations

import re
from collections.abc import Mapping, Sequence
from dataclasses import dataclass, replace
from decimal import Decimal
from itertools import groupby

from .headings import bracketed, splits
from .spreadsheet import NOTHING, SHEET_ROWS, Cell, Doubt, Table, TableRow
from .units import Kind, is_unit
from .vocabulary import FILLING, WARM, WARMED, Heading, phrase_of, words

NUMBER = r'[-+−–]?[0-9]{1,9}(?:[.,][0-9]{1,9})?'
UNIT = r'(?:\s*(?:[°º˚]\s*[CFK]|℃|℉|[CFK]|deg(?:rees?)?\.?\s*[CFK]))?'
ARROW = r'\s*(?:[→⟶➔➝➜⇒⟹]|-+>|=+>|>)\s*'
OTHER = r'\s+(?:to|bis|auf|nach|à|a|hasta|fino\s+a)\s+|\s*(?:\.{2,3}|…|/|[-–—−‐‑])\s*'
ENDS = re.compile(rf'(?:(?:from|von|de|da|desde)\s+)?(?P<first>{NUMBER})(?P<unit>{UNIT})'
                  rf'(?:(?P<arrow>{ARROW})|(?P<other>{OTHER}))(?P<second>{NUMBER})(?P<last>{UNIT})', re.I)
DASHES = '-–—−‐‑'
LONGEST = 60
# What a heading of both temperatures has beside the words for them.
RANGE = frozenset('range ranges interval intervals intervall intervalle intervalo intervallo bereich plage rango campo '
                  'course change span profile verlauf level levels niveau niveaux temperaturen temperaturas '
                  'temperaturbereich temperaturverlauf temperaturintervall temperaturspanne temperaturniveau'.split())
FIRST_LAST = {'t1': Heading.SUPPLY, 't2': Heading.TARGET, 'vl': Heading.SUPPLY, 'rl': Heading.TARGET}


@dataclass(frozen=True)
class TwoEnds:
    """Both temperatures of a cell with their units, the sign between them, and whether that says which way they run."""

    first: str
    second: str
    sign: str
    directed: bool

    @property
    def way(self) -> int:
        """1 where they rise, -1 where they fall, 0 where neither is said."""
        low, high = (Decimal(re.sub('[^0-9.-]', '', text.replace(',', '.').replace('−', '-').replace('–', '-')) or '0')
                     for text in (self.first, self.second))
        return (high > low) - (high < low)

    @property
    def may_be_minus(self) -> bool:
        """Whether a dash in it may be a minus, or a minus the dash."""
        dash = self.sign.strip()
        signed = any(text[0] in DASHES for text in (self.first, self.second))
        return dash != '' and dash in DASHES and (signed or self.sign not in (dash, f' {dash} '))


def two_ends(text: str) -> TwoEnds | None:
    """Both temperatures of a cell; None where it has not two."""
    match = ENDS.fullmatch(text) if len(text) <= LONGEST else None
    if match is None:
        return None
    last = match['last'].strip()
    first = match['unit'].strip() or last
    return TwoEnds(f'{match["first"]} {first}'.strip(), f'{match["second"]} {last or first}'.strip(),
                   match['arrow'] or match['other'], match['arrow'] is not None)


def ends_of_heading(text: str) -> tuple[str, tuple[Heading, ...]] | None:
    """The unit of a heading of both temperatures, as `T (°C)`, `Temperature range` or `Tin → Tout`, and the ends that
    it names; None where it is no such heading."""
    if len(text) > LONGEST:
        return None
    ways = [parts for parts in (bracketed(text), (text, ''), *splits(text)) if parts]
    for name, unit in ways:
        parts = words(name)
        ends = tuple(end for end in (FIRST_LAST.get(part) or phrase_of(part) for part in parts) if end in WARMED)
        plain = [part for part in parts if part in WARM or part in RANGE]
        known = all(part in FILLING or part in plain or part in FIRST_LAST or phrase_of(part) in WARMED
                    for part in parts)
        if known and (not unit or is_unit(unit, Kind.TEMPERATURE)) and (
                ends == (Heading.SUPPLY, Heading.TARGET) or not ends and plain):
            return unit, tuple(end for end in ends if end)
    return None


def with_two_ends(table: Table) -> Table:
    """The table with a column for each end where the cells of a column of temperatures have both."""
    rows: list[TableRow] = []
    inserted = set(table.inserted)
    doubts = list(table.doubts)
    for sheet, group in groupby(table.rows, lambda row: row.number // SHEET_ROWS):
        part = list(group)
        found = columns_of(part)
        if not found:
            rows += part
            continue
        rows += [apart(row, found) for row in part]
        inserted |= {(sheet, moved(column, found) + 1) for column in found}
        doubts += [doubt for column in found for doubt in doubts_of(part, column, moved(column, found))]
    if inserted == table.inserted:
        return table
    columns = {sheet: [at for of, at in sorted(inserted) if of == sheet] for sheet, _ in inserted}
    return replace(table, rows=tuple(rows), inserted=frozenset(inserted), doubts=tuple(doubts),
                   merged=tuple((row, behind(begin, columns.get(row // SHEET_ROWS, [])),
                                 behind(end - 1, columns.get(row // SHEET_ROWS, [])) + 1)
                                for row, begin, end in table.merged),
                   hidden=frozenset((sheet, behind(at, columns.get(sheet, []))) for sheet, at in table.hidden))


def behind(column: int, inserted: Sequence[int]) -> int:
    """Where a column stands when others were put in at these places."""
    for at in inserted:
        column += at <= column
    return column


def moved(column: int, found: Mapping[int, str]) -> int:
    """Where a column stands when each of these has become two."""
    return column + sum(other < column for other in found)


def columns_of(rows: Sequence[TableRow]) -> dict[int, str]:
    """The columns whose cells have both temperatures below a heading of these, each with the unit of the heading."""
    found: dict[int, str] = {}
    for column in range(max((len(row.cells) for row in rows), default=0)):
        texts = [row.cell(column).text for row in rows]
        first = next((at for at, text in enumerate(texts) if two_ends(text)), None)
        heads = [ends for text in texts[:first] if text for ends in [ends_of_heading(text)] if ends]
        slashed = any(ends.sign.strip() == '/' for text in texts for ends in [two_ends(text)] if ends)
        if first is not None and heads and (heads[-1][1] or not slashed):
            found[column] = heads[-1][0]
    return found


def apart(row: TableRow, columns: Mapping[int, str]) -> TableRow:
    """A row with two cells in place of one in these columns."""
    cells: list[Cell] = []
    for column in range(max(len(row.cells), max(columns) + 1)):
        cell = row.cell(column)
        cells += cells_of(cell) if column in columns else [cell]
    return replace(row, cells=tuple(cells))


def cells_of(cell: Cell) -> tuple[Cell, Cell]:
    """The cells of both ends: of a row, of a heading, or of a unit; anything else stands in the first one."""
    if cell.number is not None or cell.fault:
        return cell, NOTHING
    ends, heading = two_ends(cell.text), ends_of_heading(cell.text)
    if ends:
        return replace(cell, text=ends.first), replace(cell, text=ends.second, remark='')
    if heading:
        beside = f' ({heading[0]})' if heading[0] else ''
        return replace(cell, text=f'Ts{beside}'), replace(cell, text=f'Tt{beside}', remark='')
    if is_unit(cell.text.strip('()[] '), Kind.TEMPERATURE):
        return cell, replace(cell, remark='')
    return cell, NOTHING


def doubts_of(rows: Sequence[TableRow], column: int, place: int) -> list[Doubt]:
    """What is in doubt of the cells of a column, which stands at a place then: a dash that may be a minus, and a range
    that runs no way."""
    cells = [(row.number, row.cell(column).text, ends) for row in rows
             for ends in [two_ends(row.cell(column).text)] if ends]
    minus = [Doubt(number, place, f'`{text}`: the dash may be a minus: write it with an arrow, as `20 -> 60`, or give '
                   'supply and target a column each') for number, text, ends in cells if ends.may_be_minus]
    loose = [(number, text, ends) for number, text, ends in cells if not ends.directed]
    both = {ends.way for _, _, ends in loose} >= {1, -1}
    return minus + [Doubt(number, place, f'`{text}` may be a mere range, since all of them run one way: say in a '
                          'column `kind` which streams are hot, or write `20 -> 60`', True)
                    for number, text, _ in loose if not both]
