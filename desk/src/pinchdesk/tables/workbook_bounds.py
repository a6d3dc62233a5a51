"""The bounds of a workbook, looked at before it is opened: a small file can unfold to one that fills the memory, by
cells that are far away, merged ranges, many signs or what one part makes of another."""
from __future__ import annotations

import io
import re
import zipfile
import zlib
from dataclasses import dataclass, field
from xml.parsers import expat

# What a table of streams never has: rows, columns, bytes when it is unpacked, cells, signs in a cell.
MOST_ROWS, MOST_COLUMNS, MOST_UNPACKED, MOST_CELLS, MOST_SIGNS = 20_000, 200, 2 ** 25, 100_000, 32_767
# The cells from the first to the last one, filled or not: each takes memory.
MOST_PLACES = 200_000
# And of a part: elements, and elements inside one another.
MOST_ELEMENTS, MOST_DEPTH = 600_000, 60
PLACE = re.compile(r'\$?([A-Z]{1,3})\$?([1-9][0-9]{0,6})')


class NoWorkbook(ValueError):
    """This is no workbook; the message says why."""


class TooLarge(ValueError):
    """It unfolds to more than a table of streams has; the message says where."""


@dataclass(frozen=True)
class Merged:
    """A merged range; rows and columns are counted from 1, and the last ones belong to it."""

    first_row: int
    first_column: int
    last_row: int
    last_column: int

    def hides(self, row: int, column: int) -> bool:
        """Whether a cell lies under it, and is not the one that is shown."""
        inside = self.first_row <= row <= self.last_row and self.first_column <= column <= self.last_column
        return inside and (row, column) != (self.first_row, self.first_column)


@dataclass
class PartCheck:
    """One part of XML on its way through the parser."""

    part: str
    cells: int = 0
    elements: int = 0
    depth: int = 0
    place: tuple[int, int] = (0, 0)
    signs: int = 0
    last_column: int = 0
    filled: list[tuple[int, int]] = field(default_factory=list)
    merged: list[Merged] = field(default_factory=list)

    def begun(self, prefixed: str, attributes: dict[str, str]) -> None:
        name = prefixed.rpartition(':')[2]
        self.elements, self.depth, self.signs = self.elements + 1, self.depth + 1, 0
        if self.elements > MOST_ELEMENTS or self.depth > MOST_DEPTH:
            raise TooLarge(f'{self.part} has too many elements')
        if name == 'row':
            self.place = self.within(int(attributes.get('r', self.place[0] + 1)), 0)
        elif name == 'c':
            self.cells += 1
            place = place_of(attributes['r']) if 'r' in attributes else (self.place[0], self.place[1] + 1)
            self.place = self.within(*place)
            if self.cells > MOST_CELLS:
                raise TooLarge(f'{self.part} has more than {MOST_CELLS} cells')
        elif name in ('v', 'is') and self.place[0]:
            self.filled.append(self.place)
        elif name in ('mergeCell', 'hyperlink'):
            first, _, last = attributes.get('ref', '').partition(':')
            self.within(*place_of(last or first))
            if name == 'mergeCell':
                self.merged.append(Merged(*place_of(first), *place_of(last or first)))

    def ended(self, name: str) -> None:
        del name
        self.depth -= 1

    def read(self, text: str) -> None:
        self.signs += len(text)
        if self.signs > MOST_SIGNS:
            raise TooLarge(f'{self.part} has a text of more than {MOST_SIGNS} signs')

    def within(self, row: int, column: int) -> tuple[int, int]:
        self.last_column = max(self.last_column, column)
        if row > MOST_ROWS or column > MOST_COLUMNS or row * self.last_column > MOST_PLACES:
            raise TooLarge(f'{self.part} reaches to row {row}' + (f' and column {column}' if column else ''))
        return row, column

    def refused(self, *_: object) -> None:
        raise NoWorkbook(f'{self.part} has a document type, as no workbook has')


def place_of(text: str) -> tuple[int, int]:
    """The row and the column of a place as `C5`, counted from 1."""
    match = PLACE.fullmatch(text)
    if not match:
        raise NoWorkbook(f'`{text[:20]}` is not the place of a cell')
    column = 0
    for letter in match[1]:
        column = column * 26 + ord(letter) - ord('A') + 1
    return int(match[2]), column


def checked_part(part: str, content: bytes) -> PartCheck:
    """A part that keeps the bounds."""
    check = PartCheck(part)
    parser = expat.ParserCreate()
    parser.StartElementHandler, parser.EndElementHandler = check.begun, check.ended
    parser.CharacterDataHandler, parser.StartDoctypeDeclHandler = check.read, check.refused
    parser.Parse(content, True)
    return check


def hidden_by_merging(content: bytes) -> dict[str, list[tuple[int, int]]]:
    """Looks at all parts of a workbook. `NoWorkbook` where it is none, `TooLarge` where it unfolds to more than it may.
    What it gives are the cells of each part that hold something and lie under a merged range, which hides them."""
    try:
        with zipfile.ZipFile(io.BytesIO(content)) as archive:
            if sum(part.file_size for part in archive.infolist()) > MOST_UNPACKED:
                raise TooLarge(f'it has more than {MOST_UNPACKED} bytes when it is unpacked')
            parts = [name for name in archive.namelist() if name.endswith(('.xml', '.rels'))]
            checks = [checked_part(name, archive.read(name)) for name in parts]
    except (zipfile.BadZipFile, zlib.error, expat.ExpatError, EOFError, OSError, NotImplementedError,
            RuntimeError) as fault:
        raise NoWorkbook(str(fault)) from fault
    return {check.part: [place for place in check.filled if any(one.hides(*place) for one in check.merged)]
            for check in checks if len(check.merged) <= MOST_ROWS}
