"""Heating curves that have the name of their stream in the title above them, as `H1 (hot)` above `T (°C)` and `H (kW)`,
and no column of names."""
from __future__ import annotations

import re
from collections.abc import Sequence
from dataclasses import dataclass, replace

from ..formats.case import Side
from .layouts import Draft
from .sections import COLD, HOT, Section, section_of
from .spreadsheet import Cell, TableRow
from .vocabulary import Heading, words

# `Cooling curve of stream S1`; a heating curve may be of either side.
CURVE_OF = re.compile(r'\s*(?P<way>cooling|heating|condensing|condensation|boiling|vaporization|T\s*-?\s*H)?\s*'
                      r'(?:curve|kurve|courbe|curva)\s*(?:of|for|von|de|di|:|-|–)?\s*(?:the\s+)?(?:stream|strom)?\s*',
                      re.I)
STREAM = re.compile(r'\s*(?:(?:hot|cold)\s+)?stream\s*[:–-]?\s+', re.I)
IN_BRACKETS = re.compile(r'\s*[(\[]([^()\[\]]*)[)\]]\s*$')
WAYS = {'cooling': Side.HOT, 'condensing': Side.HOT, 'condensation': Side.HOT, 'boiling': Side.COLD,
        'vaporization': Side.COLD}
LONGEST = 80


@dataclass(frozen=True)
class CurveTitle:
    """The stream that a title names, and its side where it says one."""

    name: str
    section: Section | None


def curve_title(row: TableRow | None) -> CurveTitle | None:
    """What the row above a curve says; None where it is no title of one stream."""
    texts = [cell.text for _, cell in row.filled()] if row else []
    if row is None or len(texts) != 1 or len(texts[0]) > LONGEST or section_of(texts[0]):
        return None
    text, sides = texts[0], side_words(texts[0])
    match = CURVE_OF.match(text)
    if match:
        sides |= {WAYS[way] for way in [(match['way'] or '').lower()] if way in WAYS}
    name = text[match.end():] if match else STREAM.sub('', text, count=1) if STREAM.match(text) else text
    bracket = IN_BRACKETS.search(name)
    if bracket and side_words(bracket[1]):
        name = name[:bracket.start()]
    if not name.strip() or len(sides) > 1:
        return None
    section = Section(next(iter(sides)), text=text, row=row.number) if sides else None
    return CurveTitle(name.strip(' :–-'), section)


def side_words(text: str) -> set[Side]:
    found = set(words(text))
    return {side for side, known in ((Side.HOT, HOT), (Side.COLD, COLD)) if found & known}


def is_unnamed_curve(draft: Draft, group: range) -> bool:
    """Whether columns have the points of a curve and no names."""
    named = any(draft.headings.get(column) in (Heading.NAME, Heading.NUMBER) for column in group)
    return not named and draft.is_curve(group)


def with_name(draft: Draft, rows: Sequence[TableRow], name: str) -> list[TableRow]:
    """The rows with the name of their stream in a column behind all others, which the head then has too."""
    width = max(len(row.cells) for row in (*rows, draft.row))
    draft.headings[width] = Heading.NAME
    return [replace(row, cells=(*row.cells, *[Cell()] * (width - len(row.cells)), Cell(name))) for row in rows]
