"""Units that a title, a note or a comment gives to all numbers of a kind: `Temperatures in °F, duties in MMBtu/h`."""
from __future__ import annotations

import re
from collections.abc import Iterator, Mapping, Sequence
from dataclasses import replace

from .blocks import Blocks, TableBlock
from .headings import Words, bracketed
from .layouts import Layout
from .rows import BESIDE_HEADING, LEGEND, Body, shortened
from .spreadsheet import SHEET_ROWS
from .units import Kind, is_multiple, same_unit, unit_or_none
from .vocabulary import words

# The words that may stand before a unit, by what they are about.
ABOUT = {
    Kind.TEMPERATURE: 'temperature temperatures temp temps t ts tt supply target inlet outlet temperatur temperaturen '
                      'temperatura temperaturas temperature',
    Kind.DIFFERENCE: 'difference differences contribution contributions dt approach',
    Kind.FLOW: 'cp cps mcp heat capacity capacities flow flows flowrate flowrates rate rates',
    Kind.HEAT: 'heat heats duty duties load loads q enthalpy enthalpies dh power warme warmestrom warmestrome leistung '
               'leistungen puissance puissances chaleur carga cargas calor carico carichi potenza potenze potencia h'}
BESIDE = frozenset('all in are is the given values numbers units unit and und et y e einheiten alle unites unidades '
                   'unita as expressed data stream figures sind en legend legende leyenda legenda key'.split())
# Why rows are passed over that may say a unit of all numbers.
SAYING = ('a note', 'a comment', 'above the headings', LEGEND)
CLAUSE = re.compile(r'[;\n]|,\s|\s(?:and|und|et|y|e|&)\s|(?<=\w)\.\s', re.I)
LONGEST = 200


def said_units(body: Body) -> Mapping[Kind, Words]:
    """The unit of each kind of numbers that titles, notes and comments give, with their place; none of a kind for which
    two are named. A remark at a cell, and a sum, may hold for itself alone."""
    rows = {passed.row for passed in body.over if passed.column is None and passed.why in SAYING}
    beside = {(passed.row, passed.column) for passed in body.over if passed.why == BESIDE_HEADING}
    found: dict[Kind, list[Words]] = {}
    for said in body.passed:
        if said.row in rows or (said.row, said.column) in beside:
            for kind, unit in units_of(said.text, said.column is None):
                found.setdefault(kind, []).append(replace(said, text=unit))
    return {kind: named[0] for kind, named in found.items()
            if all(same_unit(words.text, named[0].text, kind) for words in named)}


def units_of(text: str, whole: bool = True) -> list[tuple[Kind, str]]:
    """The units that a text gives; none where it says something else too. A unit alone has to be the whole of its
    row."""
    if len(text) > LONGEST:
        return []
    found: list[tuple[Kind, str]] = []
    for clause in CLAUSE.split(text.strip(' #*.')):
        named = unit_of_clause(clause.strip(' :'), whole)
        if named is None:
            return []
        found.append(named)
    return found


def unit_of_clause(clause: str, whole: bool) -> tuple[Kind, str] | None:
    """What kind of numbers a clause is about, and their unit."""
    for before, unit in parts_of(clause):
        said = set(words(before)) - BESIDE
        kinds = [kind for kind, about in ABOUT.items() if said and said <= set(about.split())]
        # A unit alone says what it measures; one of temperatures is that of temperatures. `Unit F` is a plant's.
        alone = not said and whole and is_clear(unit, before)
        kinds = kinds or ([Kind.TEMPERATURE, Kind.FLOW, Kind.HEAT] if alone else [])
        fitting = [kind for kind in kinds if unit_or_none(unit, kind)
                   and (not unit[:1].isdigit() or is_multiple(unit, kind))]
        if fitting:
            return fitting[0], unit
    return None


def is_clear(unit: str, before: str) -> bool:
    """Whether a unit can be nothing else: a letter is a name too, and HP a pressure."""
    return unit.lower() != 'hp' and (len(unit) > 1 or 'units' in words(before))


def parts_of(clause: str) -> Iterator[tuple[str, str]]:
    """The ways in which a clause may be words and a unit, the longest unit first."""
    yield '', clause
    parts = bracketed(clause)
    if parts:
        yield parts
    for match in re.finditer(r'\s*[/:=]\s*|\s+in\s+|[\s_]+', clause, re.I):
        yield clause[:match.start()], clause[match.end():]


def with_said(blocks: Blocks, body: Body) -> tuple[Blocks, list[tuple[Kind, Words]]]:
    """The blocks with the units that words give to columns without one, and which of them were taken. Words above a
    block hold for it, and those below all blocks of a sheet for these."""
    said = said_units(body)
    used: dict[Kind, Words] = {}
    found: list[TableBlock] = []
    for block in blocks.blocks:
        layout, units = block.layout, dict(block.layout.units)
        for column, kind in layout.kinds.items():
            if kind in said and column not in units and holds(said[kind], layout, blocks):
                units[column] = said[kind].text
                used[kind] = said[kind]
        found.append(replace(block, layout=replace(layout, units=units)))
    return replace(blocks, blocks=tuple(found)), list(used.items())


def holds(said: Words, layout: Layout, blocks: Blocks) -> bool:
    """Whether words say something of a block: they stand above it, among its headings, or below all of its sheet."""
    sheet = said.row // SHEET_ROWS
    heads = [block.layout.head for block in blocks.blocks if block.layout.head // SHEET_ROWS == sheet]
    if layout.head // SHEET_ROWS != sheet:
        return False
    return said.row < layout.head or said.row in layout.heads or said.row > max(heads)


def told_of(used: Sequence[tuple[Kind, Words]], text_at: Mapping[int, str]) -> Iterator[tuple[Words, str]]:
    """What is told of the units that were taken of words."""
    for kind, said in used:
        yield said, f'the unit `{said.text}` is taken for numbers of {kind.name.lower()}, as ' \
                    f'`{shortened(text_at.get(said.row, said.text))}` says'
