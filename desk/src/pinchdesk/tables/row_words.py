"""What rows say in words, or by signs at their numbers: marks of footnotes, duties below 0 in brackets, a target that
is `boiling`, heaters and coolers that are the places where a stream is heated or cooled."""
from __future__ import annotations

import re
from collections.abc import Iterator, Sequence
from dataclasses import replace

from ..formats.case import Side
from .cells import CellReader, Told
from .headings import EMPTY, has_unit, is_number
from .heating_curve import with_cells
from .rows import Body, Line, shortened
from .segmented import temperature
from .unit_mentions import names_other_unit
from .units import Kind
from .vocabulary import Heading, squeezed, words

NUMBER = r"[-+−]?[0-9][0-9.,'’\u00a0\u202f]*(?:\s[°KkMGWJ][^\s*]*)?"
# `30*`, `330¹⁾`, `120 a)`, where a footnote below has the mark; `330²` may be a square.
MARKED = re.compile(rf'(?P<number>{NUMBER})\s?(?P<mark>[*†‡§]{{1,3}}|(?:[¹²³⁴-⁹]{{1,2}}|[a-z])[)⁾])')
# A note below the table with such a mark.
FOOTNOTE = re.compile(r'(?:[*†‡§]{1,3}|[(⁽]?(?:[0-9¹²³⁴-⁹]{1,2}|[a-z])[)⁾])(?=\s*[^\W\d])')
DIGITS = '⁰¹²³⁴⁵⁶⁷⁸⁹'
# `(330)`, as accountants write what goes away.
BRACKETED = re.compile(r"\(\s*(?P<number>[0-9][0-9.,'’\s\u00a0\u202f]*)\)")
BOILS = frozenset('boiling boils boil evaporating evaporation evaporates vaporizing vaporising vaporization '
                  'vaporisation siedend siedet verdampfung verdampft verdampfen ebullition evaporacion evaporazione '
                  'ebollizione ebullicion'.split())
CONDENSES = frozenset('condensing condenses condense condensation kondensation kondensierend kondensiert '
                      'kondensieren condensacion condensazione'.split())
SAME = frozenset('isothermal isotherm isotherme isotermico isotermo same constant const konstant constante costante'
                 .split())
# Equipment that a simulator has for a stream that is heated or cooled.
EQUIPMENT = {'cooler': Side.HOT, 'heater': Side.COLD}
LONGEST = 60


def with_row_words(body: Body, told: Told) -> Body:
    """The lines with the numbers that these words and signs mean, which is told."""
    notes = footnotes(body)
    return replace(body, lines=tuple(with_state(with_plain_numbers(line, notes, told), told) for line in body.lines))


def footnotes(body: Body) -> frozenset[str]:
    """The marks of the footnotes of a table that name no other unit, each as it stands before its text."""
    texts = [words.text.strip() for words in body.passed if words.column is None]
    marks = [(match[0].strip(), text) for text in texts for match in [FOOTNOTE.match(text)] if match]
    return frozenset(plain_mark(mark) for mark, text in marks
                     if not any(names_other_unit(text, kind) for kind in Kind))


def plain_mark(mark: str) -> str:
    """A mark without its bracket, with plain digits: `1` of `¹⁾` and `1)`."""
    return ''.join(str(DIGITS.index(sign)) if sign in DIGITS else sign for sign in mark).strip('()⁽⁾ ')


def with_plain_numbers(line: Line, notes: frozenset[str], told: Told) -> Line:
    """A line whose numbers have no marks of footnotes, and whose duties have a sign and no brackets."""
    if line.kind == 'forbid':
        return line
    for heading, column in line.columns.items():
        cell = line.row.cell(column)
        if not has_unit(heading) or cell.number is not None or cell.fault or not 0 < len(cell.text) <= LONGEST:
            continue
        match = MARKED.fullmatch(cell.text)
        taken = BRACKETED.fullmatch(cell.text) if heading is Heading.LOAD else None
        if match and plain_mark(match['mark']) in notes:
            told.note(line.row.number, column, f'passed over, at the number {match["number"]}: `{match["mark"]}`')
            line = with_cells(line, {column: replace(cell, text=match['number'])})
        elif taken:
            told.note(line.row.number, column, f'`{cell.text}` is taken as -{taken["number"].strip()}')
            line = with_cells(line, {column: replace(cell, text=f'-{taken["number"].strip()}')})
    return line


def with_state(line: Line, told: Told) -> Line:
    """A line whose target is a word, as `boiling`, with its supply as its target too, and its side."""
    column, target = line.at(Heading.TARGET), line.cell(Heading.TARGET)
    said = set(words(target.text)) if target.number is None and len(target.text) <= LONGEST else set()
    states = [found for found in (BOILS, CONDENSES, SAME) if said and said <= found]
    if column is None or not states or not line.is_stream or line.layout.curve or not is_number(
            line.cell(Heading.SUPPLY)):
        return line
    side = {0: 'cold', 1: 'hot'}.get((BOILS, CONDENSES, SAME).index(states[0]), '')
    known = line.kind or (line.section.side.value if line.section and line.section.side else '')
    if side and known and known != side:
        told.fault(line.row.number, column, f'`{shortened(target.text)}`: a {known} stream does not do that')
        return line
    told.note(line.row.number, column, f'`{shortened(target.text)}` is taken as the temperature of the supply')
    return replace(with_cells(line, {column: line.cell(Heading.SUPPLY)}), kind=line.kind or side)


def with_equipment(body: Body, reader: CellReader, told: Told) -> Body:
    """The lines, those that are called a cooler and cool down, or a heater and warm up, with a size of their own, as
    streams: all of a table that are called so, and none where other rows are called hot and cold."""
    called = [line for line in body.lines if equipment_of(line)]
    kinds = {line.kind for line in body.lines if line.cell(Heading.KIND).text not in EMPTY} - {'heater', 'cooler'}
    if not called or kinds & {'hot', 'cold'} or not all(runs_as(line, reader) for line in called):
        return body
    for line in called:
        told.note(line.row.number, line.at(Heading.KIND), f'`{line.cell(Heading.KIND).text}` has a duty, and '
                  f'{"cools down" if line.kind == "cooler" else "warms up"}: it is taken as a stream')
    return replace(body, lines=tuple(as_streams(body.lines)))


def as_streams(lines: Sequence[Line]) -> Iterator[Line]:
    for line in lines:
        side = equipment_of(line)
        yield replace(line, kind=side.value) if side else line


def equipment_of(line: Line) -> Side | None:
    """The side of the stream that a heater or a cooler with a size may be; None of any other row."""
    sized = line.has(Heading.CP) or line.has(Heading.LOAD)
    return EQUIPMENT.get(squeezed(line.cell(Heading.KIND).text)) if sized else None


def runs_as(line: Line, reader: CellReader) -> bool:
    """Whether what is called a cooler cools down, or what is called a heater warms up."""
    supply, target = (temperature(line, heading, reader) for heading in (Heading.SUPPLY, Heading.TARGET))
    if supply is None or target is None or supply == target:
        return False
    return (supply > target) == (equipment_of(line) is Side.HOT)
