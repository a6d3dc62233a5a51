"""A case text that is edited row by row: a cell is changed in its own line, and all others stay as they are, with their
comments."""
from __future__ import annotations

import csv
import io
import re
from collections.abc import Callable, Sequence
from dataclasses import dataclass, replace
from fractions import Fraction
from itertools import product

from ..formats.amounts import exact
from ..formats.case import ANY_HEAT, Case, Side, Stream, Utility, decoded, is_passed_over
from ..formats.shown import Shown
from .gestures import NotDone

KINDS = {'hot': 'stream', 'cold': 'stream', 'heater': 'utility', 'cooler': 'utility', 'forbid': 'forbid'}
NAME = re.compile('[A-Za-z0-9][A-Za-z0-9_-]{0,15}')
WIDTH = 7
# Where each field stands in a row of a stream, of a utility and of a forbidden match.
COLUMNS = {'stream': {'name': 1, 'supply': 2, 'target': 3, 'flow': 4, 'load': 5, 'contribution': 6},
           'utility': {'name': 1, 'level': 2, 'least': 3, 'most': 4, 'price': 5, 'contribution': 6},
           'forbid': {'hot': 1, 'cold': 2}}
# How a row of a stream of several segments is called, and the fields that its segments share with those beside them.
WHOLE, ENDS = 'whole ', frozenset(('supply', 'target'))
# Where the names of sources stand in rows, comments of the desk among them.
NAMED = {'hot': (1,), 'cold': (1,), 'heater': (1,), 'cooler': (1,), 'forbid': (1, 2), '#name': (2,), '#segment': (2,),
         '#film': (1,), '#overall': (1, 4), '#material': (1,), '#range': (1,), '#utility': (1,)}


@dataclass(frozen=True)
class CaseLines:
    """The lines of a case text, with the fields of each that is a row, and how lines end."""

    lines: tuple[str, ...]
    rows: tuple[tuple[str, ...], ...]
    ending: str = '\n'

    def found(self, row: str) -> int:
        """The line of a row that the page named; `NotDone` where there is none."""
        for at, fields in enumerate(self.rows):
            if fields and not is_passed_over(fields) and row_name(fields) == row:
                return at
        raise NotDone(f'There is no {row} in the case.')

    def text(self) -> str:
        return ''.join(line + self.ending for line in self.lines)

    def with_row(self, at: int, fields: Sequence[str] | None) -> CaseLines:
        """With other fields in a line, or without it."""
        line = [] if fields is None else [written(fields)]
        made = [] if fields is None else [tuple(fields)]
        return replace(self, lines=(*self.lines[:at], *line, *self.lines[at + 1:]),
                       rows=(*self.rows[:at], *made, *self.rows[at + 1:]))

    def inserted(self, at: int, fields: Sequence[str]) -> CaseLines:
        return replace(self, lines=(*self.lines[:at], written(fields), *self.lines[at:]),
                       rows=(*self.rows[:at], tuple(fields), *self.rows[at:]))

    def behind(self, kinds: Sequence[str]) -> int:
        """The line behind the last row of these kinds, else behind the contribution."""
        places = [at for at, fields in enumerate(self.rows) if fields and fields[0] in kinds]
        rows = places or [at for at, fields in enumerate(self.rows) if fields and fields[0] == 'contribution']
        return max(rows, default=len(self.lines) - 1) + 1


def row_name(fields: Sequence[str]) -> str:
    """What a row is called in gestures."""
    kind = KINDS.get(fields[0], '')
    return f'forbid {fields[1]} {fields[2]}' if kind == 'forbid' else f'{kind} {fields[1]}'


def written(fields: Sequence[str]) -> str:
    line = io.StringIO(newline='')
    csv.writer(line, lineterminator='').writerow(fields)
    return line.getvalue()


def case_lines(text: str) -> CaseLines:
    """The lines of a text; `NotDone` where a field goes over several."""
    lines = decoded(text).split('\n')
    if lines and not lines[-1]:
        lines.pop()
    lines = [line.removesuffix('\r') for line in lines]
    if any(line.count('"') % 2 for line in lines):
        raise NotDone('A field of the case goes over several lines: edit its text.')
    return CaseLines(tuple(lines), tuple(tuple(fields_of(line)) for line in lines), '\r\n' if '\r\n' in text else '\n')


def fields_of(line: str) -> list[str]:
    return next(csv.reader([line]), [])


def number_of(text: str, make: Callable[[Fraction], Fraction], what: str) -> str:
    """A number as typed, in the program's unit; `NotDone` where it is none, or finer than a case can hold."""
    try:
        value = make(exact(text.strip().replace(',', '.').replace('−', '-')))
    except ValueError as fault:
        raise NotDone(f'{text[:40] or "Nothing"} is not a number: the {what} has to be one.') from fault
    if value.denominator != 1:
        raise NotDone(f'{text[:40]} is finer than a case can hold for the {what}.')
    return str(value)


@dataclass(frozen=True)
class Typed:
    """Numbers as they are typed, in the units of a case, and as its rows have them."""

    case: Case

    def field(self, name: str, text: str) -> str:
        """A field of a row; empty where it may be."""
        if name in ('name', 'hot', 'cold'):
            return self.name(text)
        if name in ('load', 'contribution') and not text.strip():
            return ''
        if name in ('least', 'most') and not text.strip():
            return '0' if name == 'least' else str(ANY_HEAT)
        return number_of(text, self.maker(name), {'flow': 'CP'}.get(name, name))

    def name(self, text: str) -> str:
        if not NAME.fullmatch(text):
            raise NotDone('A name has 1 to 16 letters, digits, _ and -, and begins with a letter or a digit.')
        return text

    def maker(self, name: str) -> Callable[[Fraction], Fraction]:
        shown = Shown(self.case.basis)
        units, scale = shown.units, self.case.basis.scale
        return {'supply': lambda value: (value - units.zero) * units.steps,
                'target': lambda value: (value - units.zero) * units.steps,
                'level': lambda value: (value - units.zero) * units.steps,
                'contribution': lambda value: value * units.steps,
                'flow': lambda value: value * units.parts / units.steps * scale,
                'price': lambda value: value * self.case.basis.price_divisor,
                }.get(name, lambda value: value * units.parts * scale)


def with_cell(text: str, case: Case, row: str, field: str, typed: str) -> str:
    """The text with another field of a row. A name is renamed wherever the case has it."""
    lines = case_lines(text)
    if row.startswith(WHOLE):
        return with_whole_name(lines, case, row.removeprefix(WHOLE), field, typed).text()
    at = lines.found(row)
    kind = KINDS[lines.rows[at][0]]
    if field not in COLUMNS[kind]:
        raise NotDone(f'A {kind} has no {field}.')
    made = Typed(case).field(field, typed)
    fields = list(lines.rows[at])
    old = fields[COLUMNS[kind][field]]
    if field == 'name' and kind != 'forbid':
        return renamed(lines, old, made).text()
    fields[COLUMNS[kind][field]] = made
    if kind == 'stream' and field == 'supply' and fields[5]:
        fields[3] = made
    lines = lines.with_row(at, fields)
    # One at a single temperature begins and ends there.
    for end in ENDS if kind == 'stream' and fields[5] else ENDS & {field}:
        lines = with_kinks(lines, case, fields[1], end, made) if field in ENDS else lines
    return lines.text()


def with_whole_name(lines: CaseLines, case: Case, old: str, field: str, typed: str) -> CaseLines:
    """The lines with another name of a stream of several segments."""
    new = Typed(case).name(typed)
    if field != 'name' or all(stream.name != old for stream in case.basis.segments):
        raise NotDone(f'There is no {field} of a stream {old} of several segments.')
    if new != old and new in {stream.name for stream in (*case.basis.segments, *case.sources)}:
        raise NotDone(f'{new} is the name of another stream or utility.')
    for at, fields in enumerate(lines.rows):
        if fields and fields[0] == '#segment' and fields[1] == old:
            lines = lines.with_row(at, [fields[0], new, *fields[2:]])
    return lines


def with_kinks(lines: CaseLines, case: Case, segment: str, field: str, temperature: str) -> CaseLines:
    """The lines in which the segments beside one that ends or begins elsewhere now begin or end there; beyond one at a
    single temperature that goes on."""
    for beside in segments_beside(case, segment, field == 'target'):
        at = lines.found(f'stream {beside}')
        fields, latent = list(lines.rows[at]), bool(lines.rows[at][5])
        for place in (2, 3) if latent else (2,) if field == 'target' else (3,):
            fields[place] = temperature
        lines = lines.with_row(at, fields)
        if not latent:
            break
    return lines


def segments_beside(case: Case, segment: str, behind: bool) -> Sequence[str]:
    """The segments that follow one of the same stream, or those before it, the nearest first."""
    for stream in case.basis.segments:
        if segment in stream.segments:
            at = stream.segments.index(segment)
            return stream.segments[at + 1:] if behind else stream.segments[:at][::-1]
    return ()


def renamed(lines: CaseLines, old: str, new: str) -> CaseLines:
    """All rows with another name of a source."""
    names = {fields[1] for fields in lines.rows if fields and KINDS.get(fields[0]) in ('stream', 'utility')}
    if new in names and new != old:
        raise NotDone(f'{new} is the name of another stream or utility.')
    for at, fields in enumerate(lines.rows):
        places = NAMED.get(fields[0], ()) if fields else ()
        if any(fields[place] == old for place in places if place < len(fields)):
            made = [new if place in places and field == old else field for place, field in enumerate(fields)]
            lines = lines.with_row(at, made)
    return lines


def removed(text: str, row: str) -> str:
    """The text without a row, and without the forbidden matches, the segment, the name and the price of what goes."""
    lines = case_lines(text)
    if row.startswith(WHOLE):
        whole = row.removeprefix(WHOLE)
        segments = [fields[2] for fields in lines.rows if fields and fields[0] == '#segment' and fields[1] == whole]
        if not segments:
            raise NotDone(f'There is no {row} in the case.')
        for segment in segments:
            text = removed(text, f'stream {segment}')
        return text
    at = lines.found(row)
    name = lines.rows[at][1] if lines.rows[at][0] != 'forbid' else None
    lines = lines.with_row(at, None)
    for place in reversed(range(len(lines.rows))):
        fields = lines.rows[place]
        gone = fields[0] in ('forbid', '#segment', '#name', '#utility') if fields else False
        named = gone and name is not None and any(fields[at] == name for at in NAMED[fields[0]])
        if named:
            lines = lines.with_row(place, None)
    return lines.text()


def added(text: str, case: Case, what: str, fields: dict[str, str]) -> str:
    """The text with a new stream, utility or forbidden match behind those that are there."""
    lines, typed = case_lines(text), Typed(case)
    side = fields.get('side', '')
    if what == 'forbid':
        return with_forbidden(lines, case, fields.get('hot', ''), fields.get('cold', '')).text()
    if what not in ('stream', 'utility') or side not in ('hot', 'cold'):
        raise NotDone('It has to be a stream or a utility, on the hot or on the cold side.')
    if any(source.name == fields.get('name') for source in case.sources if not is_invented(source)):
        raise NotDone(f'{fields["name"]} is the name of another stream or utility.')
    row = stream_fields(typed, fields) if what == 'stream' else utility_fields(typed, fields)
    kinds = ('hot', 'cold') if what == 'stream' else ('heater', 'cooler', 'hot', 'cold')
    return lines.inserted(lines.behind(kinds), row).text()


def is_invented(source: Stream | Utility) -> bool:
    return isinstance(source, Utility) and source.invented


def stream_fields(typed: Typed, fields: dict[str, str]) -> list[str]:
    """The row of a new stream, with a CP, with a load from its supply to its target, or latent, with a load alone."""
    name, supply = typed.name(fields.get('name', '')), typed.field('supply', fields.get('supply', ''))
    own = typed.field('contribution', fields.get('contribution', ''))
    load = typed.field('load', fields.get('load', ''))
    given = {field: fields.get(field, '') for field in ('target', 'flow')}
    if load and not any(text.strip() for text in given.values()):
        return [fields['side'], name, supply, supply, '0', load, own]
    target = typed.field('target', given['target'])
    flow = typed.field('flow', given['flow']) if given['flow'].strip() or not load else ''
    if load:
        flow = flow_of(typed, abs(int(target) - int(supply)), int(load), flow)
    return [fields['side'], name, supply, target, flow, '', own]


def flow_of(typed: Typed, span: int, load: int, flow: str) -> str:
    """The CP of a load over a span of temperature; `NotDone` where a case cannot hold it, or another one is given."""
    shown = Shown(typed.case.basis)
    if not span:
        raise NotDone('A stream with the same supply and target is latent: give its load, and neither target nor CP.')
    if flow and int(flow) * span != load:
        raise NotDone(f'This CP gives {shown.heat(int(flow) * span)} {shown.heat_unit} from supply to target, and not '
                      f'{shown.heat(load)}: leave the CP or the load out.')
    wanted = Fraction(load, span)
    if wanted.denominator != 1:
        near = max(round(wanted), 1)
        raise NotDone(f'This load is a CP of {shown.flow(wanted)} {shown.flow_unit}, finer than a case can hold: give '
                      f'the CP {shown.flow(near)} in its place, which is {shown.heat(near * span)} {shown.heat_unit}.')
    return str(wanted)


def utility_fields(typed: Typed, fields: dict[str, str]) -> list[str]:
    kind = 'heater' if fields['side'] == 'hot' else 'cooler'
    numbers = [typed.field(field, fields.get(field, '')) for field in ('level', 'least', 'most')]
    price = typed.field('price', fields.get('price', '') or '0')
    return [kind, typed.name(fields.get('name', '')), *numbers, price,
            typed.field('contribution', fields.get('contribution', ''))]


def with_forbidden(lines: CaseLines, case: Case, hot: str, cold: str) -> CaseLines:
    """The lines with a forbidden match; of a stream of several segments with one for each that is not there yet."""
    segments = {stream.name: stream.segments for stream in case.basis.segments}
    sides = {source.name: source.side for source in case.sources}
    known = {(pair.hot, pair.cold) for pair in case.forbids}
    made = [pair for pair in product(segments.get(hot, (hot,)), segments.get(cold, (cold,))) if pair not in known]
    if not made:
        raise NotDone(f'{hot} and {cold} may not meet already.')
    for hot_name, cold_name in made:
        if sides.get(hot_name) is not Side.HOT or sides.get(cold_name) is not Side.COLD:
            raise NotDone('A forbidden match has a hot and a cold stream or utility.')
        row = ['forbid', hot_name, cold_name, '', '', '', '']
        lines = lines.inserted(lines.behind(('forbid', *KINDS)), row)
    return lines


def with_difference(text: str, case: Case, typed: str) -> str:
    """The text with another least approach: contributions that sources have of their own move by as much."""
    half = int(number_of(typed, lambda value: value * Shown(case.basis).units.steps / 2, 'least approach'))
    change = half - case.contribution
    lines = case_lines(text)
    for at, fields in enumerate(lines.rows):
        if fields and fields[0] == 'contribution':
            lines = lines.with_row(at, [fields[0], fields[1], str(half), *fields[3:]])
        elif len(fields) == WIDTH and KINDS.get(fields[0]) in ('stream', 'utility') and fields[6]:
            own = int(fields[6]) + change
            if own < 0:
                raise NotDone(f'{fields[1]} would have a contribution below 0.')
            lines = lines.with_row(at, [*fields[:6], str(own)])
    if half < 0:
        raise NotDone('The least approach cannot be below 0.')
    return lines.text()
