"""A table that is made of a case, with titles, notes, comments, sums and units mixed in, is read as the same case or
refused, and never as another one."""
from __future__ import annotations

import csv
import io
from collections.abc import Callable
from dataclasses import dataclass, replace
from decimal import Decimal
from fractions import Fraction
from typing import Any

from conftest import CASES, example, tried
from hypothesis import event, given
from hypothesis import strategies as some
from tabled import made, workbook

from pinchdesk import Case, Refused, Side, Stream, read_case
from pinchdesk.formats.case import Basis
from pinchdesk.tables.convert import Wanted

HEAD = ['kind', 'name', 'supply', 'target', 'CP', 'duty', 'contribution', 'least', 'most', 'price']
WARM, APART, FLOW, HEAT = range(4)
KINDS = {'supply': WARM, 'target': WARM, 'CP': FLOW, 'duty': HEAT, 'contribution': APART, 'least': HEAT, 'most': HEAT}
UNITS: tuple[dict[str, Callable[[int], Fraction]], ...] = (
    {'°C': lambda tenths: Fraction(tenths, 10), 'K': lambda tenths: Fraction(tenths, 10) + Fraction('273.15'),
     '°F': lambda tenths: Fraction(tenths, 10) * Fraction(9, 5) + 32},
    {'K': lambda tenths: Fraction(tenths, 10), '°F': lambda tenths: Fraction(18 * tenths, 100)},
    {'kW/K': lambda cp: Fraction(cp, 100), 'MW/K': lambda cp: Fraction(cp, 100_000),
     'W/K': lambda cp: Fraction(10 * cp), '10^3 kW/K': lambda cp: Fraction(cp, 100_000), '10 W/K': Fraction},
    {'kW': lambda watts: Fraction(watts, 1000), 'MW': lambda watts: Fraction(watts, 10 ** 6), 'W': Fraction,
     'GJ/h': lambda watts: Fraction(36 * watts, 10 ** 7), '1000 kW': lambda watts: Fraction(watts, 10 ** 6),
     '100 kW': lambda watts: Fraction(watts, 10 ** 5)})
DEFAULTS = ('°C', 'K', 'kW/K', 'kW')
SAID = (('all temperatures in {}', 'Temperatures: {}', 'T [{}]', 'TEMPERATURE / {}', 'T in {}, Q in kW'),
        ('contributions in {}', 'differences in {}', 'dT [{}]'),
        ('CP in {}', 'CP ({})', 'HEAT CAPACITY FLOWS IN {}', 'mcp = {}'),
        ('duties in {}', 'DUTIES IN {}', 'Q [{}]', 'all heats: {}', 'loads, {}'))
CASED = ('as it is', 'upper', 'lower')
SUMS = (['', '1780'], ['1780 kW'], ['', '1.5 MW'], ['12.5', '1780'], ['', '1000 kW'], ['', '', '', '10', '20'],
        ['', '-'])
NOTES = ('Plant 7', 'revision 2 of 2026', 'Kemp, K. Smith (2007)', 'a furnace of 20 MW', 'at 66 bar', 'feed', 'heat',
         'Sum', 'hot', 'cold streams', 'Stream data', '# a comment', '#2 of 3', 'total', '-', 'n/a', 'in',
         'dTmin = 10 K', 'CP', 'supply', 'units', 'average', '10', '3.5', '1000', 'x', 'Utilities', 'US units',
         'checked by A. B.', 'all in SI')


def written(value: Fraction) -> str:
    return f'{Decimal(value.numerator) / Decimal(value.denominator):f}'


@dataclass(frozen=True)
class Mixed:
    """A table by its rows, what it says, and whether something in it says that it may be refused."""

    rows: list[list[str]]
    case: Case
    plain: bool


def rows_of(case: Case, units: tuple[str, ...]) -> list[list[str]]:
    """The rows of a table that says what a case says, in these units."""
    def number(kind: int, value: int) -> str:
        return written(UNITS[kind][units[kind]](value))
    rows = []
    for source in case.sources:
        share = number(APART, source.contribution)
        if isinstance(source, Stream):
            size = ['', number(HEAT, source.load)] if source.latent else [number(FLOW, source.cp), '']
            ends = [number(WARM, source.supply), number(WARM, source.target)]
            rows.append([source.side.value, source.name, *ends, *size, share])
        else:
            kind = 'heater' if source.side is Side.HOT else 'cooler'
            rows.append([kind, source.name, number(WARM, source.level), '', '', '', share, number(HEAT, source.least),
                         number(HEAT, source.most), str(source.price)])
    rows += [['forbid', pair.hot, pair.cold] for pair in case.forbids]
    return [*rows, ['contribution', '', '', '', '', '', number(APART, case.contribution)]]


@some.composite
def mixed(draw: Any) -> Mixed:
    case = read_case(example(f'{draw(some.sampled_from(CASES))}.csv'))
    units = tuple(draw(some.sampled_from([*units_of_kind])) for units_of_kind in UNITS)
    rows = rows_of(case, units)
    styles = [draw(some.sampled_from(['heading', 'row', 'above', 'cell', 'said'] + ['nowhere'] * (unit == usual)))
              for unit, usual in zip(units, DEFAULTS)]
    head = [f'{heading} ({units[KINDS[heading]]})' if heading in KINDS and styles[KINDS[heading]] == 'heading'
            else heading for heading in HEAD]
    below, above = ([units[KINDS[heading]] if heading in KINDS and styles[KINDS[heading]] == style else ''
                     for heading in HEAD] for style in ('row', 'above'))
    for row in rows:
        for at, cell in enumerate(row):
            kind = KINDS.get(HEAD[at]) if at < len(HEAD) else None
            if kind is None or styles[kind] != 'cell':
                continue
            if units[kind].startswith('1'):
                below[at] = units[kind]
            elif cell and row[0] != 'forbid':
                row[at] = f'{cell} {units[kind]}'
    said = [[cased(draw(some.sampled_from(SAID[kind])).format(units[kind]), draw(some.sampled_from(CASED)))]
            for kind in range(4) if styles[kind] == 'said']
    body = [head, *[below] * any(below), *rows]
    body = [above, *body] if any(above) else body
    extras = said + draw(some.lists(some.one_of(
        some.builds(note_row, some.sampled_from(NOTES), some.integers(0, len(HEAD) - 1)),
        some.builds(sum_row, some.sampled_from(['', 'Sum', 'total', 'Σ', 'H9']), some.sampled_from(SUMS))), max_size=3))
    for extra in extras:
        body.insert(draw(some.integers(0, len(body))), extra)
    # A unit that stands nowhere is open where others of the table are not the usual ones.
    return Mixed(body, case, not extras and ('nowhere' not in styles or units == DEFAULTS))


def cased(text: str, how: str) -> str:
    return text.upper() if how == 'upper' else text.lower() if how == 'lower' else text


def sum_row(name: str, cells: list[str]) -> list[str]:
    return ['', name, '', '', *cells]


def note_row(text: str, column: int) -> list[str]:
    return [''] * column + [text]


def is_same(content: bytes, table: Mixed, name: str = 't.csv') -> bool:
    """Whether the table is read as the case that it says; False where it is refused."""
    try:
        again = made(content, Wanted(decimal='.'), name).case
    except Refused as fault:
        assert not table.plain, fault.text
        event('refused')
        return False
    assert replace(again, basis=Basis()) == replace(table.case, basis=Basis())
    event('read')
    return True


def text_of(rows: list[list[str]], separator: str) -> bytes:
    content = io.StringIO()
    csv.writer(content, delimiter=separator).writerows(rows)
    return content.getvalue().encode()


@tried(60, 100)
@given(mixed(), some.sampled_from(';\t|,'))
def test_a_mixed_table_is_read_as_its_case_or_refused(table: Mixed, separator: str) -> None:
    is_same(text_of(table.rows, separator), table)


@tried(6, 30)
@given(mixed())
def test_a_mixed_workbook_is_read_as_its_case_or_refused(table: Mixed) -> None:
    rows: list[list[object]] = [[Decimal(cell) if cell.replace('.', '').replace('-', '').isdigit() else cell or None
                                 for cell in row] for row in table.rows]
    is_same(workbook(rows), table, 't.xlsx')
