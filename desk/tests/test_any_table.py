"""Any case as a table in any units, with any separator and mark, is read as the same case; any bytes are a table or
refused."""
from __future__ import annotations

from collections.abc import Callable
from dataclasses import replace
from decimal import Decimal
from fractions import Fraction
from typing import Any

from anycase import shares, streams, utilities
from conftest import CASES, example, tried
from hypothesis import assume, given
from hypothesis import strategies as some
from tabled import made, workbook

from pinchdesk import Case, Refused, Side, Stream, read_case
from pinchdesk.formats.case import Basis
from pinchdesk.tables.convert import Wanted

UNITS: dict[str, Callable[[int], Fraction]] = {
    '°C': lambda tenths: Fraction(tenths, 10),
    'K': lambda tenths: Fraction(tenths, 10) + Fraction('273.15'),
    '°F': lambda tenths: Fraction(tenths, 10) * Fraction(9, 5) + 32}
DIFFERENCES = {'K': Fraction(1, 10), '°F': Fraction(18, 100)}
FLOWS = {'kW/K': Fraction(1, 100), 'MW/°C': Fraction(1, 100_000), 'W/K': Fraction(10), 'kW per K': Fraction(1, 100)}
HEATS = {'kW': Fraction(1, 1000), 'MW': Fraction(1, 10 ** 6), 'W': Fraction(1), 'GJ/h': Fraction(36, 10 ** 7)}
HEAD = ['kind', 'name', 'supply', 'target', 'CP', 'duty', 'contribution', 'least', 'most', 'price']


def written(value: Fraction, mark: str) -> str:
    text = f'{Decimal(value.numerator) / Decimal(value.denominator):f}'
    return (text if '.' in text else text + '.0').replace('.', mark)


examples = some.sampled_from(CASES).map(lambda name: read_case(example(f'{name}.csv')))
# Rows of one name are one stream, and `test_segmented_tables` has them.
drawn = some.builds(Case, shares, some.lists(streams(), min_size=1, max_size=4,
                                             unique_by=lambda stream: stream.name).map(tuple),
                    some.lists(utilities(), max_size=2).map(tuple))


@some.composite
def tables(draw: Any) -> tuple[Case, str, str]:
    """A case, a table that says the same, and its decimal mark, which not each table settles."""
    case = draw(some.one_of(examples, drawn))
    mark = draw(some.sampled_from('.,'))
    separator = draw(some.sampled_from(';\t|,'))
    warm = draw(some.sampled_from([*UNITS]))
    flow, heat, apart = (draw(some.sampled_from([*factors])) for factors in (FLOWS, HEATS, DIFFERENCES))
    units = {'supply': warm, 'target': warm, 'CP': flow, 'duty': heat, 'contribution': apart, 'least': heat,
             'most': heat}
    rows = []
    for source in case.sources:
        share = written(source.contribution * DIFFERENCES[apart], mark)
        if isinstance(source, Stream):
            size = ['', written(source.load * HEATS[heat], mark)] if source.latent else [
                written(source.cp * FLOWS[flow], mark), '']
            ends = [written(UNITS[warm](end), mark) for end in (source.supply, source.target)]
            rows.append([source.side.value, source.name, *ends, *size, share, '', '', ''])
        else:
            bounds = [written(bound * HEATS[heat], mark) for bound in (source.least, source.most)]
            kind = 'heater' if source.side is Side.HOT else 'cooler'
            rows.append([kind, source.name, written(UNITS[warm](source.level), mark), '', '', '', share, *bounds,
                         str(source.price)])
    rows += [['forbid', forbid.hot, forbid.cold] for forbid in case.forbids]
    rows.append(['contribution', '', '', '', '', '', written(case.contribution * DIFFERENCES[apart], mark)])
    style = draw(some.sampled_from(['heading', 'row', 'cell']))
    head = [f'{heading} ({units[heading]})' if style == 'heading' and heading in units else heading for heading in HEAD]
    below = [[units.get(heading, '') for heading in HEAD]] if style == 'row' else []
    if style == 'cell':
        rows = [[f'{cell} {units[HEAD[at]]}' if HEAD[at] in units and cell[:1] in '-0123456789' and cell else cell
                 for at, cell in enumerate(row)] for row in rows]
    lines = [head, *below, *rows]
    quoted = [separator.join(f'"{cell}"' if separator in cell else cell for cell in row) for row in lines]
    return case, draw(some.sampled_from(['\n', '\r\n', '\r'])).join(quoted), mark


@tried(8, 50)
@given(tables(), some.sampled_from(['utf-8', 'utf-8-sig', 'latin-1', 'utf-16']))
def test_a_case_printed_as_a_table_is_read_as_the_same_case(printed: tuple[Case, str, str], encoding: str) -> None:
    case, text, mark = printed
    again = made(text.encode(encoding), Wanted(decimal=mark)).case
    assert replace(again, basis=Basis()) == replace(case, basis=Basis())


@tried(6, 20)
@given(tables())
def test_a_case_printed_as_a_workbook_is_read_as_the_same_case(printed: tuple[Case, str, str]) -> None:
    case, text, mark = printed
    lines = text.replace('\r\n', '\n').replace('\r', '\n').split('\n')
    separator = next(mark_between for mark_between in '\t|;,' if len(lines[0].split(mark_between)) == len(HEAD))
    assume(separator != ',')
    book = workbook([list(line.split(separator)) for line in lines])
    again = made(book, Wanted(decimal=mark), 't.xlsx').case
    assert replace(again, basis=Basis()) == replace(case, basis=Basis())


@given(some.binary(max_size=200))
def test_any_bytes_are_a_table_or_refused(content: bytes) -> None:
    try:
        made(content)
    except Refused as fault:
        assert fault.text


@given(some.text(some.sampled_from('HC1,;.\t\n "50°Ckhotcldnamesuprg'), max_size=120))
def test_any_text_is_a_table_or_refused(text: str) -> None:
    try:
        made(text)
    except Refused as fault:
        assert fault.text
