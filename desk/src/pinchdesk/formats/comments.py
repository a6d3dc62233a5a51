"""What a case says for the desk in rows that begin with `#` and that the program passes over: its scale, the units of
its prices and costs, the names that its table had, which of its streams are segments of one (`segments`) and which are
utilities (`ranges`), and what it says of areas and money (`cost_rows`)."""
from __future__ import annotations

from collections.abc import Iterator, Sequence
from dataclasses import dataclass, replace
from fractions import Fraction

from ..text import plain, printable, read_again
from .amounts import exact, shortened
from .case_units import CaseUnits, read_units, units_row
from .cost_rows import CostRow, printed_cost_row, read_cost_row, with_row
from .ranges import RangedUtility, range_rows, with_range
from .segments import SegmentedStream, segment_rows, with_segment

# What a scale and a divisor are at least; at most they are one over it. Prices in odd units have long divisors.
LEAST_SCALE, LEAST_DIVISOR, LONGEST = Fraction(1, 10 ** 6), Fraction(1, 10 ** 30), 400
# How the comment begins that says how far roundings take the targets.
ROUNDED = 'by what is rounded '
# How the one begins that says what the least difference is, and where it comes from.
DIFFERENCE = 'least difference '


@dataclass(frozen=True)
class Basis:
    """How the numbers of a case are those of its engineer.

    All heats, CPs and loads of the case are `scale` times the plant's. A price of the case divided by `price_divisor`
    is in `price_unit`; a cost divided by `cost_divisor` (and by the scale) is in `cost_unit`. `names` has each name
    that was made fit, as (name in the table, name in the case); `cost_rows` what is said of areas and money;
    `rounding` how far what the table rounded takes the targets, empty where it does not; `difference` the least
    difference and where it comes from, as `10 K, by -d 10`, empty where nothing says it. `units` are those of the table
    where the case has them, in place of tenths of °C and W; `segments` are the streams that it has in segments, and
    `ranges` those that are utilities with a range of temperature."""

    scale: Fraction = Fraction(1)
    price_unit: str = ''
    price_divisor: Fraction = Fraction(1)
    cost_unit: str = ''
    cost_divisor: Fraction = Fraction(1)
    names: tuple[tuple[str, str], ...] = ()
    cost_rows: tuple[CostRow, ...] = ()
    rounding: str = ''
    difference: str = ''
    units: CaseUnits | None = None
    segments: tuple[SegmentedStream, ...] = ()
    ranges: tuple[RangedUtility, ...] = ()


def noted(basis: Basis, row: Sequence[str]) -> Basis:
    """The basis with what a comment row of the desk says; any other comment says nothing. A `ValueError` where its
    number is none that there can be, or another one than a row above says."""
    word, first, second = row[0], read_again(row[1]), row[2]
    if word.startswith(f'# {ROUNDED}'):
        return replace(basis, rounding=printable(word[2:LONGEST]))
    if word.startswith(f'# {DIFFERENCE}'):
        return replace(basis, difference=printable(word[2:LONGEST]).removeprefix(DIFFERENCE))
    cost_row = read_cost_row(row)
    if cost_row:
        return replace(basis, cost_rows=with_row(basis.cost_rows, cost_row))
    if word == '#segment':
        return replace(basis, segments=with_segment(basis.segments, row))
    if word == '#utility':
        return replace(basis, ranges=with_range(basis.ranges, row))
    if word == '#name':
        return replace(basis, names=(*basis.names, (first, second)))
    if word == '#units':
        made = replace(basis, units=read_units(row))
        is_first = basis.units is None
    elif word == '#scale':
        made = replace(basis, scale=between(first, LEAST_SCALE))
        is_first = basis.scale == 1
    elif word == '#price':
        made = replace(basis, price_unit=first, price_divisor=between(second, LEAST_DIVISOR))
        is_first = not basis.price_unit
    elif word == '#cost':
        made = replace(basis, cost_unit=first, cost_divisor=between(second, LEAST_DIVISOR))
        is_first = not basis.cost_unit
    else:
        return basis
    if made != basis and not is_first:
        raise ValueError('a row above says something else')
    return made


def between(text: str, least: Fraction) -> Fraction:
    """A number of at least this and at most one over it; a `ValueError` where it is none."""
    try:
        number = exact(text, LONGEST)
    except ValueError:
        number = Fraction(0)
    if not least <= number <= 1 / least:
        raise ValueError(f'`{shortened(text)}` is not a number from {least} to {1 / least}')
    return number


def basis_rows(basis: Basis) -> Iterator[list[str]]:
    if basis.units:
        yield units_row(basis.units)
    if basis.scale != 1:
        yield ['#scale', str(basis.scale), '', '', '', '', '']
    if basis.price_unit:
        yield ['#price', plain(basis.price_unit), str(basis.price_divisor), '', '', '', '']
    if basis.cost_unit:
        yield ['#cost', plain(basis.cost_unit), str(basis.cost_divisor), '', '', '', '']
    for old, new in basis.names:
        yield ['#name', plain(old), new, '', '', '', '']
    yield from segment_rows(basis.segments)
    yield from range_rows(basis.ranges)
    yield from (printed_cost_row(row) for row in basis.cost_rows)
