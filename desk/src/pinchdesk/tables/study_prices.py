"""A price study in the unit of its case's prices. Where the case came from a table whose prices have a unit, the prices
of a study are in it too, as `price,LP,30.5,` in EUR/MWh. A row `#price,EUR/MWh,,` of the study says its unit, which is
checked; with `#price,per W,,` it has whole prices, as the rows of the case file have them."""
from __future__ import annotations

import csv
import io
from collections.abc import Iterable, Sequence
from dataclasses import dataclass, replace
from fractions import Fraction
from math import lcm

from ..errors import Refused
from ..formats.case import Case, Side, is_passed_over, records
from ..formats.shown import Shown
from ..formats.study import PER_WATT, unit_of_rows
from .numbers import NoNumber, Says, numeral_of, readings
from .prices import MOST, same_price_unit, times_ten

WIDEST = 100_000
# Which fields of a row are prices.
PRICED = {'price': (2,), 'span': (2, 3)}


@dataclass(frozen=True)
class Studied:
    """A case and its study as the program has them, and what is told of the unit of the prices."""

    case: Case
    content: bytes
    notes: tuple[str, ...] = ()


@dataclass(frozen=True)
class StudyRow:
    """A row of a study, with its prices in the program's unit, exact, by their fields."""

    at: int
    fields: tuple[str, ...]
    prices: dict[int, Fraction]


def studied(content: bytes, case: Case) -> Studied:
    """A study of a case. Where its prices are finer than the case's, all of the case are taken as many times as it
    needs. `Refused`, by its row, where a price is none, or none that the case can hold; all else is for the program to
    check."""
    rows, shown = list(records(content)), Shown(case.basis)
    at, told = unit_of_rows(rows)
    if told not in ('', PER_WATT) and not same_price_unit(told, shown.price_unit):
        raise refusal(at, f'the prices are in {told}, and those of the case {shown.price_unit}')
    check_ranges(rows, case)
    if not case.basis.price_unit or told == PER_WATT:
        return Studied(case, content)
    study_rows = [read_row(at, row, shown) for at, row in rows]
    times = times_of(study_rows, case)
    finer, text = with_finer(case, times), io.StringIO(newline='')
    csv.writer(text, lineterminator='\n').writerows(in_program(study_row, times, Shown(finer.basis))
                                                    for study_row in study_rows)
    note = f'its prices are taken in {shown.price_unit}, as those of the case'
    return Studied(finer, text.getvalue().encode(), () if told else (note,))


def check_ranges(rows: Iterable[tuple[int, Sequence[str]]], case: Case) -> None:
    """`Refused` where a row has a price of a utility with a range, which the program has as a stream."""
    names = {utility.name for utility in case.basis.ranges}
    for at, row in rows:
        if row[0] in PRICED and len(row) == 4 and row[1] in names:
            raise refusal(at, f'{row[1]} is a utility with a range, held as a stream, which has no price in the '
                          'program: its size rests on its price, so make another case with that')


def read_row(at: int, row: Sequence[str], shown: Shown) -> StudyRow:
    if row[0] == '#price':
        return StudyRow(at, (row[0], PER_WATT, *row[2:]), {})
    asked = PRICED.get(row[0], ()) if len(row) == 4 and not is_passed_over(row) else ()
    return StudyRow(at, tuple(row), {field: price(at, row[field], shown) for field in asked})


def price(at: int, text: str, shown: Shown) -> Fraction:
    """A price in the program's unit, exact."""
    try:
        numeral = numeral_of(text)
        if numeral.says is Says.EITHER or numeral.sign == '+':
            either = 'a change, and a study has prices' if numeral.sign == '+' else readings(numeral)
            raise refusal(at, f'`{text}` may be {either}')
        value = Fraction(numeral.value(numeral.says.value or '.'))
    except NoNumber as fault:
        raise refusal(at, f'`{text}`: {fault}') from fault
    if numeral.unit and not same_price_unit(numeral.unit, shown.price_unit):
        raise refusal(at, f'the prices of the case are in {shown.price_unit}, and `{numeral.unit}` is another unit')
    return value * shown.basis.price_divisor


def times_of(rows: Iterable[StudyRow], case: Case) -> int:
    """What the prices of a case are taken times, so that those of its study are whole too."""
    # HOT stands in at the price 1, whatever the others are taken times.
    fixed = all(utility.side is not Side.HOT for utility in case.utilities)
    largest, times = max((abs(Fraction(utility.price)) for utility in case.utilities), default=Fraction(0)), 1
    for row in rows:
        for field, exact in row.prices.items():
            largest, times = max(largest, abs(exact)), times_ten(lcm(times, exact.denominator))
            if largest * times > MOST or times > 1 and fixed:
                raise refusal(row.at, cause_of(row.fields[field], times, Shown(case.basis), fixed))
    return times


def cause_of(text: str, times: int, shown: Shown, fixed: bool) -> str:
    """Why a price of a study cannot be held."""
    if times > 1 and fixed:
        return f'{text} {shown.price_unit} is too fine: without a heater of its own the case has multiples of ' \
               f'{shown.price(1)}'
    step = Fraction(1, times)
    return f'{text} {shown.price_unit} is too large or too fine: in steps of {shown.price(step)}, which the prices ' \
           f'want, a case has at most {shown.price(step * MOST)}'


def with_finer(case: Case, times: int) -> Case:
    """A case with all its prices taken so many times, and its basis, so that they are shown as they were."""
    ranges = tuple(replace(utility, price=utility.price * times) for utility in case.basis.ranges)
    basis = replace(case.basis, price_divisor=case.basis.price_divisor * times,
                    cost_divisor=case.basis.cost_divisor * times, ranges=ranges)
    return replace(case, utilities=tuple(replace(utility, price=utility.price * times) for utility in case.utilities),
                   basis=basis)


def in_program(row: StudyRow, times: int, shown: Shown) -> list[str]:
    """A row of a study with whole prices."""
    prices = {field: int(exact * times) for field, exact in row.prices.items()}
    if row.fields[0] == 'span' and len(prices) == 2 and prices[3] - prices[2] >= WIDEST:
        raise refusal(row.at, f'from {row.fields[2]} to {row.fields[3]} {shown.price_unit} there are '
                      f'{prices[3] - prices[2] + 1} prices in steps of {shown.price(1)}, and a span has at most '
                      f'{WIDEST}')
    return [str(prices.get(field, text)) for field, text in enumerate(row.fields)]


def refusal(at: int, cause: str) -> Refused:
    place = f'study row {at}'
    return Refused(4, place, 'price', f'{place}: {cause}')
