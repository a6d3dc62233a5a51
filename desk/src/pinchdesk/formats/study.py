"""The price study: the only reader of it in the desk, and its printer (docs/FORMATS.md, *The price study*). Prices are
per W, as the rows of a case file have them; of a study in another unit see `studied`."""
from __future__ import annotations

import csv
import io
from collections.abc import Iterable, Sequence
from dataclasses import dataclass

from ..errors import Refused, refused_row
from ..text import read_again
from .case import is_passed_over, number, records

PER_WATT = 'per W'


@dataclass(frozen=True)
class PriceScenario:
    """One set of prices: those that are given, and of any other utility that of the case."""

    name: str
    prices: tuple[tuple[str, int], ...] = ()


@dataclass(frozen=True)
class Span:
    """Every whole price of one utility from the first to the last one."""

    utility: str
    first: int
    last: int


Item = PriceScenario | Span


@dataclass(frozen=True)
class Study:
    """The questions, in their order."""

    items: tuple[Item, ...]


def read_study(text: str | bytes) -> Study:
    """The study of a file's text. `Refused` where it is none as far as this reader sees; names and limits are for the
    program to check."""
    items: list[Item] = []
    scenario: int | None = None
    at, unit = unit_of_rows(records(text))
    if unit not in ('', PER_WATT):
        raise unit_refusal(at, f'the prices are in {unit}, and the program has them {PER_WATT}')
    for at, row in records(text):
        if len(row) != 4:
            raise refused_row('study', at, 'FieldCount')
        if is_passed_over(row):
            continue
        if row[0] == 'scenario':
            scenario = len(items)
            items.append(PriceScenario(row[1]))
        elif row[0] == 'span':
            items.append(Span(row[1], number('study', at, row[2]), number('study', at, row[3])))
        elif row[0] == 'price':
            if scenario is None:
                raise refused_row('study', at, 'NoScenario')
            items[scenario] = priced(items[scenario], row[1], number('study', at, row[2]))
        else:
            raise refused_row('study', at, 'UnknownKind')
    return Study(tuple(items))


def unit_of_rows(rows: Iterable[tuple[int, Sequence[str]]]) -> tuple[int, str]:
    """The unit that a study says its prices are in, with its row; `Refused` where it says two."""
    units = {read_again(row[1]): at for at, row in rows if len(row) == 4 and row[0] == '#price'}
    if len(units) > 1:
        raise unit_refusal(max(units.values()), f'a second unit of its prices: {" and ".join(units)}')
    return next(((at, unit) for unit, at in units.items()), (0, ''))


def unit_refusal(at: int, cause: str) -> Refused:
    place = f'study row {at}'
    return Refused(4, place, 'unit', f'{place}: {cause}')


def priced(item: Item, utility: str, price: int) -> PriceScenario:
    assert isinstance(item, PriceScenario)
    return PriceScenario(item.name, (*item.prices, (utility, price)))


def print_study(study: Study) -> str:
    """The study as a file; reading it gives the same study."""
    study_file = io.StringIO(newline='')
    writer = csv.writer(study_file, lineterminator='\n')
    writer.writerow(['#price', PER_WATT, '', ''])
    for item in study.items:
        if isinstance(item, Span):
            writer.writerow(['span', item.utility, item.first, item.last])
        else:
            writer.writerow(['scenario', item.name, '', ''])
            writer.writerows(['price', utility, price, ''] for utility, price in item.prices)
    return study_file.getvalue()
