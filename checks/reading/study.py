"""The grammar of price studies."""
from __future__ import annotations
from dataclasses import dataclass

from reading.case import PRICE, Case
from reading.rows import NAME, Kinds, Refused, Row, kind_of, numbers, rows_of

STUDY_KINDS: Kinds = {'scenario': {1}, 'price': {1, 2}, 'span': {1, 2, 3}}
# How many items a study may have, and how many prices a span.
ITEMS, SPAN_PRICES = 1000, 100000


@dataclass
class Scenario:
    """The prices of all utilities of its case, in their order."""
    name: bytes
    prices: list[int]


@dataclass
class Span:
    """The first and the last price of a utility."""
    utility: bytes
    first: int
    last: int


Item = Scenario | Span


class StudyReader:
    """Takes the rows of a price study of a completed case one after the other."""

    def __init__(self, case: Case) -> None:
        self.names = [utility.name for utility in case.utilities]
        self.prices = [utility.price for utility in case.utilities]
        self.items: list[Item] = []
        self.scenario: Scenario | None = None
        self.priced: set[bytes] = set()

    def take(self, row: Row, at: int) -> None:
        kind = kind_of(row, at, STUDY_KINDS, 4)
        if kind is None:
            return
        if kind != 'price' and len(self.items) == ITEMS:
            raise Refused(at, 'TooMany')
        if kind == 'price' and self.scenario is None:
            raise Refused(at, 'NoScenario')
        if kind == 'scenario':
            return self.take_scenario(row[1], at)
        if row[1] not in self.names:
            raise Refused(at, 'UnknownName')
        if kind == 'price':
            self.take_price(row, at)
        else:
            self.take_span(row, at)

    def take_scenario(self, name: bytes, at: int) -> None:
        if not NAME.match(name):
            raise Refused(at, 'BadName')
        if any(isinstance(item, Scenario) and item.name == name for item in self.items):
            raise Refused(at, 'SameName')
        self.scenario, self.priced = Scenario(name, list(self.prices)), set()
        self.items.append(self.scenario)

    def take_price(self, row: Row, at: int) -> None:
        assert self.scenario is not None
        if row[1] in self.priced:
            raise Refused(at, 'Repeated')
        self.scenario.prices[self.names.index(row[1])] = numbers(row, (2,), (PRICE,), at)[0]
        self.priced.add(row[1])

    def take_span(self, row: Row, at: int) -> None:
        first, last = numbers(row, (2, 3), (PRICE, PRICE), at)
        if first > last:
            raise Refused(at, 'BadRange')
        if last - first >= SPAN_PRICES:
            raise Refused(at, 'TooWide')
        self.items.append(Span(row[1], first, last))


def study_of(data: bytes, case: Case) -> list[Item]:
    """The items of a price study of a completed case."""
    reader, rows = StudyReader(case), rows_of(data)
    for at, row in enumerate(rows, 1):
        reader.take(row, at)
    if not reader.items:
        raise Refused(len(rows) + 1, 'NoItem')
    return reader.items
