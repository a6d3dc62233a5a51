"""Price studies by the definition of docs/FORMATS.md: what each item has to be answered, from least costs that come
from elsewhere."""
from __future__ import annotations
from collections.abc import Callable
import random

from reading.case import Case
from reading.study import Item, Scenario, Span

# Spans of no more prices are cut into segments price by price.
SHORT = 60
# First and last price, base and slope.
Segment = tuple[int, int, int, int]


class Costs:
    """The least costs of a completed case at other prices of its utilities."""

    def __init__(self, case: Case, search: Callable[[Case], int | None]) -> None:
        self.case, self.search = case, search
        self.kept: dict[tuple[int, ...], int | None] = {}
        self.prices = tuple(utility.price for utility in case.utilities)
        self.names = [utility.name for utility in case.utilities]

    def cost(self, prices: tuple[int, ...]) -> int | None:
        if prices not in self.kept:
            self.set(prices)
            self.kept[prices] = self.search(self.case)
            self.set(self.prices)
        return self.kept[prices]

    def set(self, prices: tuple[int, ...]) -> None:
        for utility, price in zip(self.case.utilities, prices):
            utility.price = price

    def along(self, utility: bytes) -> Callable[[int], int]:
        """The least cost over the price of one utility, where there is a heat flow."""
        at = self.names.index(utility)

        def cost(price: int) -> int:
            found = self.cost(self.prices[:at] + (price,) + self.prices[at + 1:])
            if found is None:
                raise ValueError('no heat flow')
            return found

        return cost


def segments_of(cost: Callable[[int], int], first: int, last: int) -> list[Segment]:
    """The segments by the definition, price by price."""
    segments, price = [], first
    while price <= last:
        slope = cost(price + 1) - cost(price) if price < last else 0
        end = price
        while end < last and cost(end + 1) == cost(price) + (end + 1 - price) * slope:
            end += 1
        segments.append((price, end, cost(price) - price * slope, slope))
        price = end + 1
    return segments


def fault_of_long(draw: random.Random, cost: Callable[[int], int], first: int, last: int,
                  segments: list[Segment]) -> str | None:
    """What is wrong with the segments of a long span, looked at where it matters and at some prices between."""
    at = first
    for begin, end, base, slope in segments:
        if begin != at or not begin <= end <= last:
            return 'how the segments follow each other at %d' % at
        prices = [begin, end, draw.randrange(begin, end + 1)] + ([begin + 1] if begin < last else [])
        if begin == last and slope or any(cost(price) != base + price * slope for price in prices):
            return 'the line from %d' % begin
        if end < last and cost(end + 1) == base + (end + 1) * slope:
            return 'the end %d' % end
        at = end + 1
    return None if at == last + 1 else 'the end of the span'


def fault_of_span(draw: random.Random, costs: Costs, span: Span, lines: list[str]) -> str | None:
    first, last, words = span.first, span.last, 'span %s ' % span.utility.decode()
    if costs.cost(costs.prices) is None:
        return None if lines == [words + 'infeasible'] else 'that there is no heat flow'
    if not all(line.startswith(words) for line in lines):
        return 'the words'
    fields = [tuple(map(int, line[len(words):].split(' '))) for line in lines]
    segments: list[Segment] = [(begin, end, base, slope) for begin, end, base, slope in fields]
    if lines != ['%s%d %d %d %d' % (words, *segment) for segment in segments]:
        return 'the numbers'
    cost = costs.along(span.utility)
    if last - first < SHORT:
        return None if segments == segments_of(cost, first, last) else 'the segments'
    return fault_of_long(draw, cost, first, last, segments)


def fault_of_scenario(costs: Costs, scenario: Scenario, lines: list[str]) -> str | None:
    cost = costs.cost(tuple(scenario.prices))
    told = 'scenario %s %s' % (scenario.name.decode(), 'infeasible' if cost is None else cost)
    return None if lines == [told] else 'the cost, which is %s' % cost


def lines_of_span(last: int, lines: list[str]) -> int:
    """How many of the lines, from the first, are those of a span: up to its last price."""
    for number, line in enumerate(lines, 1):
        fields = line.split(' ')
        if fields[-1] == 'infeasible' or len(fields) < 4 or fields[3] == str(last):
            return number
    return len(lines)


def lines_by_item(items: list[Item], written: str) -> list[list[str]]:
    """The lines of each item of a study, and those behind the last one."""
    lines, found = written.split('\n')[:-1], []
    for item in items:
        there = 1 if isinstance(item, Scenario) else lines_of_span(item.last, lines)
        found.append(lines[:there])
        lines = lines[there:]
    return found + [lines]


def study_fault(draw: random.Random, costs: Costs, items: list[Item], written: str) -> str | None:
    """What is wrong with the text of `prices` for the items of a study, or None."""
    if not written.endswith('\n'):
        return 'the end of the text'
    lines = lines_by_item(items, written)
    for number, (item, told) in enumerate(zip(items, lines), 1):
        fault = (fault_of_scenario(costs, item, told) if isinstance(item, Scenario)
                 else fault_of_span(draw, costs, item, told))
        if fault:
            return 'item %d, %s: %s' % (number, item, fault)
    return 'more lines' if lines[-1] else None
