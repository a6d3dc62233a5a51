"""Utilities of a table that have several segments, as boiler feed water, steam from it and superheat: rows of one name,
each with its CP or its duty, which are proportions of one another."""
from __future__ import annotations

from collections.abc import Iterator, Mapping, Sequence
from dataclasses import dataclass, replace
from fractions import Fraction

from ..formats.case import ANY_HEAT, Stream, Utility
from .cells import Told
from .prices import PriceUnit
from .ranged import RangeRow
from .rows import Line
from .segmented import SegmentRows, named
from .sources import Entries
from .utility_prices import PriceReader
from .vocabulary import Heading

Price = tuple[Fraction | None, PriceUnit | None]


@dataclass(frozen=True)
class RangeWhole:
    """A utility of several segments as one: the row of its first segment, with its price."""

    row: int
    line: Line
    utility: Utility
    own: int | None
    price: Price


class SegmentsOfRanges:
    """Takes the segments of utilities; what is wrong is told as a fault."""

    def __init__(self, told: Told, entries: Entries, prices: PriceReader, segmented: Sequence[SegmentRows]) -> None:
        self.told, self.entries, self.prices = told, entries, prices
        self.segmented = [stream for stream in segmented if stream.is_utility]
        self.streams: list[tuple[int, Stream, int | None]] = []
        self.lines: list[Line] = []
        self.taken: dict[str, list[tuple[Line, Stream, int | None]]] = {}

    def has(self, line: Line) -> bool:
        return any(line.name() in utility.segments for utility in self.segmented)

    def take(self, line: Line) -> None:
        """Takes a segment, whose kind is heater or cooler."""
        made = self.entries.stream(replace(line, kind='hot' if line.kind == 'heater' else 'cold'), has_price=True)
        if made:
            whole = next(utility for utility in self.segmented if line.name() in utility.segments)
            self.streams.append((line.row.number, *made))
            self.lines.append(line)
            self.taken.setdefault(whole.name, []).append((line, *made))

    def wholes(self) -> Iterator[RangeWhole]:
        """The utilities that these segments are, each with the price that one of them has, or all of them."""
        for whole in self.segmented:
            parts = self.taken.get(whole.name, [])
            if len(parts) < len(whole.segments):
                # What is wrong with the others is told.
                continue
            line, first, own = next(part for part in parts if part[0].name() == whole.segments[0])
            if self.entries.levels:
                self.told.fault(line.row.number, line.at(Heading.NAME), f'{whole.name} has several segments, of which '
                                '--ranges level makes no level: enter it in one row')
            if all(stream.latent for _, stream, _ in parts):
                self.told.fault(line.row.number, line.at(Heading.NAME), f'{whole.name} has one temperature: a utility '
                                'at one level is one row, without a load')
            priced = [(segment, self.prices.price(segment)) for segment, _, _ in parts
                      if self.entries.given(segment, Heading.PRICE)]
            for segment, price in priced[1:]:
                if price != priced[0][1]:
                    self.told.fault(segment.row.number, segment.at(Heading.PRICE), f'the segments of {whole.name} have '
                                    'two prices: a utility has one')
            name = self.entries.names.get(whole.name, whole.name)
            utility = Utility(name, first.side, first.supply, 0, ANY_HEAT, 0, 0)
            yield RangeWhole(line.row.number, named(line, whole.name, None), utility, own,
                             priced[0][1] if priced else (None, None))

    def rows(self, names: Mapping[str, str]) -> dict[str, RangeRow]:
        """The utilities by their names in the case, with those of their segments."""
        rows = {line.name(): line.row.number for line in self.lines}
        return {names[whole.name]: RangeRow(rows[whole.segments[0]], 0, tuple(names[name] for name in whole.segments))
                for whole in self.segmented}
