"""Puts the lines of a table together to a case."""
from __future__ import annotations

import re
from collections.abc import Sequence
from dataclasses import replace
from fractions import Fraction

from ..errors import Refused
from ..formats.case import Case, Forbid, Side, Stream, Utility
from ..formats.comments import Basis, basis_rows
from ..formats.cost_rows import CostRow
from ..formats.limits import CONTRIBUTION, MOST_COLD, MOST_FORBIDS, MOST_HOT, MOST_UTILITIES
from ..formats.shown import Shown, decimal
from .blocks import Blocks
from .cells import CellReader, Told
from .conversion import Converted, Wanted
from .doubts import below_titles, note_words, open_pairs, side_of_name, two_units, units_in_words
from .least_difference import half, is_bare, said_difference
from .own_units import ExactNumbers, in_own_units, whole
from .prices import PriceFault, PriceUnit, Priced, priced
from .range_segments import SegmentsOfRanges
from .ranged import RangeRow, without_ranges
from .roundings import RoundingSpan, span_of
from .rows import Body, Line
from .segmented import SegmentRows, fit_segments, size, temperature
from .sources import Entries
from .units import Kind
from .utility_prices import PriceReader
from .vocabulary import Heading


class Maker:
    """Puts the lines of a table together to a case."""

    def __init__(self, told: Told, reader: CellReader, entries: Entries, blocks: Blocks, wanted: Wanted,
                 segmented: Sequence[SegmentRows] = (), costs: Sequence[CostRow] = ()) -> None:
        self.told, self.reader, self.entries, self.blocks, self.wanted = told, reader, entries, blocks, wanted
        self.segmented = segmented
        self.prices = PriceReader(told, reader)
        self.contributions: list[tuple[int, int, Fraction]] = []
        self.streams: list[tuple[int, Stream, int | None]] = []
        self.stream_lines: list[tuple[Line, Side]] = []
        self.utilities: list[tuple[int, Utility, int | None]] = []
        self.priced: list[tuple[int, Line, Fraction | None, PriceUnit | None]] = []
        self.forbids: list[tuple[int, Forbid]] = []
        self.coefficients: list[CostRow] = []
        self.segments_of_ranges = SegmentsOfRanges(told, entries, self.prices, segmented)
        self.costs = costs
        # The pieces of heating curves without their tolerance, where there is one.
        self.whole_curves: Sequence[Line] = ()

    def made(self, body: Body, names: dict[str, str]) -> Converted:
        self.entries.spread, self.entries.trusted = spread_of(body.lines, self.reader)
        self.entries.changes = are_changes(body.lines, self.reader)
        for line in body.lines:
            self.take(line)
        for ranged in self.segments_of_ranges.wholes():
            self.utilities.append((ranged.row, ranged.utility, ranged.own))
            self.priced.append((ranged.row, ranged.line, *ranged.price))
        share, exact_share, share_row = self.contribution(body)
        self.settle(body)
        if not self.streams:
            raise Refused(3, '', 'no stream', 'the table has no stream: is its separator another one (--separator)?')
        utilities, basis = self.with_prices(share)
        own = {segment for stream in self.segmented for segment in stream.segments}
        changed = tuple((old, new) for old, new in names.items() if old != new and old not in own)
        basis = replace(basis, scale=self.wanted.scale, names=changed, cost_rows=(*self.coefficients, *self.costs),
                        segments=fit_segments(self.segmented, names))
        streams = tuple(replace(stream, contribution=share if own is None else own)
                        for _, stream, own in (*self.streams, *self.segments_of_ranges.streams))
        self.told.settle()
        case = Case(share, streams, tuple(utilities), tuple(forbid for _, forbid in self.forbids), basis)
        exact = tuple(self.entries.exact(line, side, exact_share) for line, side in self.stream_lines
                      if not (self.whole_curves and line.layout.curve))
        exact += tuple(curve_span(line, exact_share, self.reader) for line in self.whole_curves)
        numbers = self.numbers(exact_share)
        if self.wanted.own_units:
            case = in_own_units(case, numbers, self.reader, body.lines, self.told, self.entries.ends)
        split = without_ranges(case, {**self.range_rows(case, numbers), **self.segments_of_ranges.rows(names)})
        return Converted(split.case, self.told.table, self.origins(split.case, share_row), tuple(self.told.notes),
                         body.comments, exact, self.blocks, body,
                         f'{Shown(case.basis).least_difference(case.contribution)}, {self.origin(share_row)}',
                         split.ranges, split.forbids,
                         self.wanted.tolerance if self.whole_curves else Fraction(0))

    def origins(self, case: Case, share_row: int) -> tuple[int, ...]:
        """The row of the table behind each row of a case."""
        rows = {stream.name: row for row, stream, _ in self.streams}
        rows |= {utility.name: row for row, utility, _ in self.utilities}
        pairs = {forbid: row for row, forbid in self.forbids}
        return (*[share_row] * (len(list(basis_rows(case.basis))) + 1), *(rows[source.name] for source in case.sources),
                *(pairs[forbid] for forbid in case.forbids))

    def range_rows(self, case: Case, numbers: ExactNumbers) -> dict[str, RangeRow]:
        """The utilities with a range by their names, each with its end as the case has it."""
        made: dict[str, RangeRow] = {}
        for utility, source in zip(case.utilities, numbers.utilities):
            if source.row in self.entries.ends:
                end = self.entries.ends[source.row]
                if case.basis.units and source.target is not None:
                    exact = case.basis.units.of_tenths(source.target)
                    end = whole(exact, f'the target of {utility.name}', source.row, self.told)
                made[utility.name] = RangeRow(source.row, end)
        return made

    def origin(self, row: int) -> str:
        """Where the least difference comes from: the words, or this row of the table."""
        if self.wanted.difference is not None:
            return f'by -d {self.wanted.difference}'
        return f'by {self.told.table.place(row, None)} of the table'

    def numbers(self, share: Fraction) -> ExactNumbers:
        """What the table says of each source, before anything was rounded."""
        lines = [*(line for line, _ in self.stream_lines), *self.segments_of_ranges.lines]
        streams = tuple(self.entries.numbers(line, share) for line in lines)
        utilities = tuple(self.entries.numbers(line, share) for _, line, _, _ in self.priced)
        return ExactNumbers(share, streams, utilities)

    def settle(self, body: Body) -> None:
        """Tells a fault for what stands beside the numbers and contradicts what was taken of them."""
        for seen in body.others:
            self.reader.seen(*seen)
        two_units(self.blocks, body, self.told)
        self.reader.settle_units()
        units_in_words((*body.passed, *note_words(body.lines)), self.told, self.reader.taken)
        self.entries.check_signs()
        self.entries.check_scale()
        self.check_counts()
        sides = {id(line): side for line, side in self.stream_lines}
        below_titles(body.lines, sides, self.told)
        open_pairs(body.lines, sides, self.told)
        self.told.settle()

    def check_counts(self) -> None:
        """Tells a fault for the first source and the first pair that are too many."""
        hot, cold = ([row for row, stream, _ in self.streams if stream.side is side] for side in Side)
        for rows, most, what in ((hot, MOST_HOT, 'hot streams'), (cold, MOST_COLD, 'cold streams'),
                                 ([row for row, _, _ in self.utilities], MOST_UTILITIES, 'heaters and coolers'),
                                 ([row for row, _ in self.forbids], MOST_FORBIDS, 'forbidden matches')):
            if len(rows) > most:
                end = {1: 'st', 2: 'nd', 3: 'rd'}.get((most + 1) % 10 if most + 1 != 13 else 0, 'th')
                parts = ', of which each segment of a stream is one' if self.segmented and 'streams' in what else ''
                self.told.fault(rows[most], None, f'a case has at most {most} {what}{parts}, and this is the '
                                f'{most + 1}{end}')

    def take(self, line: Line) -> None:
        if line.kind == 'contribution':
            self.take_contribution(line)
        elif line.kind == 'forbid':
            self.take_forbid(line)
        elif line.is_stream:
            self.take_stream(line)
        else:
            self.take_utility(line)

    def take_stream(self, line: Line) -> None:
        stream = self.entries.stream(line)
        if stream:
            self.streams.append((line.row.number, *stream))
            self.stream_lines.append((line, stream[0].side))
            self.take_beside(line)

    def take_utility(self, line: Line) -> None:
        sided = self.entries.with_side(line)
        if sided is None:
            return
        if self.segments_of_ranges.has(line):
            self.segments_of_ranges.take(sided)
            self.take_beside(sided)
            return
        utility, price = self.entries.utility(sided), self.prices.price(sided)
        if utility:
            self.utilities.append((line.row.number, *utility))
            self.priced.append((line.row.number, sided, *price))
            self.take_beside(sided)

    def take_beside(self, line: Line) -> None:
        """What a row has beside the numbers of its source."""
        self.entries.check_twins(line)
        found = [self.entries.coefficient(line, heading) for heading in (Heading.FILM, Heading.OVERALL)]
        self.coefficients += [coefficient for coefficient in found if coefficient]

    def take_contribution(self, line: Line) -> None:
        """The contribution of the case: the one number of its row."""
        heading = Heading.CONTRIBUTION if self.entries.given(line, Heading.CONTRIBUTION) else Heading.SUPPLY
        used = {line.at(column_heading) for column_heading in (heading, Heading.KIND, Heading.NUMBER)}
        for column in sorted(set(line.columns.values()) - used):
            if self.reader.given(line.row, column):
                cause = f'`{line.row.cell(column).text}`: a contribution of the case has one number and no name'
                self.told.fault(line.row.number, column, cause)
        share = self.entries.limited(line, heading, Kind.DIFFERENCE, CONTRIBUTION)
        entered = self.reader.entered.get((line.row.number, line.columns[heading]))
        self.contributions.append((line.row.number, share or 0, entered.value if entered else Fraction(0)))

    def take_forbid(self, line: Line) -> None:
        """A pair that may not exchange heat: the hot name in the column of names, the cold one in the next one that is
        filled; of a stream in segments it is so of each."""
        at = line.at(Heading.NAME)
        behind = [cell.text for column, cell in line.row.filled() if at is not None and column > at]
        if not line.name() or len(behind) != 1:
            self.told.fault(line.row.number, at, 'a forbidden match has two names, the hot one and the cold one')
            return
        parts = {stream.name: stream.segments for stream in self.segmented}
        hot, cold = ([self.entries.names.get(part, part) for part in parts.get(name, (name,))]
                     for name in (line.name(), behind[0]))
        self.forbids += [(line.row.number, Forbid(giver, taker)) for giver in hot for taker in cold]

    def contribution(self, body: Body) -> tuple[int, Fraction, int]:
        """The contribution of the case, rounded and exact, and its row: of the table, or half of the least difference
        that is told, or that a title has."""
        difference = self.wanted.difference
        if len(self.contributions) > 1:
            self.told.fault(self.contributions[1][0], None, 'a second contribution')
        if self.contributions and difference is not None:
            self.told.fault(self.contributions[0][0], None, 'the table has a contribution, and -d gives one too')
        if self.contributions:
            row, share, exact = self.contributions[0]
            return share, exact, row
        said = said_difference(body.passed) if difference is None else None
        if said:
            self.told.note(said.row, said.column, f'the least difference is taken, {said.text}')
            difference = said.text
        if difference is None:
            return self.common_contribution()
        if self.reader.fahrenheit and is_bare(difference):
            cause = f'the least difference {difference} has no unit, and the table has degrees Fahrenheit: say ' \
                    f'-d "{difference} °F", or in kelvins as -d "10 K"'
            self.told.faults.append(Refused(3, '', 'no unit', cause))
            return 0, Fraction(0), 0
        return *half(difference, self.told), said.row if said else 0

    def common_contribution(self) -> tuple[int, Fraction, int]:
        """The contribution that each stream of the table has, which is then that of the case; a fault where they have
        none, or several."""
        own = {share for _, _, share in self.streams}
        exact = {self.entries.own_share(line) for line, _ in self.stream_lines}
        share, exact_share = next(iter(own), None), next(iter(exact), None)
        if len(own) == len(exact) == 1 and share is not None and exact_share is not None:
            row, line = self.streams[0][0], self.stream_lines[0][0]
            self.told.note(row, line.at(Heading.CONTRIBUTION), f'each stream has the contribution '
                           f'{Kind.DIFFERENCE.shown(share)}: it is that of the case too')
            return share, exact_share, row
        beside = ', which utilities have then' if own and None not in own else ''
        cause = f'no contribution: give the least difference, as -d 10{beside}'
        self.told.faults.append(Refused(3, '', 'no contribution', cause))
        return 0, Fraction(0), 0

    def with_prices(self, share: int) -> tuple[list[Utility], Basis]:
        """The utilities with whole prices, and the basis that turns them back."""
        given = [(value, unit) for _, _, value, unit in self.priced if value is not None]
        self.without_price()
        self.told.settle()
        try:
            made = priced([value for value, _ in given], [unit for _, unit in given], self.wanted.hours)
        except PriceFault as fault:
            row, line = next((row, line) for row, line, value, _ in self.priced if value is not None)
            raise self.told.table.refusal(row, line.at(Heading.PRICE), str(fault)) from fault
        if self.wanted.hours is not None and not (given and given[0][1]):
            self.told.once('--hours changes nothing, since no price has a unit')
        if given and given[0][1] is None:
            self.told.once('no unit is given for the prices: they are taken per W, in their proportion')
        self.tell_rounded(made)
        if given and not any(line.kind == 'heater' for _, line, _, _ in self.priced):
            self.without_heater(made.basis)
        made_prices = iter(made.prices)
        usual = {'heater': 0 if given else 1, 'cooler': 0}
        prices = [usual[line.kind] if value is None else next(made_prices)
                  for _, line, value, _ in self.priced]
        return [replace(utility, price=price, contribution=share if own is None else own)
                for (_, utility, own), price in zip(self.utilities, prices)], made.basis

    def tell_rounded(self, made: Priced) -> None:
        """Tells the prices that are not what the table has, since they have to be whole and within the limits."""
        shown = Shown(made.basis)
        with_price = [(row, line) for row, line, value, _ in self.priced if value is not None]
        for at, (row, line) in enumerate(with_price):
            if made.rounded(at):
                was, price = decimal(made.exact[at], 9), f'{shown.price(made.prices[at])} {shown.price_unit}'
                self.told.note(row, line.at(Heading.PRICE), f'the price {was} is rounded to {price}')

    def without_price(self) -> None:
        """Where no price stands at all a heater costs 1 and a cooler nothing; where some do all coolers may be without,
        and then cost nothing. That is told, and a fault where another one of the side has a price."""
        names = {kind: [line.name() for _, line, value, _ in self.priced if line.kind == kind and value is not None]
                 for kind in ('heater', 'cooler')}
        free = [(row, line) for row, line, value, _ in self.priced if value is None]
        for row, line in free:
            if names[line.kind] or line.kind == 'heater' and any(names.values()):
                other = next(name for name in (*names[line.kind], *names['cooler']))
                self.told.fault(row, line.at(Heading.PRICE), f'the price of {line.name()} is missing, and {other} has '
                                'one')
        coolers = [line.name() for _, line in free if line.kind == 'cooler']
        if not any(names.values()) and free:
            self.told.once('no price is given for the utilities: a heater costs 1 per W, and a cooler nothing')
        elif any(names.values()) and coolers:
            self.told.once(f'no price is given for {", ".join(coolers)}: a cooler costs nothing')
        elif any(names.values()) and not names['cooler']:
            self.told.once('no cooler is given: COLD is added, and costs nothing')

    def without_heater(self, basis: Basis) -> None:
        """Where prices stand and no heater does, `HOT` stands in at the price 1 per W, which no unit of prices has."""
        if basis.price_unit:
            row = self.priced[0][0]
            raise self.told.table.refusal(row, None, 'there are prices, and no heater with one: add the heater')
        self.told.once('no heater is given: HOT is added, at the price 1')


def curve_span(line: Line, share: Fraction, reader: CellReader) -> RoundingSpan:
    """A piece of a heating curve as the table has it; `share` is the contribution of the case."""
    supply, target = (temperature(line, heading, reader) for heading in (Heading.SUPPLY, Heading.TARGET))
    duty, own = (size(line, heading, kind, reader) for heading, kind in (
        (Heading.LOAD, Kind.HEAT), (Heading.CONTRIBUTION, Kind.DIFFERENCE)))
    # What is wrong with them was told of the pieces that the case has.
    assert supply is not None and target is not None and duty is not None
    return span_of(Side(line.kind), (supply, target), duty, share if own is None else own)


def spread_of(lines: Sequence[Line], reader: CellReader) -> tuple[tuple[Fraction, Fraction] | None, bool]:
    """The least and the greatest temperature of all streams, None where one is not known; and whether there are hot and
    cold ones by their names, as H1 and C1, and each runs as its name says."""
    ends = [[temperature(line, heading, reader) for heading in (Heading.SUPPLY, Heading.TARGET)] for line in lines
            if line.is_stream]
    known = [end for pair in ends for end in pair if end is not None]
    spread = (min(known), max(known)) if known and len(known) == 2 * len(ends) else None
    said = [(side_of_name(line), supply - target) for line, (supply, target) in zip(
        (line for line in lines if line.is_stream), ends) if supply is not None and target is not None
        and supply != target]
    named = [(side, fall) for side, fall in said if side]
    both = {side for side, _ in named} == {'hot', 'cold'}
    agreed = both and all((side == 'hot') == (fall > 0) for side, fall in named)
    # `H2` and `C3` alone may be hydrogen and propane.
    counted = any(side_of_name(line) == 'hot' and re.sub('[^0-9]', '', line.name()) != '2' for line in lines
                  if line.is_stream)
    return spread, agreed and counted


def are_changes(lines: Sequence[Line], reader: CellReader) -> bool:
    """Whether of the streams that run from one temperature to another each hot one has a duty below 0, each cold one
    has one above 0, and there are both."""
    said: set[tuple[bool, bool]] = set()
    for line in lines:
        supply, target = (temperature(line, heading, reader) for heading in (Heading.SUPPLY, Heading.TARGET))
        duty = reader.quiet(line.row, line.at(Heading.LOAD)) if line.has(Heading.LOAD) else None
        if line.is_stream and supply is not None and target is not None and supply != target and duty:
            said.add((supply > target, duty < 0))
    return said == {(True, True), (False, False)}
