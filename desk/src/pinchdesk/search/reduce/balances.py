"""The duties of a structure as a linear program: each temperature along a stream is a sum over the duties before it.

With the shares of all lanes fixed, or in proportion to the duties where a parting is level, the least cost of a
structure is a linear program (what is left open by Linnhoff and Hindmarsh 1983 is how to find the structure). Duties
are in W and temperatures in tenths of °C; a variable is a duty divided by `unit`, so that none is far from 1000."""
from __future__ import annotations

from collections.abc import Iterator, Mapping, Sequence
from dataclasses import dataclass
from fractions import Fraction

from ...formats.case import Case, Side, Source, Stream
from ..solver.linear import Program, LinearRow, Terms
from .structure import Course, Parting, Structure, Through, throughs


@dataclass(frozen=True)
class Sum:
    """A constant and a multiple of each variable."""

    constant: Fraction
    terms: Mapping[int, Fraction]

    def plus(self, other: Sum, factor: Fraction = Fraction(1)) -> Sum:
        terms = dict(self.terms)
        for at, multiple in other.terms.items():
            terms[at] = terms.get(at, Fraction(0)) + factor * multiple
        return Sum(self.constant + factor * other.constant, terms)

    def at(self, point: Sequence[Fraction]) -> Fraction:
        """The sum at a point."""
        return self.constant + sum((factor * point[at] for at, factor in self.terms.items()), Fraction(0))

    def row(self, low: Fraction | None, high: Fraction | None, more: Terms = ()) -> LinearRow:
        """The row that keeps the sum between two bounds; `more` are further terms."""
        below, above = (None if bound is None else bound - self.constant for bound in (low, high))
        return LinearRow((*((at, multiple) for at, multiple in self.terms.items() if multiple), *more), below, above)


NOTHING = Sum(Fraction(0), {})


@dataclass(frozen=True)
class Ends:
    """Where one side of an exchanger enters and leaves it."""

    inlet: Sum
    outlet: Sum


class DutyModel:
    """The rows of a structure, and the programs that are made of them."""

    def __init__(self, case: Case, structure: Structure) -> None:
        self.case, self.structure = case, structure
        self.names = tuple(structure.pairs)
        self.at = {name: at for at, name in enumerate(self.names)}
        self.sources = {source.name: source for source in case.sources}
        self.unit = Fraction(max(any_stream.heat for any_stream in case.streams), 1000)
        # What costs are measured by: the greatest heat at the greatest price.
        self.scale = 1000 * self.unit * max([1, *(abs(utility.price) for utility in case.utilities)])
        self.most = tuple(self.exchanged(*(self.sources[source_name] for source_name in structure.pairs[name]))
                          for name in self.names)
        self.ends: dict[tuple[str, Side], Ends] = {}
        self.lane_rows: list[LinearRow] = []
        for stream in case.streams:
            begin = Fraction(stream.supply) if not stream.latent else Fraction(stream.side is Side.HOT)
            self.walk(stream, structure.courses[stream.name], Sum(begin, {}), Fraction(stream.size))

    def exchanged(self, hot: Source, cold: Source) -> Fraction:
        """The most that two sources can exchange by their temperatures, in W."""
        approach = hot.contribution + cold.contribution
        warm, cool = beginning(hot), beginning(cold)
        reach = Fraction(warm - approach - cool)
        if reach < 0:
            return Fraction(0)
        return min(given(source, reach) for source in (hot, cold))

    def duty(self, name: str) -> Sum:
        return Sum(Fraction(0), {self.at[name]: self.unit})

    def walk(self, stream: Stream, course: Course, state: Sum, size: Fraction) -> Sum:
        """Follows a course; the state behind it."""
        for step in course:
            if isinstance(step, Through):
                behind = self.passed(stream, state, self.duty(step.exchanger), size)
                self.note(stream, step.exchanger, state, behind)
            else:
                behind = self.parted(stream, step, state, size)
            state = behind
        return state

    def passed(self, stream: Stream, state: Sum, duty: Sum, size: Fraction) -> Sum:
        return state.plus(duty, (-1 if stream.side is Side.HOT else 1) / size)

    def parted(self, stream: Stream, parting: Parting, state: Sum, size: Fraction) -> Sum:
        duties = [self.duty(name) for lane in parting.lanes for name in throughs(lane.course)]
        whole = NOTHING
        for duty in duties:
            whole = whole.plus(duty)
        behind = self.passed(stream, state, whole, size)
        for lane in parting.lanes:
            if parting.level:
                for name in throughs(lane.course):
                    self.note(stream, name, state, behind)
                continue
            end = self.walk(stream, lane.course, state, size * lane.share)
            if stream.latent:
                self.lane_rows.append(end.row(Fraction(0), Fraction(1)))
        return behind

    def note(self, stream: Stream, exchanger: str, inlet: Sum, outlet: Sum) -> None:
        if stream.latent:
            inlet = outlet = Sum(Fraction(stream.supply), {})
        self.ends[exchanger, stream.side] = Ends(inlet, outlet)

    def side(self, exchanger: str, side: Side) -> Ends:
        """One side of an exchanger; a utility has its level at both ends."""
        source = self.sources[self.structure.pairs[exchanger][side is Side.COLD]]
        if isinstance(source, Stream):
            return self.ends[exchanger, side]
        level = Sum(Fraction(source.level), {})
        return Ends(level, level)

    def sum_of(self, source: Source) -> Sum:
        """What a source exchanges in all, in W."""
        whole = NOTHING
        for name, pair in self.structure.pairs.items():
            if source.name in pair:
                whole = whole.plus(self.duty(name))
        return whole

    @property
    def cost(self) -> Sum:
        """What the utilities cost, in price times W."""
        whole = NOTHING
        for utility in self.case.utilities:
            whole = whole.plus(self.sum_of(utility), Fraction(utility.price))
        return whole

    def balance_rows(self) -> Iterator[LinearRow]:
        """Each stream exchanges its heat, and each utility within its range; an exchanger that stays has its duty."""
        for source in self.case.sources:
            if isinstance(source, Stream):
                yield self.sum_of(source).row(Fraction(source.heat), Fraction(source.heat))
            else:
                yield self.sum_of(source).row(Fraction(source.least), Fraction(source.most))
        for name, duty in self.structure.kept.items():
            yield self.duty(name).row(duty, duty)
        yield from self.lane_rows

    def approach_rows(self, optional: bool) -> Iterator[LinearRow]:
        """Both ends of each exchanger; where they are optional, of those that are there."""
        for name, pair in self.structure.pairs.items():
            approach = Fraction(sum(self.sources[source_name].contribution for source_name in pair))
            hot, cold = self.side(name, Side.HOT), self.side(name, Side.COLD)
            slack = max(Fraction(0), approach - self.least_difference(pair)) if optional else Fraction(0)
            if optional and not slack:
                continue
            for warm, cool in ((hot.inlet, cold.outlet), (hot.outlet, cold.inlet)):
                more = ((len(self.names) + self.at[name], -slack),) if optional else ()
                yield warm.plus(cool, Fraction(-1)).row(approach - slack, None, more)

    def least_difference(self, pair: tuple[str, str]) -> Fraction:
        """A difference that no two places of two sources go below, whatever the duties are."""
        hot, cold = (self.sources[source_name] for source_name in pair)
        return Fraction(self.coldest(hot) - self.warmest(cold))

    def coldest(self, hot: Source) -> int:
        if not isinstance(hot, Stream):
            return hot.level
        lanes = has_shares(self.structure.courses[hot.name])
        return min([hot.target, *(beginning(source) for source in self.sources.values() if lanes)])

    def warmest(self, cold: Source) -> int:
        if not isinstance(cold, Stream):
            return cold.level
        lanes = has_shares(self.structure.courses[cold.name])
        return max([cold.target, *(beginning(source) for source in self.sources.values() if lanes)])

    def cheapest(self) -> Program:
        """The least cost with all exchangers; one may have the duty 0."""
        count = len(self.names)
        rows = (*self.balance_rows(), *self.approach_rows(False))
        highs = tuple(heat / self.unit for heat in self.most)
        return Program((Fraction(0),) * count, highs, frozenset(), rows, tuple(self.cost.terms.items()))

    def fewest(self, cost: Fraction, most: int) -> Program:
        """The fewest of the exchangers, and at most so many, that cost no more than this."""
        count = len(self.names)
        return self.chosen(most, cost, tuple((count + at, Fraction(1)) for at in range(count)))

    def cheapest_of(self, most: int, cost: Fraction | None, fresh: frozenset[str]) -> Program:
        """The least cost with at most so many of the exchangers, and no more than this. Each of the `fresh` ones counts
        as a little cost, so that of the cheapest choices one with few of them is taken."""
        little = ((len(self.names) + at, self.scale / 10 ** 4) for name, at in self.at.items() if name in fresh)
        return self.chosen(most, cost, (*self.cost.terms.items(), *little))

    def chosen(self, most: int, cost: Fraction | None, aim: Terms) -> Program:
        """A choice of at most so many of the exchangers: behind the duties stand variables that are 1 for those that
        are there."""
        count = len(self.names)
        rows = [*self.balance_rows(), *self.approach_rows(True)]
        for at, high in enumerate(self.most):
            rows.append(LinearRow(((at, Fraction(1)), (count + at, -high / self.unit)), None, Fraction(0)))
        rows.append(LinearRow(tuple((count + at, Fraction(1)) for at in range(count)), None, Fraction(most)))
        if cost is not None:
            rows.append(self.cost.row(None, cost))
        highs = (*(heat / self.unit for heat in self.most), *(Fraction(heat > 0) for heat in self.most))
        return Program((Fraction(0),) * (2 * count), highs, frozenset(range(count, 2 * count)), tuple(rows), aim)


def has_shares(course: Course) -> bool:
    """Whether there is a parting whose shares are fixed, in whose lanes a stream may pass its target."""
    return any(isinstance(step, Parting) and not step.level for step in course)


def beginning(source: Source) -> int:
    """The temperature at which a source begins: the warmest of a hot one, the coldest of a cold one."""
    return source.supply if isinstance(source, Stream) else source.level


def given(source: Source, reach: Fraction) -> Fraction:
    """What a source can exchange within so many tenths of °C from its beginning, in W."""
    if not isinstance(source, Stream):
        return Fraction(source.most)
    return Fraction(source.load) if source.latent else min(Fraction(source.heat), source.cp * reach)
