"""What `pinch` answers, as plain data. All numbers are the program's: temperatures in tenths of °C (shifted where not
said otherwise), heats in W, prices per W, costs in price times W. `text` is what it printed, byte for byte.

Each answer that is a list of rows has them as `rows()`, and as a data frame by `frame()` where pandas is there."""
from __future__ import annotations

from collections.abc import Iterator, Mapping
from dataclasses import dataclass, field
from fractions import Fraction
from typing import Any

from ..errors import WordsError
from ..formats.case import Side

Row = Mapping[str, object]


class Rows:
    """An answer that is a list of rows."""

    def rows(self) -> Iterator[Row]:
        raise NotImplementedError

    def frame(self) -> Any:
        """The rows as a `pandas.DataFrame`; `WordsError` where pandas is not installed."""
        try:
            import pandas
        except ImportError as fault:
            raise WordsError('frame() needs pandas, which is not installed') from fault
        return pandas.DataFrame(list(self.rows()))


def printed() -> Any:
    return field(default='', repr=False, compare=False)


@dataclass(frozen=True)
class Targets(Rows):
    """The least hot and cold utility, and the pinches from the highest down."""

    hot: int
    cold: int
    pinches: tuple[int, ...]
    text: str = printed()

    def rows(self) -> Iterator[Row]:
        yield {'what': 'hot', 'value': self.hot}
        yield {'what': 'cold', 'value': self.cold}
        yield from ({'what': 'pinch', 'value': pinch} for pinch in self.pinches)


@dataclass(frozen=True)
class Part:
    """A part of a source: its shifted range, of one temperature where it is latent or a utility."""

    name: str
    high: int
    low: int


@dataclass(frozen=True)
class Use:
    """What a utility gives or takes in all."""

    name: str
    heat: int


@dataclass(frozen=True)
class Move:
    """A transfer from a hot to a cold part."""

    hot: Part
    cold: Part
    heat: int


@dataclass(frozen=True)
class Price:
    """The price of one watt at a part: the proof that no heat flow costs less."""

    part: Part
    price: int


@dataclass(frozen=True)
class HeatFlow(Rows):
    """A heat flow of least cost, with the prices that prove it."""

    cost: int
    uses: tuple[Use, ...]
    moves: tuple[Move, ...]
    gives: tuple[Price, ...]
    takes: tuple[Price, ...]
    text: str = printed()

    def use(self, name: str) -> int:
        """The heat of this utility; 0 where it is none of the case."""
        return next((use.heat for use in self.uses if use.name == name), 0)

    def rows(self) -> Iterator[Row]:
        return move_rows(self.moves)


def move_rows(moves: tuple[Move, ...]) -> Iterator[Row]:
    for move in moves:
        yield {'hot': move.hot.name, 'hot high': move.hot.high, 'hot low': move.hot.low, 'cold': move.cold.name,
               'cold high': move.cold.high, 'cold low': move.cold.low, 'heat': move.heat}


@dataclass(frozen=True)
class Cut(Rows):
    """The proof that there is no heat flow: parts of one side that need more than the other side has on offer for them.

    `side` is `COLD` where the parts demand heat, `HOT` where they have to give it."""

    side: Side
    need: int
    offer: int
    parts: tuple[Part, ...]
    text: str = printed()

    def rows(self) -> Iterator[Row]:
        return ({'part': part.name, 'high': part.high, 'low': part.low} for part in self.parts)


@dataclass(frozen=True)
class Point:
    """A corner of a curve: heat in W, temperature in tenths of °C."""

    heat: int
    temperature: int


@dataclass(frozen=True)
class Curves(Rows):
    """The composite curves over actual temperatures, rising, and the grand composite curve over shifted ones,
    falling."""

    hot: tuple[Point, ...]
    cold: tuple[Point, ...]
    net: tuple[Point, ...]
    text: str = printed()

    def rows(self) -> Iterator[Row]:
        for curve, points in (('hot', self.hot), ('cold', self.cold), ('net', self.net)):
            yield from ({'curve': curve, 'heat': point.heat, 'temperature': point.temperature} for point in points)


@dataclass(frozen=True)
class Design:
    """A network that the program made: `text` is what `read_network` reads."""

    hot: Fraction
    cold: Fraction
    excess: Fraction
    cost: Fraction
    text: str = printed()


@dataclass(frozen=True)
class SweepRow:
    """Targets and least cost at a contribution in all sources; the cost is None where there is no heat flow."""

    contribution: int
    hot: int
    cold: int
    cost: int | None


@dataclass(frozen=True)
class Sweep(Rows):
    """The rows of a sweep."""

    points: tuple[SweepRow, ...]
    text: str = printed()

    @property
    def feasible(self) -> bool:
        """Whether there is a heat flow in each row."""
        return all(point.cost is not None for point in self.points)

    def rows(self) -> Iterator[Row]:
        for point in self.points:
            yield {'contribution': point.contribution, 'hot': point.hot, 'cold': point.cold, 'cost': point.cost}


@dataclass(frozen=True)
class PriceScenarioAnswer:
    """The least cost at the prices of a scenario; None where there is no heat flow."""

    name: str
    cost: int | None


@dataclass(frozen=True)
class Segment:
    """At each price P from the first to the last one the least cost is `base` and P times `slope`."""

    first: int
    last: int
    base: int
    slope: int

    def cost(self, price: int) -> int:
        return self.base + price * self.slope


@dataclass(frozen=True)
class SpanAnswer:
    """The least cost over the prices of a utility; no segment where there is no heat flow."""

    utility: str
    segments: tuple[Segment, ...]


PriceAnswer = PriceScenarioAnswer | SpanAnswer


@dataclass(frozen=True)
class Prices(Rows):
    """The answers to a price study, in the order of its questions."""

    answers: tuple[PriceAnswer, ...]
    text: str = printed()

    @property
    def feasible(self) -> bool:
        """Whether there is a heat flow in each scenario and over each span."""
        return all(answer.segments if isinstance(answer, SpanAnswer) else answer.cost is not None
                   for answer in self.answers)

    def rows(self) -> Iterator[Row]:
        for answer in self.answers:
            if isinstance(answer, PriceScenarioAnswer):
                yield {'scenario': answer.name, 'cost': answer.cost}
            else:
                yield from ({'span': answer.utility, 'first': segment.first, 'last': segment.last, 'base': segment.base,
                             'slope': segment.slope} for segment in answer.segments)


@dataclass(frozen=True)
class Profile:
    """At a shifted temperature: what the plants can take above it, and what they can give below it, in W."""

    temperature: int
    sink: int
    source: int


@dataclass(frozen=True)
class SiteAnswer(Rows):
    """The profiles of a site, and its heat flow, or the cut that proves that there is none: then boiler and cooling
    are None."""

    profiles: tuple[Profile, ...]
    boiler: int | None
    cooling: int | None
    moves: tuple[Move, ...]
    gives: tuple[Price, ...]
    takes: tuple[Price, ...]
    cut: Cut | None
    text: str = printed()

    @property
    def feasible(self) -> bool:
        return self.cut is None

    def rows(self) -> Iterator[Row]:
        return ({'temperature': profile.temperature, 'sink': profile.sink, 'source': profile.source}
                for profile in self.profiles)
