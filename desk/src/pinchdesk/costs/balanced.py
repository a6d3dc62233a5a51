"""Balanced composite curves: all hot and all cold sources, utilities with their uses, over one axis of heat, cut at
each corner of either curve. Temperatures are actual, in tenths of °C; heats in W of the plant; all of it exact."""
from __future__ import annotations

from collections.abc import Iterable, Iterator, Mapping, Sequence
from dataclasses import dataclass
from fractions import Fraction
from itertools import groupby

from ..formats.case import Side, Source, Utility
from .cost_data import CostData, EndTemperatures


@dataclass(frozen=True)
class Carrier:
    """A source, or a part of it, with the heat that it gives or takes over its range."""

    source: Source
    ends: EndTemperatures
    heat: Fraction
    resistance: Fraction

    @property
    def flat(self) -> bool:
        return self.ends.high == self.ends.low


@dataclass(frozen=True)
class CurvePiece:
    """A straight piece of a composite curve, from its cold end up: temperatures, places on the axis of heat, the
    resistance of a watt, and how many sources there are in it."""

    low: Fraction
    high: Fraction
    begin: Fraction
    end: Fraction
    resistance: Fraction
    sources: int

    def at(self, heat: Fraction) -> Fraction:
        """The temperature at a place."""
        return self.low + (heat - self.begin) / (self.end - self.begin) * (self.high - self.low)


@dataclass(frozen=True)
class HeatInterval:
    """An interval of heat in which both curves are straight. `cold_end` and `warm_end` are the differences there, in
    K."""

    begin: Fraction
    end: Fraction
    hot: EndTemperatures
    cold: EndTemperatures
    resistance: Fraction
    sources: int

    @property
    def heat(self) -> Fraction:
        return self.end - self.begin

    @property
    def cold_end(self) -> Fraction:
        return (self.hot.low - self.cold.low) / 10

    @property
    def warm_end(self) -> Fraction:
        return (self.hot.high - self.cold.high) / 10


def carriers(data: CostData, uses: Mapping[str, int | Fraction], by_pairs: bool = False) -> tuple[Carrier, ...]:
    """All streams, and the utilities with their uses in W of the case; `Refused` where one has no film. Where
    coefficients are given `by_pairs` one without a film has the resistance 0, which nothing is made of."""
    found: list[Carrier] = []
    for source in data.case.sources:
        heat = uses.get(source.name, 0) if isinstance(source, Utility) else source.heat
        if heat:
            ends = data.ends(source)
            resistance = data.films.get(source.name, Fraction(0)) if by_pairs else data.resistance(source)
            found.append(Carrier(source, ends, data.watts(heat), resistance))
    return tuple(found)


def composite(members: Iterable[Carrier]) -> tuple[CurvePiece, ...]:
    """The composite curve of carriers of one side, from its cold end up; what stands at one temperature is a piece of
    its own."""
    corners: list[tuple[Fraction, int, Carrier]] = []
    for member in members:
        ends = ((member.ends.low, 0),) if member.flat else ((member.ends.low, 1), (member.ends.high, -1))
        corners += [(temperature, change, member) for temperature, change in ends]
    return tuple(pieces_of(sorted(corners, key=lambda corner: corner[0])))


def pieces_of(corners: Sequence[tuple[Fraction, int, Carrier]]) -> Iterator[CurvePiece]:
    """The pieces between corners by rising temperature: where a carrier begins (1), ends (-1), or has all its heat
    (0)."""
    place, flow, resisting, sources = Fraction(0), Fraction(0), Fraction(0), 0
    below = corners[0][0] if corners else Fraction(0)
    for temperature, here in groupby(corners, key=lambda corner: corner[0]):
        if sources:
            end = place + flow * (temperature - below)
            yield CurvePiece(below, temperature, place, end, resisting / flow, sources)
            place = end
        changes = list(here)
        level = [member for _, change, member in changes if not change]
        if level:
            heat = sum((member.heat for member in level), Fraction(0))
            weighed = sum((member.heat * member.resistance for member in level), Fraction(0))
            yield CurvePiece(temperature, temperature, place, place + heat, weighed / heat, len(level))
            place += heat
        for _, change, member in changes:
            if change:
                own = change * member.heat / (member.ends.high - member.ends.low)
                flow, resisting, sources = flow + own, resisting + own * member.resistance, sources + change
        below = temperature


def intervals_of(members: Sequence[Carrier]) -> tuple[HeatInterval, ...]:
    """The intervals of the balanced curves of these carriers, from the cold end up; a `ValueError` where what is given
    is not what is taken."""
    hot, cold = (composite(member for member in members if member.source.side is side)
                 for side in (Side.HOT, Side.COLD))
    heats = [curve[-1].end if curve else Fraction(0) for curve in (hot, cold)]
    if heats[0] != heats[1]:
        raise ValueError('the heats of both sides do not balance')
    return tuple(merged_pieces(hot, cold))


def merged_pieces(hot: Sequence[CurvePiece], cold: Sequence[CurvePiece]) -> Iterator[HeatInterval]:
    place, upper, lower = Fraction(0), 0, 0
    warm, cool = (curve[0].low if curve else Fraction(0) for curve in (hot, cold))
    while upper < len(hot) and lower < len(cold):
        above, below = hot[upper], cold[lower]
        is_last_above, is_last_below = above.end <= below.end, below.end <= above.end
        end = above.end if is_last_above else below.end
        warmer = above.high if is_last_above else above.at(end)
        cooler = below.high if is_last_below else below.at(end)
        yield HeatInterval(place, end, EndTemperatures(warmer, warm), EndTemperatures(cool, cooler),
                           above.resistance + below.resistance, above.sources + below.sources)
        place, warm, cool = end, warmer, cooler
        if is_last_above:
            upper += 1
            warm = hot[upper].low if upper < len(hot) else warm
        if is_last_below:
            lower += 1
            cool = cold[lower].low if lower < len(cold) else cool
