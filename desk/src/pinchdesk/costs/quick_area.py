"""The area of the formula alone, in whole numbers: the same as `area_target` has it, and some ten times as fast, for a
supertarget with hundreds of steps; and the shells that it takes.

Temperatures, flows and places along the axis of heat are whole in common parts. At the end of an interval one of the
curves has a corner, so a difference there is a whole number over the flow of the other curve. What is left is a series
or a logarithm, in whole parts of a power of two, rounded down for the low end and up for the high one."""
from __future__ import annotations

from collections.abc import Callable, Iterator, Sequence
from dataclasses import dataclass
from fractions import Fraction
from functools import lru_cache
from itertools import groupby
from math import ceil, floor, gcd, lcm

from ..formats.case import Side
from .balanced import Carrier
from .enclosure import Enclosure, between
from .log_mean import NEAR, ONE, logarithm_ends, series_ends
from .shells import RATIOS, correction_at, shell_share

# A factor in whole parts, by the flows of the cold and of the hot curve; 0 is that of a level.
Share = Callable[[int, int], tuple[int, int]]


@dataclass(frozen=True)
class WholeParts:
    """In how many parts of a tenth of a kelvin, of a flow in W per tenth, and of a resistance numbers are whole."""

    temperature: int
    flow: int
    resistance: int


@dataclass(frozen=True)
class WholePiece:
    """A straight piece of a composite curve in whole parts: its ends by temperature and along the axis of heat, its
    flow (0 of a level), its resistance over `weight`, and how many sources there are in it."""

    low: int
    high: int
    begin: int
    end: int
    flow: int
    resistance: int
    weight: int
    sources: int

    def at(self, place: int) -> tuple[int, int]:
        """The temperature at a place, as a whole number over another one."""
        if place == self.end:
            return self.high, 1
        return (self.low * self.flow + place - self.begin, self.flow) if self.flow else (self.low, 1)


def quick_area(members: Sequence[Carrier]) -> Enclosure | None:
    """The area of the formula of these carriers by their films, in m²; None where their curves touch or cross."""
    return area_of(members, lambda below, above: (ONE, ONE))


def quick_one_two(members: Sequence[Carrier], part: Fraction) -> Enclosure | None:
    """The same in 1-2 shells, each of which reaches this part of the greatest effectiveness."""
    return area_of(members, lambda below, above: over_correction(*reduced_flows(below, above), part))


def area_of(members: Sequence[Carrier], share: Share) -> Enclosure | None:
    """The area of all intervals, each times its share."""
    parts = parts_of(members)

    def weighing(above: WholePiece, below: WholePiece) -> tuple[int, int]:
        return 10 * (above.resistance * below.weight + below.resistance * above.weight), above.weight * below.weight
    return sum_of(members, parts, weighing, share, parts.flow * parts.resistance)


def quick_shells(members: Sequence[Carrier], part: Fraction) -> Enclosure | None:
    """The 1-2 shells of these carriers, a real number: those of an interval for each of its sources but one; None where
    their curves touch or cross."""
    def weighing(above: WholePiece, below: WholePiece) -> tuple[int, int]:
        return above.sources + below.sources - 1, below.flow or 1
    return sum_of(members, parts_of(members), weighing,
                  lambda below, above: shells_a_mean(*reduced_flows(below, above), part), 1)


def sum_of(members: Sequence[Carrier], parts: WholeParts,
           weighing: Callable[[WholePiece, WholePiece], tuple[int, int]], share: Share, whole: int) -> Enclosure | None:
    """What a watt of each interval weighs, a number over another one, over its logarithmic mean and times a share in
    whole parts, which its flows have; None where the curves touch or cross."""
    hot, cold = (list(curve([member for member in members if member.source.side is side], parts))
                 for side in (Side.HOT, Side.COLD))
    low = high = 0
    for first, last, above, below, heat in intervals(hot, cold):
        if first[0] <= 0 or last[0] <= 0:
            return None
        needed, weight = weighing(above, below)
        ends, factor = interval_ends(first, last, heat * needed, weight), share(below.flow, above.flow)
        low, high = low + ends[0] * factor[0] // ONE, high - (-ends[1] * factor[1] // ONE)
    return between(Fraction(low, ONE * whole), Fraction(high, ONE * whole))


def reduced_flows(below: int, above: int) -> tuple[int, int]:
    """The flows of both curves as small as their ratio lets them be; 0 where one has a level."""
    common = gcd(below, above)
    return (below // common, above // common) if below and above else (0, 0)


@lru_cache(maxsize=RATIOS)
def over_correction(below: int, above: int, part: Fraction) -> tuple[int, int]:
    """One over Ft in whole parts, by both flows."""
    return whole_ends(1 / correction_at(Fraction(below, above), part)) if above else (ONE, ONE)


@lru_cache(maxsize=RATIOS)
def shells_a_mean(below: int, above: int, part: Fraction) -> tuple[int, int]:
    """How many shells are needed for each logarithmic mean that the cold side warms up, in whole parts."""
    return whole_ends(shell_share(Fraction(below, above), part)) if above else (0, 0)


def whole_ends(number: Enclosure) -> tuple[int, int]:
    return floor(number.low * ONE), ceil(number.high * ONE)


def parts_of(members: Sequence[Carrier]) -> WholeParts:
    heats = [member.heat if member.flat else member.heat / (member.ends.high - member.ends.low) for member in members]
    ends = [end.denominator for member in members for end in (member.ends.low, member.ends.high)]
    return WholeParts(lcm(*ends), lcm(*(heat.denominator for heat in heats)),
                      lcm(*(member.resistance.denominator for member in members)))


def whole_of(number: Fraction, parts: int) -> int:
    return number.numerator * (parts // number.denominator)


def curve(members: Sequence[Carrier], parts: WholeParts) -> Iterator[WholePiece]:
    """The composite curve of carriers of one side, from its cold end up."""
    corners: list[tuple[int, int, int, int]] = []
    for member in members:
        low, high = (whole_of(end, parts.temperature) for end in (member.ends.low, member.ends.high))
        resistance = whole_of(member.resistance, parts.resistance)
        if low == high:
            heat = whole_of(member.heat, parts.flow) * parts.temperature
            corners.append((low, 0, heat, heat * resistance))
        else:
            flow = whole_of(member.heat / (member.ends.high - member.ends.low), parts.flow)
            corners += [(low, 1, flow, flow * resistance), (high, 1, -flow, -flow * resistance)]
    place, flow, resisting, below, sources = 0, 0, 0, 0, 0
    for temperature, here in groupby(sorted(corners), key=lambda corner: corner[0]):
        if flow:
            end = place + flow * (temperature - below)
            yield WholePiece(below, temperature, place, end, flow, resisting, flow, sources)
            place = end
        changes = list(here)
        level = sum(heat for _, slope, heat, _ in changes if not slope)
        if level:
            yield WholePiece(temperature, temperature, place, place + level, 0,
                             sum(weighed for _, slope, _, weighed in changes if not slope), level,
                             sum(not slope for _, slope, _, _ in changes))
            place += level
        flow += sum(change for _, slope, change, _ in changes if slope)
        resisting += sum(weighed for _, slope, _, weighed in changes if slope)
        sources += sum(1 if change > 0 else -1 for _, slope, change, _ in changes if slope)
        below = temperature


Difference = tuple[int, int]


def intervals(hot: Sequence[WholePiece], cold: Sequence[WholePiece],
              ) -> Iterator[tuple[Difference, Difference, WholePiece, WholePiece, int]]:
    """The intervals in which both curves are straight: the differences at both ends, both pieces, and the heat."""
    place, upper, lower = 0, 0, 0
    warm, cool = ((pieces[0].low, 1) if pieces else (0, 1) for pieces in (hot, cold))
    while upper < len(hot) and lower < len(cold):
        above, below = hot[upper], cold[lower]
        end = min(above.end, below.end)
        warmer, cooler = above.at(end), below.at(end)
        yield less(warm, cool), less(warmer, cooler), above, below, end - place
        place, warm, cool = end, warmer, cooler
        if above.end == end:
            upper += 1
            warm = (hot[upper].low, 1) if upper < len(hot) else warm
        if below.end == end:
            lower += 1
            cool = (cold[lower].low, 1) if lower < len(cold) else cool


def less(warm: tuple[int, int], cool: tuple[int, int]) -> Difference:
    """A difference of two temperatures, a whole number over another one."""
    return warm[0] * cool[1] - cool[0] * warm[1], warm[1] * cool[1]


def interval_ends(first: Difference, last: Difference, needed: int, weight: int) -> tuple[int, int]:
    """Both ends, in whole parts, of a number over another one and over the logarithmic mean of an interval."""
    one, other = first[0] * last[1], last[0] * first[1]
    needed *= first[1] * last[1]
    gap, both = abs(one - other), one + other
    if gap * gap * NEAR.denominator < both * both * NEAR.numerator:
        low, high = series_ends(gap * gap, both * both)
        needed, weight = 2 * needed, weight * both
    else:
        low, high = logarithm_ends(max(one, other), min(one, other))
        weight *= gap
    return needed * low // weight, -(-needed * high // weight)
