"""The area target of a case, counter-current, by the *formula* on its balanced composite curves (Townsend and Linnhoff
1984): over each interval of heat the sum of heat times film resistance, over the logarithmic mean of the differences.

It is a target of the books and no bound: where films differ, a network that crosses the curves may have less (what no
network has less than is the *floor*). How the parts of an interval are paired changes nothing, and neither does a finer
cut. Where a case has overall coefficients of pairs, its hot and its cold parts meet in proportion to their heats, which
is the same where the pairs of an interval have one coefficient."""
from __future__ import annotations

from collections.abc import Mapping, Sequence
from dataclasses import dataclass, replace
from fractions import Fraction

from ..errors import DeskError, Refused, Status
from ..formats.case import Case, Side
from ..formats.shown import decimal
from ..program.answers import Cut
from ..program.run import Pinch
from .balanced import Carrier, HeatInterval, carriers, intervals_of
from .cost_data import CostData, EndTemperatures, refused
from .enclosure import Enclosure, total
from .log_mean import log_mean, over_log_mean


class NoHeatFlow(DeskError):
    """The case has no heat flow."""

    status = Status.NO


@dataclass(frozen=True)
class IntervalArea:
    """An interval of heat with its area in m²; `mean` is the logarithmic mean of its differences in K."""

    interval: HeatInterval
    area: Enclosure

    @property
    def mean(self) -> Enclosure:
        return log_mean(self.interval.warm_end, self.interval.cold_end)


@dataclass(frozen=True)
class AreaTarget:
    """The formula's area in m², with its intervals from the cold end up. `bound` says whether no network with these
    uses has less: that is so where all films are equal, or all pairs have one coefficient. `in_proportion` where an
    interval has pairs of several coefficients that are not made of films."""

    area: Enclosure
    intervals: tuple[IntervalArea, ...]
    bound: bool
    in_proportion: bool = False


def area_target(data: CostData, uses: Mapping[str, int | Fraction]) -> AreaTarget:
    """The area target at these uses of the utilities, in W of the case; `Refused` where a coefficient is missing, or
    where the curves touch."""
    return target_by_pairs(data, carriers(data, uses, True)) if data.overalls else target_of(carriers(data, uses))


def asked_area(pinch: Pinch, case: Case) -> AreaTarget:
    """The area target of a completed case with the uses of `pinch flow`; `NoHeatFlow` where there is none."""
    flow = pinch.uses(case)
    if isinstance(flow, Cut):
        raise NoHeatFlow('there is no heat flow, so there is no area')
    return area_target(CostData(case), {use.name: use.heat for use in flow.uses})


def target_of(members: Sequence[Carrier]) -> AreaTarget:
    """The target of these carriers by their films."""
    areas = tuple(interval_area(interval) for interval in intervals_of(members))
    equal = all(member.resistance == members[0].resistance for member in members)
    return AreaTarget(total(area.area for area in areas), areas, equal)


def target_by_pairs(data: CostData, members: Sequence[Carrier]) -> AreaTarget:
    """The target of these carriers by the coefficients of their pairs."""
    areas: list[IntervalArea] = []
    in_proportion = False
    for interval in intervals_of(members):
        resistances = pair_resistances(data, members, interval)
        in_proportion |= len(resistances) > 1 and len({resistance for _, resistance in resistances}) > 1
        needed = sum((share * resistance for share, resistance in resistances), Fraction(0))
        areas.append(interval_area(replace(interval, resistance=needed)))
    return AreaTarget(total(area.area for area in areas), tuple(areas), has_one_coefficient(data, members),
                      in_proportion)


def pair_resistances(data: CostData, members: Sequence[Carrier],
                     interval: HeatInterval) -> list[tuple[Fraction, Fraction]]:
    """The pairs of an interval: the share of its heat that passes between the two, in m² K/W what that needs."""
    sides = [sharing(members, side, ends) for side, ends in ((Side.HOT, interval.hot), (Side.COLD, interval.cold))]
    return [(above * below, 1 / data.coefficient(hot.source, cold.source))
            for hot, above in sides[0] for cold, below in sides[1]]


def sharing(members: Sequence[Carrier], side: Side, ends: EndTemperatures) -> list[tuple[Carrier, Fraction]]:
    """The carriers of a side in an interval with these ends, each with its share of the heat there."""
    flat = ends.high == ends.low
    inside = [member for member in members if member.source.side is side and member.flat == flat
              and member.ends.low <= ends.low and ends.high <= member.ends.high]
    flows = [member.heat if flat else member.heat / (member.ends.high - member.ends.low) for member in inside]
    whole = sum(flows, Fraction(0))
    return [(member, flow / whole) for member, flow in zip(inside, flows)]


def has_one_coefficient(data: CostData, members: Sequence[Carrier]) -> bool:
    """Whether all pairs that could be have the same coefficient; one that is not given may be any."""
    sources = [[member.source for member in members if member.source.side is side] for side in (Side.HOT, Side.COLD)]
    try:
        return len({data.coefficient(hot, cold) for hot in sources[0] for cold in sources[1]}) < 2
    except Refused:
        return False


def interval_area(interval: HeatInterval) -> IntervalArea:
    check_differences(interval)
    needed = interval.heat * interval.resistance
    return IntervalArea(interval, over_log_mean(needed, interval.warm_end, interval.cold_end))


def check_differences(interval: HeatInterval) -> None:
    """`Refused` where the curves touch or cross, which would be an infinite area."""
    for difference, heat, hot in ((interval.cold_end, interval.begin, interval.hot.low),
                                  (interval.warm_end, interval.end, interval.hot.high)):
        if difference <= 0:
            raise refused('balanced curves', f'at {decimal(heat / 1000, 3)} kW from the cold end the difference is '
                          f'{decimal(difference, 3)} K where the hot curve has {decimal(hot / 10, 2)} °C: no area is '
                          'large enough. Take a larger least difference, or a utility that reaches')
