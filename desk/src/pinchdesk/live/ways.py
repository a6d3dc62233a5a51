"""Loops and paths of what is placed, each with the exact range of heat that can be moved along it. All temperatures are
affine in the heat that is moved, so that two plans give the whole range."""
from __future__ import annotations

from collections.abc import Sequence
from dataclasses import dataclass
from fractions import Fraction

from ..formats.case import ANY_HEAT, Side
from ..formats.shown import Shown
from ..search.reduce.paths import Leg, Shift
from .gestures import NotDone
from .pieces import HandPlan, changed, replaced
from .seats import settled
from .way_finding import found_ways

MOST_WAYS = 60


@dataclass(frozen=True)
class Bound:
    """A number that has to stay at 0 or above: its value where nothing is moved, and how it changes with each watt.
    `told` says what stops there; `place` is the exchanger or the utility whose it is."""

    base: Fraction
    slope: Fraction
    told: str
    place: str


@dataclass(frozen=True)
class Ranged:
    """A way with the heat that can be moved along it, from `least` to `most`, so that nothing becomes wrong that is
    right, both None where none can; what stops it at the upper end; of what is wrong now what it mends within this
    range and what it leaves; the exchanger that goes where so much is moved, and what is wrong only then."""

    way: Shift
    least: Fraction | None
    most: Fraction | None
    stops: str
    mends: tuple[str, ...]
    leaves: tuple[str, ...]
    goes: str
    breaks: tuple[Bound, ...]

    @property
    def identity(self) -> str:
        """What names it in gestures."""
        return ','.join(('+' if leg.gains else '-') + leg.exchanger for leg in self.way.legs)


@dataclass(frozen=True)
class RangedWays:
    """The loops and paths of a plan, or those `through` an exchanger, and whether there are more than these."""

    ways: tuple[Ranged, ...]
    more: bool
    through: str = ''


def ways_of(plan: HandPlan, exchanger: str | None = None) -> RangedWays:
    """All loops and paths of a plan, those that mend something first, then those that can be moved along. Where there
    are too many it is the shortest ones, and where an exchanger is named the shortest of those through it."""
    utilities = [utility.name for side in Side for utility in plan.case.utilities if utility.side is side]
    pairs = {name: plan.pairs[name] for name in plan.placed}
    found, through = found_ways(pairs, utilities, MOST_WAYS), ''
    if found.more and exchanger in pairs:
        found, through = found_ways(pairs, utilities, MOST_WAYS, exchanger), exchanger
    ranged = [told for way in found.ways for told in both_ways(plan, way)]
    return RangedWays(tuple(sorted(ranged, key=order)), found.more, through)


def both_ways(plan: HandPlan, way: Shift) -> list[Ranged]:
    """A way in both directions. A path that cannot be moved along in one of them is not shown in that."""
    limits = limits_of(plan, way)
    there = with_range(plan, way, limits)
    back = with_range(plan, turned_round(way), [turned(limit) for limit in limits])
    if way.loop:
        return [there, back]
    return [ranged for ranged in (there, back) if ranged.most] or [there]


def order(found: Ranged) -> tuple[object, ...]:
    return (not found.mends, -len(found.mends), found.most is None, found.way.loop, len(found.way.legs))


def turned_round(way: Shift) -> Shift:
    """The same way with all heat moved the other way round."""
    return Shift(way.heat, way.source, tuple(Leg(leg.exchanger, not leg.gains, leg.source) for leg in way.legs),
                 way.loop)


def moved(plan: HandPlan, way: Shift, heat: Fraction) -> HandPlan:
    """The plan with so much heat moved; the duties may be anything then."""
    return plan.with_duties({leg.exchanger: plan.duties[leg.exchanger] + (heat if leg.gains else -heat)
                             for leg in way.legs})


def turned(limit: Bound) -> Bound:
    """A limit where all heat is moved the other way round."""
    return Bound(limit.base, -limit.slope, limit.told, limit.place)


def limits_of(plan: HandPlan, way: Shift) -> list[Bound]:
    """All that has to stay at 0 or above but the duties: both ends of each exchanger, and the ranges of utilities."""
    other = moved(plan, way, Fraction(1))
    limits: list[Bound] = []
    touched = {source for leg in way.legs for source in plan.pairs[leg.exchanger]} - plan.utilities
    for name, before in plan.all_differences.items():
        behind = other.differences(name) if touched.intersection(plan.pairs[name]) else before
        approach = plan.approach(name)
        for end, now, then in zip(('hot', 'cold'), before, behind):
            if now != then or now < approach:
                limits.append(Bound(now - approach, then - now, f'{name} too close at its {end} end', name))
    used, later = plan.used(), other.used()
    for utility in plan.case.utilities:
        name, change, now = utility.name, later[utility.name] - used[utility.name], used[utility.name]
        if utility.most != ANY_HEAT and (change or now > utility.most):
            limits.append(Bound(utility.most - now, -change, f'{name} has no more', name))
        if utility.least and (change or now < utility.least):
            limits.append(Bound(now - utility.least, change, f'{name} has its least', name))
    return limits


def with_range(plan: HandPlan, way: Shift, limits: Sequence[Bound]) -> Ranged:
    """A way with its exact range. What is wrong now and does not become right within it stays wrong."""
    losing = [leg.exchanger for leg in way.legs if not leg.gains]
    ends = [(plan.duties[name], f'{name} goes') for name in losing]
    ends += [(limit.base / -limit.slope, limit.told) for limit in limits if limit.slope < 0 <= limit.base]
    goes = min(losing, key=lambda name: plan.duties[name])
    gone = plan.duties[goes]
    breaks = tuple(limit for limit in limits
                   if limit.place != goes and limit.base + gone * limit.slope < 0 <= limit.base)
    most, stops = min(ends, key=lambda end: end[0])
    wrong = [limit for limit in limits if limit.base < 0]
    places = tuple(dict.fromkeys(limit.place for limit in wrong))
    if most <= 0:
        return Ranged(way, None, None, stops, (), places, goes, breaks)
    # From which heat on each place is right, where it ever is.
    right = {place: max((-limit.base / limit.slope if limit.slope > 0 else most + 1
                         for limit in wrong if limit.place == place)) for place in places}
    mends = tuple(place for place in places if right[place] <= most)
    return Ranged(way, max((right[place] for place in mends), default=Fraction(0)), most, stops, mends,
                  tuple(place for place in places if place not in mends), goes, breaks)


def way_named(plan: HandPlan, identity: str) -> Ranged:
    """The way with this name; `NotDone` where there is none."""
    names = [leg[1:] for leg in identity.split(',')]
    way = led_along(plan, names) if set(names) <= set(plan.placed) and len(set(names)) == len(names) > 1 else None
    for directed in (way, turned_round(way)) if way else ():
        found = with_range(plan, directed, limits_of(plan, directed))
        if found.identity == identity:
            return found
    raise NotDone('This loop or path is no more.')


def led_along(plan: HandPlan, names: Sequence[str]) -> Shift | None:
    """The loop or the path through exchangers in this order, of which the first gains; None where it is none."""
    pairs = [plan.pairs[name] for name in names]
    for begin in pairs[0]:
        legs, source = list[Leg](), begin
        for at, (name, pair) in enumerate(zip(names, pairs)):
            if source not in pair:
                break
            source = pair[1] if source == pair[0] else pair[0]
            legs.append(Leg(name, at % 2 == 0, source))
        else:
            inner = {leg.source for leg in legs[:-1]}
            once = len({begin, *inner}) == len(names) and source not in inner
            is_path = {begin, source} <= plan.utilities and not plan.utilities & inner
            if once and (source == begin or is_path):
                return Shift(Fraction(0), begin, tuple(legs), source == begin)
    return None


def shift(plan: HandPlan, identity: str, heat: Fraction) -> HandPlan:
    """So much heat is moved along a way. Exchangers that have nothing left go. The verdict says what comes too
    close."""
    found = way_named(plan, identity)
    limit = min(plan.duties[leg.exchanger] for leg in found.way.legs if not leg.gains)
    shown = Shown(plan.case.basis)
    if not 0 < heat <= limit:
        raise NotDone(f'From 0 to {shown.heat(limit)} {shown.heat_unit} can be moved along this way.')
    return without_idle(moved(plan, found.way, heat))


def break_way(plan: HandPlan, identity: str) -> HandPlan:
    """So much heat is moved that the smallest exchanger of those that lose goes."""
    found = way_named(plan, identity)
    return without_idle(moved(plan, found.way, plan.duties[found.goes]))


def without_idle(plan: HandPlan) -> HandPlan:
    """A plan without the exchangers that have no duty. A lane that is left without any stays, as a way past the
    others."""
    courses = dict(plan.structure.courses)
    for name, duty in plan.duties.items():
        if not duty:
            courses = {stream: replaced(course, name, ()) for stream, course in courses.items()}
    return settled(changed(plan, courses))
