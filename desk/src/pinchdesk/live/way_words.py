"""Loops and paths in words: what can be moved along each, what breaks and what mends, and what it costs, by `pinch
targets` of what would be left."""
from __future__ import annotations

from collections.abc import Callable, Sequence
from concurrent.futures import ThreadPoolExecutor
from dataclasses import dataclass, field
from fractions import Fraction

from ..formats.case import Side
from ..formats.shown import Shown
from ..program.run import Pinch
from .faults import listed
from .judgement import Reachable, left_key, money, reachable
from .pieces import HandPlan
from .view import WayLeg, WayOffer, WaysFound
from .ways import Bound, Ranged, RangedWays, moved

ASKED_AT_ONCE = 4


class Outdated(Exception):
    """What is asked for is of no use any more."""


@dataclass(frozen=True)
class WayWords:
    """Tells the ways of a plan; `wanted` says whether somebody still waits for them."""

    pinch: Pinch
    plan: HandPlan
    before: Reachable | None
    wanted: Callable[[], bool] = lambda: True
    # What can be reached where so much is left: most ways change nothing of it.
    known: dict[tuple[object, ...], Reachable | None] = field(default_factory=dict)

    @property
    def shown(self) -> Shown:
        return Shown(self.plan.case.basis)

    def told(self, found: RangedWays) -> WaysFound:
        """Ways as the page shows them; `Outdated` where they are not wanted any more."""
        with ThreadPoolExecutor(ASKED_AT_ONCE) as pool:
            ways = tuple(pool.map(self.offer, found.ways))
        return WaysFound(ways, more_told(found))

    def offer(self, ranged: Ranged) -> WayOffer:
        if not self.wanted():
            raise Outdated
        way, shown = ranged.way, self.shown
        least, most = ('' if heat is None else shown.heat(heat) for heat in (ranged.least, ranged.most))
        cost, saves = self.costs(ranged)
        legs = tuple(WayLeg(leg.exchanger, leg.gains) for leg in way.legs)
        # What is in the box beforehand can be moved by a slip: only what is of use.
        first = least if ranged.mends else most if saves and not ranged.leaves else ''
        return WayOffer(ranged.identity, 'loop' if way.loop else 'path', way.told, legs, least, most, ranged.stops,
                        ranged.mends, ranged.leaves, self.breaks(ranged) if way.loop else '', first, cost)

    def costs(self, ranged: Ranged) -> tuple[str, bool]:
        """What it costs to move heat along a way, in words, and whether all of it saves some."""
        if ranged.least is None or ranged.most is None:
            return '', False
        change = self.change(ranged, ranged.most)
        if not self.plan.open:
            # Here all utilities are affine in the heat that is moved.
            told = {1: 'costs as much hot utility as is moved', -1: 'saves as much hot utility as is moved'}
            if change.sign:
                return told[change.sign], change.sign < 0
        costs = f'all of it {change.told(self.shown)}'
        if ranged.mends:
            first = self.change(ranged, ranged.least)
            unit = self.shown.heat_unit
            costs = f'{self.shown.heat(ranged.least)} {unit} {first.told(self.shown)}, {costs}'
        return costs, change.sign < 0

    def change(self, ranged: Ranged, heat: Fraction) -> WayCost:
        """What changes where so much is moved. Where nothing is open it is what the utilities give more or less."""
        if self.plan.open:
            return WayCost(self.before, self.reached(moved(self.plan, ranged.way, heat)))
        before, hot, paid = self.before, Fraction(0), Fraction(0)
        if before is None:
            return WayCost(None, None)
        for leg in ranged.way.legs:
            utility = self.plan.utility_of(leg.exchanger)
            more = heat if leg.gains else -heat
            if utility is not None:
                hot += more if utility.side is Side.HOT else 0
                paid += more * utility.price
        cost = None if before.cost is None else before.cost + paid
        return WayCost(before, Reachable(before.least + hot, before.most + hot, cost))

    def reached(self, plan: HandPlan) -> Reachable | None:
        key = left_key(plan)
        if key not in self.known:
            self.known[key] = reachable(self.pinch, plan)
        return self.known[key]

    def breaks(self, ranged: Ranged) -> str:
        """What goes where a loop is broken, what that costs, and what is too close then."""
        shown, heat = self.shown, self.plan.duties[ranged.goes]
        told = f'{ranged.goes} goes ({shown.heat(heat)} {shown.heat_unit}), {self.change(ranged, heat).told(shown)}'
        return told + (f'; {wrong_then(ranged.breaks)} then' if ranged.breaks else '')


@dataclass(frozen=True)
class WayCost:
    """What can be reached before and after something is done; None where that is not known."""

    before: Reachable | None
    after: Reachable | None

    @property
    def sign(self) -> int:
        """1 where it certainly costs hot utility, -1 where it certainly saves some, else 0."""
        if self.before is None or self.after is None:
            return 0
        return (self.after.least > self.before.most) - (self.after.most < self.before.least)

    def told(self, shown: Shown) -> str:
        """What it costs or saves, in words."""
        before, after = self.before, self.after
        if before is None or after is None:
            return 'cost not known'
        if not after.is_servable:
            return 'the rest could not be served then'
        exact = before.exact and after.exact
        most = after.most - before.least
        heat = f'{shown.heat(abs(most))} {shown.heat_unit}'
        told = 'costs nothing' if not most else f'costs {"" if exact else "at most "}{heat}' if most > 0 else \
            f'saves {"" if exact else "at least "}{heat}'
        more = after.cost - before.cost if after.cost is not None and before.cost is not None else Fraction(0)
        return told + (f', {money(shown, abs(more))} {"more" if more > 0 else "less"}' if more else '')


def wrong_then(limits: Sequence[Bound]) -> str:
    """What is wrong where something goes: of one thing also where, of several their names."""
    if len(limits) == 1:
        return limits[0].told
    close = all('too close' in limit.told for limit in limits)
    return f'{listed(list(dict.fromkeys(limit.place for limit in limits)))} {"too close" if close else "wrong"}'


def more_told(found: RangedWays) -> str:
    """Which ways these are, where there are more of them."""
    if not found.more:
        return ''
    count = len({frozenset(leg.exchanger for leg in ranged.way.legs) for ranged in found.ways})
    if found.through:
        return f'These are {count} short ones through {found.through}; there are more.'
    return f'These are {count} short ones; there are more. Choose an exchanger for those through it.'
