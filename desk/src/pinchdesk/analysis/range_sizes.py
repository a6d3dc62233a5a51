"""The sizes of utilities with a range of temperature, which a case has as streams: the program judges each.

A utility that is the only one of its side that is left has the least CP that is enough: with no other utility on its
side there is a heat flow with it, and none with one unit of CP less. That is a threshold: more of a stream on the one
side never makes more of a utility of that side needed, while the other side takes all that is too much.

Where a side has others too, at a level or with a range, the cheapest is sized first: by the least of the cost that the
program prints and its own price times its heat, where those that have no size yet are there as levels at their supply.
This sum is convex in the CP, so that it is least where one unit more and one unit less cost no less. No sizes at all
cost less than the first of these sums. Where all together cost more, since a range is worth less than a level at its
supply, other sizes are tried."""
from __future__ import annotations

from collections.abc import Mapping, Sequence
from dataclasses import dataclass, field, replace
from itertools import product

from ..errors import Refused
from ..formats.case import ANY_HEAT, Case, Forbid, Side, Utility, print_case
from ..formats.cost_rows import Film, Material, Overall
from ..formats.kept_rows import named_by
from ..formats.limits import MOST_COLD, MOST_HOT, MOST_UTILITIES
from ..formats.range_parts import UnsizedRange, greatest_cp, heat_of_parts, sized
from ..formats.ranges import Lacking, RangedUtility
from ..formats.segments import SegmentedStream
from ..formats.shown import Shown
from ..program.answers import Cut, HeatFlow
from ..program.run import Pinch
from .range_checks import (STANDING, CheckedRange, checked_ranges, has_level, lacking, lawful, least_that,
                           other_side)

# Beside the utilities of the table a trial has one on each side.
MOST_SIZED = MOST_UTILITIES - 2
# Of how many utilities whose sizes are found by cost several are changed at a time.
MOST_TOGETHER = 2


def as_level(utility: UnsizedRange) -> Utility:
    """A utility with a range at the end where it is worth most."""
    first = utility.parts[0]
    return Utility(utility.name, first.side, first.supply, utility.least, utility.most, utility.price,
                   first.contribution)


@dataclass
class Sizing:
    """The search for the sizes of some utilities of a case that has none of them, with the forbidden matches with
    them; a size of 0 is that it is not used."""

    pinch: Pinch
    base: Case
    ranges: Sequence[UnsizedRange]
    forbids: Sequence[Forbid] = ()
    sizes: dict[str, int] = field(default_factory=dict)

    def trial(self, changed: Mapping[str, int]) -> Case:
        """The case with the sizes that are known, these in place of theirs, and the others as levels."""
        sizes = {**self.sizes, **changed}
        known = [(utility, sizes[utility.name]) for utility in self.ranges if utility.name in sizes]
        streams = [part for utility, cp in known if cp for part in sized(utility.parts, cp)]
        levels = [as_level(utility) for utility in self.ranges if utility.name not in sizes]
        levels += [level for side in Side if (level := self.level_of_last(side, sizes))]
        parts = {utility.name: [part.name for part in utility.parts] for utility, cp in known}
        forbids = [Forbid(hot, cold) for forbid in self.forbids for hot in parts.get(forbid.hot, [forbid.hot])
                   for cold in parts.get(forbid.cold, [forbid.cold])]
        return lawful(replace(self.base, streams=(*self.base.streams, *streams),
                              utilities=(*self.base.utilities, *levels), forbids=(*self.base.forbids, *forbids)))

    def find_all(self) -> None:
        """Finds the sizes: of those that have others beside them by cost, the cheapest first, where the others are
        levels; of the last one of each side the least that is enough. Where that costs more than with those levels,
        with which no sizes cost less, sizes that cost less all together are looked for."""
        last = [self.last_of(side) for side in Side]
        chosen = sorted((utility for utility in self.ranges if utility not in last), key=lambda utility: utility.price)
        floors: list[int | None] = []
        for utility in chosen:
            self.sizes[utility.name], cost = self.cheapest(utility)
            floors.append(cost)
        if not chosen:
            self.find_last()
            return
        units = sum(abs(utility.price) * heat_of_parts(sized(utility.parts, 1)) for utility in self.ranges)
        cost = self.cost_together()
        is_near = cost is not None and floors[0] is not None and cost <= floors[0] + units
        for side in Side:
            self.find_together([utility for utility in chosen if utility.side is side], is_near)
        # Where that is not enough it is refused.
        self.find_last()

    def find_together(self, chosen: Sequence[UnsizedRange], is_near: bool) -> None:
        """Changes the sizes of some that are found by cost, each for itself and several at a time, by less and less
        heat, as long as all together cost less; the last ones have the least that is enough with each. Near the least
        cost they change by units of CP alone."""
        moves = [move for move in product((0, 1, -1), repeat=len(chosen))
                 if any(move) and (len(chosen) <= MOST_TOGETHER or sum(way * way for way in move) == 1)]
        sizes, cost = {utility.name: self.sizes[utility.name] for utility in chosen}, self.cost_together()
        units = [heat_of_parts(sized(utility.parts, 1)) for utility in chosen]
        bounds = [self.bounds(utility) for utility in chosen]
        heat = max(units if is_near else [heat_of_parts(sized(utility.parts, max(1, self.sizes.get(utility.name, 1))))
                                          for utility in self.ranges], default=0) if moves else 0
        while heat:
            steps, before = [max(1, heat // unit) for unit in units], sizes
            for move in moves:
                there = {utility.name: min(most, max(least, sizes[utility.name] + way * step)) for utility, way, step,
                         (least, most) in zip(chosen, move, steps, bounds)}
                self.sizes.update(there)
                changed = None if there == sizes else self.cost_together()
                if changed is not None and (cost is None or changed < cost):
                    sizes, cost = there, changed
            if sizes == before:
                heat = heat // 2 if heat > min(units) else 0
        self.sizes.update(sizes)

    def cost_together(self) -> int | None:
        """What all utilities cost with the sizes of those that are found by cost, when the last ones are found; None
        where that is not enough."""
        try:
            self.find_last()
        except Refused:
            return None
        flow = self.pinch.uses(print_case(self.trial({})))
        return None if isinstance(flow, Cut) else flow.cost + sum(
            utility.price * heat_of_parts(sized(utility.parts, cp)) for utility in self.ranges
            if (cp := self.sizes[utility.name]))

    def find_last(self) -> None:
        """Finds the size of the last one of each side. The cold one comes first, with hot heat without end, then the
        hot one, and the cold one once more, since what the hot side has too much it has to take. The last unit of the
        cold one is none of the need of the hot one: it is only begun."""
        hot, cold = self.last_of(Side.HOT), self.last_of(Side.COLD)
        if hot:
            self.sizes.pop(hot.name, None)
        if cold:
            self.sizes[cold.name] = self.least_enough(cold)
        if hot:
            if cold:
                self.sizes[cold.name] = max(0, self.sizes[cold.name] - 1)
            self.sizes[hot.name] = self.least_enough(hot)
        if hot and cold:
            self.sizes[cold.name] = self.least_enough(cold)

    def level_of_last(self, side: Side, sizes: Mapping[str, int]) -> Utility | None:
        """What stands in for what whole units of CP leave, where the last one of a side has its size: at its supply and
        its price. None where the program adds the same, at its own prices."""
        last = self.last_of(side)
        if last is None or last.name not in sizes:
            return None
        usual = not self.base.basis.price_unit and last.price == (side is Side.HOT)
        return None if usual else replace(as_level(last), name=STANDING[side], least=0, most=ANY_HEAT)

    def last_of(self, side: Side) -> UnsizedRange | None:
        """The dearest utility of a side that has none at a level."""
        there = [utility for utility in self.ranges if utility.side is side]
        return max(there, key=lambda utility: utility.price) if there and not has_level(self.base, side) else None

    def bounds(self, utility: UnsizedRange) -> tuple[int, int]:
        """The least CP, and the greatest that the program and the table hold."""
        most = greatest_cp(utility.parts)
        fits = least_that(lambda cp: heat_of_parts(sized(utility.parts, cp)) > utility.most, 1, most + 1) - 1
        least = least_that(lambda cp: heat_of_parts(sized(utility.parts, cp)) >= utility.least, 1, most + 1) \
            if utility.least else 0
        return least, fits

    def least_enough(self, utility: UnsizedRange) -> int:
        """The least CP with which no other utility is needed on its side; `Refused` where none is enough."""
        least, most = self.bounds(utility)
        lacks = self.lacks(utility, least)
        if lacks is None:
            return least
        # Less than all that lacks is not enough, but for what is rounded of several segments.
        guess = min(most, least + lacks.heat // heat_of_parts(sized(utility.parts, 1)))
        found = least_that(lambda cp: self.lacks(utility, cp) is None, guess, most + 1)
        if found > most:
            raise self.not_enough(utility, most)
        while found > least and self.lacks(utility, found - 1) is None:
            found -= 1
        return found

    def lacks(self, utility: UnsizedRange, cp: int) -> Lacking | None:
        """What lacks with this CP and no other utility on its side."""
        return lacking(self.pinch, self.trial({utility.name: cp}), utility.side)

    def not_enough(self, utility: UnsizedRange, most: int) -> Refused:
        """That the greatest size is not enough, with what lacks and why."""
        shown, side = Shown(self.base.basis), utility.side
        lacks = self.lacks(utility, most) or Lacking(0, 0)
        less = self.lacks(utility, max(0, most - 1)) or lacks
        heat = f'{shown.heat(lacks.heat)} {shown.heat_unit}'
        way = 'hot' if side is Side.HOT else 'cold'
        limit = f'the greatest CP that it can have, {shown.flow(most)} {shown.flow_unit}'
        larger = 'take a smaller --scale' if utility.most == ANY_HEAT else 'take a larger `most`'
        why = f', and it is not {way} enough for them: another {way} utility is needed beside it' \
            if less.heat == lacks.heat else f': {larger}, or another {way} utility beside it'
        return Refused(3, '', 'range', f'{utility.name} is not enough: with {limit}, {heat} are missing{why}')

    def cheapest(self, utility: UnsizedRange) -> tuple[int, int | None]:
        """The CP of least cost, where the other utilities of its side cost what they do, and that cost, None where
        there is no heat flow."""
        known = [(other.name, other.side, other.price) for other in self.base.utilities]
        known += [(other.name, other.side, other.price) for other in self.ranges]
        same = [name for name, side, price in known
                if (side, price) == (utility.side, utility.price) and name != utility.name]
        if same:
            raise Refused(3, '', 'range', f'{utility.name} has a range and the same price as {same[0]}: which of both '
                          'is used first has to follow from their prices')
        answers: dict[int, HeatFlow | Cut] = {}
        least, most = self.bounds(utility)

        def cost_at(cp: int) -> int | Side:
            """The cost with this CP, or the side that has too little."""
            if cp not in answers:
                answers[cp] = self.pinch.uses(print_case(self.trial({utility.name: cp})))
            flow = answers[cp]
            heat = heat_of_parts(sized(utility.parts, cp)) if cp else 0
            return other_side(flow.side) if isinstance(flow, Cut) else flow.cost + utility.price * heat

        def is_best(cp: int) -> bool:
            """Whether one unit more is no better."""
            here, more = cost_at(cp), cost_at(cp + 1)
            if isinstance(here, Side) or isinstance(more, Side):
                return here is not utility.side and (here is other_side(utility.side) or isinstance(more, Side))
            return more >= here
        found = least_that(is_best, least, most)
        if found == greatest_cp(utility.parts):
            raise Refused(3, '', 'range', f'{utility.name} makes a gain: the more of it there is the less all costs, '
                          'up to what the program can hold. It needs a `most`, or the others do')
        cost = cost_at(found)
        return found, None if isinstance(cost, Side) else cost


@dataclass(frozen=True)
class SizedCase:
    """A case with its utilities with a range as streams, and what is told of them."""

    case: Case
    notes: tuple[str, ...]
    checked: tuple[CheckedRange, ...]


def with_sizes(pinch: Pinch, base: Case, ranges: Sequence[UnsizedRange], forbids: Sequence[Forbid] = ()) -> SizedCase:
    """The case with these utilities as streams, and with the forbidden matches with them. `Refused` where no size is
    enough, where the prices leave open which one is used first, or where the program cannot hold so many streams."""
    check_counts(base, ranges)
    sizing = Sizing(pinch, base, ranges, forbids)
    sizing.find_all()
    used = [utility for utility in ranges if sizing.sizes[utility.name]]
    bare = with_rows_of_last(sizing.trial({}), sizing)
    unused_names = {name for utility in ranges if utility not in used
                    for name in (utility.name, *(part.name for part in utility.parts))}
    segments = tuple(SegmentedStream(utility.name, tuple(part.name for part in utility.parts))
                     for utility in used if len(utility.parts) > 1)
    found = tuple(RangedUtility(utility.name, utility.price, sizing.sizes[utility.name]) for utility in used)
    basis = replace(bare.basis, segments=(*base.basis.segments, *segments), ranges=found,
                    cost_rows=tuple(row for row in bare.basis.cost_rows if unused_names.isdisjoint(named_by(row))))
    case = replace(bare, basis=basis)
    checked = checked_ranges(pinch, case)
    kept = tuple(replace(one.utility, lacking=one.less_lacking) for one in checked)
    case = replace(case, basis=replace(basis, ranges=kept))
    unused = tuple(f'{utility.name} is not used: no heat of it is needed, or others are cheaper'
                   for utility in ranges if utility not in used)
    bounded = tuple(bound_told(utility, sizing) for utility in used)
    return SizedCase(case, (*unused, *(told for told in bounded if told), *standing_told(base, case)), checked)


def bound_told(utility: UnsizedRange, sizing: Sizing) -> str:
    """That a utility has the least or the most that its table gives it; empty where neither sets its size."""
    least, most = sizing.bounds(utility)
    size, shown = sizing.sizes[utility.name], Shown(sizing.base.basis)
    if size == least:
        return f'{utility.name} has its least, {shown.heat(utility.least)} {shown.heat_unit}'
    return f'{utility.name} has its most, {shown.heat(utility.most)} {shown.heat_unit}' \
        if size == most and utility.most < ANY_HEAT else ''


def check_counts(base: Case, ranges: Sequence[UnsizedRange]) -> None:
    """`Refused` where the program cannot hold so many streams, or a trial so many utilities."""
    for side, most in ((Side.HOT, MOST_HOT), (Side.COLD, MOST_COLD)):
        own = sum(stream.side is side for stream in base.streams)
        beside = sum(len(utility.parts) for utility in ranges if utility.side is side)
        if beside and own + beside > most:
            raise Refused(3, '', 'range', f'a case has at most {most} {side.value} streams, and with its utilities '
                          f'with a range, which it holds as streams, this one has {own + beside}: --ranges level takes '
                          'the worse end of each as its level')
    names = [*(utility.name for utility in base.utilities), *(utility.name for utility in ranges)]
    standing = [name for name in names if name in STANDING.values()]
    if standing:
        raise Refused(3, '', 'range', f'{standing[0]} is the name of what stands in beside utilities with a range: '
                      'give this one another name')
    if len(base.utilities) + len(ranges) > MOST_SIZED:
        raise Refused(3, '', 'range', f'where some have a range, a table has at most {MOST_SIZED} utilities')


def with_rows_of_last(case: Case, sizing: Sizing) -> Case:
    """The case with the coefficients of the last one of each side for what stands in there."""
    last = [(STANDING[side], utility) for side in Side
            if sizing.level_of_last(side, sizing.sizes) and (utility := sizing.last_of(side))]
    rows = [replace(row, source=name) for name, utility in last for row in case.basis.cost_rows
            if isinstance(row, (Film, Overall, Material)) and row.source == utility.name]
    return replace(case, basis=replace(case.basis, cost_rows=(*case.basis.cost_rows, *rows)))


def standing_told(base: Case, case: Case) -> tuple[str, ...]:
    """That utilities stand in for what whole units of CP leave."""
    shown, before = Shown(case.basis), {utility.name for utility in base.utilities}
    return tuple(f'{utility.name} stands in for what whole units of CP leave, at {shown.temperature(utility.level)} '
                 f'{shown.temperature_unit} and {shown.price(utility.price)} {shown.price_unit}'
                 for utility in case.utilities if utility.name not in before)
