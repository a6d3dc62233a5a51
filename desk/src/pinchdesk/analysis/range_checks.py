"""What the program says of utilities with a range of temperature, which a case has as streams: what lacks where no
other utility is on their side, with their sizes and with one unit of CP less."""
from __future__ import annotations

from collections.abc import Callable, Sequence
from dataclasses import dataclass, replace

from ..formats.case import ANY_HEAT, Case, Side, Stream, Utility, parts_of_streams, print_case
from ..formats.limits import TEMPERATURE
from ..formats.range_parts import heat_of_parts, leading, one_less, range_parts, sized
from ..formats.ranges import Lacking, RangedUtility
from ..program.answers import Cut
from ..program.run import Pinch

# What stands in on a side, or is added there by the program.
STANDING = {Side.HOT: 'HOT', Side.COLD: 'COLD'}


def other_side(side: Side) -> Side:
    return Side.COLD if side is Side.HOT else Side.HOT


def free_name(name: str, case: Case) -> str:
    """A name that no source of the case has."""
    taken = {source.name for source in case.sources}
    return name if name not in taken else next(made for made in (f'{name}-{at}' for at in range(100))
                                               if made not in taken)


def standing_in(case: Case, side: Side, most: int) -> Utility:
    """A utility at the outermost end of all streams, free of cost, of so much heat at most."""
    ends = [stream.high if side is Side.HOT else stream.low for stream in case.streams]
    level = max(ends) if side is Side.HOT else min(ends)
    # Only a heater may be called HOT, and only a cooler COLD.
    name = free_name(STANDING[side], case)
    return Utility(name, side, max(TEMPERATURE.least, min(TEMPERATURE.most, level)), 0, most, 0, 0)


def has_level(case: Case, side: Side) -> bool:
    return any(utility.side is side and not utility.invented for utility in case.utilities)


def lawful(case: Case) -> Case:
    """The case with the forbidden matches of the sources that it has."""
    names = {source.name for source in case.sources}
    return replace(case, forbids=tuple(forbid for forbid in case.forbids
                                       if forbid.hot in names and forbid.cold in names))


def alone(case: Case, side: Side) -> Case:
    """The case with no utility on this side, and with as much as is needed on the other one."""
    utilities = [utility for utility in case.utilities if utility.side is not side and not utility.invented]
    bare = replace(case, utilities=tuple(utilities))
    beside = [standing_in(bare, other_side(side), ANY_HEAT)] if utilities else []
    return lawful(replace(bare, utilities=(*utilities, *beside, standing_in(bare, side, 0))))


def lacking(pinch: Pinch, case: Case, side: Side) -> Lacking | None:
    """What lacks on the other side where no utility is on this one; None where nothing does."""
    flow = pinch.uses(print_case(alone(case, side)))
    if not isinstance(flow, Cut) or flow.side is side:
        return None
    return Lacking(flow.need, flow.offer)


def least_that(holds: Callable[[int], bool], first: int, last: int) -> int:
    """The least number from the first on for which something holds, where it then holds for all above; the last one
    where it holds for none below it. Near the first it is found soonest."""
    step, below = 1, first
    while below < last and not holds(below):
        first, below, step = below + 1, min(last, below + step), step * 2
    last = below
    while first < last:
        middle = (first + last) // 2
        first, last = (first, middle) if holds(middle) else (middle + 1, last)
    return first


def with_parts(case: Case, parts: Sequence[Stream], changed: Sequence[Stream]) -> Case:
    """The case with these streams in place of some others, or without them."""
    by_name, gone = {stream.name: stream for stream in changed}, {part.name for part in parts}
    kept = [by_name.get(stream.name, stream) for stream in case.streams
            if stream.name in by_name or stream.name not in gone]
    made = replace(case, streams=tuple(kept))
    return made if changed else lawful(made)


@dataclass(frozen=True)
class CheckedRange:
    """A utility with a range as the case has it: what lacks beside it, what lacks with one unit of CP less, and by how
    much that is dearer where nothing lacks; of one with other utilities on its side nothing lacks. `spare` is what it
    gives or takes beyond the need of the case without it, and `is_least` whether one unit of CP less is not enough, or
    is dearer. `flows` is whether the case has a heat flow."""

    utility: RangedUtility
    parts: tuple[Stream, ...]
    lacking: int
    less_lacking: Lacking | None
    dearer: int | None
    spare: int
    is_least: bool
    flows: bool = True

    @property
    def side(self) -> Side:
        return self.parts[0].side

    @property
    def heat(self) -> int:
        return heat_of_parts(self.parts)

    @property
    def cp(self) -> int:
        return leading(self.parts).cp

    @property
    def cost(self) -> int:
        """Its price times its heat, which the cost of the program does not have in it."""
        return self.utility.price * self.heat


def checked_range(pinch: Pinch, case: Case, utility: RangedUtility) -> CheckedRange:
    """Asks the program what one unit of CP less would do."""
    parts = range_parts(case, utility)
    if not is_last(case, utility, parts[0].side):
        return checked_by_cost(pinch, case, utility)
    side = parts[0].side
    plant, beside = needing(case, side), lacking(pinch, case, side)
    without = lacking(pinch, with_parts(plant, parts, ()), side)
    with_it = lacking(pinch, plant, side) if plant is not case else beside
    served = heat_of(without) - heat_of(with_it)
    lacks = lacking(pinch, with_parts(plant, parts, one_less(parts)), side)
    if lacks is None and plant is not case:
        begun = forced(pinch, case, parts)
        with_it = lacking(pinch, begun, side)
        lacks = lacking(pinch, with_parts(begun, parts, one_less(parts)), side)
    return CheckedRange(utility, parts, heat_of(beside), lacks, None, heat_of_parts(parts) - served,
                        heat_of(lacks) > heat_of(with_it))


def heat_of(lacks: Lacking | None) -> int:
    return lacks.heat if lacks else 0


def needing(case: Case, side: Side) -> Case:
    """The case that a utility of this side has to serve: what the hot side has too much the last utility of the cold
    one takes, so that this is none of the need for a hot one."""
    last = last_range(case, Side.COLD) if side is Side.HOT else None
    return with_parts(case, range_parts(case, last), ()) if last else case


def forced(pinch: Pinch, case: Case, hot: Sequence[Stream]) -> Case:
    """The case with the last utility of the cold side as it is without this one of the hot side, less the unit of CP
    that is only begun: what it takes then it takes whatever there is."""
    last = last_range(case, Side.COLD)
    assert last
    cold, plant = range_parts(case, last), with_parts(case, hot, ())
    size = least_that(lambda cp: lacking(pinch, with_parts(plant, cold, sized(cold, cp) if cp else ()), Side.COLD)
                      is None, 0, leading(cold).cp)
    return with_parts(case, cold, sized(cold, size - 1) if size > 1 else ())


def last_range(case: Case, side: Side) -> RangedUtility | None:
    """The dearest utility with a range of a side that has none at a level but what stands in."""
    there = [utility for utility in case.basis.ranges if range_parts(case, utility)[0].side is side]
    levels = [level for level in case.utilities if level.side is side and level.name != STANDING[side]]
    return max(there, key=lambda utility: utility.price) if there and not levels else None


def is_last(case: Case, utility: RangedUtility, side: Side) -> bool:
    last = last_range(case, side)
    return last is not None and last.name == utility.name


def checked_by_cost(pinch: Pinch, case: Case, utility: RangedUtility) -> CheckedRange:
    """A utility with others beside it on its side: what one unit of CP less would cost, or what lacks then."""
    parts = range_parts(case, utility)
    less = one_less(parts)
    here, there = (pinch.uses(print_case(asked)) for asked in (case, with_parts(case, parts, less)))
    if isinstance(here, Cut) or isinstance(there, Cut):
        lacks = Lacking(there.need, there.offer) if isinstance(there, Cut) and not isinstance(here, Cut) else None
        return CheckedRange(utility, parts, 0, lacks, None, 0, lacks is not None, not isinstance(here, Cut))
    dearer = there.cost - here.cost - utility.price * (heat_of_parts(parts) - heat_of_parts(less))
    return CheckedRange(utility, parts, 0, None, dearer, 0, dearer > 0)


def without_ranges(case: Case) -> Case:
    """The case of a plant alone: without the streams that are utilities with a range, and without what stands in for
    them."""
    parts, basis = parts_of_streams(case), case.basis
    gone = {part.name for utility in basis.ranges for part in parts[utility.name]}
    sides = {part.side for utility in basis.ranges for part in parts[utility.name]}
    kept = tuple(stream for stream in basis.segments if stream.segments[0] not in gone)
    return lawful(replace(
        case, streams=tuple(stream for stream in case.streams if stream.name not in gone),
        utilities=tuple(utility for utility in case.utilities
                        if utility.side not in sides or utility.name != STANDING[utility.side]),
        basis=replace(basis, ranges=(), segments=kept)))


def checked_ranges(pinch: Pinch, case: Case) -> tuple[CheckedRange, ...]:
    """All utilities with a range of a case, in their order."""
    return tuple(checked_range(pinch, case, utility) for utility in case.basis.ranges)
