"""Where an exchanger may stand on an open piece, and the largest duty that it can have there: its temperatures are
affine in its duty, so that each end of a range is exact."""
from __future__ import annotations

import enum
import re
from collections.abc import Iterator, Mapping
from dataclasses import dataclass
from fractions import Fraction
from itertools import product

from ..formats.case import ANY_HEAT, Case, Side, Utility
from ..search.reduce.moves import letter_of, next_name, taken_names
from ..search.reduce.structure import Course, Lane, Parting, Through
from .pieces import HandPlan, Reach, changed, fresh_open, merged, named, replaced


# How exchangers, heaters and coolers are named where streams have their letters.
LETTERS = {'E': 'HX', 'H': 'HU', 'C': 'CU'}


class Seat(enum.Enum):
    """Where on a piece an exchanger stands: first in the direction of the stream, last, or in a lane beside the rest; a
    utility has its level alone."""

    BEGIN = 'begin'
    END = 'end'
    LANE = 'lane'
    LEVEL = 'level'


@dataclass(frozen=True)
class Affine:
    """A temperature that depends on a duty."""

    base: Fraction
    slope: Fraction = Fraction(0)

    def at(self, duty: Fraction) -> Fraction:
        return self.base + self.slope * duty


@dataclass(frozen=True)
class Seated:
    """An exchanger that may be placed: of the hot and the cold side the piece or the utility, and the seat there."""

    hot: str
    cold: str
    hot_seat: Seat
    cold_seat: Seat
    duty: Fraction

    def side(self, side: Side) -> tuple[str, Seat]:
        return (self.hot, self.hot_seat) if side is Side.HOT else (self.cold, self.cold_seat)


def seats_of(plan: HandPlan, name: str) -> tuple[Seat, ...]:
    """The seats of a piece, or of a utility. At one temperature all seats are alike."""
    if name in plan.utilities:
        return (Seat.LEVEL,)
    return (Seat.BEGIN,) if plan.piece(name).stream.latent else (Seat.BEGIN, Seat.END, Seat.LANE)


def ends_at(plan: HandPlan, name: str, seat: Seat) -> tuple[Affine, Affine]:
    """The temperatures at which an exchanger in this seat enters and leaves, by its duty."""
    source = plan.sources.get(name)
    if isinstance(source, Utility):
        return Affine(Fraction(source.level)), Affine(Fraction(source.level))
    reach = plan.piece(name)
    inlet, outlet = Affine(reach.inlet), Affine(reach.outlet)
    if reach.stream.latent or seat is Seat.LANE:
        return inlet, outlet
    step = reach.way / reach.size
    if seat is Seat.BEGIN:
        return inlet, Affine(reach.inlet, step)
    return Affine(reach.outlet, -step), outlet


def largest(ends: tuple[tuple[Affine, Affine], tuple[Affine, Affine]], approach: int, most: Fraction,
            ) -> Fraction | None:
    """The largest duty up to `most` at which a hot and a cold side keep the approach at both ends; None where there is
    none."""
    (hot_in, hot_out), (cold_in, cold_out) = ends
    low, high = Fraction(0), most
    for upper, lower in ((hot_in, cold_out), (hot_out, cold_in)):
        room, slope = upper.base - lower.base - approach, upper.slope - lower.slope
        if slope == 0 and room < 0:
            return None
        if slope < 0:
            high = min(high, room / -slope)
        elif slope > 0:
            low = max(low, -room / slope)
    return high if 0 < high and low <= high else None


def most_of(plan: HandPlan, name: str) -> Fraction:
    """What a piece has to give or to take, or what a utility still may."""
    source = plan.sources.get(name)
    if isinstance(source, Utility):
        return Fraction(ANY_HEAT) if source.most == ANY_HEAT else source.most - plan.used(True)[name]
    return plan.piece(name).heat


def may_meet(plan: HandPlan, hot: str, cold: str) -> bool:
    """Whether no forbidden match is in the way."""
    names = {source_of(plan, hot), source_of(plan, cold)}
    return not any({pair.hot, pair.cold} == names for pair in plan.case.forbids)


def source_of(plan: HandPlan, name: str) -> str:
    """The stream of a piece, or the utility itself."""
    return name if name in plan.utilities else plan.piece(name).stream.name


def seatings(plan: HandPlan, hot: str, cold: str, most: Fraction | None = None) -> Iterator[Seated]:
    """All ways to place an exchanger between two pieces, or a piece and a utility, each with its largest duty, up to
    `most`; those that come to the same stand once."""
    if not may_meet(plan, hot, cold):
        return
    approach = sum(plan.sources[source_of(plan, name)].contribution for name in (hot, cold))
    limits = [most_of(plan, hot), most_of(plan, cold), *([] if most is None else [most])]
    seen: set[tuple[object, ...]] = set()
    for hot_seat, cold_seat in product(seats_of(plan, hot), seats_of(plan, cold)):
        ends = ends_at(plan, hot, hot_seat), ends_at(plan, cold, cold_seat)
        duty = largest(ends, approach, min(limits))
        if duty is None:
            continue
        where = [whole_seat(plan, name, seat, duty) for name, seat in ((hot, hot_seat), (cold, cold_seat))]
        if (duty, *where) not in seen:
            seen.add((duty, *where))
            yield Seated(hot, cold, where[0], where[1], duty)


def seat_of(plan: HandPlan, hot: str, cold: str, seats: tuple[Seat, Seat]) -> Seated | None:
    """The largest exchanger in these seats; None where there is none."""
    if not may_meet(plan, hot, cold):
        return None
    approach = sum(plan.sources[source_of(plan, name)].contribution for name in (hot, cold))
    ends = ends_at(plan, hot, seats[0]), ends_at(plan, cold, seats[1])
    duty = largest(ends, approach, min(most_of(plan, hot), most_of(plan, cold)))
    if duty is None:
        return None
    return Seated(hot, cold, whole_seat(plan, hot, seats[0], duty), whole_seat(plan, cold, seats[1], duty), duty)


def whole_seat(plan: HandPlan, name: str, seat: Seat, duty: Fraction) -> Seat:
    """The seat; one that takes a whole piece stands at its beginning, whichever it was."""
    return Seat.BEGIN if seat is not Seat.LEVEL and plan.piece(name).heat == duty else seat


def seated(plan: HandPlan, chosen: Seated, name: str | None = None) -> HandPlan:
    """The plan with an exchanger in its seats, settled."""
    pair = (source_of(plan, chosen.hot), source_of(plan, chosen.cold))
    made = name or next_name(taken_names(plan.case, plan.structure), letters_of(plan.case, pair))
    courses: dict[str, Course] = dict(plan.structure.courses)
    duties, pairs = dict(plan.duties), dict(plan.pairs)
    taken = set(plan.pairs)
    for side in Side:
        piece, seat = chosen.side(side)
        if seat is Seat.LEVEL:
            continue
        reach, rest = plan.piece(piece), fresh_open(taken)
        taken.add(rest)
        steps = course_with(reach, seat, chosen.duty, made, rest)
        courses[reach.stream.name] = replaced(courses[reach.stream.name], piece, steps)
        pairs[rest], duties[rest] = plan.pairs[piece], reach.heat - chosen.duty
    pairs[made], duties[made] = pair, chosen.duty
    return settled(changed(plan, courses, pairs, duties))


def letters_of(case: Case, pair: tuple[str, str]) -> str:
    """With what the name of an exchanger begins: a heater's with H, but with HU where streams are called H1 or H2."""
    letter = letter_of(case, pair)
    alike = re.compile(f'{letter}[0-9]+', re.IGNORECASE)
    return LETTERS[letter] if any(alike.fullmatch(source.name) for source in case.sources) else letter


def course_with(reach: Reach, seat: Seat, duty: Fraction, made: str, rest: str) -> Course:
    """What stands in the place of a piece: the exchanger and what is left of it."""
    if duty == reach.heat:
        return (Through(made),)
    if seat is Seat.BEGIN:
        return (Through(made), Through(rest))
    if seat is Seat.END:
        return (Through(rest), Through(made))
    share = duty / reach.heat
    return (Parting((Lane((Through(made),), share), Lane((Through(rest),), 1 - share))),)


def settled(plan: HandPlan) -> HandPlan:
    """A plan as it is kept: open pieces are not cut, and have names that a network may have."""
    joined = merged(plan)
    taken = {name for name in joined.pairs if '/' not in name}
    names: dict[str, str] = {}
    for name in joined.pairs:
        whole = name.partition('/')[0]
        if '/' in name:
            names[name] = whole if whole not in taken else fresh_open(taken)
            taken.add(names[name])
    return named(joined, lambda name: names.get(name, name)) if names else joined


def renumbered(plan: HandPlan, earlier: Mapping[str, tuple[str, str]]) -> HandPlan:
    """A plan whose new open pieces have the lowest numbers that are free."""
    taken = {name for name in plan.pairs if name in earlier}
    names: dict[str, str] = {}
    for name in plan.open:
        if name not in earlier:
            names[name] = fresh_open(taken)
            taken.add(names[name])
    return named(plan, lambda name: names.get(name, name))
