"""What a hand does on a plan: each gesture is a function from a plan to a plan. No gesture but a shift moves the
temperatures of an exchanger that it does not name; one that cannot be done is `NotDone`, and changes nothing."""
from __future__ import annotations

import re
from collections.abc import Sequence
from dataclasses import replace
from fractions import Fraction

from ..analysis.follow import PinchPoint, PinchSide
from ..analysis.unfinished import OPEN
from ..errors import DeskError
from ..formats.case import ANY_HEAT, Side, Utility
from ..formats.shown import Shown
from ..formats.whole_streams import whole_name
from ..search.reduce.structure import Course, Lane, Parting, Through, throughs
from .kinks import joined_with, placed_along
from .pieces import (HandPlan, changed, fresh_open, merged, named, neighbours, pair_with, replaced,
                     side_at, without_idle_partings)
from .seats import Seat, may_meet, most_of, seated, seatings, settled, source_of

NAME = re.compile('[A-Za-z0-9][A-Za-z0-9_-]{0,15}')


class NotDone(DeskError):
    """A gesture that cannot be done: why, and at what it is shown."""

    def __init__(self, text: str, *places: tuple[str, str]) -> None:
        super().__init__(text)
        self.places = places


def known(plan: HandPlan, exchanger: str) -> str:
    """The name of an exchanger that stands; `NotDone` where there is none."""
    if exchanger not in plan.pairs or plan.is_open(exchanger):
        raise NotDone(f'There is no exchanger {exchanger}.')
    return exchanger


def open_piece(plan: HandPlan, piece: str) -> str:
    """The name of an open piece; `NotDone` where there is none."""
    if piece not in plan.pairs or not plan.is_open(piece):
        raise NotDone('This piece is not open any more.')
    return piece


def other_side(plan: HandPlan, piece: str, partner: str) -> tuple[str, str]:
    """A piece and its partner, the hot one first; `NotDone` where they are of one side."""
    side = plan.piece(open_piece(plan, piece)).stream.side
    source = plan.sources.get(partner)
    if not isinstance(source, Utility):
        source = plan.piece(open_piece(plan, partner)).stream
    if source.side is side:
        raise NotDone('Both are on the same side: one has to give heat, and the other to take it.', ('piece', piece),
                      ('piece', partner))
    return (piece, partner) if side is Side.HOT else (partner, piece)


def place(plan: HandPlan, piece: str, partner: str, seats: tuple[Seat, Seat] | None = None,
          duty: Fraction | None = None, pinches: Sequence[PinchPoint] = ()) -> HandPlan:
    """An exchanger between two pieces of a plan that is cut, or one of them and a utility. Without a duty it is as
    large as it can be, and goes on across kinks."""
    hot, cold = other_side(plan, piece, partner)
    found = [chosen for chosen in seatings(plan, hot, cold, duty)
             if seats is None or (chosen.hot_seat, chosen.cold_seat) == seats]
    if not found:
        raise NotDone(cannot_meet(plan, hot, cold), ('piece', piece), ('piece', partner))
    chosen = max(found, key=lambda seating: seating.duty)
    if duty is not None and chosen.duty != duty:
        shown = Shown(plan.case.basis)
        raise NotDone(f'No more than {shown.heat(chosen.duty)} {shown.heat_unit} can be placed there.',
                      ('piece', piece))
    return seated(plan, chosen) if duty is not None else placed_along(plan, chosen, pinches)


def cannot_meet(plan: HandPlan, hot: str, cold: str) -> str:
    """Why two pieces, or a piece and a utility, exchange no heat."""
    shown = Shown(plan.case.basis)
    if not may_meet(plan, hot, cold):
        return f'{source_of(plan, hot)} and {source_of(plan, cold)} may not exchange heat: the case forbids it.'
    for name in (hot, cold):
        if not most_of(plan, name):
            return f'{name} has no more.'
    sides = []
    for name in (hot, cold):
        source = plan.sources[source_of(plan, name)]
        ends = (Fraction(source.level),) if isinstance(source, Utility) else plan.piece(name).ends
        told = ' → '.join(map(shown.temperature, dict.fromkeys(ends)))
        sides.append(f'{whole_name(plan.case, source.name)} ({told} {shown.temperature_unit})')
    approach = sum(plan.sources[source_of(plan, name)].contribution for name in (hot, cold))
    return f'{sides[0]} cannot heat {sides[1]}: {shown.with_degrees(approach)} are needed between them.'


def take_away(plan: HandPlan, exchanger: str) -> HandPlan:
    """What an exchanger served is open again, on both sides of each kink that it crosses."""
    for part in joined_with(plan, known(plan, exchanger)):
        plan = settled(opened(plan, part))
    return plan


def opened(plan: HandPlan, exchanger: str) -> HandPlan:
    """A plan in which an exchanger is an open piece on each of its streams; lanes that nothing serves are one again."""
    parted, pieces = lifted(plan, exchanger)
    return merged(without_idle_lanes(parted, frozenset(pieces.values())))


def lifted(plan: HandPlan, exchanger: str) -> tuple[HandPlan, dict[Side, str]]:
    """A plan in which an open piece of its own stands in the place of each end of an exchanger, and these pieces."""
    duties, pairs, courses = dict(plan.duties), dict(plan.pairs), dict(plan.structure.courses)
    taken, made = set(plan.pairs), dict[Side, str]()
    for stream in plan.streams_of(exchanger):
        piece = fresh_open(taken)
        taken.add(piece)
        made[stream.side] = piece
        utility = next(utility.name for utility in plan.case.utilities if utility.side is not stream.side)
        pairs[piece], duties[piece] = pair_with(stream, utility), plan.duties[exchanger]
        courses[stream.name] = replaced(courses[stream.name], exchanger, (Through(piece),))
    return changed(plan, courses, pairs, duties), made


def without_idle_lanes(plan: HandPlan, pieces: frozenset[str]) -> HandPlan:
    """A plan in which lanes beside one of these pieces that nothing serves are one again."""
    duties = dict(plan.duties)
    courses = {name: without_idle_partings(plan, course, pieces, duties)
               for name, course in plan.structure.courses.items()}
    return changed(plan, courses, duties=duties)


def with_duty(plan: HandPlan, exchanger: str, duty: Fraction, pinches: Sequence[PinchPoint]) -> HandPlan:
    """An exchanger with another duty: what it gives up is open, what it takes was open beside it. The end nearer to the
    pinch stays where it is."""
    known(plan, exchanger)
    shown = Shown(plan.case.basis)
    if duty <= 0:
        raise NotDone('A duty has to be above 0; to do without the exchanger, take it away.', ('exchanger', exchanger))
    most = room_of(plan, exchanger)
    orders = anchorings(plan, exchanger, pinches)
    for anchors in orders if duty <= most else ():
        for made in resized(plan, exchanger, duty, anchors):
            if keeps_approach(made, exchanger):
                return settled(made)
    best = max(largest_resized(plan, exchanger, anchors, most) for anchors in orders)
    best = max(best, plan.duties[exchanger] if keeps_approach(plan, exchanger) else Fraction(0))
    why = no_more(plan, exchanger) if best == most else 'it would come too close with more'
    told = f'{exchanger} can have at most {shown.heat(best)} {shown.heat_unit} here: {why}.' if best else \
        f'{exchanger} would come too close at this duty.'
    raise NotDone(told, ('exchanger', exchanger))


def no_more(plan: HandPlan, exchanger: str) -> str:
    """What has no more heat for an exchanger, in words."""
    rooms = rooms_of(plan, exchanger)
    names = [whole_name(plan.case, name) for name, room in rooms.items() if room == min(rooms.values())]
    return f'{" and ".join(names)} {"has" if len(names) == 1 else "have"} no more beside it'


def grown(plan: HandPlan, exchanger: str, pinches: Sequence[PinchPoint]) -> HandPlan:
    """An exchanger as large as what is open beside it and the approach allow."""
    most = room_of(plan, known(plan, exchanger))
    best = max((largest_resized(plan, exchanger, anchors, most) for anchors in anchorings(plan, exchanger, pinches)),
               default=Fraction(0))
    if best <= plan.duties[exchanger]:
        raise NotDone(f'{exchanger} is as large as it can be.', ('exchanger', exchanger))
    return with_duty(plan, exchanger, best, pinches)


Anchors = dict[Side, Seat]


def anchorings(plan: HandPlan, exchanger: str, pinches: Sequence[PinchPoint]) -> list[Anchors]:
    """Which end of each side stays, in the order in which they are tried: above a pinch the cold ends, else the hot
    ones; a seat `BEGIN` is where the stream comes from."""
    above = side_at(plan, exchanger, pinches) is PinchSide.ABOVE
    first = {Side.HOT: Seat.END if above else Seat.BEGIN, Side.COLD: Seat.BEGIN if above else Seat.END}
    turned = {Seat.BEGIN: Seat.END, Seat.END: Seat.BEGIN}
    hot, cold = first[Side.HOT], first[Side.COLD]
    return [{Side.HOT: hot, Side.COLD: cold}, {Side.HOT: hot, Side.COLD: turned[cold]},
            {Side.HOT: turned[hot], Side.COLD: cold}, {Side.HOT: turned[hot], Side.COLD: turned[cold]}]


def room_of(plan: HandPlan, exchanger: str) -> Fraction:
    """The largest duty for which there is heat on both sides."""
    return min(rooms_of(plan, exchanger).values())


def rooms_of(plan: HandPlan, exchanger: str) -> dict[str, Fraction]:
    """For how large a duty there is heat, by sources: its own and what is open beside it, on each stream, and what a
    utility still has."""
    rooms: dict[str, Fraction] = {}
    utility = plan.utility_of(exchanger)
    if utility is not None and utility.most != ANY_HEAT:
        rooms[utility.name] = utility.most - plan.used(True)[utility.name] + plan.duties[exchanger]
    for stream in plan.streams_of(exchanger):
        before, behind = neighbours(plan, plan.structure.courses[stream.name], exchanger)
        open_beside = (plan.duties[name] for name in (before, behind) if name)
        rooms[stream.name] = plan.duties[exchanger] + sum(open_beside, Fraction(0))
    return rooms


def resized(plan: HandPlan, exchanger: str, duty: Fraction, anchors: Anchors) -> list[HandPlan]:
    """The plan with another duty, where the anchored ends stay as long as there is something open at the others; no
    plan where an end would have to give way."""
    duties, pairs, courses = dict(plan.duties), dict(plan.pairs), dict(plan.structure.courses)
    taken = set(plan.pairs)
    change = duty - plan.duties[exchanger]
    for stream in plan.streams_of(exchanger):
        before, behind = neighbours(plan, courses[stream.name], exchanger)
        first, second = (behind, before) if anchors[stream.side] is Seat.BEGIN else (before, behind)
        if change > 0:
            left = change
            for name in (first, second):
                if name and left:
                    part = min(left, duties[name])
                    duties[name], left = duties[name] - part, left - part
                    courses[stream.name] = courses[stream.name] if duties[name] else \
                        replaced(courses[stream.name], name, ())
            if left:
                return []
        elif change < 0:
            piece = fresh_open(taken)
            taken.add(piece)
            utility = next(utility.name for utility in plan.case.utilities if utility.side is not stream.side)
            pairs[piece], duties[piece] = pair_with(stream, utility), -change
            steps = (Through(exchanger), Through(piece))
            courses[stream.name] = replaced(courses[stream.name], exchanger,
                                            steps if anchors[stream.side] is Seat.BEGIN else steps[::-1])
    duties[exchanger] = duty
    return [changed(plan, courses, pairs, duties)]


def keeps_approach(plan: HandPlan, exchanger: str) -> bool:
    """Whether both ends keep the approach."""
    return min(plan.differences(exchanger)) >= plan.approach(exchanger)


def largest_resized(plan: HandPlan, exchanger: str, anchors: Anchors, most: Fraction) -> Fraction:
    """The largest duty with these anchors. Each difference is affine between the duties at which an open piece is used
    up: so it is looked for between these."""
    corners = {most}
    for stream in plan.streams_of(exchanger):
        before, behind = neighbours(plan, plan.structure.courses[stream.name], exchanger)
        corners |= {plan.duties[exchanger] + plan.duties[name] for name in (before, behind) if name}
    marks = sorted({duty for duty in corners if duty <= most} | {plan.duties[exchanger]})
    best = Fraction(0)
    for low, high in zip(marks, marks[1:]):
        lower, upper = (resized(plan, exchanger, duty, anchors) for duty in (low, high))
        if lower and upper:
            best = max(best, affine_end(lower[0], upper[0], exchanger, low, high))
    return best


def affine_end(lower: HandPlan, upper: HandPlan, exchanger: str, low: Fraction, high: Fraction) -> Fraction:
    """The largest duty between two at which the approach is kept; 0 where it is at none."""
    first, last = Fraction(0), Fraction(1)
    for begin, end in zip(lower.differences(exchanger), upper.differences(exchanger)):
        room, more = begin - lower.approach(exchanger), end - lower.approach(exchanger)
        if room < 0 and more < 0:
            return Fraction(0)
        if more < 0:
            last = min(last, room / (room - more))
        elif room < 0:
            first = max(first, -room / (more - room))
    return low + (high - low) * last if first <= last else Fraction(0)


def split(plan: HandPlan, piece: str, share: Fraction) -> HandPlan:
    """A lane of this share beside the rest of a piece."""
    reach = plan.piece(open_piece(plan, piece))
    if not 0 < share < 1:
        raise NotDone('A lane has a share between 0 and 100 %.', ('piece', piece))
    rest, stream = fresh_open(plan.pairs), reach.stream.name
    lanes = (Lane((Through(piece),), share), Lane((Through(rest),), 1 - share))
    duties = {piece: reach.heat * share, rest: reach.heat * (1 - share)}
    courses = {stream: replaced(plan.structure.courses[stream], piece, (Parting(lanes),))}
    return settled(changed(plan, courses, {rest: plan.pairs[piece]}, duties))


def partings_of(course: Course) -> list[Parting]:
    """The partings of a course, each before those inside of it."""
    found: list[Parting] = []
    for step in course:
        if isinstance(step, Parting):
            found.append(step)
            for lane in step.lanes:
                found += partings_of(lane.course)
    return found


def joint_names(plan: HandPlan) -> dict[str, tuple[str, Parting]]:
    """The partings by the names that they have in the view: the stream and a number."""
    return {f'{stream}/{number}': (stream, parting) for stream, course in plan.structure.courses.items()
            for number, parting in enumerate(partings_of(course), 1)}


def with_parting(course: Course, old: Parting, made: Course) -> Course:
    """A course with other steps in the place of a parting."""
    steps: list[Through | Parting] = []
    for step in course:
        if step is old:
            steps.extend(made)
        elif isinstance(step, Parting):
            steps.append(Parting(tuple(replace(lane, course=with_parting(lane.course, old, made))
                                       for lane in step.lanes)))
        else:
            steps.append(step)
    return tuple(steps)


def joint_of(plan: HandPlan, joint: str) -> tuple[str, Parting]:
    found = joint_names(plan).get(joint)
    if found is None:
        raise NotDone(f'There is no split {joint}.')
    return found


def with_shares(plan: HandPlan, joint: str, shares: Sequence[Fraction]) -> HandPlan:
    """The lanes of a parting with other shares: it names all exchangers in them."""
    stream, parting = joint_of(plan, joint)
    if len(shares) != len(parting.lanes) or min(shares) <= 0 or sum(shares) != 1:
        raise NotDone('The shares of the lanes have to be above 0, and 100 % together.', ('stream', stream))
    lanes = tuple(replace(lane, share=share) for lane, share in zip(parting.lanes, shares))
    course = with_parting(plan.structure.courses[stream], parting, (Parting(lanes),))
    return settled(changed(plan, {stream: course}))


def join(plan: HandPlan, joint: str) -> HandPlan:
    """Lanes of which at most one has exchangers are one again: that one, then what the others have open."""
    stream, parting = joint_of(plan, joint)
    busy = [lane for lane in parting.lanes if not all(map(plan.is_open, throughs(lane.course)))]
    if len(busy) > 1:
        raise NotDone('More than one lane has exchangers: take those of the others away first.', ('stream', stream))
    idle = [name for lane in parting.lanes if lane not in busy for name in throughs(lane.course)]
    course = (*(busy[0].course if busy else ()), *(Through(name) for name in idle))
    return settled(changed(plan, {stream: with_parting(plan.structure.courses[stream], parting, course)}))


def rename(plan: HandPlan, exchanger: str, name: str) -> HandPlan:
    """An exchanger with another name."""
    known(plan, exchanger)
    if not NAME.fullmatch(name):
        raise NotDone('A name has 1 to 16 letters, digits, _ and -, and begins with a letter or a digit.',
                      ('exchanger', exchanger))
    if name in plan.pairs or name.startswith(OPEN):
        raise NotDone(f'{name} is a name that is used already, or begins with {OPEN}.', ('exchanger', exchanger))
    return named(plan, lambda old: name if old == exchanger else old)
