"""Ends of exchangers that are moved to open pieces: one end, or both of them at once. Where a piece lies just beside
an end, on the same side of each pinch, and is too small for it, the end goes past it."""
from __future__ import annotations

from collections.abc import Iterator, Mapping, Sequence
from dataclasses import dataclass

from ..analysis.follow import PinchPoint
from ..formats.case import Side
from ..formats.shown import Shown
from ..formats.whole_streams import whole_name
from ..search.reduce.structure import Course, Parting, Through
from .gestures import NotDone, known, lifted, open_piece, without_idle_lanes
from .kinks import joined_with
from .pieces import HandPlan, changed, part_above, replaced
from .seats import Seat, Seated, seated, seatings


@dataclass(frozen=True)
class Room:
    """Where an end may go: a piece of a plan, and the seat on it; any where it is None."""

    plan: HandPlan
    piece: str
    seat: Seat | None = None

    def takes(self, seat: Seat) -> bool:
        return self.seat in (None, seat)


def move_end(plan: HandPlan, exchanger: str, piece: str, other: str | None = None,
             pinches: Sequence[PinchPoint] = ()) -> HandPlan:
    """A plan that is cut in which the end of an exchanger on the side of a piece is moved to there, with its duty or as
    much of it as goes there. The other end goes to another piece, or keeps its place, but for what it has less then."""
    if len(plan.streams_of(known(plan, exchanger))) < 2:
        raise NotDone(f'{exchanger} is no exchanger between two streams.', ('exchanger', exchanger))
    if len(joined_with(plan, exchanger)) > 1:
        raise NotDone(f'{exchanger} goes on across a kink: take it away, and place it anew.', ('exchanger', exchanger))
    goals = {plan.piece(open_piece(plan, goal)).stream.side: goal for goal in (piece, other) if goal is not None}
    if other is not None and len(goals) < 2:
        raise NotDone('Both pieces are on the same side: each end has a side of its own.', ('piece', piece))
    found = list(movings(plan, exchanger, goals, pinches))
    if not found:
        raise NotDone(f'{exchanger} would come too close there, or its streams may not exchange heat.',
                      ('exchanger', exchanger), ('piece', piece))
    without, chosen = max(found, key=lambda moving: moving[1].duty)
    return seated(without, chosen, exchanger)


def movings(plan: HandPlan, exchanger: str, goals: Mapping[Side, str], pinches: Sequence[PinchPoint],
            ) -> Iterator[tuple[HandPlan, Seated]]:
    """The ways to move ends of an exchanger to pieces: the plan without it, and its seats there."""
    without, left = lifted(plan, exchanger)
    for side, goal in goals.items():
        cleared = without_idle_lanes(without, frozenset((left[side],)))
        without = cleared if goal in cleared.pairs else without
    for hot in rooms(without, left[Side.HOT], goals.get(Side.HOT), pinches):
        for cold in rooms(hot.plan, left[Side.COLD], goals.get(Side.COLD), pinches):
            for chosen in seatings(cold.plan, hot.piece, cold.piece, plan.duties[exchanger]):
                if hot.takes(chosen.hot_seat) and cold.takes(chosen.cold_seat):
                    yield cold.plan, chosen


def rooms(plan: HandPlan, left: str, goal: str | None, pinches: Sequence[PinchPoint]) -> Iterator[Room]:
    """Where an end may go that has left an open piece: to where it was, to its goal, or past all that is open up to the
    end of its goal, but across no pinch."""
    if goal is None:
        yield Room(plan, left)
        return
    yield Room(plan, goal)
    stream = plan.piece(left).stream
    run = run_of(plan, plan.structure.courses[stream.name], left)
    if goal not in run or stream.latent:
        return
    first, last = sorted((run.index(left), run.index(goal)))
    if len({tuple(part_above(plan.piece(name), pinch) for pinch in pinches) for name in run[first:last + 1]}) > 1:
        return
    passed = [name for name in run[first:last + 1] if name != left]
    course = plan.structure.courses[stream.name]
    for name in passed:
        course = replaced(course, name, ())
    heat = sum((plan.duties[name] for name in passed), plan.duties[left])
    yield Room(changed(plan, {stream.name: course}, duties={left: heat}), left,
               Seat.END if run[last] == goal else Seat.BEGIN)


def run_of(plan: HandPlan, course: Course, piece: str) -> list[str]:
    """The open pieces that follow one another without a break around a piece, in its lane; none where the course does
    not have it."""
    run: list[str] = []
    for step in course:
        if isinstance(step, Through) and plan.is_open(step.exchanger):
            run.append(step.exchanger)
            continue
        if piece in run:
            return run
        run = []
        for lane in step.lanes if isinstance(step, Parting) else ():
            inside = run_of(plan, lane.course, piece)
            if inside:
                return inside
    return run if piece in run else []


def own_pairs(plan: HandPlan, exchanger: str) -> Iterator[tuple[str, str]]:
    """The open pieces of both streams of an exchanger, the hot one first: where the whole of it can go."""
    names = [whole_name(plan.case, stream.name) for stream in plan.streams_of(exchanger)]
    if len(names) < 2:
        return
    hot, cold = ([piece for piece in plan.open if whole_name(plan.case, plan.piece(piece).stream.name) == name]
                 for name in names)
    yield from ((one, other) for one in hot for other in cold)


def moved_told(plan: HandPlan, exchanger: str) -> str:
    """Where an exchanger stands that was moved, in words."""
    shown = Shown(plan.case.basis)
    pair = '–'.join(whole_name(plan.case, source) for source in plan.pairs[exchanger])
    return f'{exchanger} moved: {pair}, {shown.heat(plan.duties[exchanger])} {shown.heat_unit}'
