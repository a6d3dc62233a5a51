"""Streams of several segments: to the hand each is one stream, and an exchanger that is placed goes on across a kink,
from segment to segment, as long as both sides are open there and the approach is kept."""
from __future__ import annotations

import enum
from collections.abc import Sequence
from itertools import pairwise

from ..analysis.follow import PinchPoint, follow
from ..analysis.joined import Joiner, wholes_of
from ..formats.case import Side, Stream
from ..formats.network import Network
from ..formats.whole_streams import parts_of, whole_streams
from ..search.reduce.structure import Through
from .network_lines import LineWriter, TextLayout
from .pieces import HandPlan, cut, neighbours, side_at
from .seats import Seat, Seated, seat_of, seated


class Onward(enum.Enum):
    """In which direction an exchanger goes on."""

    COLDER = 'colder'
    HOTTER = 'hotter'


def placed_along(plan: HandPlan, chosen: Seated, pinches: Sequence[PinchPoint]) -> HandPlan:
    """The plan with an exchanger in its seats, which goes on across kinks on its side of the pinch."""
    before = set(plan.pairs)
    made = seated(plan, chosen)
    if not plan.case.basis.segments:
        return made
    name = next(exchanger for exchanger in made.placed if exchanger not in before)
    for onward in Onward:
        last: str | None = name
        while last is not None:
            made, last = one_more(made, last, onward, pinches)
    return made


def one_more(plan: HandPlan, name: str, onward: Onward, pinches: Sequence[PinchPoint]) -> tuple[HandPlan, str | None]:
    """The plan in which an exchanger goes on across one kink, and what stands there; None where it does not."""
    pieces = cut(plan, pinches)
    hot, cold = (beside(pieces, name, side, onward) for side in Side)
    if hot is None or cold is None or not (hot[1] or cold[1]):
        return plan, None
    open_pieces = [piece for piece in (hot[0], cold[0]) if piece not in plan.utilities]
    if any(side_at(pieces, piece, pinches) is not side_at(pieces, name, pinches) for piece in open_pieces):
        return plan, None
    colder = onward is Onward.COLDER
    seats = (seat_at(pieces, hot[0], colder), seat_at(pieces, cold[0], not colder))
    chosen = seat_of(pieces, hot[0], cold[0], seats)
    if chosen is None:
        return plan, None
    made = seated(pieces, chosen)
    return made, next(exchanger for exchanger in made.placed if exchanger not in plan.pairs)


def seat_at(plan: HandPlan, piece: str, begins: bool) -> Seat:
    if piece in plan.utilities:
        return Seat.LEVEL
    return Seat.BEGIN if begins or plan.piece(piece).stream.latent else Seat.END


def beside(plan: HandPlan, name: str, side: Side, onward: Onward) -> tuple[str, bool] | None:
    """What is open beside an exchanger on one side, and whether it lies across a kink; a utility is open everywhere."""
    source = plan.sources[plan.pairs[name][side is Side.COLD]]
    if not isinstance(source, Stream):
        return source.name, False
    behind = (onward is Onward.COLDER) is (side is Side.HOT)
    found = neighbours(plan, plan.structure.courses[source.name], name)[behind]
    if found is not None:
        return found, False
    course = plan.structure.courses[source.name]
    if course[-1 if behind else 0] != Through(name):
        return None
    other = segment_beside(plan, source.name, behind)
    if other is None or not plan.structure.courses[other]:
        return None
    step = plan.structure.courses[other][0 if behind else -1]
    return (step.exchanger, True) if isinstance(step, Through) and plan.is_open(step.exchanger) else None


def segment_beside(plan: HandPlan, segment: str, behind: bool) -> str | None:
    """The segment that follows another one, or comes before it; None where there is none."""
    for whole in whole_streams(plan.case):
        for one, other in pairwise(parts_of(whole)):
            if (one if behind else other).name == segment:
                return (other if behind else one).name
    return None


def joined_with(plan: HandPlan, name: str) -> list[str]:
    """The exchangers that are one with this one, across kinks."""
    if not plan.case.basis.segments:
        return [name]
    followed = follow(plan.case, Network(tuple(LineWriter(plan, TextLayout()).written())))
    for chain in Joiner(followed, wholes_of(plan.case)).chains():
        names = [passage.exchanger.name for passage in chain]
        if name in names:
            return [part for part in names if not plan.is_open(part)]
    return [name]
