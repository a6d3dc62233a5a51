"""Open pieces that are served by utilities, and heaters and coolers that take other ones."""
from __future__ import annotations

from ..formats.case import Side, Utility
from .gestures import NotDone, keeps_approach, known, open_piece, place
from .pieces import HandPlan, changed, pair_with, reaches, utilities_for
from .seats import Seat, seat_of, seated


def serve(plan: HandPlan, piece: str, utility: str | None) -> HandPlan:
    """An open piece is served by a utility: that of this name, else the cheapest that reaches its end."""
    reach = plan.piece(open_piece(plan, piece))
    if utility is not None:
        return place(plan, piece, utility)
    used = plan.used(True)
    reaching = [other for other in utilities_for(plan.case, reach.stream)
                if reaches(other, reach.stream, reach.outlet)]
    if not reaching:
        raise NotDone(f'No utility of the case reaches the end of this piece of {reach.stream.name}: add one to the '
                      'case.', ('piece', piece))
    enough = [other for other in reaching if used[other.name] + reach.heat <= other.most]
    if not enough:
        names = ' and '.join(other.name for other in reaching)
        raise NotDone(f'{names} cannot serve this piece of {reach.stream.name}: it would be more than there is.',
                      ('piece', piece))
    return place(plan, piece, min(enough, key=lambda other: other.price).name, duty=reach.heat)


def finish(plan: HandPlan) -> HandPlan:
    """All that is open is served by utilities."""
    if not plan.open:
        raise NotDone('Nothing is open.')
    for piece in plan.open:
        plan = serve(plan, piece, None)
    return plan


def finish_in_parts(plan: HandPlan) -> HandPlan:
    """All that is open is served by utilities, at each temperature by the cheapest that reaches it and has some left: a
    piece may take several."""
    if not plan.open:
        raise NotDone('Nothing is open.')
    while plan.open:
        plan = part_served(plan, plan.open[0])
    return plan


def part_served(plan: HandPlan, piece: str) -> HandPlan:
    """The beginning of a piece is served by the cheapest utility that reaches some of it, as far as that goes."""
    stream = plan.piece(piece).stream
    pairs = [(piece, utility.name) if stream.side is Side.HOT else (utility.name, piece)
             for utility in sorted(utilities_for(plan.case, stream), key=lambda utility: utility.price)]
    seats = (Seat.BEGIN, Seat.LEVEL) if stream.side is Side.HOT else (Seat.LEVEL, Seat.BEGIN)
    for hot, cold in pairs:
        chosen = seat_of(plan, hot, cold, seats)
        if chosen is not None:
            return seated(plan, chosen)
    raise NotDone(f'No utility of the case serves what is left of {stream.name}: add one to the case.',
                  ('piece', piece))


def change_utility(plan: HandPlan, exchanger: str, utility: str) -> HandPlan:
    """A heater or a cooler takes another utility."""
    before = plan.utility_of(known(plan, exchanger))
    after = plan.sources.get(utility)
    if before is None or not isinstance(after, Utility) or after.side is not before.side:
        raise NotDone(f'{exchanger} cannot take {utility}.', ('exchanger', exchanger))
    stream = plan.streams_of(exchanger)[0]
    made = changed(plan, pairs={exchanger: pair_with(stream, utility)})
    if not keeps_approach(made, exchanger):
        raise NotDone(f'{utility} does not reach the end of {exchanger}.', ('exchanger', exchanger))
    return made
