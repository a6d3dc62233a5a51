"""What an open piece may be matched with: for each partner the ways to place an exchanger, its largest duty, and what
it costs, by `pinch targets` of what would be left."""
from __future__ import annotations

from collections.abc import Iterator, Sequence
from concurrent.futures import ThreadPoolExecutor
from contextlib import suppress
from dataclasses import dataclass, replace
from fractions import Fraction

from ..analysis.follow import PinchPoint, PinchSide
from ..formats.case import Side
from ..formats.shown import Shown
from ..formats.whole_streams import whole_name
from ..program.run import Pinch
from .gestures import NotDone, open_piece
from .judgement import Reachable, money, reachable
from .kinks import placed_along
from .moving import move_end, own_pairs
from .pieces import HandPlan, cut, side_at, utilities_for
from .seats import Seat, Seated, seated, seatings
from .view import Offer

ASKED_AT_ONCE = 4
# Of each partner at most so many ways are priced: those with the largest duties.
MOST_WAYS = 6
BESIDE = {PinchSide.ABOVE: 'above', PinchSide.BELOW: 'below'}


@dataclass(frozen=True)
class PricedOffer:
    """A way to place an exchanger with what can be reached then; None where that is not known."""

    chosen: Seated
    partner: str
    made: HandPlan
    after: Reachable | None


def partners(plan: HandPlan, piece: str) -> list[str]:
    """The pieces of the other side and the utilities that may serve a piece."""
    stream = plan.piece(open_piece(plan, piece)).stream
    pieces = [name for name in plan.open if plan.piece(name).stream.side is not stream.side]
    return [*pieces, *(utility.name for utility in utilities_for(plan.case, stream))]


def ways_to_place(plan: HandPlan, piece: str, most: Fraction | None = None) -> Iterator[tuple[str, Seated]]:
    """All ways to serve a piece of a plan that is cut, with no more than so much heat."""
    hot = plan.piece(piece).stream.side is Side.HOT
    for partner in partners(plan, piece):
        pair = (piece, partner) if hot else (partner, piece)
        found = sorted(seatings(plan, *pair, most), key=lambda chosen: -chosen.duty)
        yield from ((partner, chosen) for chosen in found[:MOST_WAYS])


def offers_of(pinch: Pinch, plan: HandPlan, piece: str, before: Reachable | None,
              pinches: Sequence[PinchPoint] = (), most: Fraction | None = None) -> tuple[Offer, ...]:
    """All offers for a piece of a plan that is cut, of no more than so much heat, the best first: what costs least,
    then what has the larger duty, then what wants no split."""
    ways = list(ways_to_place(plan, piece, most))
    made = [seated(plan, chosen) if chosen.duty == most else placed_along(plan, chosen, pinches) for _, chosen in ways]
    with ThreadPoolExecutor(ASKED_AT_ONCE) as pool:
        after = list(pool.map(lambda placed: reachable(pinch, placed), made))
    offers = [PricedOffer(chosen, partner, placed, found)
              for (partner, chosen), placed, found in zip(ways, made, after)]
    offers.sort(key=lambda offer: rank(plan, offer, before))
    return tuple(told(plan, piece, offer, before, pinches, offer.chosen.duty == most) for offer in offers)


@dataclass(frozen=True)
class PricedMove:
    """A move of one end of an exchanger, or of both, with what can be reached then; None where that is not known."""

    piece: str
    other: str | None
    made: HandPlan
    after: Reachable | None = None


def moves_of(pinch: Pinch, plan: HandPlan, exchanger: str, before: Reachable | None,
             pinches: Sequence[PinchPoint] = ()) -> tuple[Offer, ...]:
    """Where the ends of an exchanger of a plan that is cut can be moved to, one of them or along its streams both, the
    best first: what costs least, then what has the larger duty."""
    goals: list[tuple[str, str | None]] = [*((piece, None) for piece in plan.open), *own_pairs(plan, exchanger)]
    moves = [move for piece, other in goals for move in moved_to(plan, exchanger, piece, other, pinches)]
    with ThreadPoolExecutor(ASKED_AT_ONCE) as pool:
        after = list(pool.map(lambda move: reachable(pinch, move.made), moves))
    moves = [replace(move, after=found) for move, found in zip(moves, after)]

    def order(move: PricedMove) -> tuple[object, ...]:
        cost = cost_of(move.after, before)
        return (cost is None, cost or Fraction(0), paid_more(move.after, before), -move.made.duties[exchanger],
                move.other is not None)

    return tuple(told_move(plan, exchanger, move, before) for move in sorted(moves, key=order))


def moved_to(plan: HandPlan, exchanger: str, piece: str, other: str | None, pinches: Sequence[PinchPoint],
             ) -> Iterator[PricedMove]:
    """The plan with ends of an exchanger at these pieces; none where it cannot stand there."""
    with suppress(NotDone):
        yield PricedMove(piece, other, move_end(plan, exchanger, piece, other, pinches))


def told_move(plan: HandPlan, exchanger: str, move: PricedMove, before: Reachable | None) -> Offer:
    """A move in words: to which streams, and to where on them."""
    shown, made = Shown(plan.case.basis), move.made
    streams = [plan.piece(piece).stream for piece in (move.piece, move.other) if piece is not None]
    ends = ' and '.join(' to '.join(map(shown.temperature, made.ends(exchanger, stream.side))) for stream in streams)
    duty, full = made.duties[exchanger], plan.duties[exchanger]
    price, free = priced(shown, move.after, before)
    words = f'{ends} {shown.temperature_unit}, {shown.heat(duty)} {shown.heat_unit}'
    gesture = {'kind': 'move', 'exchanger': exchanger, 'piece': move.piece}
    return Offer(move.piece, 'piece', ' and '.join(whole_name(plan.case, stream.name) for stream in streams),
                 shown.heat(duty), words if duty == full else f'{words} of {shown.heat(full)}', price, free,
                 duty == full, gesture if move.other is None else {**gesture, 'other': move.other})


def cost_of(after: Reachable | None, before: Reachable | None) -> Fraction | None:
    """What it costs at most, in W of hot utility; None where that is not known."""
    if before is None or after is None:
        return None
    return max(Fraction(0), after.most - before.least)


def rank(plan: HandPlan, offer: PricedOffer, before: Reachable | None) -> tuple[object, ...]:
    cost = cost_of(offer.after, before)
    lanes = (offer.chosen.hot_seat, offer.chosen.cold_seat).count(Seat.LANE)
    heat = sum((offer.made.duties[name] for name in offer.made.placed if name not in plan.pairs), Fraction(0))
    more = paid_more(offer.after, before)
    return offer.partner in plan.utilities, cost is None, cost or Fraction(0), more, -heat, lanes


def paid_more(after: Reachable | None, before: Reachable | None) -> Fraction:
    """By how much the least cost of the whole rises, in price times W, where it matters which utility is used."""
    if before is None or before.cost is None or after is None or after.cost is None:
        return Fraction(0)
    return max(Fraction(0), after.cost - before.cost)


def priced(shown: Shown, after: Reachable | None, before: Reachable | None) -> tuple[str, bool]:
    """What a gesture costs, in words, and whether it costs nothing."""
    cost, more = cost_of(after, before), paid_more(after, before)
    exact = before is not None and before.exact and after is not None and after.exact
    price = 'cost not known' if cost is None else 'costs nothing' if not cost else \
        f'costs {"" if exact else "at most "}{shown.heat(cost)} {shown.heat_unit}'
    if more:
        price = f'{money(shown, more)} more' if not cost else f'{price}, {money(shown, more)} more'
    if after is not None and not after.is_servable:
        price = 'the rest could not be served then'
    return price, cost == 0 and not more


def told(plan: HandPlan, piece: str, offer: PricedOffer, before: Reachable | None, pinches: Sequence[PinchPoint],
         limited: bool) -> Offer:
    """An offer in words; one whose duty was limited says that duty in its gesture."""
    shown, chosen = Shown(plan.case.basis), offer.chosen
    heat = sum((offer.made.duties[name] for name in offer.made.placed if name not in plan.pairs), Fraction(0))
    duty = f'{shown.heat(heat)} {shown.heat_unit}'
    ended = [name for name in (chosen.hot, chosen.cold) if ends_piece(plan, name, chosen)]
    price, free = priced(shown, offer.after, before)
    sides = ((chosen.hot, chosen.hot_seat), (chosen.cold, chosen.cold_seat))
    seats = ', '.join(where(plan, name, seat) for name, seat in sides
                      if seat is not Seat.LEVEL and not ends_piece(plan, name, chosen))
    partner = offer.partner
    is_utility = partner in plan.utilities
    gesture = {'kind': 'place', 'piece': piece, 'partner': partner, 'hot_seat': chosen.hot_seat.value,
               'cold_seat': chosen.cold_seat.value, **({'duty': exact_heat(shown, chosen.duty)} if limited else {})}
    words = ', '.join((duty, *ended_told(plan, offer.made, ended, pinches)))
    return Offer(partner, 'utility' if is_utility else 'piece',
                 partner if is_utility else whole_name(plan.case, plan.piece(partner).stream.name), shown.heat(heat),
                 words,
                 price + (f' ({seats})' if seats else ''), free, bool(ended), gesture)


def exact_heat(shown: Shown, heat: Fraction) -> str:
    """A heat in the unit of the case, not rounded."""
    return str(shown.in_heat(heat))


def ended_told(plan: HandPlan, made: HandPlan, ended: Sequence[str], pinches: Sequence[PinchPoint]) -> list[str]:
    """What is done when some pieces are, in words: whole streams, or what of them was open on a side of the pinch."""
    names: dict[str, list[str]] = {}
    left = cut(made, pinches) if ended else made
    for piece in ended:
        whole, side = whole_name(plan.case, plan.piece(piece).stream.name), side_at(plan, piece, pinches)
        still = [name for name in left.open if whole_name(plan.case, left.piece(name).stream.name) == whole]
        if not still:
            names.setdefault('finishes {}', []).append(whole)
        elif len(pinches) == 1 and side in BESIDE and all(side_at(left, name, pinches) is not side for name in still):
            names.setdefault(f'ticks off {{}} {BESIDE[side]} the pinch', []).append(whole)
        else:
            names.setdefault('ticks off this piece of {}', []).append(whole)
    return [words.format(' and '.join(streams)) for words, streams in names.items()]


def ends_piece(plan: HandPlan, name: str, chosen: Seated) -> bool:
    return name not in plan.utilities and plan.piece(name).heat == chosen.duty


def where(plan: HandPlan, name: str, seat: Seat) -> str:
    """Where on its stream an exchanger would stand that leaves some of a piece."""
    stream = plan.piece(name).stream
    if seat is Seat.LANE:
        return f'{stream.name} split'
    cold = (stream.side is Side.HOT) is (seat is Seat.END)
    return f'{stream.name} at its {"cold" if cold else "hot"} end'


def best_seats(offers: Sequence[Offer], partner: str) -> Offer | None:
    """The offer that a drop on a partner takes."""
    return next((offer for offer in offers if offer.partner == partner), None)
