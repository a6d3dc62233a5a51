"""The staged model of networks (Yee and Grossmann 1990), with isothermal mixing: as few exchangers as there may be.

A window has stages 0 .. K-1 from its hot end. In a stage a stream is split between its exchangers, and all its branches
leave with one temperature, so that with a fixed least approach the model is linear in duties and in the temperatures at
the boundaries of the stages. A source at one level (a utility, a latent stream) has no order. Where it is hotter than
all of a cold stream in the window, an exchanger with it may as well stand at the stream's hot end, behind all stages
(at the cold end of a hot stream, the other way round); so these pairs have one place in place of K."""
from __future__ import annotations

from fractions import Fraction

from ...formats.case import Side
from .crossing import add_joints
from .model import ONE, ZERO, StagedModel, unit_of
from .slots import Asked, SlotEnd, Slot, capacity, may_meet, places, places_in
from .windows import WindowPiece, Window


def model_of(asked: Asked) -> StagedModel:
    """The model of some windows, together."""
    model = StagedModel(asked, unit_of(asked.windows))
    for at, window in enumerate(asked.windows):
        add_window(model, at, window, asked.stages[at])
    for at in range(len(asked.windows) - 1):
        add_joints(model, at)
    if asked.most_cost is not None:
        prices = {piece.name: piece.price for window in asked.windows for piece in window.pieces if piece.price}
        terms = [(at, prices.get(slot.hot, 0) + prices.get(slot.cold, 0)) for slot, at in model.duties.items()]
        model.row([term for term in terms if term[1]], None, asked.most_cost / model.unit)
    return model


def add_window(model: StagedModel, at: int, window: Window, stages: int) -> None:
    for piece in window.pieces:
        if not piece.is_level:
            add_states(model, at, piece, window, stages)
    for slot, hot, cold in places_in(window, at, stages, model.asked.ends):
        if model.asked.slots is None or slot in model.asked.slots:
            add_slot(model, slot, min(capacity(hot, cold), window.total) / model.unit)
            add_approach(model, slot, hot, cold)
    for piece in window.pieces:
        if piece.is_level:
            add_level(model, at, piece)
        else:
            add_stream(model, at, piece, stages)


def add_states(model: StagedModel, at: int, piece: WindowPiece, window: Window, stages: int) -> None:
    """The temperatures of a stream at each boundary. Its ends are fixed, but for one at which a level may stand."""
    hot = piece.side is Side.HOT
    pairs = [(piece, partner) for partner in window.colds] if hot else [(partner, piece) for partner in window.hots]
    ends = {place for pair in pairs if may_meet(*pair, window) for place in places(*pair, 1, model.asked.ends)}
    for boundary in range(stages + 1):
        is_high = boundary == 0 and (hot or SlotEnd.TOP not in ends)
        is_low = boundary == stages and not (hot and SlotEnd.BOTTOM in ends)
        if stages == 0:
            is_high, is_low = hot, not hot
        low, high = (Fraction(piece.high if is_high else piece.low), Fraction(piece.low if is_low else piece.high))
        model.states[at, piece.name, boundary] = model.variable(low, high)


def add_slot(model: StagedModel, slot: Slot, limit: Fraction) -> None:
    """A duty, and whether there is an exchanger."""
    model.duties[slot] = model.variable(ZERO, limit)
    model.uses[slot] = model.variable(ZERO, ONE, True)
    model.row([(model.duties[slot], 1), (model.uses[slot], -limit)], None, ZERO)


def add_approach(model: StagedModel, slot: Slot, hot: WindowPiece, cold: WindowPiece) -> None:
    """The hot side is as warm as the cold one at both ends of an exchanger. Without one the difference is at most so
    wrong as the ranges say; where they say that it is never, there is no row."""
    if slot.stage < 0:
        return
    for boundary in (slot.stage, slot.stage + 1):
        terms: list[tuple[int, Fraction | int]] = []
        level, least = 0, Fraction(0)
        for piece, sign in ((hot, 1), (cold, -1)):
            if piece.is_level:
                level += sign * piece.high
                continue
            state = model.states[slot.window, piece.name, boundary]
            bound = model.lows[state] if sign > 0 else model.highs[state]
            terms.append((state, sign))
            least += sign * (bound or 0)
        if least + level < 0:
            model.row([*terms, (model.uses[slot], least + level)], least, None)


def exchangers_of(model: StagedModel, at: int, piece: WindowPiece) -> dict[Slot, int]:
    """The slots of a piece with their duties."""
    return {slot: duty for slot, duty in model.duties.items()
            if slot.window == at and piece.name == (slot.hot if piece.side is Side.HOT else slot.cold)}


def add_level(model: StagedModel, at: int, piece: WindowPiece) -> None:
    """A level gives or takes in all what it has."""
    duties = exchangers_of(model, at, piece)
    model.row([(duty, 1) for duty in duties.values()], piece.least / model.unit, piece.most / model.unit)
    if piece.least > 0:
        model.row([(model.uses[slot], 1) for slot in duties], ONE, None)


def add_stream(model: StagedModel, at: int, piece: WindowPiece, stages: int) -> None:
    """A stream gives or takes in each stage what its temperatures say, and at its end what is left."""
    duties = exchangers_of(model, at, piece)
    cp = piece.cp / model.unit
    for stage in range(stages):
        upper, lower = (model.states[at, piece.name, boundary] for boundary in (stage, stage + 1))
        duty_terms = [(duty, -ONE) for slot, duty in duties.items() if slot.stage == stage]
        model.row([(upper, cp), (lower, -cp), *duty_terms], ZERO, ZERO)
    ends = [duty for slot, duty in duties.items() if slot.stage < 0]
    if piece.side is Side.HOT:
        model.row([(model.states[at, piece.name, stages], cp), *((duty, -1) for duty in ends)], *(cp * piece.low,) * 2)
    else:
        model.row([(model.states[at, piece.name, 0], cp), *((duty, 1) for duty in ends)], *(cp * piece.high,) * 2)
    model.row([(model.uses[slot], 1) for slot in duties], ONE, None)
