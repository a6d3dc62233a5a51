"""A first answer by the composite curves of a window: heat goes straight down from the hot curve to the cold one.

Between two kinks of the curves every hot stream that is there is warmer than every cold one, so any pairs may meet, and
the corner rule gives a few to each stretch. Such an answer has many exchangers. It is made less by linear programs in
which a small duty has a large weight: what is not needed goes to 0, and its place is given up."""
from __future__ import annotations

import random
from collections.abc import Iterator, Mapping, Sequence
from dataclasses import replace
from fractions import Fraction

from ..solver.linear import Program, solve
from .model import ONE, StagedModel
from .slots import Asked, SlotEnd, Slot, may_meet
from .stages import model_of
from .transshipment import Pair
from .windows import WindowPiece, Window

# How often the weights are made anew; a duty of so much of the greatest heat has half the weight of none.
ROUNDS, HALF = 12, Fraction(1, 500)
Heats = dict[str, Fraction]


def runs(pieces: Sequence[WindowPiece]) -> Iterator[tuple[Fraction, Fraction, Fraction]]:
    """The composite curve from the hottest end down, in runs of one slope: upper and lower temperature, and heat."""
    ends = sorted({end for piece in pieces for end in (piece.high, piece.low)}, reverse=True)
    for at, end in enumerate(ends):
        level = sum(piece.most for piece in pieces if piece.is_level and piece.high == end)
        if level:
            yield Fraction(end), Fraction(end), Fraction(level)
        lower = ends[at + 1] if at + 1 < len(ends) else end
        cp = sum(piece.cp for piece in pieces if piece.low <= lower < piece.high)
        if cp and lower < end:
            yield Fraction(end), Fraction(lower), Fraction(cp * (end - lower))


def kinks(window: Window) -> list[Fraction]:
    """The heats, from the hottest end down, at which one of the curves has a kink; both ends of the curves too."""
    heats = {Fraction(0)}
    for pieces in (window.hots, window.colds):
        above = Fraction(0)
        for _, _, heat in runs(pieces):
            above += heat
            heats.add(above)
    return sorted(heats)


def heats_between(pieces: Sequence[WindowPiece], first: Fraction, last: Fraction) -> Heats:
    """What each piece gives or takes where the curve has between so much and so much heat above it."""
    made: Heats = {}
    above = Fraction(0)
    for upper, lower, heat in runs(pieces):
        part = (min(last, above + heat) - max(first, above)) / heat
        above += heat
        if part <= 0:
            continue
        for piece in pieces:
            if upper == lower:
                more = Fraction(piece.most) if piece.is_level and piece.high == upper else Fraction(0)
            else:
                more = piece.cp * (upper - lower) if piece.low <= lower and piece.high >= upper else Fraction(0)
            if more:
                made[piece.name] = made.get(piece.name, Fraction(0)) + more * part
    return made


def matched(given: Heats, taken: Heats, order: Mapping[Pair, float], known: set[Pair]) -> Iterator[Pair]:
    """Pairs by the corner rule in this order, those that are known first."""
    left, wanted = dict(given), dict(taken)
    pairs = sorted(((hot, cold) for hot in given for cold in taken if (hot, cold) in order),
                   key=lambda pair: (pair not in known, order[pair]))
    for hot, cold in pairs:
        duty = min(left[hot], wanted[cold])
        if duty:
            left[hot] -= duty
            wanted[cold] -= duty
            yield hot, cold


def upright_slots(window: Window, chance: random.Random) -> tuple[int, frozenset[Slot]]:
    """The stages and the slots of an answer by the composite curves, which pairs come first by chance."""
    levels = {piece.name for piece in window.pieces if piece.is_level}
    order = {(hot.name, cold.name): chance.random() for hot in window.hots for cold in window.colds
             if may_meet(hot, cold, window)}
    known: set[Pair] = set()
    slots: set[Slot] = set()
    places = kinks(window)
    for stage, (first, last) in enumerate(zip(places, places[1:])):
        given, taken = (heats_between(pieces, first, last) for pieces in (window.hots, window.colds))
        pairs = set(matched(given, taken, order, known))
        slots |= {Slot(0, SlotEnd.LEVELS if levels.issuperset(pair) else stage, *pair) for pair in pairs}
        known |= pairs
    return len(places) - 1, frozenset(slots)


def upright(asked: Asked, begin: Window, chance: random.Random) -> Asked | None:
    """What is asked for, of one window, with such slots, made less. Where the uses of its utilities are open, `begin`
    is the window with uses that do. None where the slots do not, as where many pairs are forbidden."""
    stages, slots = upright_slots(begin, chance)
    asked = replace(asked, stages=(stages,), ends=False)
    duties: dict[Slot, Fraction] = {}
    for _ in range(ROUNDS):
        model = model_of(replace(asked, slots=slots))
        weights = tuple((at, 1 / (1 + duties.get(slot, Fraction(0)) / (HALF * 1000)))
                        for slot, at in model.duties.items())
        solved = solve(all_used(model, weights))
        if solved is None:
            return None
        duties = {slot: Fraction(solved.values[at]).limit_denominator(1000) for slot, at in model.duties.items()
                  if solved.values[at] > 1e-6}
        if len(duties) == len(slots):
            break
        slots = frozenset(duties)
    return replace(asked, slots=slots)


def all_used(model: StagedModel, aim: tuple[tuple[int, Fraction], ...]) -> Program:
    """The program in which each slot has its exchanger."""
    program = model.program()
    lows = list(program.lows)
    for at in model.uses.values():
        lows[at] = ONE
    return replace(program, lows=tuple(lows), wholes=frozenset(), aim=aim)
