"""The slots of an answer as those of one window, with stages of its own."""
from __future__ import annotations

from dataclasses import replace

from ...formats.case import Side
from .slots import Asked, SlotEnd, Slot, places
from .windows import Window


def as_one(every: Window, slots: frozenset[Slot]) -> tuple[Asked, frozenset[Slot]]:
    """The slots of an answer of other windows, or of stages alone, in one window. Its stages follow each other. What
    stands at an end of a stream in its window, and at no end of it in the whole, has a stage of its own."""
    hots = {piece.name: piece for piece in every.pieces if piece.side is Side.HOT}
    colds = {piece.name: piece for piece in every.pieces if piece.side is Side.COLD}

    def placed(slot: Slot) -> SlotEnd | None:
        place = places(hots[slot.hot], colds[slot.cold], 1)[0]
        return SlotEnd(place) if place < 0 else None

    staged = [slot for slot in slots if placed(slot) is None]
    order = {step: at for at, step in enumerate(sorted({slot.step for slot in staged}))}
    used = [replace(slot, window=0, stage=order[slot.step]) for slot in staged]
    used += [replace(slot, window=0, stage=placed(slot) or 0) for slot in slots if placed(slot) is not None]
    return Asked((every,), (len(order),)), frozenset(used)
