"""Exchangers that are one across a cut between two windows.

At a cut all streams have its temperature, so both sides of such an exchanger touch there, and keep the least approach
on both sides of the cut alone where they have one CP. It is seen by the model where one of the streams has no other
branch above and below the cut: then the branch of the other has its CP, and that is linear."""
from __future__ import annotations

from collections.abc import Iterator

from .model import ONE, ZERO, StagedModel
from .slots import Joint, Slot
from .windows import WindowPiece


def add_joints(model: StagedModel, at: int) -> None:
    """Adds what may be joined across the cut below a window. An exchanger is joined once, and a stream that is alone
    with one other."""
    made = {joint: model.variable(ZERO, ONE, True) for joint in joints_of(model, at)}
    model.joints.update(made)
    for joint, use in made.items():
        for slot in (joint.upper, joint.lower):
            add_joint(model, joint, slot, use)
    for name in sorted({joint.alone for joint in made}):
        model.row([(use, 1) for joint, use in made.items() if joint.alone == name], None, ONE)
    for upper in sorted({joint.upper for joint in made}):
        model.row([(use, 1) for joint, use in made.items() if joint.upper == upper], None, ONE)


def joints_of(model: StagedModel, at: int) -> Iterator[Joint]:
    """Pairs that may be joined across the cut below a window."""
    above, below = ({piece.name: piece for piece in model.asked.windows[window].pieces if not piece.is_level}
                    for window in (at, at + 1))
    for slot in model.duties:
        lower = Slot(at + 1, 0, slot.hot, slot.cold)
        if slot.window != at or slot.stage != model.asked.stages[at] - 1 or lower not in model.duties:
            continue
        if all(name in above and name in below and above[name].low == below[name].high for name in slot.pair):
            joints = (Joint(slot, lower, name) for name in slot.pair)
            yield from (joint for joint in joints if above[joint.other].cp >= above[joint.alone].cp)


def add_joint(model: StagedModel, joint: Joint, slot: Slot, use: int) -> None:
    """One of the two exchangers that are joined: it is there, it takes all of the stream that is alone, and the other
    stream has the same range in its stage."""
    pieces = {piece.name: piece for piece in model.asked.windows[slot.window].pieces}
    model.row([(use, 1), (model.uses[slot], -1)], None, ZERO)
    for name in slot.pair:
        tie(model, slot, pieces[joint.alone], pieces[name], use)


def tie(model: StagedModel, slot: Slot, alone: WindowPiece, piece: WindowPiece, use: int) -> None:
    """Where two are joined, the range of a piece in the stage is the duty over the CP of the stream that is alone."""
    cp = alone.cp / model.unit
    upper, lower = (model.states[slot.window, piece.name, slot.stage + offset] for offset in (0, 1))
    terms = ((upper, cp), (lower, -cp), (model.duties[slot], -ONE))
    wrong = cp * max(piece.high - piece.low, alone.high - alone.low)
    model.row([*terms, (use, wrong)], None, wrong)
    model.row([*terms, (use, -wrong)], -wrong, None)
