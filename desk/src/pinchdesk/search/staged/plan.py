"""A plan: exchangers with exact duties, and in which order and beside which others each stream meets them."""
from __future__ import annotations

from collections.abc import Mapping, Sequence
from dataclasses import dataclass
from fractions import Fraction

from ...formats.case import Case, Side, Stream
from .model import StagedModel
from .slots import Slot


@dataclass(frozen=True)
class Match:
    """An exchanger with its duty in W."""

    hot: str
    cold: str
    duty: Fraction


# A segment of a stream: the exchangers between which it is split, by their numbers, each with the size of its branch.
Segment = Mapping[int, Fraction]


@dataclass(frozen=True)
class StagedPlan:
    """Exchangers by their numbers, and the segments of each stream from its supply on. At the end of a segment all
    branches have one state. An exchanger may stand in several segments, one behind the other, with one size: its
    branch goes through."""

    matches: Mapping[int, Match]
    segments: Mapping[str, tuple[Segment, ...]]


def plan_of(case: Case, model: StagedModel, point: Sequence[Fraction]) -> StagedPlan:
    """The plan of a point of a model."""
    slots = sorted(slot for slot, at in model.duties.items() if point[at] > 0)
    duties = {slot: point[model.duties[slot]] * model.unit for slot in slots}
    numbers = {slot: at for at, slot in enumerate(slots)}
    matches = {numbers[slot]: Match(slot.hot, slot.cold, duty) for slot, duty in duties.items()}
    segments: dict[str, tuple[Segment, ...]] = {}
    for stream in case.streams:
        stream_slots = [slot for slot in slots if stream.name in slot.pair]
        if stream.latent:
            segments[stream.name] = ({numbers[slot]: duties[slot] for slot in stream_slots},) if stream_slots else ()
            continue
        steps: list[Segment] = []
        for group in in_order(stream_slots, stream):
            heat = sum((duties[slot] for slot in group), Fraction(0))
            steps.append({numbers[slot]: stream.cp * duties[slot] / heat for slot in group})
        segments[stream.name] = tuple(steps)
    return StagedPlan(matches, segments)


def in_order(slots: Sequence[Slot], stream: Stream) -> list[list[Slot]]:
    """The exchangers of a stream from its supply on, those of a stage together."""
    down: dict[tuple[int, int, int], list[Slot]] = {}
    for slot in slots:
        # What stands at an end is one behind the other.
        alone = len(down) if slot.stage < 0 else 0
        down.setdefault((*slot.step, alone), []).append(slot)
    steps = [down[place] for place in sorted(down)]
    return steps if stream.side is Side.HOT else steps[::-1]
