"""Exchangers of one pair that follow each other on both streams, with nothing between, are one."""
from __future__ import annotations

from collections.abc import Iterator
from dataclasses import replace
from fractions import Fraction

from ...formats.case import Case, Side, Stream
from .plan import StagedPlan, Segment


def joined(case: Case, plan: StagedPlan) -> StagedPlan:
    """The plan with such exchangers joined, as many as there are."""
    streams = {stream.name: stream for stream in case.streams}
    while True:
        pair = next(pairs_of(plan, streams), None)
        if pair is None:
            return plan
        plan = merged(plan, *pair)


def pairs_of(plan: StagedPlan, streams: dict[str, Stream]) -> Iterator[tuple[int, int]]:
    """Two exchangers of one pair that are one: the first is on the hot side of the other."""
    for one, first in plan.matches.items():
        for other, second in plan.matches.items():
            if one != other and (first.hot, first.cold) == (second.hot, second.cold):
                if all(follows(plan, streams.get(name), one, other) for name in (first.hot, first.cold)):
                    yield one, other


def follows(plan: StagedPlan, stream: Stream | None, upper: int, lower: int) -> bool:
    """Whether the branch of one exchanger goes on to the other, in the direction from hot to cold. At a level there is
    no order."""
    if stream is None or stream.latent:
        return True
    first, second = (upper, lower) if stream.side is Side.HOT else (lower, upper)
    steps = plan.segments[stream.name]
    last = max(at for at, segment in enumerate(steps) if first in segment)
    return last + 1 < len(steps) and steps[last + 1].get(second) == steps[last][first] and second not in steps[last]


def merged(plan: StagedPlan, one: int, other: int) -> StagedPlan:
    """The plan with the second exchanger taken into the first."""
    first, second = plan.matches[one], plan.matches[other]
    matches = {at: match for at, match in plan.matches.items() if at != other}
    matches[one] = replace(first, duty=first.duty + second.duty)
    segments = {name: tuple(renamed(segment, one, other) for segment in steps) for name, steps in plan.segments.items()}
    return StagedPlan(matches, segments)


def renamed(segment: Segment, one: int, other: int) -> Segment:
    if other not in segment:
        return segment
    sizes = {at: size for at, size in segment.items() if at != other}
    return sizes | {one: sizes.get(one, Fraction(0)) + segment[other]}
