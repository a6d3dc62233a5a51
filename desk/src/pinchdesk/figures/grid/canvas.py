"""A grid diagram that is being drawn: where things are, in inches from the lower left."""
from __future__ import annotations

from dataclasses import dataclass, field
from typing import Any

from ...analysis.findings import Finding
from ...analysis.follow import Passage
from ...formats.case import Side, Utility
from ...program.verdicts import PlaceKind, Rejected, Verdict
from ..paper import Paper
from .layout import GridLayout

# How far apart two numbers beside each other stand at least.
APART = 0.06


@dataclass
class Canvas:
    """Where things are drawn, in inches from the lower left."""

    paper: Paper
    plan: GridLayout
    heights: dict[str, list[float]]
    labels: float
    slants: float
    finding: Finding | None
    verdict: Verdict
    # The upright pieces of all bars and pinches: where, from and to which height.
    bars: list[tuple[float, float, float]] = field(default_factory=list)
    # The numbers at streams: left, right, low, high.
    numbers: list[tuple[float, float, float, float]] = field(default_factory=list)

    def write(self, x: float, y: float, text: str, **style: Any) -> None:
        self.paper.write(x, y, text, **{'fontsize': self.plan.type.size, **style})

    def is_fault(self, name: str) -> bool:
        """Whether the fault of a rejected network is at this stream or utility."""
        if self.finding is None or not isinstance(self.verdict, Rejected):
            return False
        place = self.verdict.place
        return name in (self.finding.stream, place.name if place.kind is PlaceKind.UTILITY else None)

    def is_free(self, left: float, right: float, low: float, high: float) -> bool:
        """Whether no bar and no pinch passes through a box, and no number stands so near that both look like one; all
        have to be drawn."""
        return not (any(left < x < right and min(one, other) < high and max(one, other) > low
                        for x, one, other in self.bars)
                    or any(left < last + APART and first - APART < right and low < top and bottom < high
                           for first, last, bottom, top in self.numbers))

    def number(self, x: float, y: float, text: str, wide: float, high: float, **style: Any) -> None:
        """Writes a number at a stream; its width and height are those of the place that it takes."""
        self.numbers.append((x - wide / 2, x + wide / 2, y - high / 2, y + high / 2))
        self.write(x, y, text, **style)


def ends_at(sheet: Canvas, passage: Passage) -> tuple[tuple[float, float], tuple[float, float]]:
    """Where the bar of an exchanger begins and ends."""
    plan, name, made = sheet.plan, passage.exchanger.name, []
    for side, word, other in ((passage.hot, 'hot', 'cold'), (passage.cold, 'cold', 'hot')):
        key = (word, name) if (word, name) in plan.columns.of else (other, name)
        x = plan.x(plan.columns.of[key])
        lanes = sheet.heights[side.source.name]
        lane = plan.lanes[side.source.name].get(side.before.name, 0) if side.before else 0
        made.append((x, lanes[lane]))
    return made[0], made[1]


def utility_reach(sheet: Canvas, utility: Utility) -> tuple[float, float]:
    """From the first to the last exchanger of a utility."""
    positions = []
    for passage in sheet.plan.followed.passages:
        if utility.name in (passage.exchanger.hot, passage.exchanger.cold):
            ends = ends_at(sheet, passage)
            positions.append(ends[0 if utility.side is Side.HOT else 1][0])
    margin = 0.6 * sheet.plan.type.pitch
    return min(positions) - margin, max(positions) + margin
