"""The numbers at both sides of a grid diagram: names, supplies and targets, CPs and loads."""
from __future__ import annotations

from dataclasses import dataclass

from ...formats.case import Stream
from ..style import FAULT, INK, PALE
from ..text_widths import width
from .canvas import Canvas
from .ends import DrawnEnd, end_of, reading
from .layout import GridLayout, reach

# The room around a text.
PAD = 0.034


def flow_heading(plan: GridLayout) -> str:
    return f'CP {plan.shown.flow_unit}'


def load_heading(plan: GridLayout) -> str:
    return f'load {plan.shown.heat_unit}'


def margins(plan: GridLayout) -> list[float]:
    """Sets the plan's left end, and gives where the columns of CPs and loads end, right of the streams."""
    size = plan.type.size
    ends: list[DrawnEnd] = [end_of(plan, row) for row in plan.rows]
    names = max(width(row.name, size, True) for row in plan.rows)
    left = max(width(end.left, size, end.missed) for end in ends)
    plan.left = 0.25 + names + 0.12 + left + 0.05
    right = max(width(end.right, size, end.missed) for end in ends)
    flows = max(width(text, size) for text in [flow_heading(plan), *(end.flow for end in ends)])
    loads = max(width(text, size) for text in [load_heading(plan), *(end.load for end in ends)])
    first = right + 0.3 + flows
    return [first, first + 0.2 + loads, first + 0.2 + loads + 0.25]


def put_numbers(sheet: Canvas, numbers: list[float], top: float) -> None:
    """The columns at both sides, under their headings, and what is at the ends of each stream. The bars of exchangers
    have to be drawn."""
    plan, edges = sheet.plan, sheet.plan.edges
    for x, text in ((edges[1] + numbers[0], flow_heading(plan)), (edges[1] + numbers[1], load_heading(plan))):
        sheet.write(x, top + 0.02, text, ha='right', color=PALE)
    for row in plan.rows:
        y, end = sheet.heights[row.name][0], end_of(plan, row)
        colour = FAULT if sheet.is_fault(row.name) else INK
        sheet.write(0.25, y, row.name, ha='left', fontweight='bold', color=colour)
        sheet.write(edges[1] + numbers[0], y, end.flow, ha='right')
        sheet.write(edges[1] + numbers[1], y, end.load, ha='right')
        first, last = reach(plan, row) if isinstance(row, Stream) else edges
        for x, text, side in ((first, end.left, 'right'), (last, end.right, 'left')):
            if text:
                put_end(sheet, (x, y), text, side, end.missed and reading(row, side))


@dataclass(frozen=True)
class Spot:
    """A place for a text at the end of a stream: its middle, its width and height, and whether it stands upright."""

    x: float
    y: float
    wide: float
    high: float
    upright: bool = False


def spots(plan: GridLayout, at: tuple[float, float], wide: float, side: str) -> list[Spot]:
    """Places for a text of this width, the best first: beside the end; above the stream; upright there."""
    way, line = -1 if side == 'right' else 1, plan.type.line
    (x, y), up = at, line * 0.72
    return [*(Spot(x + way * (far + wide / 2), y, wide, line) for far in (0.1, 0.05)),
            Spot(x - way * (0.04 + wide / 2), y + up, wide, line * 0.9),
            *(Spot(x - way * far, y + wide / 2 + 0.06, line * 0.9, wide, True) for far in (0.1, -0.1))]


def put_end(sheet: Canvas, at: tuple[float, float], text: str, side: str, wrong: bool) -> None:
    """What stands at the end of a stream, where no bar passes."""
    wide = width(text, sheet.plan.type.size, wrong)
    candidates = spots(sheet.plan, at, wide, side)
    free = [candidate for candidate in candidates
            if sheet.is_free(candidate.x - candidate.wide / 2 - 0.02, candidate.x + candidate.wide / 2 + 0.02,
                             candidate.y - candidate.high / 2, candidate.y + candidate.high / 2)]
    spot = free[0] if free else candidates[0]
    if not free:
        sheet.paper.ground(spot.x, spot.y, spot.wide + PAD, spot.high)
    mark = {'color': FAULT, 'fontweight': 'bold'} if wrong else {}
    sheet.number(spot.x, spot.y, text, spot.wide, spot.high, rotation=90.0 if spot.upright else 0.0, **mark)
