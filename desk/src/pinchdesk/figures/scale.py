"""A scale of temperatures that is broken where a level far off would squeeze the rest."""
from __future__ import annotations

from collections.abc import Sequence
from dataclasses import dataclass
from typing import Any

import numpy
from matplotlib.axes import Axes
from matplotlib.ticker import FixedLocator, FuncFormatter, MaxNLocator

# A gap this much longer than what is shown below or above it is cut down to a small part of that; of what is shown no
# less than so many °C count.
LONG, LEFT, MARGIN, LEAST = 0.7, 0.1, 0.06, 20.0
# How far apart numbers of the scale stand at least, in dots.
APART = 30


@dataclass(frozen=True)
class Gap:
    """What is left out of a scale, in its numbers; `shown` is how long it is still drawn."""

    low: float
    high: float
    shown: float

    @property
    def cut(self) -> float:
        return self.high - self.low - self.shown


def gaps_of(curves: Sequence[float], levels: Sequence[float]) -> tuple[Gap, ...]:
    """The gaps between the curves' temperatures and levels of utilities far above or below them."""
    low, high = min(curves), max(curves)
    gaps: list[Gap] = []
    for direction in (1, -1):
        bottom, top = low, high
        for level in sorted(levels, reverse=direction < 0):
            far = level - top if direction > 0 else bottom - level
            span = max(top - bottom, LEAST)
            if far > LONG * span:
                edges = sorted((top + MARGIN * span, level - MARGIN * span)) if direction > 0 else \
                    sorted((level + MARGIN * span, bottom - MARGIN * span))
                gaps.append(Gap(edges[0], edges[1], LEFT * span))
                break
            top, bottom = (max(top, level), bottom) if direction > 0 else (top, min(bottom, level))
    return tuple(gaps)


def forward(gaps: Sequence[Gap], values: Any) -> Any:
    temperatures = numpy.asarray(values, dtype=float)
    made = temperatures.copy()
    for gap in gaps:
        made = made - numpy.clip((temperatures - gap.low) / (gap.high - gap.low), 0, 1) * gap.cut
    return made


def backward(gaps: Sequence[Gap], values: Any) -> Any:
    positions = numpy.asarray(values, dtype=float)
    knots = sorted({edge for gap in gaps for edge in (gap.low, gap.high)})
    ends = [knots[0] - 1e5, *knots, knots[-1] + 1e5]
    return numpy.interp(positions, forward(gaps, ends), ends)


def broken(axes: Axes, gaps: tuple[Gap, ...], levels: Sequence[float]) -> None:
    """Breaks the upright scale of a diagram whose limits are set, with a mark at each gap."""
    if not gaps:
        return
    low, high = axes.get_ylim()
    axes.set_yscale('function', functions=(lambda v: forward(gaps, v), lambda v: backward(gaps, v)))
    axes.set_ylim(low, high)
    inside = [low, *sorted(edge for gap in gaps for edge in (gap.low, gap.high)), high]
    kept = list(zip(inside[::2], inside[1::2]))
    longest = max(kept, key=lambda span: float(span[1] - span[0]))
    dots = axes.get_window_extent().height / float(forward(gaps, high) - forward(gaps, low))
    bins = max(1, min(8, int((longest[1] - longest[0]) * dots / APART)))
    steps = MaxNLocator(bins, steps=[1, 2, 2.5, 5, 10]).tick_values(*longest)
    ticks = [tick for tick in steps if longest[0] <= tick <= longest[1]]
    for level in sorted({far_level for far_level in levels if not longest[0] <= far_level <= longest[1]}):
        if all(abs(float(forward(gaps, level) - forward(gaps, tick))) * dots > APART for tick in ticks):
            ticks.append(level)
    axes.yaxis.set_major_locator(FixedLocator(sorted(ticks)))
    axes.yaxis.set_major_formatter(FuncFormatter(lambda value, _: f'{value:g}'))
    for gap in gaps:
        for edge in ((gap.low * 2 + gap.high) / 3, (gap.low + gap.high * 2) / 3):
            axes.plot([-0.012, 0.012], [edge, edge], transform=axes.get_yaxis_transform(), color='black', linewidth=1,
                      clip_on=False, marker=[(-1, -0.5), (1, 0.5)], markersize=9, linestyle='none')
        axes.axhspan(gap.low, gap.high, color='#f3f3f3', zorder=0)
