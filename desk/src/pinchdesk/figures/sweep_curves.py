"""Targets and least cost over the least difference."""
from __future__ import annotations

from collections.abc import Sequence

from matplotlib.axes import Axes
from matplotlib.figure import Figure

from ..analysis.sweep_request import own_contributions
from ..formats.case import Case
from ..formats.shown import Shown
from ..program.answers import Sweep, SweepRow
from .axes import entitled, fitted, legend_below, plainly, spaced, wrapped
from .style import COLD, HOT, INK, blank, framed, said, styled

COST = '#1e8449'


def sweep_figure(case: Case, sweep: Sweep) -> Figure:
    """Both targets of each row, and the cost where it is not the hot target. A row without a heat flow is a gap in the
    cost alone."""
    shown = Shown(case.basis)
    priced = any(point.cost not in (None, point.hot) for point in sweep.points)
    gaps = [point for point in sweep.points if point.cost is None]
    with styled():
        figure = blank(8, 5.4)
        axes = figure.subplots()
        put_targets(axes, sweep, shown)
        if priced:
            put_cost(axes.twinx(), sweep, shown)
        if gaps:
            across = differences(gaps, shown)
            axes.plot(across, [0] * len(across), 'x', color=INK, markersize=7, label='no heat flow: no cost',
                      clip_on=False)
        note = '' if gaps else ' (the least cost is the hot target)'
        own = '\ncontributions of their own are replaced' if own_contributions(case) else ''
        entitled(axes, f'least difference in {shown.difference_unit}', f'heat in {shown.heat_unit}',
                 f'Targets{" and least cost" if priced else ""} over the least difference{"" if priced else note}{own}')
        legend_below(axes, [line for drawn_axes in figure.axes for line in drawn_axes.get_lines()])
        fitted(figure)
        spaced(axes)
    return figure


def differences(points: Sequence[SweepRow], shown: Shown) -> list[float]:
    """The least differences of rows, which are twice their contributions."""
    return [float(shown.in_difference(2 * point.contribution)) for point in points]


def put_targets(axes: Axes, sweep: Sweep, shown: Shown) -> None:
    across, unit = differences(sweep.points, shown), shown.heat_unit
    # Where both are equal the wider line is seen on both sides of the other one; one at 0 lies above the axis.
    for name, colour, wide, heats in (('hot target', HOT, 3.0, [point.hot for point in sweep.points]),
                                      ('cold target', COLD, 1.4, [point.cold for point in sweep.points])):
        first, last = shown.heat(heats[0]), shown.heat(heats[-1])
        told = f'{name}: {first} to {last} {unit}' if first != last else f'{name}: {first} {unit}'
        axes.plot(across, [float(shown.in_heat(heat)) for heat in heats], color=colour, marker='o',
                  markersize=wide + 1.6, linewidth=wide, label=told, clip_on=False, zorder=3)
    axes.set_ylim(bottom=0)
    plainly(axes)
    framed(axes)


def put_cost(axes: Axes, sweep: Sweep, shown: Shown) -> None:
    across = differences(sweep.points, shown)
    costs = [float('nan') if point.cost is None else float(shown.in_cost(point.cost)) for point in sweep.points]
    axes.plot(across, costs, color=COST, marker='s', markersize=3, linewidth=1.4, label='least cost (right scale)')
    axes.set_ylabel(wrapped(f'least cost, {said(shown.cost_unit)}', 4.0), color=COST)
    plainly(axes)
    if not any(cost < 0 for cost in costs):
        axes.set_ylim(bottom=0)
    axes.grid(False)
    axes.spines['top'].set_visible(False)
