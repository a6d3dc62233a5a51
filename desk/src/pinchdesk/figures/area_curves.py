"""Where the area of a target goes: the balanced composite curves with the area of each interval below them, and the
driving forces."""
from __future__ import annotations

from collections.abc import Mapping, Sequence
from fractions import Fraction

from matplotlib.axes import Axes
from matplotlib.figure import Figure

from ..costs.area_target import AreaTarget, IntervalArea
from ..costs.shells import Duty
from ..formats.shown import Shown
from .axes import entitled, fitted, legend_below, spaced
from .labels import Labels, Xy
from .style import ACROSS, COLD, HOT, NEUTRAL, PALE, blank, framed, said, styled

# So many intervals have their area written beside them, the largest first.
WRITTEN = 5


def area_figure(target: AreaTarget, shown: Shown = Shown()) -> Figure:
    """The balanced composite curves, and below them the area of each interval as a bar as wide as its heat and as high
    as its m² a kW, or what the case has in its place, so that what is seen is the area."""
    with styled():
        figure = blank(8, 7)
        curves, bars = figure.subplots(2, 1, sharex=True, gridspec_kw={'height_ratios': (3, 2)})
        put_curves(curves, target.intervals, shown)
        put_bars(bars, target.intervals, shown)
        unit = shown.heat_unit
        entitled(curves, '', f'temperature in {shown.temperature_unit}',
                 f'Area by the formula: {target.area.shown(1)} m²')
        of_one = f'({unit})' if '/' in unit else unit
        entitled(bars, f'heat in {unit}', f'area for a {unit}, m²/{of_one}')
        legend_below(bars, [*curves.get_legend_handles_labels()[0], *bars.get_legend_handles_labels()[0]])
        fitted(figure)
        spaced(bars)
        put_areas(bars, target.intervals, shown)
    return figure


def degrees(tenths: Fraction, shown: Shown) -> float:
    """A temperature in tenths of °C in the unit of the case."""
    return float(shown.in_temperature(shown.units.of_tenths(tenths)))


def kelvin(difference: Fraction, shown: Shown) -> float:
    """A difference in K in the unit of the case."""
    return float(shown.in_difference(shown.units.of_tenths_between(difference * 10)))


def heat_of(watts: Fraction, shown: Shown) -> float:
    """A heat of the plant in W in the unit of the case."""
    return float(shown.units.shown_heat(shown.units.of_watts(watts)))


def put_curves(axes: Axes, intervals: Sequence[IntervalArea], shown: Shown) -> None:
    pieces = [area.interval for area in intervals]
    across = [heat_of(place, shown) for piece in pieces for place in (piece.begin, piece.end)]
    for label, colour, ends in (('hot streams and utilities', HOT, [piece.hot for piece in pieces]),
                                ('cold streams and utilities', COLD, [piece.cold for piece in pieces])):
        upright = [degrees(temperature, shown) for end in ends for temperature in (end.low, end.high)]
        axes.plot(across, upright, color=colour, linewidth=1.6, label=label)
    for piece in pieces:
        axes.plot([heat_of(piece.end, shown)] * 2, [degrees(piece.cold.high, shown), degrees(piece.hot.high, shown)],
                  color=PALE, linewidth=0.5)
    framed(axes)


def put_bars(axes: Axes, intervals: Sequence[IntervalArea], shown: Shown) -> None:
    lefts = [heat_of(area.interval.begin, shown) for area in intervals]
    wide = [heat_of(area.interval.heat, shown) for area in intervals]
    areas = [float(area.area.middle) for area in intervals]
    axes.bar(lefts, [area / width for area, width in zip(areas, wide)], wide, align='edge', color=ACROSS, alpha=0.35,
             edgecolor=ACROSS, linewidth=0.5, label='area of an interval')
    axes.margins(y=0.15)
    framed(axes)


def put_areas(axes: Axes, intervals: Sequence[IntervalArea], shown: Shown) -> None:
    """The area of the largest intervals above their bars, where there is room; the scales have to be set."""
    labels = Labels(axes)
    for area in sorted(intervals, key=lambda area: -area.area.middle)[:WRITTEN]:
        middle = heat_of((area.interval.begin + area.interval.end) / 2, shown)
        top = float(area.area.middle) / heat_of(area.interval.heat, shown)
        labels.put_above(f'{area.area.shown(1)} m²', (middle, top), fontsize=8)


def driving_forces_figure(target: AreaTarget, exchangers: Mapping[str, Duty] | None = None,
                          shown: Shown = Shown()) -> Figure:
    """The difference of the balanced curves over the cold temperature, and that of the exchangers of a network by their
    names: those off the curve use the driving forces worse (Linnhoff and Vredeveld 1984)."""
    with styled():
        figure = blank(8, 5.4)
        axes = figure.subplots()
        pieces = [area.interval for area in target.intervals]
        curve = [(degrees(end, shown), kelvin(gap, shown)) for piece in pieces
                 for end, gap in ((piece.cold.low, piece.cold_end), (piece.cold.high, piece.warm_end))]
        axes.plot(*zip(*curve), color=NEUTRAL, linewidth=1.6, label='balanced composite curves')
        lines = {name: ends_of(duty, shown) for name, duty in (exchangers or {}).items()}
        for line in lines.values():
            axes.plot(*zip(*line), color=ACROSS, linewidth=1.2, marker='o', markersize=3)
        if lines:
            axes.get_lines()[-1].set_label('exchangers of the network')
        axes.set_ylim(bottom=0)
        entitled(axes, f'cold temperature in {shown.temperature_unit}', f'difference in {shown.difference_unit}',
                 'Driving forces')
        legend_below(axes)
        framed(axes)
        fitted(figure)
        spaced(axes)
        labels = Labels(axes, [curve, *lines.values()])
        for name, line in lines.items():
            labels.put(said(name), *along(line), color=ACROSS, fontsize=8)
    return figure


def along(line: Sequence[Xy]) -> list[Xy]:
    """Places on a straight line for its name, the middle first; at an end it may meet another line."""
    (left, low), (right, high) = line
    return [(left + part * (right - left), low + part * (high - low)) for part in (0.5, 0.7, 0.3)]


def ends_of(duty: Duty, shown: Shown) -> list[Xy]:
    """The differences at both ends of an exchanger, over the temperatures of its cold side."""
    return [(degrees(cold, shown), kelvin((hot - cold) / 10, shown))
            for hot, cold in ((duty.hot.low, duty.cold.low), (duty.hot.high, duty.cold.high))]
