"""The diagrams of curves: composite, balanced composite and grand composite (Linnhoff and Flower 1978; Kemp 2007).

Each is drawn in two steps, as labels can be placed only where the scales stand: first its lines, then its labels."""
from __future__ import annotations

from collections.abc import Callable, Sequence
from dataclasses import dataclass
from fractions import Fraction

from matplotlib.axes import Axes
from matplotlib.lines import Line2D

from ..analysis.follow import PinchPoint
from ..analysis.pinch_places import temperatures_at
from ..formats.case import Side
from ..formats.shown import Shown
from ..program.answers import Point
from .labels import Labels, Xy
from .scale import LEAST, broken, gaps_of
from .style import COLD, HOT, INK, PALE, framed
from .utilities_used import Corner, Drawn, DrawnSpan, Used, balanced, on_curve, stairs

CURVE = {'marker': 'o', 'markersize': 2.8, 'linewidth': 1.5}


@dataclass(frozen=True)
class Panel:
    """A diagram: its lines with scales and titles, and then its labels."""

    put: Callable[[Axes, Drawn], None]
    label: Callable[[Axes, Drawn], None]


def at(shown: Shown, heat: Fraction | int, temperature: Fraction | int) -> Xy:
    """A corner in the units of the case."""
    return float(shown.in_heat(heat)), float(shown.in_temperature(temperature))


def corners_of(points: Sequence[Point], start: int = 0) -> list[Corner]:
    return [(Fraction(point.heat + start), point.temperature) for point in points]


def drawn_at(corners: Sequence[Corner], shown: Shown) -> list[Xy]:
    return [at(shown, *corner) for corner in corners]


def ends_of(span: DrawnSpan, shown: Shown) -> list[Xy]:
    return [at(shown, span.first, span.temperature), at(shown, span.last, span.temperature)]


def heat_of(heat: Fraction | int, shown: Shown) -> str:
    return f'{shown.heat(heat)} {shown.heat_unit}'


def legend_of(used: Used, shown: Shown) -> str:
    heat, unit = heat_of(used.heat, shown), shown.temperature_unit
    if used.utility.invented:
        return f'{used.utility.name}: {heat}'
    level, shifted = shown.temperature(used.utility.level), shown.temperature(used.level)
    more = '' if level == shifted else f' ({shifted} {unit} shifted)'
    return f'{used.utility.name} at {level} {unit}{more}: {heat}'


def finish(axes: Axes, curves: Sequence[Sequence[Xy]], levels: Sequence[float], shown: Shown, title: str,
           scale: str = 'temperature') -> None:
    """Scales and titles; the upright scale is broken where a level lies far off."""
    temperatures = [point[1] for curve in curves for point in curve]
    gaps = gaps_of(temperatures, levels)
    low, high = min([*temperatures, *levels]), max([*temperatures, *levels])
    margin = 0.13 * max(high - low - sum(gap.cut for gap in gaps), LEAST)
    axes.set_ylim(low - margin, high + margin)
    broken(axes, gaps, levels)
    axes.margins(x=0.07)
    axes.autoscale(axis='x')
    if axes.get_xlim()[1] - axes.get_xlim()[0] < 1e-9:
        axes.set_xlim(-1, 1)
    axes.set_xlabel(f'heat in {shown.heat_unit}', labelpad=2)
    axes.set_ylabel(f'{scale} in {shown.temperature_unit}')
    axes.set_title(title)
    framed(axes)


def labels_of(axes: Axes, named: Sequence[str]) -> Labels:
    """Labels that keep off the lines that are drawn already and have one of these names."""
    return Labels(axes, [points_of(line) for line in axes.get_lines() if line.get_gid() in named])


def points_of(line: Line2D) -> list[Xy]:
    return [(float(point[0]), float(point[1])) for point in line.get_xydata()]


def put_curve(axes: Axes, points: Sequence[Xy], colour: str, name: str) -> None:
    if points:
        axes.plot(*zip(*points), color=colour, label=name, gid='curve', **CURVE)


def put_span(axes: Axes, span: DrawnSpan, shown: Shown) -> None:
    axes.plot(*zip(*ends_of(span, shown)), color=span.used.colour, linewidth=3.6, solid_capstyle='butt', gid='utility',
              label=legend_of(span.used, shown))


def name_spans(labels: Labels, spans: Sequence[DrawnSpan], shown: Shown) -> None:
    """The name of each utility at its line, where there is room."""
    for span in spans:
        (first, level), (last, _) = ends_of(span, shown)
        labels.put_where_free(span.used.utility.name, ((first + last) / 2, level), color=span.used.colour, fontsize=8,
                              fontweight='bold')


def put_composite(axes: Axes, drawn: Drawn) -> None:
    """The composite curves over actual temperatures; the cold one begins at the cold target."""
    shown, curves = drawn.shown, drawn.curves
    hot = drawn_at(corners_of(curves.hot), shown)
    cold = drawn_at(corners_of(curves.cold, drawn.targets.cold), shown)
    put_curve(axes, hot, HOT, 'hot streams')
    put_curve(axes, cold, COLD, 'cold streams')
    for pinch in drawn.pinches:
        put_pinch(axes, drawn, pinch, (corners_of(curves.hot), corners_of(curves.cold, drawn.targets.cold)),
                  Fraction(drawn.below(Side.HOT, pinch)))
    finish(axes, [hot, cold], [], shown, 'Composite curves')


def put_pinch(axes: Axes, drawn: Drawn, pinch: PinchPoint, curves: tuple[list[Corner], list[Corner]],
              heat: Fraction) -> None:
    """A pinch between both curves, at the heat that lies below it."""
    ends = []
    for side, corners in zip((Side.HOT, Side.COLD), curves):
        wanted = temperatures_at(drawn.case, side, pinch.temperature)
        found = on_curve(corners, heat, Fraction(wanted.low if side is Side.HOT else wanted.high))
        ends += [] if found is None else [at(drawn.shown, heat, found)]
    if ends:
        axes.plot(*zip(*ends), color=PALE, linestyle='--', linewidth=1, marker='o', markersize=5,
                  markerfacecolor='none', gid='pinch')


def label_composite(axes: Axes, drawn: Drawn) -> None:
    """The targets at both ends of the curves, and the pinches on both scales."""
    labels, shown = labels_of(axes, ('curve', 'pinch')), drawn.shown
    lines = {line.get_label(): points_of(line) for line in axes.get_lines()}
    hot, cold = lines.get('hot streams'), lines.get('cold streams')
    if hot and cold:
        top, bottom = max(hot[-1][1], cold[-1][1]), min(hot[0][1], cold[0][1])
        for first, last, level, name, heat in ((hot[-1][0], cold[-1][0], top, 'QH', drawn.targets.hot),
                                               (hot[0][0], cold[0][0], bottom, 'QC', drawn.targets.cold)):
            axes.annotate('', (first, level), (last, level), zorder=5, annotation_clip=False,
                          arrowprops={'arrowstyle': '<->', 'color': INK, 'linewidth': 0.9, 'shrinkA': 0, 'shrinkB': 0})
            labels.keep_off([(first, level), (last, level)])
            labels.put(f'{name} {heat_of(heat, shown)}', ((first + last) / 2, level), fontweight='bold')
    for pinch, line in zip(drawn.pinches, [line for line in axes.get_lines() if line.get_gid() == 'pinch']):
        labels.put(told_pinch(drawn, pinch), *reversed(points_of(line)))


def told_pinch(drawn: Drawn, pinch: PinchPoint) -> str:
    hot, cold = (temperatures_at(drawn.case, side, pinch.temperature).told(drawn.shown)
                 for side in (Side.HOT, Side.COLD))
    unit = drawn.shown.temperature_unit
    return f'pinch {drawn.shown.temperature(pinch.temperature)} {unit} shifted:\nhot {hot} {unit}, cold {cold} {unit}'


def put_balanced(axes: Axes, drawn: Drawn) -> None:
    """The balanced composite curves: with the utilities in them, so that both begin and end together."""
    shown, curves, levels = drawn.shown, [], []
    for side, points, colour in ((Side.HOT, drawn.curves.hot, HOT), (Side.COLD, drawn.curves.cold, COLD)):
        corners, spans = balanced_side(drawn, side)
        put_curve(axes, drawn_at(corners, shown), colour, f'{side.value} streams')
        for span in reversed(spans):
            put_span(axes, span, shown)
        curves.append(corners)
        levels += [float(shown.in_temperature(span.temperature)) for span in spans]
    for pinch in drawn.pinches:
        heats = [drawn.balanced_below(side, pinch) for side in (Side.HOT, Side.COLD)]
        # Where more is used than the targets heat crosses the pinch, and the curves are apart there.
        if heats[0] == heats[1]:
            put_pinch(axes, drawn, pinch, (curves[0], curves[1]), Fraction(heats[0]))
    streams = [corners_of(points) for points in (drawn.curves.hot, drawn.curves.cold) if points]
    finish(axes, [drawn_at(stream_corners, shown) for stream_corners in streams], levels, shown,
           'Balanced composite curves')


def balanced_side(drawn: Drawn, side: Side) -> tuple[list[Corner], list[DrawnSpan]]:
    points = drawn.curves.hot if side is Side.HOT else drawn.curves.cold
    return balanced(points, [use for use in drawn.uses if use.utility.side is side])


def label_balanced(axes: Axes, drawn: Drawn) -> None:
    labels, shown = labels_of(axes, ('curve', 'utility', 'pinch')), drawn.shown
    for side in (Side.HOT, Side.COLD):
        name_spans(labels, balanced_side(drawn, side)[1], shown)


def put_grand(axes: Axes, drawn: Drawn) -> None:
    """The grand composite curve over shifted temperatures, and the utilities on it."""
    shown, spans = drawn.shown, stairs(drawn)
    net = drawn_at(corners_of(drawn.curves.net), shown)
    if drawn.beyond:
        axes.axvspan(float(shown.in_heat(-drawn.beyond)), 0, color='#f3ecf6', zorder=0,
                     label=f'used beyond the targets: {heat_of(drawn.beyond, shown)}')
    axes.axvline(0, color=INK, linewidth=0.8)
    put_curve(axes, net, INK, 'grand composite curve')
    steps = [net[0], *[point for span in spans for point in ends_of(span, shown)], net[-1]]
    if spans:
        axes.plot(*zip(*steps), color=PALE, linewidth=1.1, linestyle=':', gid='stairs', zorder=1.5,
                  label='heat flows down between this line and the curve')
    for span in spans:
        put_span(axes, span, shown)
    for pinch in drawn.pinches:
        axes.plot([0], [float(shown.in_temperature(pinch.temperature))], marker='o', markersize=8,
                  markerfacecolor='none', color=PALE, linestyle='none')
    levels = [float(shown.in_temperature(span.temperature)) for span in spans]
    finish(axes, [net], levels, shown, 'Grand composite curve', 'shifted temperature')


def label_grand(axes: Axes, drawn: Drawn) -> None:
    labels, shown = labels_of(axes, ('curve', 'utility', 'stairs')), drawn.shown
    labels.keep_off([(0.0, limit) for limit in axes.get_ylim()])
    for pinch in drawn.pinches:
        labels.put(f'pinch {shown.temperature(pinch.temperature)} {shown.temperature_unit}',
                   (0, float(shown.in_temperature(pinch.temperature))))
    name_spans(labels, stairs(drawn), shown)


COMPOSITE = Panel(put_composite, label_composite)
BALANCED = Panel(put_balanced, label_balanced)
GRAND = Panel(put_grand, label_grand)
