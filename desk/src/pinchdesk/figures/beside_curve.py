"""The grand composite curve with a flue gas and a heat pump beside it (Linnhoff and others 1982; Townsend and Linnhoff
1983). The line of the flue gas and both bars of the heat pump lie nowhere right of the curve."""
from __future__ import annotations

from fractions import Fraction

import numpy
from matplotlib.axes import Axes
from matplotlib.figure import Figure

from ..analysis.flue_gas import Furnace
from ..analysis.heat_pump import PumpedHeat
from ..analysis.utility_targets import UtilityTargets
from ..formats.shown import Shown
from .axes import fitted, legend_below, spaced
from .labels import Xy
from .panels import at, corners_of, drawn_at, finish, heat_of, labels_of, put_curve
from .scale import LONG
from .style import ACROSS, COOLERS, HEATERS, INK, PALE, blank, styled

# The line of a flue gas has so many points, since a scale may be broken.
POINTS = 60


def beside_curve_figure(found: UtilityTargets) -> Figure:
    """The curve with what was asked of a flue gas and a heat pump."""
    with styled():
        figure = blank(5.9, 5.2)
        axes = figure.subplots()
        put_curve_alone(axes, found)
        if found.furnace:
            put_flue(axes, found.furnace, found.shown)
        if found.pumped and found.pumped.saves:
            put_pump(axes, found.pumped, found.shown)
        legend_below(axes)
        lines = len(axes.get_legend().get_texts())
        figure.set_size_inches(5.9, 4.7 + 0.2 * -(-lines // axes.get_legend()._ncols))
        fitted(figure)
        spaced(axes)
        label(axes, found)
    return figure


def put_curve_alone(axes: Axes, found: UtilityTargets) -> None:
    """The curve with its pinches, and room for what stands beside it."""
    shown = found.shown
    net = drawn_at(corners_of(found.curve.corners), shown)
    axes.axvline(0, color=INK, linewidth=0.8)
    put_curve(axes, net, INK, 'grand composite curve')
    for pinch in found.targets.pinches:
        axes.plot([0], [float(shown.in_temperature(pinch))], marker='o', markersize=8, markerfacecolor='none',
                  color=PALE, linestyle='none')
    nothing = found.pumped is not None and not found.pumped.saves
    title = 'Grand composite curve' + ('\n(the heat pump saves nothing)' if nothing else '')
    finish(axes, [net], levels_of(found, [level for _, level in net]), shown, title, 'shifted temperature')


def levels_of(found: UtilityTargets, temperatures: list[float]) -> list[float]:
    """The temperatures beside those of the curve for which there has to be room: a flame far above it is not one."""
    shown, levels = found.shown, []
    if found.pumped and found.pumped.saves:
        levels += [float(shown.in_temperature(level)) for level in (found.pumped.pump.takes_at,
                                                                    found.pumped.pump.gives_at)]
    if found.furnace:
        flame = float(shown.in_temperature(shifted_flame(found.furnace)))
        span = max(temperatures) - min(temperatures)
        levels += [flame] if flame - max(temperatures) < LONG * span else []
    return levels


def shifted_flame(found: Furnace) -> Fraction:
    return found.flue.flame - found.flue.contribution


def put_flue(axes: Axes, found: Furnace, shown: Shown) -> None:
    """The heat that the flue gas still has to give at each shifted temperature, and below 0 what it loses."""
    flue, unit = found.flue, shown.temperature_unit
    flame, leaves = at(shown, found.heat, shifted_flame(found)), at(shown, 0, found.leaves - flue.contribution)
    ambient = at(shown, -found.loss, flue.ambient - flue.contribution)
    told = f'flue gas of {shown.flow(found.cp)} {shown.flow_unit}, {shown.temperature(flue.flame)} to ' \
           f'{shown.temperature(found.leaves)} {unit}: fuel {heat_of(found.fuel, shown)}'
    low, high = axes.get_ylim()
    axes.plot(*zip(*between(leaves, flame, low, high)), color=HEATERS[0], linewidth=1.8, gid='flue', label=told)
    axes.plot(*zip(*between(ambient, leaves, low, high)), color=HEATERS[0], linewidth=1.2, linestyle='--', gid='flue',
              label=f'stack loss {heat_of(found.loss, shown)}')
    axes.set_ylim(low, high)


def between(one: Xy, other: Xy, low: float, high: float) -> list[Xy]:
    """The points of a straight line that lie between two temperatures."""
    ends = (max(one[1], low), min(other[1], high))
    slope = (other[0] - one[0]) / (other[1] - one[1]) if other[1] > one[1] else 0.0
    return [(one[0] + (level - one[1]) * slope, float(level)) for level in numpy.linspace(*ends, POINTS)] \
        if ends[0] <= ends[1] else [one]


def put_pump(axes: Axes, found: PumpedHeat, shown: Shown) -> None:
    """What the heat pump takes and gives, each at its shifted temperature, and its work between them."""
    pump, unit = found.pump, shown.temperature_unit
    for heat, level, actual, word, colour in (
            (found.given, pump.gives_at, pump.condenses, 'gives', HEATERS[2]),
            (found.taken, pump.takes_at, pump.evaporates, 'takes', COOLERS[0])):
        axes.plot(*zip(at(shown, 0, level), at(shown, heat, level)), color=colour, linewidth=3.6,
                  solid_capstyle='butt', gid='utility',
                  label=f'heat pump {word} {heat_of(heat, shown)} at {shown.temperature(actual)} {unit}, estimate')
    ends = [at(shown, heat / 2, level) for heat, level in ((found.taken, pump.takes_at), (found.given, pump.gives_at))]
    axes.annotate('', ends[1], ends[0], arrowprops={'arrowstyle': '->', 'color': ACROSS, 'linewidth': 1.4})
    axes.plot(*zip(*ends), color=ACROSS, linewidth=1.4, gid='flue',
              label=f'work {heat_of(found.work, shown)}, estimate')


def label(axes: Axes, found: UtilityTargets) -> None:
    """The pinches, and both targets at the ends of the curve."""
    labels, shown = labels_of(axes, ('curve', 'utility', 'flue')), found.shown
    labels.keep_off([(0.0, limit) for limit in axes.get_ylim()])
    for pinch in found.targets.pinches:
        labels.put(f'pinch {shown.with_its_unit(pinch)}', (0, float(shown.in_temperature(pinch))))
    first, last = found.curve.corners[0], found.curve.corners[-1]
    for name, corner in (('QH', first), ('QC', last)):
        labels.put(f'{name} {heat_of(corner.heat, shown)}', at(shown, corner.heat, corner.temperature),
                   fontweight='bold')
