"""What energy, capital and both cost a year over the least difference."""
from __future__ import annotations

from collections.abc import Callable
from fractions import Fraction

from matplotlib.axes import Axes
from matplotlib.figure import Figure

from ..costs.supertarget import Supertarget, SupertargetPoint
from ..formats.shown import Shown
from .axes import entitled, fitted, legend_below, plainly, spaced
from .style import ACROSS, COLD, HOT, INK, PALE, blank, framed, said, styled


def supertarget_figure(found: Supertarget) -> Figure:
    """Energy, capital and both a year, with the least and where it is within one per cent, and the area (right
    scale)."""
    with styled():
        figure = blank(8, 5.8)
        axes = figure.subplots()
        shown = Shown(found.data.case.basis)
        across = [in_degrees(point.difference, shown) for point in found.points]
        for label, colour, cost in curves_of():
            axes.plot(across, [float(cost(point)) for point in found.points], color=colour, linewidth=1.5, label=label)
        if found.without:
            without = [in_degrees(difference, shown) for difference, _ in found.without]
            axes.plot(without, [0] * len(without), 'x', color=INK, markersize=7, label='no cost there', clip_on=False)
        put_least(axes, found, shown)
        put_area(axes.twinx(), found, across)
        money = said(found.data.capital.currency)
        entitled(axes, f'least difference in {shown.difference_unit}', f'{money} a year',
                 headline_of(found, money, shown))
        axes.set_ylim(bottom=0)
        plainly(axes)
        framed(axes)
        legend_below(axes, [line for part in figure.axes for line in part.get_lines()
                            if not line.get_label().startswith('_')])
        fitted(figure)
        spaced(axes)
    return figure


def curves_of() -> tuple[tuple[str, str, Callable[[SupertargetPoint], Fraction]], ...]:
    return (('energy', HOT, lambda point: point.cost.energy),
            ('capital', COLD, lambda point: point.cost.capital_a_year.middle),
            ('energy and capital', INK, lambda point: point.cost.whole.middle))


def in_degrees(kelvin: Fraction, shown: Shown) -> float:
    """A difference in K in the unit of the case."""
    return float(shown.in_difference(shown.units.of_tenths_between(kelvin * 10)))


def put_least(axes: Axes, found: Supertarget, shown: Shown) -> None:
    """The least, and the range in which the cost is within one per cent of it."""
    least = found.least
    first, last = (in_degrees(difference, shown) for difference in least.flat)
    axes.axvspan(first, last, color=PALE, alpha=0.12, linewidth=0)
    marked = 'least, found between two answers' if least.point.found else 'least'
    axes.plot([in_degrees(least.point.difference, shown)], [float(least.annual.middle)], 'o', color=INK, markersize=5,
              label=f'{marked}; grey: within 1 %')


def put_area(axes: Axes, found: Supertarget, across: list[float]) -> None:
    axes.plot(across, [float(point.area.middle) for point in found.points], color=ACROSS, linewidth=1.0,
              linestyle='--', label='area (right scale)')
    axes.set_ylabel('area in m²', color=ACROSS)
    axes.set_ylim(bottom=0)
    plainly(axes)
    axes.grid(False)
    axes.spines['top'].set_visible(False)


def headline_of(found: Supertarget, money: str, shown: Shown) -> str:
    least = found.least
    first, last = (('at most ', 'at least ')[at] * end.open + shown.kelvin(end.difference, 1)
                   for at, end in enumerate(least.ends))
    place, unit = shown.kelvin(least.point.difference), shown.difference_unit
    return f'Least annual cost {least.annual.shown(0)} {money} at {place} {unit}, within 1 % from {first} ' \
           f'to {last} {unit}'
