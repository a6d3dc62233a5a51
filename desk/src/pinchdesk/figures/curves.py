"""The curves of a case as pictures: all of them on one sheet, or one each."""
from __future__ import annotations

from matplotlib.axes import Axes
from matplotlib.figure import Figure

from ..formats.case import Case, Side
from ..program.answers import Curves, Cut, HeatFlow, Targets
from .axes import fitted, legend_below, spaced
from .panels import BALANCED, COMPOSITE, GRAND, Panel, heat_of
from .style import blank, styled
from .utilities_used import Drawn, drawn_of

NO_FLOW = 'no heat flow: utilities are left out'


def curves_figure(case: Case, targets: Targets, curves: Curves, flow: HeatFlow | Cut) -> Figure:
    """Composite, balanced and grand composite curves of a completed case and what `pinch` answered of it, with a legend
    for all three; without a heat flow nothing is balanced."""
    drawn = drawn_of(case, targets, curves, flow)
    with styled():
        high = 8.6 if drawn.feasible else 5.2
        figure = blank(11.6, high)
        if drawn.feasible:
            first, second, third, last = figure.subplots(2, 2).flatten()
            panels = {first: COMPOSITE, third: GRAND, second: BALANCED}
        else:
            first, second = figure.subplots(1, 2).flatten()
            panels = {first: COMPOSITE, second: GRAND}
        figure.suptitle(headline(drawn), fontsize=11, y=1 - 0.14 / high, va='top')
        for axes, panel in panels.items():
            panel.put(axes, drawn)
            if not drawn.feasible:
                legend_below(axes, room=5.2)
        fitted(figure, 1 - (0.38 if drawn.beyond else 0.22) / high)
        if drawn.feasible:
            legend_at(last, panels)
        for axes, panel in panels.items():
            spaced(axes)
            panel.label(axes, drawn)
    return figure


def composite_figure(case: Case, targets: Targets, curves: Curves, flow: HeatFlow | Cut) -> Figure:
    """The composite curves at the targets."""
    return single(COMPOSITE, drawn_of(case, targets, curves, flow))


def balanced_figure(case: Case, targets: Targets, curves: Curves, flow: HeatFlow | Cut) -> Figure:
    """The balanced composite curves, with the utilities that the heat flow of least cost uses."""
    return single(BALANCED, drawn_of(case, targets, curves, flow))


def grand_figure(case: Case, targets: Targets, curves: Curves, flow: HeatFlow | Cut) -> Figure:
    """The grand composite curve, and the utilities on it."""
    return single(GRAND, drawn_of(case, targets, curves, flow))


def single(panel: Panel, drawn: Drawn) -> Figure:
    """A figure of one diagram."""
    with styled():
        figure = blank(5.9, 5.2)
        axes = figure.subplots()
        panel.put(axes, drawn)
        if not drawn.feasible:
            axes.set_title(f'{axes.get_title()}\n({NO_FLOW})')
        legend_below(axes)
        lines = len(axes.get_legend().get_texts())
        figure.set_size_inches(5.9, 4.7 + 0.2 * -(-lines // axes.get_legend()._ncols))
        fitted(figure)
        spaced(axes)
        panel.label(axes, drawn)
    return figure


def headline(drawn: Drawn) -> str:
    """Both targets and the pinches, and what is used where that is more."""
    shown = drawn.shown
    pinches = ', '.join(shown.temperature(pinch.temperature) for pinch in drawn.pinches)
    word = 'pinches' if ',' in pinches else 'pinch'
    told = f'{word} at {pinches} {shown.temperature_unit} shifted' if pinches else 'no pinch'
    hot, cold = (heat_of(heat, shown) for heat in (drawn.targets.hot, drawn.targets.cold))
    text = f'Targets: hot utility {hot}, cold utility {cold}, {told}'
    if not drawn.feasible:
        return f'{text} ({NO_FLOW})'
    if drawn.beyond:
        used = [heat_of(drawn.used(side), shown) for side in (Side.HOT, Side.COLD)]
        text += f'\nUsed by the heat flow of least cost: hot utility {used[0]}, cold utility {used[1]}'
    return text


def legend_at(axes: Axes, panels: dict[Axes, Panel]) -> None:
    """One legend for all diagrams in a place of its own."""
    axes.set_axis_off()
    handles = {label: handle for diagram in panels for handle, label in zip(*diagram.get_legend_handles_labels())}
    axes.legend(handles.values(), handles, loc='upper left', bbox_to_anchor=(0.02, 1), borderaxespad=0, fontsize=9)
