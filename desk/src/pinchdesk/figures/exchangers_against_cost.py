"""Exchangers against cost, from the floor up."""
from __future__ import annotations

from typing import TYPE_CHECKING

from matplotlib.axes import Axes
from matplotlib.figure import Figure
from matplotlib.ticker import MaxNLocator

from ..formats.network import Exchanger
from ..formats.shown import Shown
from .axes import entitled, fitted, legend_below, plainly
from .labels import Labels, Xy
from .style import HOT, INK, PALE, blank, framed, said, styled

if TYPE_CHECKING:
    from ..search.reduce.tradeoff import TradeOffRow, TradeOff

# Of more exchangers than these that went at once only the number is written.
MOST_NAMES = 2
# Of more networks than these what went and came is not written; the table has it.
MOST_LABELS = 9


def tradeoff_figure(traded: TradeOff) -> Figure:
    """A point for each network, with its cost and what went; the floor, below which no network costs, is a line."""
    shown = Shown(traded.case.basis)
    with styled():
        figure = blank(8, 5.4)
        axes = figure.subplots()
        points = [point_of(tradeoff_row, shown) for tradeoff_row in traded.rows]
        put_points(axes, traded, points, shown)
        framed(axes)
        axes.margins(0.12, 0.14)
        fitted(figure)
        labels = Labels(axes, [points, floor_line(axes, float(shown.in_cost(traded.floor)))])
        if traded.left_begun:
            labels.keep_off([(traded.begun.count, float(shown.in_cost(traded.begun.cost)))] * 2)
        for row, point in zip(traded.rows, points):
            labels.put(label_of(row, shown, len(traded.rows) <= MOST_LABELS), point, fontsize=8)
    return figure


def point_of(row: TradeOffRow, shown: Shown) -> Xy:
    return row.exchangers, float(shown.in_cost(row.cost))


def floor_line(axes: Axes, floor: float) -> list[Xy]:
    low, high = axes.get_xlim()
    return [(low, floor), (high, floor)]


def put_points(axes: Axes, traded: TradeOff, points: list[Xy], shown: Shown) -> None:
    floor, begun = traded.floor, traded.begun
    axes.axhline(float(shown.in_cost(floor)), color=PALE, linestyle='--', linewidth=1.2,
                 label=said(f'floor, no network costs less: {shown.with_unit(floor)}'))
    axes.plot(*zip(*points), color=HOT, linewidth=1.2, marker='o', markersize=5.5, markerfacecolor=INK,
              markeredgecolor=INK, label='networks, each accepted by the audit')
    if traded.left_begun:
        axes.plot([begun.count], [float(shown.in_cost(begun.cost))], 'o', color=PALE, markerfacecolor='white',
                  markersize=6,
                  label=said(f'the network at the beginning: {begun.count}, {shown.with_unit(begun.cost)}'))
    entitled(axes, 'exchangers, with heaters and coolers', f'cost of utilities, {said(shown.cost_unit)}',
             'Exchangers against cost')
    plainly(axes)
    # One network alone has room on both sides, or its number would stand between fractions.
    counts = sorted({row.exchangers for row in traded.rows} | ({begun.count} if traded.left_begun else set()))
    if len(counts) == 1:
        axes.set_xlim(counts[0] - 1, counts[0] + 1)
    axes.xaxis.set_major_locator(MaxNLocator(integer=True, min_n_ticks=1))
    legend_below(axes)


def label_of(row: TradeOffRow, shown: Shown, whole: bool) -> str:
    """The number of exchangers, the cost, and (where it is the whole) what went and came."""
    told = (('without', row.gone), ('with', row.come)) if whole else ()
    return '\n'.join((f'{row.exchangers}: {shown.cost(row.cost)}',
                      *(f'{word} {names_of(exchangers)}' for word, exchangers in told if exchangers)))


def names_of(exchangers: tuple[Exchanger, ...]) -> str:
    return f'{len(exchangers)} others' if len(exchangers) > MOST_NAMES else ', '.join(said(
        f'{exchanger.name} {exchanger.hot}-{exchanger.cold}') for exchanger in exchangers)
