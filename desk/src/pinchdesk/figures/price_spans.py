"""The least cost over the price of a utility: a line of segments, each with the heat that is its slope."""
from __future__ import annotations

from collections.abc import Sequence
from itertools import pairwise

from matplotlib.axes import Axes
from matplotlib.figure import Figure

from ..errors import WordsError
from ..formats.case import Case
from ..formats.shown import Shown
from ..program.answers import Prices, Segment, SpanAnswer
from .axes import entitled, fitted, legend_below, plainly, spaced
from .labels import Labels, Xy
from .style import HOT, INK, blank, framed, said, styled

# Of more segments than these not each has its numbers in the picture; the table has.
MOST_LABELS = 14
BETWEEN_PRICES = 'between two prices of the study, where nothing is asked'


def spans_of(prices: Prices, utility: str | None) -> list[SpanAnswer]:
    """The spans that are drawn; `WordsError` where there is none, or none of the utility."""
    spans = [answer for answer in prices.answers if isinstance(answer, SpanAnswer)]
    chosen = [span for span in spans if utility in (None, span.utility)]
    if not chosen:
        raise WordsError('the study has no span' + (f' of {utility}' if utility else '') + ': nothing is drawn')
    return chosen


def prices_figure(case: Case, prices: Prices, utility: str | None = None) -> Figure:
    """A diagram for each span of a study, or for those of one utility."""
    spans, shown = spans_of(prices, utility), Shown(case.basis)
    with styled():
        figure = blank(7.2, 4.8 * len(spans))
        for axes, span in zip(figure.subplots(len(spans), squeeze=False)[:, 0], spans):
            put_span(axes, span, shown)
        fitted(figure)
        for axes, span in zip(figure.axes, spans):
            spaced(axes)
            put_labels(axes, span.segments, shown)
    return figure


def ends_of(segment: Segment, shown: Shown) -> list[Xy]:
    return [(float(shown.price(price)), float(shown.in_cost(segment.cost(price))))
            for price in (segment.first, segment.last)]


def put_span(axes: Axes, span: SpanAnswer, shown: Shown) -> None:
    name, unit = said(span.utility), said(shown.price_unit)
    entitled(axes, f'price of {name}, {unit}', f'least cost, {said(shown.cost_unit)}',
             f'Least cost over the price of {name}')
    plainly(axes)
    if not span.segments:
        axes.text(0.5, 0.5, 'no heat flow', transform=axes.transAxes, ha='center', fontsize=12)
    lines = [ends_of(segment, shown) for segment in span.segments]
    for line in lines:
        axes.plot(*zip(*line), color=HOT, linewidth=1.8, marker='o', markersize=4.5, markerfacecolor=INK,
                  markeredgecolor=INK, label=f'least cost; its slope is the heat of {name}')
    for before, line in pairwise(lines):
        axes.plot(*zip(before[1], line[0]), color=HOT, linewidth=0.9, linestyle=':', label=BETWEEN_PRICES)
    axes.margins(0.09, 0.16)
    framed(axes)
    if lines:
        handles, names = axes.get_legend_handles_labels()
        legend_below(axes, list(dict(zip(names, handles)).values()))


def put_labels(axes: Axes, segments: Sequence[Segment], shown: Shown) -> None:
    """The price and the cost at both ends of each segment, and its slope: the heat of the utility that is used."""
    lines = [ends_of(span_segment, shown) for span_segment in segments]
    corners = [point for line in lines for point in line]
    labels = Labels(axes, [corners])
    for at, (segment, line) in enumerate(zip(segments, lines)):
        if at >= MOST_LABELS:
            break
        middle = ((line[0][0] + line[1][0]) / 2, (line[0][1] + line[1][1]) / 2)
        labels.put(f'{shown.heat(segment.slope)} {shown.heat_unit}', middle, color=HOT, fontsize=8)
        for price, point in zip(dict.fromkeys((segment.first, segment.last)), line):
            labels.put(f'{shown.price(price)}: {shown.cost(segment.cost(price))}', point, fontsize=8)
