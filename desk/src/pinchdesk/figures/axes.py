"""Scales and legends that have room, whatever numbers and names they hold."""
from __future__ import annotations

from collections.abc import Iterator, Sequence
from contextlib import contextmanager
from functools import cache
from typing import Any

import matplotlib
from matplotlib.axes import Axes
from matplotlib.figure import Figure
from matplotlib.ticker import FixedLocator, FuncFormatter, MaxNLocator
from matplotlib.transforms import ScaledTranslation

from .text_widths import width

# How far below an axis its legend stands, in inches, and what a legend's line takes beside its text.
BELOW, HANDLE = 0.46, 0.5
MOST_LINES = 3
GROUPED, NARROW_BLANK = 10_000, '\u202f'
ROOM, EDGE, STEPS = 0.14, 0.08, [1, 2, 2.5, 5, 10]


def plain(value: float) -> str:
    """A number of a scale without an exponent; one of five digits or more has them in groups."""
    text = f'{abs(value):,.6f}'.rstrip('0').rstrip('.')
    text = text.replace(',', NARROW_BLANK if abs(value) >= GROUPED else '')
    return f'−{text}' if value < 0 and text != '0' else text


def spaced(axes: Axes, most: int = 8, shown: Any = plain) -> None:
    """As many numbers on the axis of heats as stand apart. The scale has to be set."""
    low, high = axes.get_xlim()
    room = axes.get_window_extent().width / axes.figure.dpi
    size = float(matplotlib.rcParams['font.size'])
    for bins in range(most, 0, -1):
        steps = MaxNLocator(bins, steps=STEPS).tick_values(low, high)
        # What is written below the last number may pass the end of the axis, but not the edge of the picture.
        ticks = [tick for tick in steps if low <= tick and
                 (tick - low) / (high - low) * room + width(shown(tick), size) / 2 <= room + EDGE]
        wide = max((width(shown(tick), size) for tick in ticks), default=0)
        if len(ticks) < 2 or (ticks[1] - ticks[0]) / (high - low) * room > wide + ROOM:
            break
    axes.xaxis.set_major_locator(FixedLocator(ticks))
    axes.xaxis.set_major_formatter(FuncFormatter(lambda value, _: shown(value)))


def entitled(axes: Axes, across: str, upright: str, title: str = '') -> None:
    """The titles of both axes, with their units, and of the diagram, in lines that have room."""
    wide, high = axes.figure.get_size_inches()
    sheets = axes.get_subplotspec().get_gridspec()
    axes.set_xlabel(wrapped(across, wide / sheets.ncols - 1.5), labelpad=2)
    axes.set_ylabel(wrapped(upright, high / sheets.nrows - 1.2))
    axes.set_title(wrapped(title, wide / sheets.ncols - 1.5, 10.5))


def wrapped(text: str, room: float, size: float = 9.0) -> str:
    """A text in lines of so many inches, three at most; what has no room there is left out behind a sign."""
    made = [line for paragraph in text.split('\n') for line in broken(paragraph, room, size)]
    return '\n'.join(made if len(made) <= MOST_LINES else [*made[:MOST_LINES - 1], made[MOST_LINES - 1][:-1] + '…'])


def broken(text: str, room: float, size: float) -> list[str]:
    """The lines of a text, broken between words, and inside those that are too long."""
    lines = ['']
    for word in text.split(' '):
        longer = f'{lines[-1]} {word}'.lstrip()
        if width(longer, size) <= room:
            lines[-1] = longer
            continue
        lines += ['']
        for letter in word:
            lines += [''] if width(lines[-1] + letter, size) > room else []
            lines[-1] += letter
    return [line for line in lines if line]


def columns_of(texts: Sequence[str], room: float) -> int:
    """How many columns of a legend have room in so many inches."""
    longest = max((width(line, 8.5) for text in texts for line in text.split('\n')), default=0) + HANDLE
    return max(1, min(len(texts), 4, int(room / longest)))


def legend_below(axes: Axes, handles: Sequence[Any] | None = None, room: float | None = None) -> None:
    """A legend below an axis and its title, in as many columns as have room."""
    legend_handles = axes.get_legend_handles_labels()[0] if handles is None else handles
    wide = axes.figure.get_size_inches()[0] - 0.3 if room is None else room
    texts = [wrapped(handle.get_label(), wide - HANDLE, 8.5) for handle in legend_handles]
    shifted = axes.transAxes + ScaledTranslation(0, -BELOW, axes.figure.dpi_scale_trans)
    axes.legend(legend_handles, texts, loc='upper center', bbox_to_anchor=(0.5, 0), bbox_transform=shifted,
                borderaxespad=0, ncol=columns_of(texts, wide), columnspacing=1.4, handlelength=1.8)


def plainly(axes: Axes) -> None:
    """Numbers of the upright axis without an exponent."""
    axes.yaxis.set_major_formatter(FuncFormatter(lambda value, _: plain(value)))


def fitted(figure: Figure, top: float = 1.0) -> None:
    """Sets the margins so that nothing is cut: numbers, titles of axes, legends. `top` is where titles of the whole
    picture begin. What is written into the axes comes behind this."""
    for _ in range(2):
        with boxes_remembered(figure.axes):
            figure.tight_layout(pad=0.9, w_pad=2.2, h_pad=1.6, rect=(0, 0, 1, top))


@contextmanager
def boxes_remembered(measured: Sequence[Axes]) -> Iterator[None]:
    """Each diagram is measured once: for margins inside of a part of the picture matplotlib does it twice."""
    for axes in measured:
        axes.get_tightbbox = cache(axes.get_tightbbox)
    yield
    for axes in measured:
        del axes.get_tightbbox
