"""How all pictures look, and how a figure becomes a file. No global state of matplotlib is left changed."""
from __future__ import annotations

import io
import math
from collections.abc import Iterator
from contextlib import contextmanager
from typing import Any

import matplotlib
from matplotlib.axes import Axes
from matplotlib.backends.backend_agg import FigureCanvasAgg
from matplotlib.figure import Figure
from matplotlib.text import Text

from .measuring import measured_once

# Each colour can be read as a text on white: by WCAG its contrast is 4.5 at least.
HOT, COLD, INK, PALE, FAULT = '#c0392b', '#2471a3', '#222222', '#6b6b6b', '#d80000'
ABOVE, BELOW, BETWEEN, ACROSS, NEUTRAL = '#a04000', '#1f618d', '#1e8449', '#8e1fb5', '#333333'
HEATERS = ('#b85400', '#8a6500', '#a3325d', '#7b241c', '#5f4b8b')
COOLERS = ('#0f7d68', '#5b5ea6', '#33691e', '#1b4f72', '#5d6d7e')
FORMS = ('svg', 'png', 'pdf')
# Texts stay texts in a vector picture; none is read as mathematics, whatever signs it has.
STYLE: dict[str, Any] = {
    'font.family': ['DejaVu Sans'], 'font.size': 9.0, 'text.parse_math': False,
    'svg.fonttype': 'none', 'svg.hashsalt': 'pinchdesk', 'pdf.fonttype': 42, 'axes.edgecolor': INK,
    'text.color': INK, 'axes.labelcolor': INK, 'axes.titlesize': 10.5, 'axes.grid': True, 'grid.color': '#e4e4e4',
    'grid.linewidth': 0.6, 'axes.axisbelow': True, 'legend.fontsize': 8.5, 'legend.frameon': False,
    'axes.unicode_minus': True, 'axes.formatter.useoffset': False, 'axes.formatter.limits': (-5, 9),
    # Where it is anyway: else all numbers of the axes are measured for it each time.
    'axes.titley': 1.0,
}
DOTS = 150
# The smallest letters that can be read on a screen, in points.
READABLE = 6.0


@contextmanager
def styled(letters_as_shapes: bool = False) -> Iterator[None]:
    """The style of this module inside; `letters_as_shapes` for a picture that must look the same on each machine."""
    with matplotlib.rc_context({**STYLE, 'svg.fonttype': 'path' if letters_as_shapes else 'none'}), measured_once():
        yield


def blank(width: float, height: float) -> Figure:
    """An empty figure of this size in inches, with a canvas by which texts can be measured."""
    made = Figure(figsize=(width, height), dpi=DOTS)
    FigureCanvasAgg(made)
    return made


def rendered(figure: Figure, form: str, letters_as_shapes: bool = False) -> bytes:
    """A figure as the content of a file in one of `FORMS`; the same figure gives the same bytes."""
    buffer = io.BytesIO()
    dates = {'svg': {'Date': None}, 'pdf': {'CreationDate': None}, 'png': {}}[form]
    with styled(letters_as_shapes):
        figure.savefig(buffer, format=form, metadata=dates, dpi=DOTS)
    # Verdana has the same widths.
    return buffer.getvalue().replace(b"'DejaVu Sans'", b"'DejaVu Sans', Verdana, sans-serif") if form == 'svg' \
        else buffer.getvalue()


def readable_width(figure: Figure) -> int:
    """How wide a picture is on a screen, in dots, where its smallest letters can still be read."""
    smallest = min((text.get_fontsize() for text in figure.findobj(Text) if text.get_text().strip()), default=READABLE)
    return math.ceil(float(figure.get_size_inches()[0]) * 96 * READABLE / smallest)


def said(text: str) -> str:
    """A text that a picture can hold: what is no letter or sign is `?`."""
    return ''.join(letter if letter.isprintable() else '?' for letter in text)


def framed(axes: Axes) -> None:
    """No frame above and to the right, as in the books."""
    for name in ('top', 'right'):
        axes.spines[name].set_visible(False)
