"""How wide texts are, before they are drawn."""
from __future__ import annotations

from functools import lru_cache

from matplotlib.backends.backend_agg import RendererAgg
from matplotlib.font_manager import FontProperties

# All digits of the letters that are used take the same room, and only what is inked at both ends counts beside that.
SAME = str.maketrans('123456789', '000000000')


def width(text: str, size: float, bold: bool = False) -> float:
    """The width of a text in inches."""
    return measured(shape(text), size, bold)


def shape(text: str) -> str:
    """A text that is as wide as this one, and as many others."""
    return text[:1] + text[1:-1].translate(SAME) + text[1:][-1:]


@lru_cache(maxsize=65536)
def measured(text: str, size: float, bold: bool) -> float:
    font = FontProperties(family='DejaVu Sans', size=size, weight='bold' if bold else 'normal')
    found = measurer().get_text_width_height_descent(text, font, ismath=False)[0]
    return float(found) / 72


@lru_cache(maxsize=1)
def measurer() -> RendererAgg:
    return RendererAgg(1, 1, 72)
