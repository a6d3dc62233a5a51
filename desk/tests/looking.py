"""What the tests of pictures look at: the boxes of all texts, the lines, the texts of an SVG."""
from __future__ import annotations

import re
from collections.abc import Iterable
from functools import lru_cache
from html import unescape
from itertools import combinations, pairwise
from typing import Any

from matplotlib.colors import to_hex, to_rgb
from matplotlib.figure import Figure
from matplotlib.legend import Legend
from matplotlib.lines import Line2D
from matplotlib.patches import PathPatch
from matplotlib.path import Path
from matplotlib.text import Text
from matplotlib.transforms import Bbox

from pinchdesk.figures import rendered
from pinchdesk.figures.grid.diagram import BARS
from pinchdesk.figures.labels import meets
from pinchdesk.figures.style import styled


def undrawn(figure: Figure) -> set[int]:
    """Labels of ticks that are not drawn: beyond the scale's ends, or of a diagram without scales."""
    found: set[int] = set()
    for axes in figure.axes:
        for axis in (axes.xaxis, axes.yaxis):
            low, high = sorted(axis.get_view_interval())
            ticks = [*axis.get_major_ticks(), *axis.get_minor_ticks()]
            hidden = [tick for tick in ticks if not axes.axison or not low <= tick.get_loc() <= high]
            found.update(id(label) for tick in hidden for label in (tick.label1, tick.label2))
    return found


@lru_cache(maxsize=64)
def texts_of(figure: Figure) -> list[tuple[str, Bbox, Any]]:
    """All texts that are seen, with their boxes in dots, a little less than they are."""
    with styled():
        figure.draw_without_rendering()
        renderer = figure.canvas.get_renderer()
        hidden = undrawn(figure)
        found = [drawn for drawn in figure.findobj(Text)
                 if drawn.get_visible() and drawn.get_text().strip() and id(drawn) not in hidden]
        boxes = [(drawn.get_text(), Text.get_window_extent(drawn, renderer), drawn) for drawn in found]
    return [(text, box.padded(-0.6), drawn) for text, box, drawn in boxes]


def overlapping(figure: Figure) -> list[tuple[str, str]]:
    """Pairs of texts that lie on each other."""
    return [(one[0], other[0]) for one, other in combinations(texts_of(figure), 2) if one[1].overlaps(other[1])]


def cut_off(figure: Figure) -> list[str]:
    """Texts and legends that the picture's edge cuts, or that lie beyond it."""
    frame = figure.bbox
    legends = [('a legend', legend.get_window_extent()) for legend in figure.findobj(Legend)]
    return [text for text, box in [*((text, box) for text, box, _ in texts_of(figure)), *legends]
            if box.x0 < frame.x0 or box.x1 > frame.x1 or box.y0 < frame.y0 or box.y1 > frame.y1]


def pale(figure: Figure) -> list[str]:
    """Texts whose contrast on white is less than 4.5 (WCAG 2.1)."""
    return [text for text, _, drawn in texts_of(figure) if 1.05 / (luminance(drawn.get_color()) + 0.05) < 4.5]


def luminance(colour: Any) -> float:
    parts = (part / 12.92 if part <= 0.04045 else ((part + 0.055) / 1.055) ** 2.4 for part in to_rgb(colour))
    return float(sum(weight * part for weight, part in zip((0.2126, 0.7152, 0.0722), parts)))


def on_lines(figure: Figure, lines: Iterable[Any]) -> list[str]:
    """Labels of the first diagram through which one of these lines passes."""
    axes = figure.axes[0]
    pieces = [points for line in lines for points in pairwise(axes.transData.transform(line))]
    return [text for text, box, drawn in texts_of(figure)
            if drawn in axes.texts and any(meets(box, *piece) for piece in pieces)]


@lru_cache(maxsize=64)
def svg_texts(figure: Figure) -> list[str]:
    """The texts of the picture as a file."""
    picture = rendered(figure, 'svg').decode()
    return [unescape(re.sub('<[^>]*>', '', element)).strip()
            for element in re.findall('<text.*?</text>', picture, re.S)]


def bars_of(figure: Figure) -> list[tuple[list[Any], str]]:
    """The bars of exchangers in a grid diagram: their points in dots, and their colours."""
    found: list[tuple[list[Any], str]] = []
    for patch in figure.findobj(PathPatch):
        if patch.get_zorder() != BARS:
            continue
        path = patch.get_path()
        for point, code in zip(patch.get_transform().transform(path.vertices), path.codes):
            if code == Path.MOVETO:
                found.append(([], to_hex(patch.get_edgecolor())))
            found[-1][0].append(point)
    return found


def lines_named(axes: Any, name: str) -> list[list[tuple[float, float]]]:
    """The points of the lines of a diagram that have this name inside it."""
    return [points_of(line) for line in axes.get_lines() if line.get_gid() == name]


def line_of(axes: Any, label: str) -> list[tuple[float, float]]:
    """The points of the line that has this label in the legend."""
    return next(points_of(line) for line in axes.get_lines() if line.get_label() == label)


def points_of(line: Line2D) -> list[tuple[float, float]]:
    return [(float(point[0]), float(point[1])) for point in line.get_xydata()]


def dashed_of(figure: Figure) -> set[float]:
    """Where the upright dashed lines of a grid diagram stand, in inches."""
    return {float(line.get_xdata()[0]) for line in figure.findobj(Line2D)
            if line.get_linestyle() == '--' and line.get_xdata()[0] == line.get_xdata()[1]}
