"""Labels that lie neither on curves nor on one another: each takes the first of some places around its point that is
free."""
from __future__ import annotations

from collections.abc import Iterable, Iterator, Sequence
from dataclasses import dataclass, field
from typing import Any

import numpy
from matplotlib.axes import Axes
from matplotlib.text import Annotation
from matplotlib.transforms import Bbox

Xy = tuple[float, float]
# A place around a point, in points of print: how far, and which side of the text is there.
Place = tuple[float, float, int, int]
NEAR = 7.0
SIDES = ((1, 1), (1, -1), (-1, 1), (-1, -1), (0, 1), (0, -1), (1, 0), (-1, 0))
PLACES: tuple[Place, ...] = tuple((dx * far, dy * far, -dx, -dy) for far in (NEAR, 2 * NEAR, 4 * NEAR, 7 * NEAR)
                                  for dx, dy in SIDES)
# Where none of these is free, all places of the diagram are tried, so many dots apart; so many stay free between a
# label and a line.
STEP, PAD = 22, 7
ACROSS = {-1: 'right', 0: 'center', 1: 'left'}
UPRIGHT = {-1: 'top', 0: 'center', 1: 'bottom'}


@dataclass
class Labels:
    """Labels of one diagram; `curves` are the lines that they keep off, as points of the diagram."""

    axes: Axes
    curves: list[Sequence[Xy]] = field(default_factory=list)
    taken: list[Bbox] = field(default_factory=list)
    leaders: list[tuple[Any, Any]] = field(default_factory=list)

    def __post_init__(self) -> None:
        # From here on the scales stand, so that what is measured stays where it is.
        self.axes.set_xlim(*self.axes.get_xlim())
        self.axes.set_ylim(*self.axes.get_ylim())

    def keep_off(self, line: Sequence[Xy]) -> None:
        self.curves.append(line)

    def put(self, text: str, *points: Xy, **style: Any) -> Annotation:
        """Writes a label near one of some points, with a thin line to it where it stands far off."""
        wide, high = self.size(text, style)
        near = ((at, place) for place in PLACES for at in points)
        best = self.best(near, wide, high)
        if best[0] >= 1:
            other = self.best(((at, place) for at in points for place in self.all_places(at)), wide, high)
            best = other if other[0] < best[0] else best
        return self.written(text, *best[1:], style)

    def put_where_free(self, text: str, at: Xy, **style: Any) -> Annotation | None:
        """Writes a label right at a point, or nothing where there is no room."""
        wide, high = self.size(text, style)
        best = self.best(((at, place) for place in PLACES[:16]), wide, high)
        return None if best[0] else self.written(text, *best[1:], style)

    def put_above(self, text: str, at: Xy, **style: Any) -> Annotation | None:
        """Writes a label in the middle above a point, or nothing where another label is."""
        place: Place = (0.0, 2.0, 0, -1)
        box = self.box(at, place, *self.size(text, style))
        return None if any(box.overlaps(other) for other in self.taken) else self.written(text, at, place, box, style)

    def best(self, places: Iterable[tuple[Xy, Place]], wide: float, high: float) -> tuple[float, Xy, Place, Bbox]:
        """The place that costs least, the first of equal ones; none is tried behind one that is free."""
        found: tuple[float, Xy, Place, Bbox] | None = None
        for at, place in places:
            box = self.box(at, place, wide, high)
            cost = self.cost(box)
            if is_far(place) and (found is None or cost < found[0]):
                cost += self.leading(at, box)
            if found is None or cost < found[0]:
                found = (cost, at, place, box)
            if not cost:
                break
        assert found is not None
        return found

    def all_places(self, at: Xy) -> Iterator[Place]:
        """Places all over the diagram, the nearest first."""
        frame, dots = self.axes.get_window_extent(), float(self.axes.figure.dpi) / 72
        x, y = self.axes.transData.transform(at)
        offsets = [(float(across - x), float(up - y)) for across in numpy.arange(frame.x0, frame.x1, STEP)
                   for up in numpy.arange(frame.y0, frame.y1, STEP)]
        for dx, dy in sorted(offsets, key=lambda offset: offset[0] ** 2 + offset[1] ** 2):
            yield dx / dots, dy / dots, -1 if dx > 0 else 1, -1 if dy > 0 else 1

    def written(self, text: str, at: Xy, place: Place, box: Bbox, style: dict[str, Any]) -> Annotation:
        dx, dy, side, end = place
        self.taken.append(box)
        line = None
        if is_far(place):
            line = {'arrowstyle': '-', 'color': '#888888', 'linewidth': 0.6, 'shrinkA': 0, 'shrinkB': 2}
            self.leaders.append(self.leader(at, box))
        return self.axes.annotate(text, at, (dx, dy), textcoords='offset points', ha=ACROSS[-side], va=UPRIGHT[-end],
                                  arrowprops=line, annotation_clip=False, zorder=6, **style)

    def size(self, text: str, style: dict[str, Any]) -> Xy:
        """Width and height of a text in dots, with some room around it."""
        tried = self.axes.text(0, 0, text, **style)
        box = tried.get_window_extent(self.axes.figure.canvas.get_renderer())
        tried.remove()
        return box.width + 4, box.height + 4

    def box(self, at: Xy, place: Place, wide: float, high: float) -> Bbox:
        dx, dy, side, end = place
        x, y = self.axes.transData.transform(at)
        dots = self.axes.figure.dpi / 72
        left = x + dx * dots - (0 if side < 0 else wide if side > 0 else wide / 2)
        low = y + dy * dots - (0 if end < 0 else high if end > 0 else high / 2)
        return Bbox.from_bounds(left, low, wide, high)

    def leader(self, at: Xy, box: Bbox) -> tuple[Any, Any]:
        """The thin line from a point to the nearest place of a label far off."""
        x, y = self.axes.transData.transform(at)
        return (x, y), (min(max(x, box.x0), box.x1), min(max(y, box.y0), box.y1))

    def leading(self, at: Xy, box: Bbox) -> float:
        """What a thin line costs: it shall be short, and pass through no label, no other such line and few curves."""
        one, other = self.leader(at, box)
        length = float(numpy.hypot(other[0] - one[0], other[1] - one[1]))
        return 0.2 + length / 1000 + 3 * sum(meets(label_box, one, other) for label_box in self.taken) \
            + 2 * sum(crosses(one, other, *leader) for leader in self.leaders) \
            + 0.3 * sum(self.crossed(one, other, curve) for curve in self.curves)

    def crossed(self, one: Any, other: Any, curve: Sequence[Xy]) -> int:
        points = self.axes.transData.transform(curve)
        return sum(crosses(one, other, points[at], points[at + 1]) for at in range(len(points) - 1))

    def cost(self, box: Bbox) -> float:
        """How much a box lies on what is there already; 0 where it is free."""
        frame = self.axes.get_window_extent()
        outside = (box.x0 < frame.x0) + (box.x1 > frame.x1) + (box.y0 < frame.y0) + (box.y1 > frame.y1)
        on_labels = sum(box.overlaps(other) for other in self.taken)
        roomy = box.padded(PAD)
        on_leaders = sum(meets(roomy, *leader) for leader in self.leaders)
        return float(8 * outside + 6 * on_labels + 3 * on_leaders
                     + sum(self.on_curve(roomy, curve) for curve in self.curves))

    def on_curve(self, box: Bbox, curve: Sequence[Xy]) -> int:
        points = self.axes.transData.transform(curve)
        return sum(meets(box, points[at], points[at + 1]) for at in range(len(points) - 1))


def is_far(place: Place) -> bool:
    return max(abs(place[0]), abs(place[1])) > 2 * NEAR


def crosses(one: Any, other: Any, third: Any, fourth: Any) -> bool:
    """Whether two straight lines cross."""
    def turn(a: Any, b: Any, c: Any) -> float:
        return float((b[0] - a[0]) * (c[1] - a[1]) - (b[1] - a[1]) * (c[0] - a[0]))
    return turn(one, other, third) * turn(one, other, fourth) < 0 and \
        turn(third, fourth, one) * turn(third, fourth, other) < 0


def meets(box: Bbox, one: Any, other: Any) -> bool:
    """Whether a straight line passes through a box (Liang and Barsky 1984)."""
    first, last = 0.0, 1.0
    step = (other[0] - one[0], other[1] - one[1])
    for go, room in ((-step[0], one[0] - box.x0), (step[0], box.x1 - one[0]),
                     (-step[1], one[1] - box.y0), (step[1], box.y1 - one[1])):
        if go == 0:
            if room < 0:
                return False
        elif go < 0:
            first = max(first, room / go)
        else:
            last = min(last, room / go)
    return bool(first <= last)
