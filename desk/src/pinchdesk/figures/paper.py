"""A sheet of paper for a diagram, in inches from the lower left.

matplotlib takes its time for each artist, and a diagram of some hundred exchangers has thousands of lines: all lines
of one look are one artist here, and so are the grounds under texts."""
from __future__ import annotations

from collections.abc import Sequence
from dataclasses import dataclass, field
from typing import Any

from matplotlib.artist import Artist
from matplotlib.figure import Figure
from matplotlib.lines import Line2D
from matplotlib.patches import PathPatch, Rectangle
from matplotlib.path import Path
from matplotlib.text import Text

from .style import blank

Point = tuple[float, float]
Piece = Sequence[Point]
# A path of very many pieces is more than the renderer of a .png takes.
TOGETHER = 200
DASHES = (0, (4, 2.5))


@dataclass(frozen=True)
class Look:
    """How a line is drawn: its colour, its width in points, what lies above it, how it ends, whether it is dashed."""

    colour: str
    width: float
    order: float
    cap: str = 'butt'
    is_dashed: bool = False


@dataclass
class Paper:
    """A figure of this size, and what is to be drawn on it when it is `done`."""

    wide: float
    high: float
    pieces: dict[Look, list[Piece]] = field(default_factory=dict)
    grounds: list[Piece] = field(default_factory=list)

    def __post_init__(self) -> None:
        self.figure: Figure = blank(self.wide, self.high)

    def add(self, artist: Artist) -> None:
        """Nothing is clipped: all is planned to be on the paper."""
        artist.set_transform(self.figure.dpi_scale_trans)
        self.figure.add_artist(artist)

    def write(self, x: float, y: float, text: str, **style: Any) -> None:
        given = {'ha': 'center', 'va': 'center', 'zorder': 8, **style}
        self.add(Text(x, y, text, **given))

    def line(self, piece: Piece, look: Look) -> None:
        """A line from point to point, drawn with all others of its look."""
        self.pieces.setdefault(look, []).append(piece)

    def ground(self, x: float, y: float, wide: float, high: float) -> None:
        """A white ground for a text, below all texts and above all else."""
        left, low = x - wide / 2, y - high / 2
        self.grounds.append(((left, low), (left + wide, low), (left + wide, low + high), (left, low + high),
                             (left, low)))

    def frame(self, x: float, y: float, wide: float, high: float, colour: str) -> None:
        self.add(Rectangle((x - wide / 2, y - high / 2), wide, high, fill=False, edgecolor=colour, zorder=7))

    def band(self, left: float, right: float, low: float, high: float, colour: str) -> None:
        """An upright band below all else."""
        self.add(Rectangle((left, low), right - left, high - low, facecolor=colour, linewidth=0, zorder=0.5))

    def points(self, points: Sequence[Point], marker: str, **style: Any) -> None:
        """Points of one look."""
        across, up = zip(*points)
        self.add(Line2D(across, up, linestyle='none', marker=marker, **style))

    def dashed(self, piece: Piece, **style: Any) -> None:
        across, up = zip(*piece)
        self.add(Line2D(across, up, **style))

    def done(self) -> Figure:
        """Draws what was held back."""
        for look, pieces in self.pieces.items():
            for straight in (True, False):
                chosen = [piece for piece in pieces if is_straight(piece) == straight]
                for path in paths_of(chosen):
                    self.add(PathPatch(path, fill=False, edgecolor=look.colour, linewidth=look.width, capstyle=look.cap,
                                       joinstyle='round', zorder=look.order, snap=straight,
                                       linestyle=DASHES if look.is_dashed else 'solid'))
        for path in paths_of(self.grounds):
            self.add(PathPatch(path, facecolor='white', linewidth=0, zorder=6.5))
        return self.figure


def is_straight(piece: Piece) -> bool:
    """Whether a line lies along the rows and columns of dots, and is sharp where it begins on one."""
    return all(one[0] == other[0] or one[1] == other[1] for one, other in zip(piece, piece[1:]))


def paths_of(pieces: Sequence[Piece]) -> list[Path]:
    """The pieces as few paths."""
    made = []
    for first in range(0, len(pieces), TOGETHER):
        chosen = pieces[first:first + TOGETHER]
        codes = [code for piece in chosen for code in (Path.MOVETO, *[Path.LINETO] * (len(piece) - 1))]
        made.append(Path([point for piece in chosen for point in piece], codes))
    return made
