"""A figure that a notebook shows: matplotlib's own shows itself by pyplot alone, which keeps a state of its own."""
from __future__ import annotations

from dataclasses import dataclass
from html import escape

from matplotlib.figure import Figure

from .style import rendered


@dataclass(frozen=True, eq=False)
class ShownFigure:
    """A picture. `figure` is it as matplotlib has it, for whoever draws more into it; `notes` is what is reported about
    its numbers."""

    figure: Figure
    notes: tuple[str, ...] = ()

    def _repr_svg_(self) -> str:
        return self.as_file('svg').decode()

    def _repr_html_(self) -> str | None:
        """The picture with its notes below it, which a notebook takes before the picture alone; None without notes."""
        told = ''.join(f'<li>{escape(note)}</li>' for note in self.notes)
        return f'<div>{self._repr_svg_()}<ul>{told}</ul></div>' if told else None

    def as_file(self, form: str) -> bytes:
        """The content of a file: `svg`, `png` or `pdf`."""
        return rendered(self.figure, form)
