"""Each text of a picture is measured once: matplotlib lays it out some ten times, to the same end."""
from __future__ import annotations

from collections.abc import Iterator
from contextlib import contextmanager
from threading import Lock
from typing import Any

from matplotlib.text import Text


class Layouts:
    """What is remembered of texts while anybody makes pictures; behind that matplotlib is as it was."""

    def __init__(self) -> None:
        self.lock, self.inside = Lock(), 0
        self.known: dict[tuple[object, ...], Any] = {}
        self.lays_out = Text._get_layout

    @contextmanager
    def remembered(self) -> Iterator[None]:
        with self.lock:
            self.inside += 1
            Text._get_layout = self.layout_of()
        try:
            yield
        finally:
            with self.lock:
                self.inside -= 1
                if not self.inside:
                    Text._get_layout = self.lays_out
                    self.known.clear()

    def layout_of(self) -> Any:
        known, lays_out = self.known, self.lays_out

        def layout(text: Text, renderer: Any) -> Any:
            words = text.get_text()
            if '\n' in words:
                return lays_out(text, renderer)
            # A renderer that is held here is never taken for another one; a font may be changed in its place.
            told = (renderer, words, hash(text.get_fontproperties()), text.figure.dpi, text.get_rotation(),
                    text.get_rotation_mode(), text.get_ha(), text.get_va(), text.get_usetex(), text.get_parse_math())
            found = known.get(told)
            if found is None:
                found = known[told] = lays_out(text, renderer)
            return found
        return layout


measured_once = Layouts().remembered
