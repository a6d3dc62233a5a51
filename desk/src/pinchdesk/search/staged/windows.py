"""A case cut into windows where no heat crosses.

With the uses of the utilities given, the cascade at a place is what streams and utilities above it give less what
they take (Linnhoff and Flower 1978). Heat only goes down, so where the cascade is 0 no heat flow with these uses moves
any heat across: what is above and what is below are problems of their own. There are two cascades at each place, of
what is above it and of what is from it on; utilities and latent streams that stand at the place count in the second
alone. Temperatures are shifted, in tenths of °C; heats in W."""
from __future__ import annotations

from collections.abc import Iterator, Mapping
from dataclasses import dataclass

from ...formats.case import Case, Side, Source, Stream, shifted


@dataclass(frozen=True)
class WindowPiece:
    """What of a source is in a window: a range of a sensible stream with its CP, or a level with heat from `least` to
    `most`. The price is that of a utility."""

    name: str
    side: Side
    high: int
    low: int
    cp: int
    least: int
    most: int
    price: int = 0

    @property
    def is_level(self) -> bool:
        return self.cp == 0

    @property
    def is_loose(self) -> bool:
        """Whether it is a utility whose heat is open."""
        return self.least != self.most


@dataclass(frozen=True)
class Window:
    """A problem of its own: the pieces of the sources, and the pairs that may not exchange heat."""

    pieces: tuple[WindowPiece, ...]
    forbids: frozenset[tuple[str, str]]

    @property
    def hots(self) -> tuple[WindowPiece, ...]:
        return tuple(piece for piece in self.pieces if piece.side is Side.HOT)

    @property
    def colds(self) -> tuple[WindowPiece, ...]:
        return tuple(piece for piece in self.pieces if piece.side is Side.COLD)

    @property
    def total(self) -> int:
        """What is exchanged at most where no more utility is used than has to be."""
        return max(sum(piece.least if piece.is_loose else piece.most for piece in pieces)
                   for pieces in (self.hots, self.colds))


# A place of a cut: a temperature, and whether what stands at it is above the cut.
Cut = tuple[int, bool]


def piece_of(source: Source, uses: Mapping[str, int] | None) -> WindowPiece:
    """The whole of a source. A utility has the heat that it is used for, or its range where no uses are given."""
    if isinstance(source, Stream):
        return WindowPiece(source.name, source.side, source.high, source.low, source.cp, source.heat, source.heat)
    level = shifted(source, source.level)
    least, most = (source.least, source.most) if uses is None else (uses[source.name],) * 2
    return WindowPiece(source.name, source.side, level, level, 0, least, most, source.price)


def whole(case: Case, uses: Mapping[str, int] | None) -> Window:
    """The case as one window. A utility that gives nothing is left out."""
    pieces = [piece_of(source, uses) for source in case.sources]
    forbids = frozenset((forbid.hot, forbid.cold) for forbid in case.forbids)
    return Window(tuple(piece for piece in pieces if piece.most), forbids)


def windows(case: Case, uses: Mapping[str, int]) -> tuple[Window, ...]:
    """The windows of a completed case with these uses, from the hottest down."""
    window, cuts = whole(case, uses), cuts_between(case, uses)
    cut_windows = [between(window, above, below) for above, below in zip([None, *cuts], [*cuts, None])]
    return tuple(cut_window for cut_window in cut_windows if cut_window.pieces)


def cuts_between(case: Case, uses: Mapping[str, int]) -> tuple[Cut, ...]:
    """The places where no heat crosses with these uses, from the hottest down, the outer ends among them."""
    window = whole(case, uses)
    return tuple(cut for cut in cuts_of(window) if cascade(window, cut) == 0)


def cuts_of(window: Window) -> Iterator[Cut]:
    """All places where a cut may be, from the hottest down."""
    for place in sorted({end for piece in window.pieces for end in (piece.high, piece.low)}, reverse=True):
        yield (place, False)
        yield (place, True)


def is_above(piece: WindowPiece, cut: Cut) -> bool:
    """Whether a level is above a cut."""
    return piece.high > cut[0] or piece.high == cut[0] and cut[1]


def heat_above(piece: WindowPiece, cut: Cut) -> int:
    if piece.is_level:
        return piece.most if is_above(piece, cut) else 0
    return piece.cp * max(0, piece.high - max(piece.low, cut[0]))


def cascade(window: Window, cut: Cut) -> int:
    """What is above a cut gives less what it takes."""
    return (sum(heat_above(hot, cut) for hot in window.hots) - sum(heat_above(cold, cut) for cold in window.colds))


def between(window: Window, upper: Cut | None, lower: Cut | None) -> Window:
    """What is below one cut and above another."""
    parts = (part(piece, upper, lower) for piece in window.pieces)
    return Window(tuple(piece for piece in parts if piece), window.forbids)


def part(piece: WindowPiece, upper: Cut | None, lower: Cut | None) -> WindowPiece | None:
    """What of a piece is between two cuts; None where that is nothing."""
    if piece.is_level:
        outside = upper is not None and is_above(piece, upper) or lower is not None and not is_above(piece, lower)
        return None if outside else piece
    high = piece.high if upper is None else min(piece.high, upper[0])
    low = piece.low if lower is None else max(piece.low, lower[0])
    if high <= low:
        return None
    heat = piece.cp * (high - low)
    return WindowPiece(piece.name, piece.side, high, low, piece.cp, heat, heat)
