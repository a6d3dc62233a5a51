"""What no network with given uses of the utilities has fewer exchangers than, by the windows between which no heat
crosses.

In each window the transshipment model says which pairs exchange heat, and a pair in two windows is two exchangers,
unless one works through the cut between them. That one carries no heat down across the cut, so at the cut both its
sides are there, and what is tight inside an exchanger is tight from end to end: both sides have one CP, and all such
exchangers of a stream at a cut together no more than the stream has. Beside that, sources are at most as many sets that
balance more than there are exchangers (Hohmann 1971), in each window and in the whole."""
from __future__ import annotations

from collections.abc import Iterator, Sequence
from dataclasses import dataclass, field
from fractions import Fraction

from ...analysis.independent_sets import Member, partition
from ...formats.case import Side
from ..solver.linear import LinearRow, Program, Terms
from .model import ONE, ZERO
from .transshipment import Pair, Transshipment, pair_model_of
from .windows import Window, WindowPiece


@dataclass(frozen=True)
class ThroughCut:
    """A pair on both sides of a cut, which stands behind the window of this number."""

    window: int
    pair: Pair


@dataclass
class WindowBound:
    """The program as it is built: the models of the windows one behind the other, each from a place on, and of each
    pair that may work through a cut whether it does and with which CP."""

    parts: Sequence[Window]
    models: list[Transshipment]
    starts: list[int]
    lows: list[Fraction | None]
    highs: list[Fraction | None]
    wholes: set[int]
    rows: list[LinearRow]
    through: dict[ThroughCut, int] = field(default_factory=dict)
    sizes: dict[ThroughCut, int] = field(default_factory=dict)

    def used(self, window: int) -> Iterator[tuple[int, Fraction]]:
        """The pairs of a window, each counted as one."""
        for at in self.models[window].used.values():
            yield self.starts[window] + at, ONE

    @property
    def aim(self) -> Terms:
        """The number of exchangers."""
        counted = [term for window in range(len(self.parts)) for term in self.used(window)]
        return (*counted, *((at, -ONE) for at in self.through.values()))

    def variable(self, high: Fraction, whole: bool = False) -> int:
        self.lows.append(ZERO)
        self.highs.append(high)
        if whole:
            self.wholes.add(len(self.lows) - 1)
        return len(self.lows) - 1

    def add_cut(self, above: int) -> None:
        """What may work through the cut behind a window."""
        upper, lower = self.parts[above], self.parts[above + 1]
        going = {piece.name: piece.cp for piece in upper.pieces for below in lower.pieces
                 if piece.name == below.name and not piece.is_level and piece.low == below.high}
        for pair, at in self.models[above].used.items():
            below = self.models[above + 1].used.get(pair)
            if below is None or not all(name in going for name in pair):
                continue
            cut, most = ThroughCut(above, pair), Fraction(min(going[name] for name in pair))
            self.through[cut], self.sizes[cut] = self.variable(ONE, True), self.variable(most)
            for used in (self.starts[above] + at, self.starts[above + 1] + below):
                self.rows.append(LinearRow(((self.through[cut], ONE), (used, -ONE)), None, ZERO))
            self.rows.append(LinearRow(((self.sizes[cut], ONE), (self.through[cut], -most)), None, ZERO))
        for name, size in going.items():
            terms = tuple((at, ONE) for cut, at in self.sizes.items() if cut.window == above and name in cut.pair)
            if terms:
                self.rows.append(LinearRow(terms, None, Fraction(size)))

    def add_duties(self, window: int) -> None:
        """What a pair exchanges in a window where its exchanger works through a cut of it: no more than its CP does. No
        branch of a hot stream is warmer than where the stream begins, and none of a cold one colder; beyond its target
        a branch may go, and be mixed back."""
        model, start = self.models[window], self.starts[window]
        by_pair: dict[Pair, list[tuple[int, Fraction]]] = {}
        for (pair, _), at in model.duties.items():
            by_pair.setdefault(pair, []).append((start + at, ONE))
        for pair in model.used:
            cuts = [cut for cut in (ThroughCut(window - 1, pair), ThroughCut(window, pair)) if cut in self.through]
            if not cuts:
                continue
            hot, cold = (piece_of_name(self.parts[window], name) for name in pair)
            span = Fraction(hot.high - cold.low) / model.model.unit
            most = Fraction(min(hot.most, cold.most)) / model.model.unit
            sizes = ((self.sizes[cut], -span) for cut in cuts)
            through = ((self.through[cut], most) for cut in cuts)
            self.rows.append(LinearRow((*by_pair[pair], *sizes, *through), None, most * len(cuts)))


def piece_of_name(window: Window, name: str) -> WindowPiece:
    return next(piece for piece in window.pieces if piece.name == name)


def least_by_sets(pieces: Sequence[WindowPiece]) -> int:
    """Sources less the most sets that balance; sets of utilities alone may be among them, which makes it no more."""
    members = [Member(piece.name, piece.most if piece.side is Side.HOT else -piece.most) for piece in pieces]
    return partition(members).least_exchangers


def whole_pieces(parts: Sequence[Window]) -> list[WindowPiece]:
    """The sources of all windows with all their heat."""
    heats: dict[str, WindowPiece] = {}
    for part in parts:
        for piece in part.pieces:
            heat = piece.most + (heats[piece.name].most if piece.name in heats else 0)
            heats[piece.name] = WindowPiece(piece.name, piece.side, piece.high, piece.low, piece.cp, heat, heat)
    return list(heats.values())


def window_bound_program(parts: Sequence[Window]) -> Program:
    """The program whose least is the bound, of windows whose heats are all given, the hottest first."""
    bound = WindowBound(parts, [], [], [], [], set(), [])
    for part in parts:
        pair_model = pair_model_of(part)
        model, start = pair_model.model, len(bound.lows)
        bound.models.append(pair_model)
        bound.starts.append(start)
        bound.lows += model.lows
        bound.highs += model.highs
        bound.wholes |= {start + at for at in model.wholes}
        bound.rows += (LinearRow(tuple((start + at, factor) for at, factor in row.terms), row.low, row.high)
                       for row in model.rows)
    for number in range(len(parts) - 1):
        bound.add_cut(number)
    for number, part in enumerate(parts):
        bound.add_duties(number)
        bound.rows.append(LinearRow(tuple(bound.used(number)), Fraction(least_by_sets(part.pieces)), None))
    bound.rows.append(LinearRow(bound.aim, Fraction(least_by_sets(whole_pieces(parts))), None))
    return Program(tuple(bound.lows), tuple(bound.highs), frozenset(bound.wholes), tuple(bound.rows), bound.aim)
