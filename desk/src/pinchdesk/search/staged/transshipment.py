"""Which pairs exchange heat, as few as there may be: the transshipment model (Papoulias and Grossmann 1983).

Heat only goes down, whatever shape a network has, so the number of these pairs is a bound for every network."""
from __future__ import annotations

from collections.abc import Mapping
from dataclasses import dataclass, field
from fractions import Fraction

from ...formats.case import Side
from ..solver.linear import Program
from .model import ONE, ZERO, StagedModel, unit_of
from .slots import Asked, capacity, may_meet
from .windows import WindowPiece, Window

Pair = tuple[str, str]
Band = tuple[int, int]


def bands_of(window: Window) -> list[Band]:
    """Bands of temperature from the hottest down; a level has one of its own."""
    ends = sorted({end for piece in window.pieces for end in (piece.high, piece.low)}, reverse=True)
    levels = {piece.high for piece in window.pieces if piece.is_level}
    made: list[Band] = []
    for at, end in enumerate(ends):
        if end in levels:
            made.append((end, end))
        if at + 1 < len(ends):
            made.append((end, ends[at + 1]))
    return made


def is_in(piece: WindowPiece, band: Band) -> bool:
    high, low = band
    if piece.is_level or high == low:
        return piece.is_level and high == low == piece.high
    return piece.low < high <= piece.high


def heat_in(piece: WindowPiece, band: Band) -> int:
    """What of a piece is in a band, at most."""
    if not is_in(piece, band):
        return 0
    return piece.most if piece.is_level else piece.cp * (band[0] - band[1])


@dataclass
class Transshipment:
    """The model as it is built: `used` is whether a pair exchanges heat, `duties` what it exchanges, by the band of
    the cold side; the duties of a source are kept by its name, in a band and in all. The pairs of the segments of a
    stream are one pair, by the names of the streams."""

    window: Window
    model: StagedModel
    bands: list[Band]
    used: dict[Pair, int] = field(default_factory=dict)
    duties: dict[tuple[Pair, Band], int] = field(default_factory=dict)
    by_band: dict[tuple[str, Band], list[tuple[int, Fraction]]] = field(default_factory=dict)
    by_name: dict[str, list[tuple[int, Fraction]]] = field(default_factory=dict)
    streams: Mapping[str, str] = field(default_factory=dict)

    def stream(self, name: str) -> str:
        """The stream of the plant that a piece is of."""
        return self.streams.get(name, name)

    def add_pair(self, hot: WindowPiece, cold: WindowPiece) -> None:
        pair = (hot.name, cold.name)
        limit = Fraction(min(capacity(hot, cold), self.window.total)) / self.model.unit
        met = (self.stream(hot.name), self.stream(cold.name))
        if met not in self.used:
            self.used[met] = self.model.variable(ZERO, ONE, True)
        terms: list[tuple[int, Fraction]] = []
        for band in self.bands:
            if is_in(cold, band) and (band[0] <= hot.high):
                heat = Fraction(heat_in(cold, band)) / self.model.unit
                at = self.duties[pair, band] = self.model.variable(ZERO, min(heat, limit))
                terms.append((at, ONE))
                for name in pair:
                    self.by_band.setdefault((name, band), []).append((at, ONE))
                    self.by_name.setdefault(name, []).append((at, ONE))
        self.model.row([*terms, (self.used[met], -limit)], None, ZERO)

    def taken(self, piece: WindowPiece, band: Band | None = None) -> list[tuple[int, Fraction]]:
        """The duties of a piece, in a band or in all."""
        return list(self.by_name.get(piece.name, ()) if band is None else self.by_band.get((piece.name, band), ()))

    def add_level(self, piece: WindowPiece) -> None:
        unit = self.model.unit
        self.model.row(self.taken(piece), Fraction(piece.least) / unit, Fraction(piece.most) / unit)

    def add_cold(self, piece: WindowPiece) -> None:
        for band in self.bands:
            if is_in(piece, band):
                heat = Fraction(heat_in(piece, band)) / self.model.unit
                self.model.row(self.taken(piece, band), heat, heat)

    def add_hot(self, piece: WindowPiece) -> None:
        """What a hot stream has in a band it gives there or further down."""
        rest: int | None = None
        given = ZERO
        for band in self.bands:
            if band[0] > piece.high:
                continue
            heat = Fraction(heat_in(piece, band)) / self.model.unit
            terms = self.taken(piece, band) + ([] if rest is None else [(rest, -ONE)])
            given += heat
            rest = None if band == self.bands[-1] else self.model.variable(ZERO, given)
            self.model.row(terms + ([] if rest is None else [(rest, ONE)]), heat, heat)

    def add_cost(self, most: Fraction) -> None:
        prices = {piece.name: piece.price for piece in self.window.pieces}
        terms = [(at, Fraction(prices[pair[0]] + prices[pair[1]])) for (pair, _), at in self.duties.items()]
        self.model.row([term for term in terms if term[1]], None, most / self.model.unit)


def transshipment(window: Window, most_cost: Fraction | None = None,
                  streams: Mapping[str, str] = {}) -> tuple[Program, dict[Pair, int]]:
    """The program of a window and the variables of its pairs; with a cost that is not to be passed where the heat of
    the utilities is open. What has a name in `streams` is a segment of that stream."""
    pair_model = pair_model_of(window, streams)
    if most_cost is not None:
        pair_model.add_cost(most_cost)
    model, aim = pair_model.model, tuple((at, ONE) for at in pair_model.used.values())
    return (Program(tuple(model.lows), tuple(model.highs), frozenset(model.wholes), tuple(model.rows), aim),
            pair_model.used)


def pair_model_of(window: Window, streams: Mapping[str, str] = {}) -> Transshipment:
    """The model of a window, without a cost."""
    pair_model = Transshipment(window, StagedModel(Asked((window,), (0,)), unit_of((window,))), bands_of(window),
                               streams=streams)
    for hot in window.hots:
        for cold in window.colds:
            if may_meet(hot, cold, window):
                pair_model.add_pair(hot, cold)
    for piece in window.pieces:
        if piece.is_level:
            pair_model.add_level(piece)
        elif piece.side is Side.HOT:
            pair_model.add_hot(piece)
        else:
            pair_model.add_cold(piece)
        if piece.least:
            pair_model.model.row([(at, ONE) for pair, at in pair_model.used.items()
                                  if pair_model.stream(piece.name) in pair], ONE, None)
    return pair_model
