"""A case cut where no heat crosses: at its pinches, and at the utility pinches that the uses of a least-cost heat flow
make.

Streams are cut at the place; a utility has the heat that `pinch flow` printed, at its level. Temperatures are shifted,
in tenths of °C, heats in W, whole. The cascade at a place is what everything above it gives less what it takes; where
it is 0 no heat flow with these uses moves heat across the place."""
from __future__ import annotations

from collections.abc import Sequence
from dataclasses import dataclass

from ..formats.case import Case, Side, Source, Stream, shifted
from ..program.answers import HeatFlow, Targets
from .follow import PinchPoint


@dataclass(frozen=True)
class Piece:
    """The part of a source between two places, with its shifted range and its heat, above 0; of a stream in segments
    with the pieces of these."""

    source: Source
    high: int
    low: int
    heat: int
    pieces: tuple[Piece, ...] = ()

    @property
    def parts(self) -> tuple[Piece, ...]:
        """The pieces of the program's sources that it is."""
        return self.pieces or (self,)

    @property
    def signed(self) -> int:
        """Its heat, above 0 where it gives and below 0 where it takes."""
        return self.heat if self.source.side is Side.HOT else -self.heat


@dataclass(frozen=True)
class CutPlace:
    """A place where a case may be cut: what stands just there lies above it where `takes_level`. `process` where it is
    a pinch of the streams, else it is one of the utilities."""

    temperature: int
    takes_level: bool
    process: bool

    @property
    def point(self) -> PinchPoint:
        return PinchPoint(self.temperature, self.takes_level)


@dataclass(frozen=True)
class Region:
    """What lies between two places, which are None at the outer ends; its heats balance."""

    upper: CutPlace | None
    lower: CutPlace | None
    pieces: tuple[Piece, ...]


@dataclass(frozen=True)
class Crossed:
    """A pinch that is no place to cut: at the uses of least cost so much heat crosses it."""

    temperature: int
    heat: int


def whole_pieces(case: Case, flow: HeatFlow) -> tuple[Piece, ...]:
    """Every stream, and each utility that is used, of a completed case."""
    streams = [Piece(stream, stream.high, stream.low, stream.heat) for stream in case.streams]
    levels = [(utility, shifted(utility, utility.level), flow.use(utility.name)) for utility in case.utilities]
    return (*streams, *(Piece(utility, level, level, use) for utility, level, use in levels if use))


def upper_part(piece: Piece, place: CutPlace) -> Piece | None:
    """What of a piece lies above a place; None where nothing does."""
    if piece.high == piece.low:
        return piece if place.point.is_below(piece.high) else None
    low = max(piece.low, place.temperature)
    return sensible(piece, piece.high, low) if piece.high > low else None


def lower_part(piece: Piece, place: CutPlace) -> Piece | None:
    """What of a piece lies below a place; None where nothing does."""
    if piece.high == piece.low:
        return None if upper_part(piece, place) else piece
    high = min(piece.high, place.temperature)
    return sensible(piece, high, piece.low) if high > piece.low else None


def sensible(piece: Piece, high: int, low: int) -> Piece:
    assert isinstance(piece.source, Stream)
    return Piece(piece.source, high, low, piece.source.cp * (high - low))


def cascade(pieces: Sequence[Piece], place: CutPlace) -> int:
    """What everything above a place gives less what it takes: the heat that crosses it."""
    return sum(part.signed for part in (upper_part(piece, place) for piece in pieces) if part)


def places(pieces: Sequence[Piece], targets: Targets) -> tuple[CutPlace, ...]:
    """The places where no heat crosses, from the highest down; of those that cut alike the first."""
    grid = sorted({end for piece in pieces for end in (piece.high, piece.low)} | set(targets.pinches), reverse=True)
    candidates = [CutPlace(temperature, takes, temperature in targets.pinches)
                  for temperature in grid for takes in (False, True)]
    return tuple(place for place in candidates if cascade(pieces, place) == 0)


def regions(pieces: Sequence[Piece], cuts: Sequence[CutPlace]) -> tuple[Region, ...]:
    """What lies above, between and below the places, from the hottest down; a place above or below which nothing is
    left cuts nothing."""
    made: list[Region] = []
    left, upper = tuple(pieces), None
    for cut in cuts:
        above = tuple(part for part in (upper_part(piece, cut) for piece in left) if part)
        below = tuple(part for part in (lower_part(piece, cut) for piece in left) if part)
        if above and below:
            made.append(Region(upper, cut, above))
            left, upper = below, cut
    return (*made, Region(upper, None, left))


def crossed(pieces: Sequence[Piece], targets: Targets) -> tuple[Crossed, ...]:
    """The pinches across which heat goes at these uses, with the least of it."""
    made: list[Crossed] = []
    for temperature in targets.pinches:
        heats = [cascade(pieces, CutPlace(temperature, takes, True)) for takes in (False, True)]
        if 0 not in heats:
            made.append(Crossed(temperature, min(heats)))
    return tuple(made)
