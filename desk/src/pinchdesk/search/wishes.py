"""What a network has to be beside cheap and of few exchangers: of few splits, without an exchanger through a cut, with
exchangers of a given network that stay. What is asked of a network is asked of what is written in the end."""
from __future__ import annotations

from collections.abc import Iterator, Mapping, Sequence
from dataclasses import dataclass, replace

from ..analysis.follow import Passage, follow
from ..formats.case import Case, Forbid, Side, Stream, actual, shifted
from ..formats.network import Exchanger, Network, Split
from ..formats.segments import SegmentedStream
from .reduce.structure import Course, Structure
from .staged.windows import Window, WindowPiece


@dataclass(frozen=True)
class Wishes:
    """At most so many splits, None for any number; whether an exchanger may work through a place where no heat crosses;
    and the names of exchangers of the network to begin with that stay, each between its two sources and with its duty:
    they are `kept`, once that network is known."""

    most_splits: int | None = None
    may_cross: bool = True
    keep: tuple[str, ...] = ()
    kept: tuple[Exchanger, ...] = ()

    @property
    def told(self) -> str:
        """What is wished, in words; empty where nothing is."""
        told = []
        if self.most_splits is not None:
            told.append(f'{self.most_splits or "no"} split{"" if self.most_splits == 1 else "s"}'
                        + (' at most' if self.most_splits else ''))
        if not self.may_cross:
            told.append('no exchanger through a cut')
        if self.keep:
            told.append(', '.join(self.keep) + ' as in the network to begin with')
        return ' and '.join(told)

    def are_met(self, case: Case, cuts: Sequence[int], network: Network) -> bool:
        """Whether an accepted network is as it is wished."""
        found = {(exchanger.name, exchanger.hot, exchanger.cold, exchanger.duty) for exchanger in network.exchangers}
        return (self.most_splits is None or splits_of(network) <= self.most_splits) and all(
            (kept.name, kept.hot, kept.cold, kept.duty) in found for kept in self.kept) and (
            self.may_cross or not crossing(case, cuts, network))


NO_WISHES = Wishes()


def splits_of(network: Network) -> int:
    return sum(isinstance(statement, Split) for statement in network.statements)


def crossing(case: Case, cuts: Sequence[int], network: Network) -> tuple[str, ...]:
    """The exchangers that work through a cut, a shifted temperature: on both sides of it, or from one side of it to the
    other. What stands at the cut itself is on neither side."""
    passages = follow(case, network).passages
    return tuple(passage.exchanger.name for passage in passages if any(is_through(passage, cut) for cut in cuts))


def is_through(passage: Passage, cut: int) -> bool:
    ends = [end + shifted(side.source, 0) for side in (passage.hot, passage.cold)
            for end in (side.inlet, side.outlet) if end is not None]
    return max(ends) > cut > min(ends)


@dataclass(frozen=True)
class CutCase:
    """A case whose streams end at the cuts: what is in another window is another stream, and no two of two windows
    meet. `pieces` are the names of these streams by that of the whole one, in its direction."""

    case: Case
    pieces: Mapping[str, tuple[str, ...]]

    def joined(self, structure: Structure) -> Structure:
        """A structure of it as one of the whole case."""
        names = {piece: name for name, pieces in self.pieces.items() for piece in pieces}
        pairs = {name: (names.get(hot, hot), names.get(cold, cold)) for name, (hot, cold) in structure.pairs.items()}
        courses: dict[str, Course] = {
            name: tuple(step for piece in pieces for step in structure.courses[piece])
            for name, pieces in self.pieces.items()}
        return Structure(pairs, courses, structure.kept)


def cut_case(case: Case, parts: Sequence[Window]) -> CutCase:
    """A completed case cut into its windows, the hottest first."""
    streams: list[Stream] = []
    pieces: dict[str, tuple[str, ...]] = {stream.name: () for stream in case.streams}
    windows: list[list[tuple[str, Side]]] = []
    for number, part in enumerate(parts):
        windows.append([])
        for piece in part.pieces:
            name = piece.name
            if name in pieces:
                name = f'{name}~{number}'
                streams.append(stream_of(case, piece, name))
                before = pieces[piece.name]
                pieces[piece.name] = (*before, name) if piece.side is Side.HOT else (name, *before)
            windows[-1].append((name, piece.side))
    forbids = [*forbidden_pieces(case, pieces), *apart(windows)]
    basis = replace(case.basis, segments=tuple(cut_segments(case, windows)))
    return CutCase(replace(case, streams=tuple(streams), forbids=tuple(forbids), basis=basis), pieces)


def cut_segments(case: Case, windows: Sequence[Sequence[tuple[str, Side]]]) -> Iterator[SegmentedStream]:
    """The streams in segments as far as they are in one window."""
    for stream in case.basis.segments:
        for number, window in enumerate(windows):
            names = {name for name, _ in window}
            there = [name for name in (f'{segment}~{number}' for segment in stream.segments) if name in names]
            if there:
                yield SegmentedStream(f'{stream.name}~{number}', tuple(there))


def stream_of(case: Case, piece: WindowPiece, name: str) -> Stream:
    """A piece of a stream as a stream."""
    stream = case.source(piece.name)
    assert isinstance(stream, Stream)
    if stream.latent:
        return replace(stream, name=name)
    high, low = actual(stream, piece.high), actual(stream, piece.low)
    supply, target = (high, low) if stream.side is Side.HOT else (low, high)
    return replace(stream, name=name, supply=supply, target=target)


def forbidden_pieces(case: Case, pieces: Mapping[str, tuple[str, ...]]) -> list[Forbid]:
    return [Forbid(hot, cold) for forbid in case.forbids for hot in pieces.get(forbid.hot, (forbid.hot,))
            for cold in pieces.get(forbid.cold, (forbid.cold,))]


def apart(windows: Sequence[Sequence[tuple[str, Side]]]) -> list[Forbid]:
    """No two sources of two windows meet."""
    return [Forbid(hot, cold) for at, window in enumerate(windows) for hot, side in window if side is Side.HOT
            for other, elsewhere in enumerate(windows) if other != at
            for cold, other_side in elsewhere if other_side is Side.COLD]
