"""The streams of a plant, each as one, where a case has some in segments (`segments`). What counts and shows streams
takes these; the program is asked about the case as it is."""
from __future__ import annotations

from collections.abc import Mapping
from dataclasses import dataclass

from .case import Case, Stream


@dataclass(frozen=True)
class WholeStream(Stream):
    """A stream of several segments, from its supply to its target. It has no one CP, and its contribution is that of
    its first segment; the size of a branch of it is its part of the whole, so that its own is 1."""

    segments: tuple[Stream, ...] = ()

    @property
    def latent(self) -> bool:
        return False

    @property
    def heat(self) -> int:
        return sum(segment.heat for segment in self.segments)

    @property
    def size(self) -> int:
        return 1

    @property
    def high(self) -> int:
        return max(segment.high for segment in self.segments)

    @property
    def low(self) -> int:
        return min(segment.low for segment in self.segments)

    @property
    def kinks(self) -> tuple[int, ...]:
        """The temperatures at which one segment ends and the next one begins."""
        return tuple(segment.target for segment in self.segments[:-1])


def whole_of(name: str, segments: tuple[Stream, ...]) -> WholeStream:
    first, last = segments[0], segments[-1]
    return WholeStream(name, first.side, first.supply, last.target, 0, 0, first.contribution, segments)


def parts_of(stream: Stream) -> tuple[Stream, ...]:
    """The streams of the program that a stream is."""
    return stream.segments if isinstance(stream, WholeStream) else (stream,)


def whole_streams(case: Case) -> tuple[Stream, ...]:
    """The streams of a case in their order, those of several segments as one, where the first segment stands."""
    streams = {stream.name: stream for stream in case.streams}
    wholes = {segmented.segments[0]: whole_of(segmented.name, tuple(streams[name] for name in segmented.segments))
              for segmented in case.basis.segments}
    others = set(whole_names(case)) - set(wholes)
    return tuple(wholes.get(stream.name, stream) for stream in case.streams if stream.name not in others)


def whole_names(case: Case) -> Mapping[str, str]:
    """The name of the whole stream of each segment."""
    return {segment: segmented.name for segmented in case.basis.segments for segment in segmented.segments}


def whole_name(case: Case, source: str) -> str:
    """The name of a source as the plant has it: of a segment that of its stream."""
    return whole_names(case).get(source, source)
