"""Streams of several segments (docs/FORMATS.md, *What the desk keeps in comments*): the only reader and printer of the
rows that say so.

A stream of the program has one CP. One whose CP changes with temperature is in a case as so many streams, its segments,
each with a row `#segment,STREAM,SEGMENT`, in their order from the supply to the target."""
from __future__ import annotations

import re
from collections.abc import Callable, Collection, Iterator, Mapping, Sequence
from dataclasses import dataclass
from typing import TYPE_CHECKING

if TYPE_CHECKING:
    from .case import Stream

FIELDS = 7
NAME = re.compile(r'[A-Za-z0-9][A-Za-z0-9_-]{0,15}')
STANDARD = ('HOT', 'COLD')
# So many streams a case has at most, on both sides.
MOST_SEGMENTS = 60


@dataclass(frozen=True)
class SegmentedStream:
    """A stream of the plant, and the streams of the case that are its segments, from its supply to its target."""

    name: str
    segments: tuple[str, ...]


@dataclass(frozen=True)
class SegmentFault:
    """What is wrong with a segment."""

    segment: str
    cause: str


def with_segment(streams: tuple[SegmentedStream, ...], row: Sequence[str]) -> tuple[SegmentedStream, ...]:
    """The streams with what one more row `#segment` says; a `ValueError` where it says what cannot be."""
    name, segment, *others = row[1:]
    if any(others):
        raise ValueError('a segment has two fields, its stream and its name')
    for text, what in ((name, 'a stream'), (segment, 'a segment')):
        if not NAME.fullmatch(text):
            raise ValueError(f'`{text[:40]}` is not a name of {what}')
    if sum(len(stream.segments) for stream in streams) >= MOST_SEGMENTS:
        raise ValueError(f'a case has at most {MOST_SEGMENTS} streams, and each segment is one')
    if name in STANDARD:
        raise ValueError(f'{name} is a utility where a case has none of its side, and no stream')
    for stream in streams:
        if segment in stream.segments:
            again = 'a second time' if stream.name == name else f'and is one of {stream.name} too'
            raise ValueError(f'{segment} is a segment of {name} {again}')
    if all(stream.name != name for stream in streams):
        return (*streams, SegmentedStream(name, (segment,)))
    return tuple(SegmentedStream(name, (*stream.segments, segment)) if stream.name == name else stream
                 for stream in streams)


def segment_fault(segmented: SegmentedStream, streams: Mapping[str, Stream], sources: Collection[str],
                  show: Callable[[int], str] = str) -> SegmentFault | None:
    """What of the streams of a case contradicts that these are the segments of one; `sources` has the names of all its
    sources, and `show` shows a temperature."""
    before: Stream | None = None
    for name in segmented.segments:
        segment = streams.get(name)
        if segment is None:
            return SegmentFault(name, f'{name} is not a stream of the case')
        if segmented.name in sources:
            return SegmentFault(name, f'the case has a source {segmented.name} too: give the whole another name')
        if before and before.side is not segment.side:
            return SegmentFault(name, f'{before.name} is {before.side.value} and {name} is {segment.side.value}: the '
                                'segments of a stream are of one side')
        if before and before.target != segment.supply:
            return SegmentFault(name, f'{before.name} ends at {show(before.target)}, and {name} begins at '
                                f'{show(segment.supply)}: the segments of a stream meet')
        before = segment
    return None


def kept_segments(streams: Sequence[SegmentedStream], kept: Collection[str]) -> tuple[SegmentedStream, ...]:
    """The streams of which two segments or more are left that follow one another, where some streams of a case are
    gone."""
    made: list[SegmentedStream] = []
    for stream in streams:
        left = [at for at, segment in enumerate(stream.segments) if segment in kept]
        if len(left) > 1 and left == list(range(left[0], left[-1] + 1)):
            made.append(SegmentedStream(stream.name, stream.segments[left[0]:left[-1] + 1]))
    return tuple(made)


def segment_rows(streams: Sequence[SegmentedStream]) -> Iterator[list[str]]:
    for stream in streams:
        for segment in stream.segments:
            yield ['#segment', stream.name, segment, *[''] * (FIELDS - 3)]
