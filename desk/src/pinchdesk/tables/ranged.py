"""The utilities of a table that have a range of temperature: they are taken out of its case, which has them when their
sizes are found."""
from __future__ import annotations

from collections.abc import Collection, Mapping, Sequence
from dataclasses import dataclass, replace

from ..formats.case import Case, Forbid, Stream, Utility
from ..formats.range_parts import UnsizedRange


@dataclass(frozen=True)
class RangeRow:
    """A utility with a range: its row, where it leaves, or the names of its segments where it has several."""

    row: int
    target: int
    segments: tuple[str, ...] = ()


@dataclass(frozen=True)
class SplitCase:
    """A case without its utilities with a range, these with their rows, and the forbidden matches with them."""

    case: Case
    ranges: tuple[tuple[int, UnsizedRange], ...]
    forbids: tuple[Forbid, ...]


def without_ranges(case: Case, rows: Mapping[str, RangeRow]) -> SplitCase:
    """A case that has its utilities with a range as utilities at their supply, without them."""
    streams = {stream.name: stream for stream in case.streams}
    ranges = tuple((rows[utility.name].row, range_of(utility, rows[utility.name], streams))
                   for utility in case.utilities if utility.name in rows)
    parts = {part.name for _, utility in ranges for part in utility.parts}
    names = {*rows, *parts}
    segments = tuple(segmented for segmented in case.basis.segments if segmented.name not in names)
    kept = replace(case, streams=tuple(stream for stream in case.streams if stream.name not in parts),
                   utilities=tuple(utility for utility in case.utilities if utility.name not in rows),
                   forbids=tuple(forbid for forbid in case.forbids if not is_of(forbid, names)),
                   basis=replace(case.basis, segments=segments))
    return SplitCase(kept, ranges, tuple(forbid for forbid in case.forbids if is_of(forbid, names)))


def is_of(forbid: Forbid, names: Collection[str]) -> bool:
    return forbid.hot in names or forbid.cold in names


def range_of(utility: Utility, found: RangeRow, streams: Mapping[str, Stream]) -> UnsizedRange:
    one = Stream(utility.name, utility.side, utility.level, found.target, 1, 0, utility.contribution)
    parts: Sequence[Stream] = [streams[name] for name in found.segments] or [one]
    return UnsizedRange(utility.name, tuple(parts), utility.price, utility.least, utility.most)
