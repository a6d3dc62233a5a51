"""Changes of a stream that a case has in segments: what is said of the whole is done to its segments."""
from __future__ import annotations

from collections.abc import Mapping
from dataclasses import replace

from ..formats.case import Case, Stream
from ..formats.segments import segment_fault
from ..formats.shown import Shown
from .change_columns import Field
from .change_table import Change, Way, refusal

ENDS = (Field.SUPPLY, Field.TARGET)


def on_segments(case: Case, change: Change, name: str) -> tuple[Change, ...]:
    """A change of a source of this name as changes of sources of the case: where that is a stream in segments its
    supply is that of the first one, its target that of the last one, and a percentage is of the CP or the load of each.
    `Refused` where the stream has no one such number."""
    segmented = next((stream for stream in case.basis.segments if stream.name == name), None)
    if segmented is None:
        return (change,)
    segments = [case.source(segment) for segment in segmented.segments]
    streams = [segment for segment in segments if isinstance(segment, Stream)]
    if change.field in ENDS:
        end = streams[0] if change.field is Field.SUPPLY else streams[-1]
        if end.latent:
            raise refusal(change, f'{name} has a phase change at this end, {end.name}: change the level of that')
        return (replace(change, source=end.name),)
    if change.field is Field.CONTRIBUTION:
        return tuple(replace(change, source=segment.name) for segment in streams)
    if change.field not in (Field.CP, Field.LOAD):
        fields = 'supply, target, CP, load, contribution'
        raise refusal(change, f'{name} has no {change.field.word}: it has {fields}')
    if change.way is not Way.PERCENT:
        raise refusal(change, f'{name} has a {change.field.word} in each of its segments, {segmented.segments[0]} to '
                      f'{segmented.segments[-1]}: say a percentage, or change one of these')
    return tuple(replace(change, source=segment.name, field=Field.LOAD if segment.latent else Field.CP)
                 for segment in streams)


def fault_in_segments(case: Case) -> str:
    """What of the segments of a case is no longer one stream; empty where all are."""
    streams, names = {stream.name: stream for stream in case.streams}, {source.name for source in case.sources}
    shown = Shown(case.basis)

    def show(temperature: int) -> str:
        return f'{shown.temperature(temperature)} {shown.temperature_unit}'
    faults = (segment_fault(segmented, streams, names, show) for segmented in case.basis.segments)
    return next((fault.cause for fault in faults if fault), '')


def with_streams(case: Case, changed: Mapping[str, Stream]) -> Case:
    """The case with some streams in place of those of their names."""
    return replace(case, streams=tuple(changed.get(stream.name, stream) for stream in case.streams))
