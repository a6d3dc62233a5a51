"""Streams of several segments in a case: what is read is printed, and what cannot be is refused by its place."""
from __future__ import annotations

from dataclasses import replace

import pytest
from hypothesis import given
from hypothesis import strategies as some

from pinchdesk import Refused, completed, read_case
from pinchdesk.formats.case import print_case
from pinchdesk.formats.comments import Basis, basis_rows, noted
from pinchdesk.formats.segments import SegmentedStream, kept_segments
from pinchdesk.formats.whole_streams import WholeStream, whole_name, whole_streams

from anycase import names
from segmented_cases import FEED


def test_a_stream_of_segments_is_one_stream() -> None:
    case = read_case(FEED)
    assert case.basis.segments == (SegmentedStream('FEED', ('FEED-1', 'FEED-2', 'FEED-3')),)
    feed, *others = whole_streams(case)
    assert isinstance(feed, WholeStream)
    assert (feed.name, feed.supply, feed.target, feed.heat, feed.kinks) == ('FEED', 300, 1200, 200_000, (800, 800))
    assert [stream.name for stream in others] == ['H', 'K']
    assert whole_name(case, 'FEED-2') == 'FEED' and whole_name(case, 'H') == 'H'
    assert read_case(print_case(case)) == case


@some.composite
def segmented(draw: some.DrawFn) -> tuple[SegmentedStream, ...]:
    found = draw(some.lists(names.filter(lambda name: name not in ('HOT', 'COLD')), min_size=2, max_size=8,
                            unique=True))
    size = draw(some.integers(1, len(found) // 2))
    own, left = found[:size], found[size:]
    cuts = sorted(draw(some.lists(some.integers(1, len(left) - 1), min_size=size - 1, max_size=size - 1, unique=True))
                  if size > 1 else [])
    parts = [left[begin:end] for begin, end in zip([0, *cuts], [*cuts, len(left)])]
    return tuple(SegmentedStream(name, tuple(part)) for name, part in zip(own, parts))


@given(segmented())
def test_what_is_printed_of_segments_is_read_again(streams: tuple[SegmentedStream, ...]) -> None:
    basis = Basis(segments=streams)
    read = Basis()
    for row in basis_rows(basis):
        assert len(row) == 7
        read = noted(read, row)
    assert read == basis


@pytest.mark.parametrize('old, new, place, cause', [
    ('FEED-2,800,800', 'FEED-2,810,810', 'case row 3', 'FEED-1 ends at 800, and FEED-2 begins at 810'),
    ('cold,FEED-3,800,1200', 'hot,FEED-3,800,700', 'case row 4', 'FEED-2 is cold and FEED-3 is hot'),
    ('#segment,FEED,FEED-3', '#segment,FEED,FEED-4', 'case row 4', 'FEED-4 is not a stream of the case'),
    ('#segment,FEED,FEED-3', '#segment,OTHER,FEED-2', 'case row 4', 'FEED-2 is a segment of OTHER and is one of FEED'),
    ('#segment,FEED,FEED-3', '#segment,FEED,FEED-2', 'case row 4', 'FEED-2 is a segment of FEED a second time'),
    ('#segment,FEED,FEED-3', '#segment,FEED,', 'case row 4', '`` is not a name of a segment'),
    ('#segment,FEED,FEED-3', '#segment,my feed,FEED-3', 'case row 4', '`my feed` is not a name of a stream'),
    ('#segment,FEED,FEED-3,,', '#segment,FEED,FEED-3,,7', 'case row 4', 'two fields'),
    ('#segment,FEED,FEED-3', '#segment,HOT,FEED-3', 'case row 4', 'HOT is a utility'),
    ('hot,H,', 'hot,FEED,', 'case row 2', 'the case has a source FEED too'),
])
def test_what_cannot_be_segments_is_refused_by_its_place(old: str, new: str, place: str, cause: str) -> None:
    assert old in FEED
    with pytest.raises(Refused) as refused:
        read_case(FEED.replace(old, new, 1))
    assert refused.value.place == place and cause in refused.value.text


def test_more_segments_than_a_case_has_streams_are_refused_at_once() -> None:
    rows = ''.join(f'#segment,A,S{at},,,,\n' for at in range(1000))
    with pytest.raises(Refused) as refused:
        read_case(rows + 'contribution,,50,,,,\n')
    assert refused.value.place == 'case row 61' and 'at most 60 streams, and each segment is one' in refused.value.text


def test_of_streams_that_are_gone_the_segments_that_still_meet_are_kept() -> None:
    streams = (SegmentedStream('A', ('A1', 'A2', 'A3')), SegmentedStream('B', ('B1', 'B2')))
    assert kept_segments(streams, {'A2', 'A3', 'B1'}) == (SegmentedStream('A', ('A2', 'A3')),)
    assert kept_segments(streams, {'A1', 'A3', 'B1', 'B2'}) == (SegmentedStream('B', ('B1', 'B2')),)


def test_the_completed_case_has_the_segments_too() -> None:
    case = read_case(FEED)
    assert completed(case).basis == case.basis
    assert replace(case, basis=Basis()) == read_case('\n'.join(row for row in FEED.split('\n') if row[:1] != '#'))
