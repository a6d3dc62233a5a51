"""A case that is edited row by row: what is shown is read again as the same, and other lines stay as they are."""
from __future__ import annotations

from pathlib import Path

import pytest
from conftest import CASES, EXAMPLES, few_of, pinchdesk
from hypothesis import given
from hypothesis import strategies as some
from segmented_cases import FEED

from pinchdesk.formats.case import Case
from pinchdesk.live.case_lines import added, removed, with_cell, with_difference
from pinchdesk.live.case_view import difference_of, stream_rows, utility_rows
from pinchdesk.live.gestures import NotDone
from pinchdesk.live.known import as_text, completed_live

FAHRENHEIT = 'Stream;Supply (°F);Target (°F);CP (Btu/(h °F))\nH1;302;140;20000\nC1;68.5;257;25000\n'
FIELDS = {'stream': ('name', 'supply', 'target', 'flow', 'load', 'contribution'),
          'utility': ('name', 'level', 'least', 'most', 'price', 'contribution')}


def cells(case: Case) -> list[tuple[str, str, str]]:
    """The cells of a case as they are shown: row, field and text."""
    whole = [row for row in stream_rows(case) if row.segments]
    rows = [(row, FIELDS['stream']) for of_plant in stream_rows(case) for row in of_plant.segments or (of_plant,)]
    utilities = [(row, FIELDS['utility']) for row in utility_rows(case) if not row.invented]
    found = [(row.row, field, str(getattr(row, field))) for row, fields in rows for field in fields]
    found += [(row.row, field, str(getattr(row, field))) for row, fields in utilities for field in fields]
    found += [(row.row, 'name', row.name) for row in whole]
    return [cell for cell in found if cell[2]]


def same_as_shown(text: str) -> None:
    """Typing what is shown changes nothing."""
    case = completed_live(text)
    for row, field, shown in cells(case):
        assert completed_live(with_cell(text, case, row, field, shown)) == case, (row, field, shown)
    assert completed_live(with_difference(text, case, difference_of(case).text)) == case


@pytest.mark.parametrize('name', few_of(CASES))
def test_typing_what_is_shown_changes_nothing(name: str) -> None:
    same_as_shown(as_text((EXAMPLES / f'{name}.csv').read_bytes()))


def test_a_case_in_units_of_its_own_is_edited_in_these(tmp_path: Path) -> None:
    (tmp_path / 'table.csv').write_text(FAHRENHEIT, encoding='utf-8')
    done = pinchdesk('case', 'table.csv', '-d', '36 °F', '--units', 'table', '-o', 'case.csv', cwd=tmp_path)
    assert done.status == 0, done.err
    text = (tmp_path / 'case.csv').read_text(encoding='utf-8')
    same_as_shown(text)
    case = completed_live(text)
    edited = completed_live(with_cell(text, case, 'stream H1', 'supply', '310.5'))
    assert [row.supply for row in stream_rows(edited)] == ['310.5', '68.5']
    with pytest.raises(NotDone, match='finer than a case can hold'):
        with_cell(text, case, 'stream H1', 'supply', '310.55')


@given(some.sampled_from(['tc3', 'own-contributions', 'two-steam-levels', 'crude']), some.integers(0, 400), some.data())
def test_a_cell_changes_its_own_line_alone(name: str, tenths: int, data: some.DataObject) -> None:
    text = as_text((EXAMPLES / f'{name}.csv').read_bytes())
    case = completed_live(text)
    row, field, _ = data.draw(some.sampled_from([cell for cell in cells(case) if cell[1] in ('supply', 'flow')]))
    before, after = text.split('\n'), with_cell(text, case, row, field, f'{tenths / 10:.1f}').split('\n')
    changed = [at for at, (old, new) in enumerate(zip(before, after)) if old != new]
    assert len(before) == len(after) and len(changed) <= 1
    assert all(row.split()[1] in before[at].split(',') for at in changed)


@pytest.mark.parametrize('ending', ['\n', '\r\n'])
def test_lines_end_as_they_did(ending: str) -> None:
    text = as_text((EXAMPLES / 'tc3.csv').read_bytes()).replace('\n', ending)
    case = completed_live(text)
    edited = with_cell(text, case, 'stream S1', 'supply', '155')
    assert edited == text.replace('S1,1500', 'S1,1550')
    new = added(edited, completed_live(edited), 'stream', {'name': 'N', 'side': 'hot', 'supply': '90', 'load': '20'})
    assert removed(new, 'stream N') == edited and new.count(ending) == text.count(ending) + 1


def test_what_goes_takes_its_forbidden_matches_with_it() -> None:
    text = as_text((EXAMPLES / 'tc3.csv').read_bytes())
    forbidden = added(text, completed_live(text), 'forbid', {'hot': 'S1', 'cold': 'S3'})
    assert 'forbid,S1,S3' in forbidden and 'forbid' not in removed(forbidden, 'stream S1')
    renamed = with_cell(forbidden, completed_live(forbidden), 'stream S1', 'name', 'HX')
    assert 'forbid,HX,S3' in renamed and 'S1' not in renamed


def test_a_stream_of_several_segments_is_one_row_and_its_kinks_move_together() -> None:
    case = completed_live(FEED)
    feed = next(row for row in stream_rows(case) if row.segments)
    assert (feed.row, feed.name, feed.supply, feed.target, feed.flow) == ('whole FEED', 'FEED', '30', '120', '')
    assert [row.name for row in feed.segments] == ['FEED-1', 'FEED-2', 'FEED-3']
    for row, field, typed, ends in (('stream FEED-1', 'target', '85', [('30', '85'), ('85', ''), ('85', '120')]),
                                    ('stream FEED-3', 'supply', '75', [('30', '75'), ('75', ''), ('75', '120')]),
                                    ('stream FEED-2', 'supply', '90', [('30', '90'), ('90', ''), ('90', '120')]),
                                    ('stream FEED-1', 'supply', '20', [('20', '80'), ('80', ''), ('80', '120')])):
        edited = completed_live(with_cell(FEED, case, row, field, typed))
        whole = next(row for row in stream_rows(edited) if row.segments)
        assert [(segment.supply, segment.target) for segment in whole.segments] == ends, (row, field)


def test_a_stream_of_several_segments_is_renamed_forbidden_and_removed_whole() -> None:
    case = completed_live(FEED)
    renamed = with_cell(FEED, case, 'whole FEED', 'name', 'RAW')
    assert renamed == FEED.replace('#segment,FEED,', '#segment,RAW,')
    for name in ('K', 'FEED-1', 'no name'):
        with pytest.raises(NotDone):
            with_cell(FEED, case, 'whole FEED', 'name', name)
    forbidden = added(FEED, case, 'forbid', {'hot': 'K', 'cold': 'FEED'})
    assert [(pair.hot, pair.cold) for pair in completed_live(forbidden).forbids] == [
        ('K', 'FEED-1'), ('K', 'FEED-2'), ('K', 'FEED-3')]
    with pytest.raises(NotDone, match='may not meet already'):
        added(forbidden, completed_live(forbidden), 'forbid', {'hot': 'K', 'cold': 'FEED'})
    assert removed(forbidden, 'whole FEED') == 'contribution,,50,,,,\nhot,H,2000,900,250,,\nhot,K,900,500,100,,\n'
    with pytest.raises(NotDone):
        removed(FEED, 'whole K')


@pytest.mark.parametrize('fields, row', [
    ({'target': '60', 'flow': '2'}, 'hot,N,1500,600,200,,'),
    ({'target': '60', 'load': '180'}, 'hot,N,1500,600,200,,'),
    ({'target': '60', 'flow': '2', 'load': '180'}, 'hot,N,1500,600,200,,'),
    ({'load': '180'}, 'hot,N,1500,1500,0,180000,')])
def test_a_new_stream_has_a_cp_or_a_load(fields: dict[str, str], row: str) -> None:
    """A load from supply to target is a CP: only alone it is that of a latent stream."""
    text = as_text((EXAMPLES / 'tc3.csv').read_bytes())
    new = added(text, completed_live(text), 'stream', {'name': 'N', 'side': 'hot', 'supply': '150', **fields})
    assert row in new.split('\n')


@pytest.mark.parametrize('fields, told', [
    ({'target': '60', 'load': '183'}, 'a CP of 2.0333 kW/K, finer than a case can hold: give the CP 2.03 in its place, '
                                      'which is 182.7 kW'),
    ({'target': '60', 'flow': '2', 'load': '181'}, 'gives 180 kW from supply to target, and not 181'),
    ({'target': '150', 'load': '181'}, 'give its load, and neither target nor CP'),
    ({'flow': '2', 'load': '180'}, 'target has to be one'), ({'target': '60'}, 'CP has to be one'),
    ({}, 'target has to be one')])
def test_a_new_stream_that_can_be_read_in_two_ways_is_refused(fields: dict[str, str], told: str) -> None:
    text = as_text((EXAMPLES / 'tc3.csv').read_bytes())
    with pytest.raises(NotDone) as refused:
        added(text, completed_live(text), 'stream', {'name': 'N', 'side': 'hot', 'supply': '150', **fields})
    assert told in str(refused.value)
