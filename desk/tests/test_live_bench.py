"""The state of the live desk: tc3 made by hand from nothing, steps, files, and what others do to these."""
from __future__ import annotations

import errno
import json
import os
import threading
import time
from dataclasses import asdict
from fractions import Fraction
from itertools import pairwise
from pathlib import Path
from tempfile import TemporaryDirectory

import pytest
from conftest import EXAMPLES, pinchdesk
from hypothesis import given
from hypothesis import strategies as some
from live_desk import Hand, bench_of, opened
from segmented_cases import FEED, FEED_NETWORK

from pinchdesk import Pinch
from pinchdesk.formats.written_files import write_whole
from pinchdesk.live import own_files
from pinchdesk.live.asked import ON_PLAN, ON_TEXTS, Made
from pinchdesk.live.known import Snapshot
from pinchdesk.live.own_files import ChangedOutside, OpenedTwice, OwnFile, claimed
from pinchdesk.live.view import Slider, View
from pinchdesk.program.verdicts import Accepted


# Of each match of the published network its streams, the side of the pinch, and what is offered.
PUBLISHED = (('S1', 'S3', 'above', '120 kW, ticks off S1 above the pinch'),
             ('S2', 'S4', 'below', '135 kW, ticks off S4 below the pinch'),
             ('S2', 'S3', 'below', '105 kW, finishes S2'),
             ('S1', 'S3', 'below', '20 kW, ticks off S3 below the pinch'))


def test_tc3_is_made_by_hand_then_broken_and_mended(tmp_path: Path) -> None:
    hand = Hand(bench_of(tmp_path, 'tc3'))
    assert hand.view.verdict.kind == 'nothing-placed' and hand.view.score.units == '0 + 7 = 7; the rule: 7'
    for hot, cold, where, words in PUBLISHED:
        piece, partner = hand.piece(hot, where), hand.piece(cold, where)
        best = next(offer for offer in hand.offers(piece) if offer.partner == partner)
        assert best.words == words and best.free
        view = hand.drops(piece, partner)
        assert view.verdict.kind == 'unfinished' and view.score.reach_hot == '107.5'
        assert view.curves_left and view.curves_left.hot_utility == 'hot 107.5 kW'
    view = hand.does('finish')
    assert (view.verdict.kind, view.score.stands_hot, view.score.units) == ('accepted', '107.5', '7; the rule: 7')
    ways = hand.ways()
    loop = next(way for way in ways if way.breaks.startswith('E4 goes (20 kW), costs nothing; E1 '))
    view = hand.does('break', way=loop.id)
    assert view.verdict.kind == 'rejected'
    assert [(place.kind, place.name) for place in view.verdict.places] == [('exchanger', 'E1')]
    assert '80 °C' in view.verdict.text and '62 °C, 18 K, and 20 K are needed' in view.verdict.text
    ways = hand.ways()
    assert (ways[0].kind, ways[0].least, ways[0].most, ways[0].mends) == ('path', '4', '140', ('E1',))
    view = hand.does('shift', way=ways[0].id, heat=ways[0].first)
    assert (view.verdict.kind, view.score.stands_hot, view.score.placed) == ('accepted', '111.5', 6)
    verdict = Pinch().audit((tmp_path / 'case.csv').read_bytes(), (tmp_path / 'network.txt').read_bytes())
    assert isinstance(verdict, Accepted) and verdict.hot == 111_500


def test_undo_gives_the_very_bytes_and_redo_them_again(tmp_path: Path) -> None:
    hand = Hand(bench_of(tmp_path, 'tc3', 'tc3-network.txt'))
    texts = [(tmp_path / 'network.txt').read_bytes()]
    for kind, fields in (('take', {'exchanger': 'E1'}), ('take', {'exchanger': 'E2'}),
                         ('duty', {'exchanger': 'E3', 'heat': '100'}),
                         ('rename', {'exchanger': 'H3', 'name': 'heater-3'}),
                         ('cell', {'row': 'stream S1', 'field': 'supply', 'text': '155'})):
        hand.does(kind, **fields)
        texts.append((tmp_path / 'network.txt').read_bytes())
    for text in reversed(texts[:-1]):
        hand.does('undo')
        assert (tmp_path / 'network.txt').read_bytes() == text
    assert (tmp_path / 'case.csv').read_bytes() == (EXAMPLES / 'tc3.csv').read_bytes()
    assert not hand.view.can_undo
    for text in texts[1:]:
        hand.does('redo')
        assert (tmp_path / 'network.txt').read_bytes() == text
    hand.does('step', at=0)
    assert (tmp_path / 'network.txt').read_bytes() == texts[0]
    for wrong in (-1, 6, '0', True, None):
        hand.may_not('step', at=wrong)


def test_a_new_start_shows_what_was_saved(tmp_path: Path) -> None:
    hand = Hand(bench_of(tmp_path, 'tc3'))
    hand.drops(hand.piece('S1', 'above'), hand.piece('S3', 'above'))
    before = hand.view
    after = opened(tmp_path).view()
    assert (after.grid, after.score, after.texts) == (before.grid, before.score, before.texts)


def test_a_desk_that_is_opened_anew_gets_the_steps_that_a_page_has_kept(tmp_path: Path) -> None:
    """Those of both files alone, and only where nothing was done yet; undo goes on among them."""
    hand = Hand(bench_of(tmp_path, 'tc3'))
    hand.drops(hand.piece('S1', 'above'), hand.piece('S3', 'above'))
    hand.does('finish')
    hand.does('undo')
    kept = hand.bench.history()
    assert [step.text for step in kept] == ['opened', 'E1: S1–S3, 120 kW', 'the rest by utilities']
    steps = [Made(Snapshot(step.case, step.network), step.text) for step in kept]
    again = Hand(opened(tmp_path))
    for at in (0, 2, 3, -2):
        assert again.bench.go_on(again.view.version, steps, at).refused
    assert again.bench.go_on(again.view.version, [], 0).refused
    done = again.bench.go_on(again.view.version, steps, 1)
    assert [(step.text, step.present) for step in done.view.steps] == [
        ('opened', False), ('E1: S1–S3, 120 kW', True), ('the rest by utilities', False)]
    assert again.does('redo').verdict.kind == 'accepted'
    assert again.does('step', at=0).verdict.kind == 'nothing-placed'
    assert again.bench.go_on(again.view.version, steps, 0).stale


def test_opening_writes_nothing(tmp_path: Path) -> None:
    Hand(bench_of(tmp_path, 'tc3')).bench.view()
    assert [path.name for path in tmp_path.iterdir()] == ['case.csv']


def test_a_begun_network_goes_on(tmp_path: Path) -> None:
    view = Hand(bench_of(tmp_path, 'four-stream', 'four-stream-begun.txt')).view
    assert view.verdict.kind == 'unfinished' and view.score.reach_hot == '40'


def test_what_changes_outside_is_a_step_that_undo_takes_back(tmp_path: Path) -> None:
    hand = Hand(bench_of(tmp_path, 'tc3', 'tc3-network.txt'))
    hand.does('take', exchanger='E4')
    text = (tmp_path / 'network.txt').read_text(encoding='utf-8')
    version = hand.view.version
    (tmp_path / 'network.txt').write_bytes((EXAMPLES / 'tc3-network.txt').read_bytes())
    done = hand.bench.gesture(version, {'kind': 'take', 'exchanger': 'E1'})
    assert done.stale and [step.text for step in done.view.steps] == ['opened', 'E4 taken away', 'changed outside']
    hand.does('undo')
    assert (tmp_path / 'network.txt').read_text(encoding='utf-8') == text


def test_a_faulty_text_from_outside_is_shown_and_can_be_mended(tmp_path: Path) -> None:
    hand = Hand(bench_of(tmp_path, 'tc3', 'tc3-network.txt'))
    for name, text in (('network.txt', 'exchanger E1 S1 S3 many\n'), ('case.csv', 'hot,S1\n')):
        (tmp_path / name).write_text(text, encoding='utf-8')
        view = hand.view
        assert view.verdict.kind == 'faulty' and view.verdict.text
        json.dumps(asdict(view))
        hand.does('undo')
        assert hand.view.verdict.kind == 'accepted'


def test_a_file_that_was_changed_in_between_is_not_written_over(tmp_path: Path) -> None:
    file = OwnFile(str(tmp_path / 'network.txt'))
    file.taken()
    file.save(b'one\n')
    (tmp_path / 'network.txt').write_bytes(b'another\n')
    with pytest.raises(ChangedOutside):
        file.save(b'two\n')
    assert (tmp_path / 'network.txt').read_bytes() == b'another\n'


def test_a_full_disk_changes_nothing(tmp_path: Path, monkeypatch: pytest.MonkeyPatch) -> None:
    hand = Hand(bench_of(tmp_path, 'tc3', 'tc3-network.txt'))

    def full(_: int) -> None:
        raise OSError(errno.ENOSPC, 'No space left on device')

    monkeypatch.setattr(os, 'fsync', full)
    assert 'No space left' in hand.may_not('take', exchanger='E1')
    assert 'No space left' in hand.view.files.saved
    assert (tmp_path / 'network.txt').read_bytes() == (EXAMPLES / 'tc3-network.txt').read_bytes()
    assert sorted(path.name for path in tmp_path.iterdir()) == ['case.csv', 'network.txt']
    monkeypatch.undo()
    assert hand.does('take', exchanger='E1').files.saved == 'saved'


def test_of_two_texts_that_are_written_both_or_none_are(tmp_path: Path, monkeypatch: pytest.MonkeyPatch) -> None:
    hand = Hand(bench_of(tmp_path, 'tc3', 'tc3-network.txt'))
    hand.bench.network_file.path = str(tmp_path / 'gone' / 'network.txt')
    monkeypatch.setattr(hand.bench.network_file, 'read', lambda: hand.bench.network_file.content)
    hand.may_not('cell', row='stream S1', field='supply', text='155')
    assert (tmp_path / 'case.csv').read_bytes() == (EXAMPLES / 'tc3.csv').read_bytes()


def test_what_the_desk_writes_itself_is_no_change_outside(tmp_path: Path, monkeypatch: pytest.MonkeyPatch) -> None:
    bench = bench_of(tmp_path, 'tc3', 'tc3-network.txt')
    looks: list[threading.Thread] = []

    def slow(path: str, content: bytes, lasting: bool) -> None:
        write_whole(path, content, lasting=lasting)
        looks.append(threading.Thread(target=bench.look))
        looks[-1].start()
        time.sleep(0.1)

    monkeypatch.setattr(own_files, 'write_whole', slow)
    done = bench.gesture(bench.view().version, {'kind': 'take', 'exchanger': 'E1'})
    for look in looks:
        look.join()
    assert looks and done.refused is None
    assert [step.text for step in bench.view().steps] == ['opened', 'E1 taken away']


def test_a_file_is_open_in_one_desk_alone(tmp_path: Path) -> None:
    path = str(tmp_path / 'network.txt')
    with claimed(path):
        with pytest.raises(OpenedTwice):
            claimed(path)
    claimed(path).close()


@pytest.mark.parametrize('gesture', [
    {'kind': 'nothing'}, {}, {'kind': 'place'}, {'kind': 'place', 'piece': 3, 'partner': 'COLD'},
    {'kind': 'place', 'piece': 'E1', 'partner': 'COLD'}, {'kind': 'take', 'exchanger': 'open-1'},
    {'kind': 'take', 'exchanger': ''},
    {'kind': 'duty', 'exchanger': 'E1', 'heat': '-1'}, {'kind': 'duty', 'exchanger': 'E1', 'heat': '1e999'},
    {'kind': 'duty', 'exchanger': 'E1', 'heat': 'NaN'}, {'kind': 'duty', 'exchanger': 'E1', 'heat': '121'},
    {'kind': 'duty', 'exchanger': 'E1', 'heat': '1/3'.replace('3', '999999999999999999999999999')},
    {'kind': 'rename', 'exchanger': 'E1', 'name': 'open-9'}, {'kind': 'rename', 'exchanger': 'E1', 'name': 'E2'},
    {'kind': 'rename', 'exchanger': 'E1', 'name': '<b>'}, {'kind': 'shares', 'joint': 'S2/1', 'shares': ['50', '60']},
    {'kind': 'shares', 'joint': 'S9/1', 'shares': ['50', '50']}, {'kind': 'shares', 'joint': 'S2/1', 'shares': '50'},
    {'kind': 'shift', 'way': 'x', 'heat': '1'}, {'kind': 'texts'}, {'kind': 'texts', 'network': 'nonsense'},
    {'kind': 'texts', 'case': 'hot,A'}, {'kind': 'undo'},
    {'kind': 'cell', 'row': 'stream S1', 'field': 'supply', 'text': 'x'},
    {'kind': 'cell', 'row': 'stream S1', 'field': 'supply', 'text': '150.05'},
    {'kind': 'cell', 'row': 'stream S1', 'field': 'name', 'text': 'S2'},
    {'kind': 'cell', 'row': 'stream S9', 'field': 'name', 'text': 'A'},
    {'kind': 'cell', 'row': 'stream S1', 'field': 'target', 'text': '160'}, {'kind': 'difference', 'difference': '-1'},
    {'kind': 'remove', 'row': 'contribution '}, {'kind': 'add', 'what': 'stream', 'side': 'hot', 'name': 'S1'},
    {'kind': 'add', 'what': 'forbid', 'hot': 'S3', 'cold': 'S1'}], ids=str)
def test_what_cannot_be_done_changes_nothing(tmp_path: Path, gesture: dict[str, object]) -> None:
    bench = bench_of(tmp_path, 'tc3', 'tc3-network.txt')
    done = bench.gesture(bench.view().version, gesture)
    assert done.refused is not None and done.refused.text
    assert (tmp_path / 'network.txt').read_bytes() == (EXAMPLES / 'tc3-network.txt').read_bytes()
    assert (tmp_path / 'case.csv').read_bytes() == (EXAMPLES / 'tc3.csv').read_bytes()


def test_cells_are_edited_in_their_lines_and_the_network_follows(tmp_path: Path) -> None:
    hand = Hand(bench_of(tmp_path, 'tc3', 'tc3-network.txt'))
    view = hand.does('cell', row='stream S1', field='supply', text='160')
    assert view.texts.case == (EXAMPLES / 'tc3.csv').read_text().replace('hot,S1,1500', 'hot,S1,1600')
    assert view.verdict.kind == 'unfinished' and [row.hot_in for row in view.exchangers if row.name == 'E1'] == ['150']
    view = hand.does('cell', row='stream S1', field='name', text='HX')
    assert 'pass HX open-1' in view.texts.network and 'S1' not in view.texts.network.split()
    view = hand.does('add', what='stream', name='N', side='cold', supply='20', target='90', flow='1,5')
    assert 'cold,N,200,900,150,,\n' in view.texts.case and view.verdict.kind == 'unfinished'
    view = hand.does('remove', row='stream N')
    view = hand.does('add', what='utility', name='LP', side='hot', level='160', price='2')
    assert 'heater,LP,1600,0,1000000000000,2,\n' in view.texts.case
    view = hand.does('add', what='forbid', hot='HX', cold='S4')
    assert view.forbids[0].row == 'forbid HX S4'
    view = hand.does('difference', difference='18')
    assert view.difference.text == '18' and 'contribution,,90,' in view.texts.case


def test_a_case_begins_with_nothing(tmp_path: Path) -> None:
    hand = Hand(opened(tmp_path))
    assert hand.view.verdict.title == 'No streams'
    hand.does('add', what='stream', name='A', side='hot', supply='150', target='50', flow='2')
    view = hand.does('add', what='stream', name='B', side='cold', supply='20', target='120', flow='1')
    assert view.verdict.kind == 'nothing-placed' and len(view.grid.pieces if view.grid else ()) > 1
    hand.drops(hand.piece('A', view.grid.pieces[0].where if view.grid else ''), 'COLD')


@pytest.mark.long
def test_areas_stand_beside_a_network_and_beside_the_slider(tmp_path: Path) -> None:
    bench = bench_of(tmp_path, 'reactors-cost', 'reactors-cost-network.txt')
    view = bench.view()
    printed = pinchdesk('cost', str(tmp_path / 'case.csv'), str(tmp_path / 'network.txt')).out
    assert all(row.area and row.area in printed for row in view.exchangers)
    slider = bench.slider(view.version, '10')
    assert isinstance(slider, Slider) and slider.area.endswith(' m²') and slider.cost.endswith(' $/a')
    assert slider.network.startswith('Accepted: ')
    after = bench.slider(view.version, '12')
    assert isinstance(after, Slider) and after.network.startswith('Rejected: E2 is too close at its cold end')
    assert view.texts == bench.view().texts


def test_the_rest_takes_one_utility_a_piece_or_the_cheapest_at_each_temperature(tmp_path: Path) -> None:
    hand = Hand(bench_of(tmp_path, 'two-steam-levels'))
    one = hand.does('finish')
    hand.does('undo')
    parts = hand.does('finish', by='parts')
    assert one.verdict.kind == parts.verdict.kind == 'accepted'
    assert (one.score.placed, parts.score.placed) == (4, 6)
    assert Fraction(parts.score.cost.split()[0]) < Fraction(one.score.cost.split()[0])


def test_where_utilities_have_prices_an_offer_says_what_it_costs_in_money(tmp_path: Path) -> None:
    hand = Hand(bench_of(tmp_path, 'two-steam-levels'))
    offers = hand.offers(hand.piece('H2', 'above'))
    whole = next(offer for offer in offers if offer.words == '240 kW, ticks off H2 above the pinch, finishes C3')
    # It costs no heat, but high-pressure steam in place of low-pressure steam.
    assert (whole.cost, whole.free) == ('2000 price × W more', False)
    steam = [offer for offer in hand.offers(hand.piece('C1', 'below')) if offer.kind == 'utility']
    assert [(offer.partner, offer.cost) for offer in steam] == [
        ('LP', 'costs 120 kW, 120000 price × W more'), ('HP', 'costs 120 kW, 360000 price × W more')]


def test_segments_of_a_stream_are_in_one_row_of_the_grid(tmp_path: Path) -> None:
    (tmp_path / 'case.csv').write_text(FEED, encoding='utf-8')
    (tmp_path / 'network.txt').write_text(FEED_NETWORK, encoding='utf-8')
    view = opened(tmp_path).view()
    assert view.grid is not None
    feed = next(row for row in view.grid.rows if row.name == 'FEED')
    assert (feed.first, feed.last, feed.detail, feed.lanes) == ('120', '30', '3 segments', 1)
    lines = sorted((line.begin, line.end) for line in view.grid.lines if line.stream == 'FEED')
    assert (lines[0][0], lines[-1][1]) == (feed.begin, feed.end)
    assert all(line[1] == behind[0] for line, behind in pairwise(lines))
    assert [line.branch for line in view.grid.lines if line.stream == 'FEED' and line.arrow] == ['d']
    columns = {bar.name: bar.cold_x for bar in view.grid.exchangers}
    assert columns['E1'] < columns['E2'] < columns['E3'] < columns['E4']
    assert view.score.placed == 4 and view.verdict.kind == 'accepted'


def test_an_exchanger_goes_on_across_kinks_and_is_taken_away_whole(tmp_path: Path) -> None:
    (tmp_path / 'case.csv').write_text(FEED, encoding='utf-8')
    hand = Hand(opened(tmp_path))
    pieces = {(pill.stream, pill.first): pill.id for pill in hand.view.grid.pieces} if hand.view.grid else {}
    best = hand.offers(pieces['H', '200'])[0]
    assert (best.stream, best.words, best.free) == ('FEED', '200 kW, finishes FEED', True)
    view = hand.does('place', **{name: value for name, value in best.gesture.items() if name != 'kind'})
    assert [(row.cold, row.duty) for row in view.exchangers] == [('FEED-1', '100'), ('FEED-2', '60'), ('FEED-3', '40')]
    assert (view.score.placed, view.score.units, view.steps[-1].text) == (
        1, '1 + 2 = 3; the rule: 3', 'E1: H–FEED, 200 kW')
    assert hand.does('finish').verdict.kind == 'accepted'
    hand.does('undo')
    assert not hand.does('take', exchanger='E2').exchangers


TYPED: list[object] = ['', '0', '-1', '1', '20', '150.5', '1/3', '1e30', 'nan', '12,5', 'x', None, 3, [], ['50', '50']]


def named_in(view: View) -> dict[str, list[object]]:
    """For fields of gestures what they may name in a view."""
    grid = view.grid
    assert grid is not None
    utilities = [utility.name for utility in view.utilities]
    pieces = [pill.id for pill in grid.pieces]
    seats = ['begin', 'end', 'lane', 'level']
    return {'piece': [*pieces], 'partner': [*pieces, *utilities], 'utility': [*utilities],
            'exchanger': [bar.name for bar in grid.exchangers], 'joint': [joint.id for joint in grid.joints],
            'row': [*(row.row for row in view.streams), *(row.row for row in view.utilities),
                    *(row.row for row in view.forbids)], 'hot_seat': [*seats],
            'cold_seat': [*seats], 'field': ['name', 'supply', 'flow', 'most', 'hot'], 'side': ['hot', 'cold'],
            'what': ['stream', 'utility', 'forbid'], 'name': ['A', 'E1', 'HOT'], 'at': [0, 1, -1]}


@pytest.mark.long
@given(some.sampled_from([('tc3', 'tc3-network.txt'), ('column', None), ('two-reactors-steam', None)]), some.data())
def test_no_gesture_fails_and_one_that_is_refused_changes_nothing(example: tuple[str, str | None],
                                                                  data: some.DataObject) -> None:
    with TemporaryDirectory() as folder:
        bench = bench_of(Path(folder), *example)
        for _ in range(6):
            before = bench.view()
            known = named_in(before)
            fields = ('heat', 'share', 'text', 'supply', 'target', 'flow', 'difference', 'shares', 'way', *known)
            kind = data.draw(some.sampled_from([*ON_PLAN, *ON_TEXTS, 'undo', 'redo', 'step']), 'kind')
            gesture = {field: data.draw(some.sampled_from([*known.get(field, []), *TYPED]), field) for field in fields}
            done = bench.gesture(before.version, {'kind': kind, **gesture})
            assert done.refused is None or done.refused.text and done.view.texts == before.texts
            content = (Path(folder) / 'case.csv').read_bytes()
            assert content == done.view.texts.case.encode()
