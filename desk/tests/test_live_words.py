"""What the live desk says: in an engineer's words, with the limits and by the names that stand on the grid."""
from __future__ import annotations

from pathlib import Path
from typing import Any

import pytest
from live_desk import Hand, bench_of


@pytest.fixture
def hand(tmp_path: Path) -> Hand:
    """`four-stream` with its first exchanger, E1 of 240 kW from H2 to C3."""
    made = Hand(bench_of(tmp_path, 'four-stream'))
    made.drops(made.piece('H2', 'above'), made.piece('C3', 'above'))
    return made


def test_a_drop_that_cannot_be_done_names_streams_and_temperatures(tmp_path: Path) -> None:
    hand = Hand(bench_of(tmp_path, 'four-stream'))
    told = hand.may_not('place', piece=hand.piece('H2', 'below'), partner=hand.piece('C3', 'above'))
    assert told == 'H2 (90 → 60 °C) cannot heat C3 (80 → 140 °C): 10 K are needed between them.'
    hand.does('add', what='forbid', hot='H2', cold='C3')
    told = hand.may_not('place', piece=hand.piece('H2', 'above'), partner=hand.piece('C3', 'above'))
    assert told == 'H2 and C3 may not exchange heat: the case forbids it.'
    hand.does('add', what='utility', name='LP', side='hot', level='100', price='1')
    told = hand.may_not('place', piece=hand.piece('C3', 'above'), partner='LP', duty='240')
    assert told == 'No more than 40 kW can be placed there.'
    hand.does('add', what='utility', name='WATER', side='cold', level='85', price='1')
    told = hand.may_not('place', piece=hand.piece('H2', 'below'), partner='WATER')
    assert told == 'H2 (90 → 60 °C) cannot heat WATER (85 °C): 10 K are needed between them.'


def test_a_duty_that_is_too_large_is_told_its_limit(hand: Hand) -> None:
    assert hand.may_not('duty', exchanger='E1', heat='500') == \
        'E1 can have at most 240 kW here: C3 has no more beside it.'
    hand.does('take', exchanger='E1')
    hand.drops(hand.piece('H4', 'above'), hand.piece('C1', 'above'))
    assert hand.may_not('duty', exchanger='E1', heat='150') == \
        'E1 can have at most 90 kW here: it would come too close with more.'


def test_as_many_open_pieces_are_told_as_the_grid_has(hand: Hand) -> None:
    grid = hand.view.grid
    assert grid and len(grid.pieces) == 5 and hand.view.verdict.text.startswith('5 open pieces; ')


def test_what_is_ticked_off_is_told_from_what_is_finished(tmp_path: Path) -> None:
    hand = Hand(bench_of(tmp_path, 'four-stream'))
    best = {offer.stream: offer.words for offer in reversed(hand.offers(hand.piece('H2', 'above')))}
    assert best['C3'] == '240 kW, ticks off H2 above the pinch, finishes C3'
    hand.does('split', piece=hand.piece('C1', 'above'), share='50')
    words = {offer.words for offer in hand.offers(hand.piece('C1', 'above')) if offer.stream == 'HOT'}
    assert words == {'55 kW, ticks off this piece of C1'}


def test_heaters_and_coolers_have_no_names_like_streams(hand: Hand) -> None:
    """Of streams H2, H4, C1 and C3; where no stream is called so they are H1 and C1."""
    rows = hand.does('finish').exchangers
    assert {row.name for row in rows if row.hot == 'HOT'} == {'HU1'}
    assert {row.name for row in rows if row.cold == 'COLD'} == {'CU1', 'CU2'}


def test_a_cost_without_a_price_is_not_told(hand: Hand) -> None:
    assert hand.does('finish').score.cost == hand.view.score.floor == ''
    hand.does('add', what='utility', name='HP', side='hot', level='250', price='3')
    assert hand.view.score.cost and hand.view.score.floor


def test_the_hot_utility_of_a_rejected_network_is_told(tmp_path: Path) -> None:
    view = Hand(bench_of(tmp_path, 'tc3', 'tc3-network.txt')).does('difference', difference='31.2')
    assert (view.verdict.kind, view.score.stands_hot, view.score.stands_cold) == ('rejected', '107.5', '40')
    assert (view.score.target_hot, view.score.reach_hot, view.score.above) == ('169.1', '', '')


def test_what_crosses_the_pinch_is_told_beside_the_duty(tmp_path: Path) -> None:
    hand = Hand(bench_of(tmp_path, 'tc3', 'tc3-network.txt'))
    hand.does('break', way=next(way.id for way in hand.ways() if way.breaks.startswith('E4 goes')))
    view = hand.does('shift', way=hand.ways()[0].id, heat='4')
    assert view.grid
    bar = next(bar for bar in view.grid.exchangers if bar.name == 'E1')
    assert (bar.duty, bar.where, bar.crossing) == ('136', 'across', '4')
    assert bar.text == 'exchanger E1, S1 to S3, 136 kW, across the pinch, carries 4 kW down across it'


def test_the_slider_has_one_end_and_whole_degrees(tmp_path: Path) -> None:
    """What is kept by it lies on the same scale; a value beyond its end has one of its own."""
    hand = Hand(bench_of(tmp_path, 'tc3'))
    for text, most in (('20', 60.0), ('31.2', 60.0), ('60', 60.0), ('100', 120.0), ('30', 60.0)):
        view = hand.view if text == hand.view.difference.text else hand.does('difference', difference=text)
        assert (view.difference.text, view.difference.most, view.difference.step) == (text, most, 1.0)


def test_a_duty_can_be_said_before_an_exchanger_is_placed(tmp_path: Path) -> None:
    """Where a partner has less it is that; the offer tells what so much costs."""
    hand = Hand(bench_of(tmp_path, 'tc3'))
    piece = hand.piece('S1', 'above')
    for typed, duty in (('60', '60'), ('400/3', '120'), ('200/3', '66.667')):
        found = hand.bench.offers(hand.view.version, piece, typed)
        assert isinstance(found, tuple) and found[0].duty == duty
        gesture: dict[str, Any] = dict(found[0].gesture)
        assert hand.does(**gesture).exchangers[0].duty == duty
        hand.does('undo')
    for wrong in ('0', '-1', 'x'):
        refused = hand.bench.offers(hand.view.version, piece, wrong)
        assert not isinstance(refused, tuple) and refused.refused
