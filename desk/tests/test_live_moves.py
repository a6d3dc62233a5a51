"""Ends of exchangers that are moved: what is offered can be done, and the other end keeps its place."""
from __future__ import annotations

from dataclasses import replace
from pathlib import Path
from typing import Any

import pytest
from conftest import FEW, NETWORKS, few_of
from live_desk import Hand, bench_of

from pinchdesk.live.view import ExchangerRow, Offer, View


def moves(hand: Hand, exchanger: str) -> tuple[Offer, ...]:
    found = hand.bench.moves(hand.view.version, exchanger)
    assert isinstance(found, tuple)
    return found


def takes(hand: Hand, offer: Offer) -> View:
    fields: dict[str, Any] = dict(offer.gesture)
    return hand.does(**fields)


def row_of(hand: Hand, name: str) -> ExchangerRow:
    return next(row for row in hand.view.exchangers if row.name == name)


def test_an_end_is_moved_with_its_cost_before_it_is(tmp_path: Path) -> None:
    """Of `four-stream` the 90 kW that C1 takes from H4 come from H2 then, and H4 is open."""
    hand = Hand(bench_of(tmp_path, 'four-stream'))
    name = hand.drops(hand.piece('H4', 'above'), hand.piece('C1', 'above')).exchangers[0].name
    offers = moves(hand, name)
    assert [(offer.stream, offer.words, offer.cost) for offer in offers] == [
        ('H4 and C1', '90 to 30 and 20 to 65 °C, 90 kW', 'costs nothing'),
        ('C1', '120 to 135 °C, 30 kW of 90', 'costs nothing'), ('H2', '170 to 140 °C, 90 kW', 'costs 22.5 kW'),
        ('C3', '80 to 102.5 °C, 90 kW', 'costs 22.5 kW'), ('C1', '20 to 65 °C, 90 kW', 'costs 90 kW')]
    before = row_of(hand, name)
    takes(hand, offers[2])
    after = row_of(hand, name)
    assert (after.hot, after.cold, after.duty) == ('H2', 'C1', '90')
    assert (after.cold_in, after.cold_out) == (before.cold_in, before.cold_out)


def test_the_whole_is_moved_across_the_pinch_at_once(tmp_path: Path) -> None:
    """Of `four-stream` what H4 gives above the pinch it gives below it then, and nothing is lost on the way."""
    hand = Hand(bench_of(tmp_path, 'four-stream'))
    hot, cold = hand.piece('H4', 'above'), hand.piece('C1', 'above')
    name = hand.drops(hot, cold).exchangers[0].name
    view = hand.does('move', exchanger=name, piece=hand.piece('C1', 'below'), other=hand.piece('H4', 'below'))
    row = row_of(hand, name)
    assert (row.hot_in, row.hot_out, row.cold_in, row.cold_out, row.duty) == ('90', '30', '20', '65', '90')
    assert row.where == 'below' and view.score.reach_hot == view.score.target_hot
    assert view.steps[-1].text == f'{name} moved: H4–C1, 90 kW'
    grid = view.grid
    assert grid is not None and {pill.stream for pill in grid.pieces if pill.where == 'above'} >= {'H4', 'C1'}
    both = [pill.id for pill in grid.pieces if pill.side == 'hot']
    assert 'on the same side' in hand.may_not('move', exchanger=name, piece=both[0], other=both[-1])


def test_an_end_goes_past_what_is_open_beside_it(tmp_path: Path) -> None:
    """Of `tc3` E2 leaves 15 kW open between it and E4 on S3, which is too little for the 20 kW of E4: it goes past it,
    and what was open is in its place."""
    hand = Hand(bench_of(tmp_path, 'tc3', 'tc3-network.txt'))
    hand.does('duty', exchanger='E2', heat='90')
    others = {row.name: row for row in hand.view.exchangers if row.name != 'E4'}
    offer = next(offer for offer in moves(hand, 'E4') if offer.stream == 'S3')
    assert (offer.words, offer.whole) == ('26 to 34 °C, 20 kW', True)
    view = takes(hand, offer)
    assert {row.name: row for row in view.exchangers if row.name != 'E4'} == others
    assert view.grid is not None
    left = [(pill.duty, pill.first, pill.last) for pill in view.grid.pieces if pill.stream == 'S3']
    assert left == [('15', '20', '26')]


@pytest.mark.parametrize('name', few_of(NETWORKS, [*FEW, 'tc3']))
def test_each_place_that_is_offered_can_be_taken(name: str, tmp_path: Path) -> None:
    """With the duty that was said; what is not moved stays, and undo takes it back."""
    hand = Hand(bench_of(tmp_path, name, f'{name}-network.txt'))
    taken = next((row.name for row in hand.view.exchangers if row.loss or row.difference), None)
    if taken is None or hand.view.read_only:
        return
    hand.does('take', exchanger=taken)
    for row in hand.view.exchangers[:3]:
        for offer in moves(hand, row.name)[:4]:
            others = {other.name: replace(other, fault='', loss='', area='') for other in hand.view.exchangers}
            view = takes(hand, offer)
            moved = row_of(hand, row.name)
            side = 'hot' if offer.stream in (moved.hot, moved.hot.rpartition('-')[0]) else 'cold'
            if moved.duty == row.duty and 'other' not in offer.gesture:
                kept = 'cold' if side == 'hot' else 'hot'
                assert getattr(moved, f'{kept}_in') == getattr(row, f'{kept}_in')
            assert moved.duty == offer.duty
            for other in view.exchangers:
                if other.name != row.name:
                    assert replace(other, fault='', loss='', area='') == others[other.name]
            hand.does('undo')


def test_a_heater_has_no_end_to_move(tmp_path: Path) -> None:
    hand = Hand(bench_of(tmp_path, 'four-stream', 'four-stream-network.txt'))
    heater = next(row.name for row in hand.view.exchangers if row.hot == 'HOT')
    hand.does('take', exchanger=next(row.name for row in hand.view.exchangers if row.hot == 'H2'))
    assert moves(hand, heater) == ()
    piece = hand.piece('H2', 'above')
    assert 'no exchanger between two streams' in hand.may_not('move', exchanger=heater, piece=piece)
