"""Loops and paths of the live desk: all of them are found, each with what it mends and what it costs."""
from __future__ import annotations

from collections import Counter
from itertools import chain, combinations
from pathlib import Path

import pytest
from hypothesis import given
from hypothesis import strategies as some
from live_desk import Hand, bench_of

from pinchdesk.live.view import WayOffer
from pinchdesk.live.way_finding import found_ways
from pinchdesk.live.ways import MOST_WAYS
from pinchdesk.program.run import Pinch

HOTS, COLDS = ('HOT', 'MP', 'S1', 'S2'), ('COLD', 'S3', 'S4')
UTILITIES = ('HOT', 'MP', 'COLD')
PAIRS = [(hot, cold) for hot in HOTS for cold in COLDS if {hot, cold} - set(UTILITIES)]


def way(hand: Hand, text: str) -> WayOffer:
    return next(found for found in hand.ways() if found.text == text)


def is_way(pairs: dict[str, tuple[str, str]], names: tuple[str, ...]) -> bool:
    """Whether exchangers are all of a loop or a path, by the degrees of what they touch."""
    degrees = Counter(chain.from_iterable(pairs[name] for name in names))
    ends = {source for source, degree in degrees.items() if degree == 1}
    if max(degrees.values()) > 2 or ends and (len(ends) != 2 or set(degrees).intersection(UTILITIES) != ends):
        return False
    reached = set(pairs[names[0]])
    for _ in names:
        reached |= set(chain.from_iterable(pairs[name] for name in names if reached.intersection(pairs[name])))
    return reached == set(degrees)


@given(some.lists(some.sampled_from(PAIRS), min_size=2, max_size=8))
def test_all_loops_and_paths_are_found(drawn: list[tuple[str, str]]) -> None:
    """Beside a look at all sets of exchangers; and of each exchanger just those through it."""
    pairs = {f'E{number}': pair for number, pair in enumerate(drawn)}
    wanted = {frozenset(names) for count in range(2, len(pairs) + 1) for names in combinations(pairs, count)
              if is_way(pairs, names)}
    for through in (None, 'E0'):
        found = found_ways(pairs, UTILITIES, 1000, through)
        sets = [frozenset(leg.exchanger for leg in way.legs) for way in found.ways]
        assert not found.more and len(set(sets)) == len(sets)
        assert set(sets) == {names for names in wanted if through is None or through in names}
        assert sorted(map(len, sets)) == list(map(len, sets))
        assert all(way.loop or way.source in UTILITIES and way.legs[-1].source in UTILITIES for way in found.ways)


def test_a_second_path_is_listed_and_goes_back_to_the_target_in_one_move(tmp_path: Path) -> None:
    """Of `tc3` 15 kW lie on the path by E4; what was moved comes back by it."""
    hand = Hand(bench_of(tmp_path, 'tc3', 'tc3-network.txt'))
    paths = [found for found in hand.ways() if found.kind == 'path']
    assert {found.text for found in paths if len(found.legs) == 3} == {
        'HOT (+H3) S3 (-E1) S1 (+C1) COLD', 'HOT (+H3) S3 (-E4) S1 (+C1) COLD'}
    assert all(found.cost.startswith('costs as much') and not found.first for found in paths if found.most)
    view = hand.does('shift', way=way(hand, 'HOT (+H3) S3 (-E4) S1 (+C1) COLD').id, heat='15')
    assert (view.verdict.kind, view.score.stands_hot) == ('accepted', '122.5')
    back = way(hand, 'HOT (-H3) S3 (+E4) S1 (-C1) COLD')
    assert (back.least, back.most, back.first) == ('0', '15', '15')
    assert back.cost == 'saves as much hot utility as is moved'
    assert hand.does('shift', way=back.id, heat=back.first).score.stands_hot == '107.5'


def test_a_break_tells_its_cost_and_what_is_too_close_then(tmp_path: Path) -> None:
    hand = Hand(bench_of(tmp_path, 'tc3', 'tc3-network.txt'))
    told = {found.breaks for found in hand.ways()}
    assert {'E4 goes (20 kW), costs nothing; E1 too close at its cold end then',
            'H3 goes (17.5 kW), costs nothing; E1 and E2 too close then'} <= told


def test_what_a_break_costs_of_an_unfinished_network(tmp_path: Path) -> None:
    hand = Hand(bench_of(tmp_path, 'tc3'))
    hand.drops(hand.piece('S1', 'above'), hand.piece('S3', 'above'))
    hand.drops(hand.piece('S1', 'below'), hand.piece('S3', 'below'))
    loop = way(hand, 'S1 (-E1) S3 (+E2) S1')
    assert (loop.breaks, loop.cost) == ('E1 goes (120 kW), costs 65 kW', 'all of it costs 65 kW')
    assert hand.does('break', way=loop.id).score.above == '65'


def test_what_leaves_the_same_is_asked_of_the_program_once(tmp_path: Path, monkeypatch: pytest.MonkeyPatch) -> None:
    """Of an unfinished network most loops and paths change nothing of what is open."""
    hand = Hand(bench_of(tmp_path, 'crude', 'crude-network.txt'))
    hand.does('take', exchanger=next(row.name for row in hand.view.exchangers if row.hot == 'KERO'))
    runs: list[list[str]] = []
    ask = Pinch.ask

    def counted(pinch: Pinch, words: list[str], files: dict[str, bytes]) -> str:
        runs.append(words)
        return ask(pinch, words, files)
    monkeypatch.setattr(Pinch, 'ask', counted)
    priced = [found for found in hand.ways() if found.cost]
    assert len(priced) > 40 and len(runs) < 30


def test_of_too_many_ways_those_through_an_exchanger_are_shown() -> None:
    pairs = {f'E{hot}{cold}': (f'S{hot}', f'T{cold}') for hot in range(6) for cold in range(6)}
    found = found_ways(pairs, (), MOST_WAYS)
    assert found.more and len(found.ways) == MOST_WAYS and {len(way.legs) for way in found.ways} == {4}
    through = found_ways(pairs, (), MOST_WAYS, 'E55')
    assert through.more and len(through.ways) == MOST_WAYS
    assert all('E55' in {leg.exchanger for leg in way.legs} for way in through.ways)


def test_each_exchanger_that_is_too_close_is_marked_and_paths_say_what_they_mend(tmp_path: Path) -> None:
    """At 31.2 K three exchangers of `tc3` have 20 K: as many as are below it in the table."""
    hand = Hand(bench_of(tmp_path, 'tc3', 'tc3-network.txt'))
    view = hand.does('difference', difference='31.2')
    assert view.verdict.kind == 'rejected' and view.verdict.text.endswith('; E2 and E3 are too close too')
    assert view.verdict.text.startswith('E1 is too close at its cold end: the hot side leaves at 90 °C, the cold side '
                                        'enters at 70 °C, 20 K, and 31.2 K are needed')
    assert [mark.name for mark in view.verdict.places] == ['E1', 'E2', 'E3']
    rows = {row.name: row for row in view.exchangers}
    close = {name for name, row in rows.items() if row.difference and float(row.difference) < float(row.wanted)}
    assert close == {name for name, row in rows.items() if row.fault} == {'E1', 'E2', 'E3'}
    assert view.grid and {bar.name for bar in view.grid.exchangers if bar.fault} == close
    found = hand.ways()
    assert any(path.kind == 'path' and path.mends and path.leaves for path in found)
    for path in found:
        if not path.mends:
            assert not path.first and set(path.leaves) == close
            continue
        view = hand.does('shift', way=path.id, heat=path.first)
        right = {row.name for row in view.exchangers if not row.fault}
        assert right.issuperset(path.mends) and not right.intersection(path.leaves)
        hand.does('undo')
