"""Networks that no plan holds: they are shown, and can be made ones for the hand, of which little is open then."""
from __future__ import annotations

from pathlib import Path

import pytest
from conftest import EXAMPLES
from live_desk import Hand, opened

from pinchdesk.live.known import completed_live
from pinchdesk.live.mending import mended
from pinchdesk.live.network_lines import write_plan

THREE = """contribution,,0,,,,
hot,H,2000,1000,100,,
cold,A,500,1000,100,,
cold,B,500,1000,60,,
cold,D,500,1000,40,,
"""
# Of four branches of H two are joined across the other two: no splits inside one another.
ACROSS = """exchanger E1 H A 50000
exchanger E2 H B 30000
exchanger E3 H D 20000
split H a 50 r
split a p 20 q
# the larger part
pass r E1 r2
split r2 s 20 u
mix p s v
pass v E2 w
mix q u z
pass z E3 y
mix w y n
end n
pass A E1 x
end x
pass B E2 k
end k
pass D E3 l
end l
"""
TC3, TC3_NETWORK = ((EXAMPLES / name).read_text(encoding='utf-8') for name in ('tc3.csv', 'tc3-network.txt'))


def hand_of(folder: Path, case: str, network: str) -> Hand:
    (folder / 'case.csv').write_text(case, encoding='utf-8')
    (folder / 'network.txt').write_text(network, encoding='utf-8')
    return Hand(opened(folder))


def test_branches_that_are_joined_across_are_shown_and_can_be_opened(tmp_path: Path) -> None:
    hand = hand_of(tmp_path, THREE, ACROSS)
    view = hand.view
    assert view.grid is None and 'joined across one another' in view.read_only
    assert view.hold == 'E2 and E3 open'
    made = hand.does('hold')
    assert made.read_only == made.hold == '' and made.verdict.kind == 'unfinished'
    assert [row.name for row in made.exchangers] == ['E1'] and made.steps[-1].text == 'E2 and E3 open'
    assert '# the larger part' in made.texts.network
    assert hand.does('undo').texts == view.texts
    hand.does('redo')
    assert 'here already' in hand.may_not('hold')


@pytest.mark.parametrize('old, new, told', [
    ('HOT S3 17500', 'HOT S3 10000', 'what is missing at the ends open'), ('COLD 40000', 'COLD 50000', 'C1 open'),
    ('S1 S3 20000', 'S1 S3 30000', 'H3 and C1 open')])
def test_what_misses_its_target_can_be_opened(tmp_path: Path, old: str, new: str, told: str) -> None:
    assert old in TC3_NETWORK
    hand = hand_of(tmp_path, TC3, TC3_NETWORK.replace(old, new))
    assert hand.view.grid is None and hand.view.hold == told
    kept = {row.name for row in hand.does('hold').exchangers}
    assert kept == {'E1', 'E2', 'E3', 'E4', 'H3', 'H4', 'C1'} - set(told.removesuffix(' open').split(' and '))
    assert hand.does('finish').verdict.kind in ('accepted', 'rejected')


def test_a_network_that_is_held_is_the_same() -> None:
    made = mended(completed_live(TC3), TC3_NETWORK)
    assert (write_plan(made.plan, made.layout), made.opened) == (TC3_NETWORK, ())
