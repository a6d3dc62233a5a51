"""A table on the live desk: it is shown, and where its case is kept is said before the first change."""
from __future__ import annotations

from pathlib import Path

import pytest
from live_desk import Hand

from conftest import EXAMPLES
from pinchdesk.errors import OutputError
from pinchdesk.formats.written_files import write_whole
from pinchdesk.live import own_files
from pinchdesk.live.bench import Bench
from pinchdesk.live.keeping import Keeper, Unkept
from pinchdesk.live.own_files import OpenedTwice, OwnFile, claimed
from pinchdesk.program.run import Pinch

CASE = (EXAMPLES / 'four-stream.csv').read_bytes()


def hand_of(folder: Path, network: str | None = None) -> Hand:
    """A desk over a table, of which a case was made."""
    (folder / 'plant.xlsx').write_bytes(b'a table')
    named = OwnFile(str(folder / network)) if network else None
    keeper = Keeper(str(folder / 'plant.xlsx'), named)
    return Hand(Bench(Pinch(), Unkept(keeper.table), named or Unkept('network'), CASE, keeper))


def names_in(folder: Path) -> list[str]:
    return sorted(path.name for path in folder.iterdir())


def test_a_table_is_shown_and_kept_before_the_first_change(tmp_path: Path) -> None:
    (tmp_path / 'plant-case-2.csv').write_bytes(b'of somebody else')
    hand = hand_of(tmp_path)
    assert hand.view.files.offered == ('plant-case.csv', 'plant-case-3.csv', 'plant-case-4.csv')
    assert (hand.view.files.case, hand.view.files.saved) == ('plant.xlsx', 'not kept yet')
    assert hand.may_not('finish') == 'Say first where the case is kept.'
    before = names_in(tmp_path)
    kept = hand.does('keep', name='plant-case.csv')
    assert names_in(tmp_path) == sorted([*before, 'plant-case.csv', 'plant-case-network.txt'])
    assert (tmp_path / 'plant-case.csv').read_bytes() == CASE and (tmp_path / 'plant.xlsx').read_bytes() == b'a table'
    assert kept.files.offered == () and kept.files.saved == 'saved' and kept.files.case == 'plant-case.csv'
    assert hand.does('finish').verdict.kind == 'accepted'
    assert 'is said already' in hand.may_not('keep', name='other.csv')
    with pytest.raises(OpenedTwice):
        claimed(str(tmp_path / 'plant-case.csv'))


@pytest.mark.parametrize('name', [
    '', ' ', '.csv', '..', '../case.csv', '/tmp/case.csv', 'a/b.csv', 'a\\b.csv', 'case', 'case.txt', 'case.csv\n.csv',
    'nul\0.csv', '\ud800.csv', 'x' * 100 + '.csv', 'plant.xlsx', 'theirs.csv'])
def test_a_name_leads_nowhere_else_and_writes_over_nothing(tmp_path: Path, name: str) -> None:
    (tmp_path / 'theirs.csv').write_bytes(b'of somebody else')
    hand, before = hand_of(tmp_path), names_in(tmp_path)
    assert hand.may_not('keep', name=name)
    assert names_in(tmp_path) == before and hand.view.files.offered


def test_a_network_of_somebody_else_is_not_taken(tmp_path: Path) -> None:
    (tmp_path / 'mine-network.txt').write_bytes(b'of somebody else')
    assert hand_of(tmp_path).may_not('keep', name='mine.csv') == \
        'mine-network.txt is there already: choose another name.'


def test_a_network_that_was_named_is_gone_on_with(tmp_path: Path) -> None:
    (tmp_path / 'network.txt').write_bytes((EXAMPLES / 'four-stream-network.txt').read_bytes())
    hand = hand_of(tmp_path, 'network.txt')
    assert hand.view.verdict.kind == 'accepted'
    hand.does('keep', name='mine.csv')
    hand.does('take', exchanger=hand.view.exchangers[0].name)
    assert names_in(tmp_path) == ['mine.csv', 'network.txt', 'plant.xlsx']


def test_where_nothing_can_be_written_nothing_is_kept(tmp_path: Path, monkeypatch: pytest.MonkeyPatch) -> None:
    """Neither file is left, and the name can be said again."""
    hand = hand_of(tmp_path)

    def full(path: str, content: bytes, **_: object) -> None:
        if path.endswith('.txt'):
            raise OutputError(f'{path}: cannot be written: No space left on device')
        write_whole(path, content)

    with monkeypatch.context() as patched:
        patched.setattr(own_files, 'write_whole', full)
        assert 'No space left' in hand.may_not('keep', name='mine.csv')
    assert names_in(tmp_path) == ['plant.xlsx'] and hand.view.files.offered
    assert hand.does('keep', name='mine.csv').files.case == 'mine.csv'
