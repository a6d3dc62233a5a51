"""The program is asked once for the same words and files, whoever asks, and errors are not kept."""
from __future__ import annotations

from concurrent.futures import ThreadPoolExecutor

import pytest

from conftest import example
from pinchdesk import Pinch
from pinchdesk.errors import Refused
from pinchdesk.program import remembered
from pinchdesk.program.remembered import RememberingPinch


class CountingPinch(Pinch):
    """Counts its runs."""

    count = 0

    def ask(self, words: list[str], files: dict[str, bytes]) -> str:
        self.count += 1
        return super().ask(words, files)


def test_the_same_is_asked_once_and_something_else_anew() -> None:
    counting = CountingPinch()
    asked, four, tc3 = RememberingPinch(counting), example('four-stream.csv'), example('tc3.csv')
    assert asked.targets(four) == asked.targets(four) == Pinch().targets(four) and counting.count == 1
    assert asked.targets(tc3) != asked.targets(four) and counting.count == 2
    assert asked.curves(four) == Pinch().curves(four) and counting.count == 3
    network = example('four-stream-network.txt')
    assert asked.audit(four, network) == asked.audit(four, network) and counting.count == 4


def test_who_asks_meanwhile_waits_for_the_same_answer() -> None:
    counting = CountingPinch()
    asked = RememberingPinch(counting)
    with ThreadPoolExecutor(8) as pool:
        answers = list(pool.map(lambda _: asked.targets(example('tc3.csv')), range(24)))
    assert answers == [Pinch().targets(example('tc3.csv'))] * 24 and counting.count == 1


def test_an_error_is_not_kept() -> None:
    counting = CountingPinch()
    asked = RememberingPinch(counting)
    for count in (1, 2):
        with pytest.raises(Refused):
            asked.targets(b'hot,H,1\n')
        assert counting.count == count and not asked.kept


def test_few_answers_are_kept_and_no_long_ones(monkeypatch: pytest.MonkeyPatch) -> None:
    counting, names = CountingPinch(), ('four-stream.csv', 'tc3.csv', 'crude.csv')
    asked = RememberingPinch(counting)
    monkeypatch.setattr(remembered, 'MOST_KEPT', 2)
    for name in (*names, names[2], names[1], names[0]):
        asked.targets(example(name))
    assert counting.count == 4 and len(asked.kept) == 2
    monkeypatch.setattr(remembered, 'LONGEST_KEPT', 0)
    asked.curves(example('tc3.csv'))
    assert len(asked.kept) == 1
