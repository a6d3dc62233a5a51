"""Networks that somebody is still making: what is not served yet is an exchanger with a utility whose own name begins
with `open-`. To `pinch` it is a heater or a cooler like any other, so that each text on the way is a whole network."""
from __future__ import annotations

from collections.abc import Iterable

from ..formats.case import Case
from ..formats.network import Exchanger
from .follow import Followed, Passage

OPEN = 'open-'
# So many open pieces are named.
MOST_NAMED = 6


def is_open(name: str, pair: Iterable[str], utilities: Iterable[str]) -> bool:
    """Whether an exchanger stands for what is not served yet. One between two streams is an ordinary exchanger."""
    return name.startswith(OPEN) and bool(set(pair) & set(utilities))


def open_exchangers(case: Case, exchangers: Iterable[Exchanger]) -> tuple[Exchanger, ...]:
    """The exchangers of a completed case that stand for what is not served yet."""
    utilities = {utility.name for utility in case.utilities}
    return tuple(exchanger for exchanger in exchangers
                 if is_open(exchanger.name, (exchanger.hot, exchanger.cold), utilities))


def placed(followed: Followed) -> tuple[Passage, ...]:
    """The exchangers that stand, without those for what is not served yet."""
    left = {exchanger.name for exchanger in open_exchangers(followed.case, followed.network.exchangers)}
    return tuple(passage for passage in followed.passages if passage.exchanger.name not in left)


def unfinished_told(followed: Followed) -> str:
    """That a network is unfinished, and what of it is open; empty where nothing is."""
    left = open_exchangers(followed.case, followed.network.exchangers)
    utilities = {utility.name for utility in followed.case.utilities}
    names = [f'{exchanger.name} of {exchanger.hot if exchanger.cold in utilities else exchanger.cold}'
             for exchanger in left]
    more = f' and {len(names) - MOST_NAMED} more' if len(names) > MOST_NAMED else ''
    return f'unfinished, {len(left)} open ({", ".join(names[:MOST_NAMED])}{more})' if left else ''
