"""All words, in the order in which help lists them. Each is loaded when it is asked for: all of them take longer to
load than most answers."""
from __future__ import annotations

from collections.abc import Sequence
from importlib import import_module
from typing import Any

from .word import Word, WordGroup

# Where each word stands in this package.
PLACES = {
    'case': 'case_word.CASE_OF_TABLE', 'targets': 'targets_word.TARGETS', 'flow': 'flow_word.FLOW',
    'audit': 'audit_word.AUDIT', 'sweep': 'sweep_word.SWEEP', 'prices': 'prices_word.PRICES',
    'site': 'site_word.SITE_OF_PLANTS', 'table': 'table_word.TABLE_OF_EXCHANGERS', 'units': 'units_word.UNITS',
    'rest': 'rest_word.REST', 'whatif': 'whatif_word.WHATIF', 'cost': 'cost_word.COST',
    'supertarget': 'supertarget_word.SUPERTARGET', 'utilities': 'utilities_word.UTILITIES',
    'network': 'network_word.NETWORK_OF_FEW', 'tradeoff': 'tradeoff_word.TRADEOFF',
    'draw': 'draw_word.DRAW', 'page': 'page_word.PAGE_OF_REVIEW',
}


def word_on_top(name: str) -> Word[Any] | WordGroup:
    """A word, or those that follow one, by its name; `KeyError` where there is none."""
    module, _, constant = PLACES[name].partition('.')
    word: Word[Any] | WordGroup = getattr(import_module(f'.{module}', __package__), constant)
    return word


def all_words() -> tuple[Word[Any] | WordGroup, ...]:
    return tuple(word_on_top(name) for name in PLACES)


def word_of(names: Sequence[str]) -> Word[Any]:
    """A word, or a part of one, by its names; `KeyError` where there is none."""
    word = word_on_top(names[0] if names else '')
    for name in names[1:]:
        word = {part.name: part for part in parts_of(word)}[name]
    if not isinstance(word, Word):
        raise KeyError(' '.join(names))
    return word


def parts_of(word: Word[Any] | WordGroup) -> Sequence[Word[Any] | WordGroup]:
    """The words that follow one."""
    return word.parts if isinstance(word, WordGroup) else ()
