"""A network at a cost above the least: the cost is within what is allowed, and more cost is never more exchangers; the
same of a trade-off."""
from __future__ import annotations

from collections.abc import Iterator
from fractions import Fraction
from functools import cache
from itertools import pairwise

import pytest
from conftest import example, few_of, few_rows

from pinchdesk import Accepted, Pinch, find_network, tradeoff
from pinchdesk.search.budget import SearchWay
from pinchdesk.search.find import FewExchangers, NoNetwork

STEPS = SearchWay(steps=24, workers=1)
# How many exchangers are enough, as found by the desk, at so many percent above the least cost.
ENOUGH = (('preheater', {0: 3, 20: 3, 100: 2}), ('tc3', {0: 7, 2: 7, 5: 6, 100: 5}),
          ('four-stream', {0: 5, 20: 5, 100: 5}), ('two-reactors', {5: 7, 20: 6, 100: 5}))
NAMES = tuple(name for name, _ in ENOUGH)


@pytest.fixture(autouse=True)
def here(searched_here: None) -> None:
    del searched_here


@cache
def found_above(name: str, percent: int) -> FewExchangers:
    """The network at so many percent above the least cost. One of 0 % is begun with by trade-offs too."""
    return find_network(example(f'{name}.csv'), above=percent, pinch=Pinch(), way=STEPS)


def above_the_least(pinch: Pinch, name: str, percents: dict[int, int]) -> Iterator[FewExchangers]:
    """The networks at so many percent above the least cost, each accepted at a cost that is within."""
    case = example(f'{name}.csv')
    for percent in percents:
        found = found_above(name, percent)
        verdict = pinch.audit(case, found.text)
        assert isinstance(verdict, Accepted) and verdict.cost == found.verdict.cost
        assert verdict.floor <= verdict.cost <= verdict.floor * Fraction(100 + percent, 100)
        assert found.text.count('\nexchanger ') == found.exchangers
        yield found


@pytest.mark.parametrize('name, percents', few_rows(ENOUGH, ()))
def test_more_cost_is_never_more_exchangers(name: str, percents: dict[int, int], pinch: Pinch) -> None:
    counts = [found.exchangers for found in above_the_least(pinch, name, percents)]
    assert counts == sorted(counts, reverse=True)
    assert all(count <= most for count, most in zip(counts, percents.values()))


def test_a_cost_that_is_allowed_may_be_reached(pinch: Pinch) -> None:
    case = example('tc3.csv')
    found = find_network(case, most_cost=111500, pinch=pinch, way=STEPS)
    assert (found.exchangers, found.verdict.cost) == (6, Fraction(111500))
    with pytest.raises(NoNetwork, match='no network costs less than'):
        find_network(case, most_cost=107499, pinch=pinch, way=STEPS)


@pytest.mark.parametrize('name', few_of(NAMES, ('preheater',)))
def test_fewer_exchangers_of_a_tradeoff_cost_more(name: str, pinch: Pinch) -> None:
    case = example(f'{name}.csv')
    begin = found_above(name, 0)
    made = tradeoff(case, begin.network, pinch, seconds=20)
    for row in made.rows:
        verdict = pinch.audit(case, row.network)
        assert isinstance(verdict, Accepted) and verdict.cost == row.cost
        assert len(row.network.exchangers) == row.exchangers
    assert made.rows[0].cost == made.floor and made.rows[0].exchangers <= begin.exchangers
    for dearer, before in ((after, first) for first, after in pairwise(made.rows)):
        assert dearer.exchangers < before.exchangers and dearer.cost > before.cost
