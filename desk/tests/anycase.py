"""Any cases, networks and studies, as hypothesis draws them."""
from __future__ import annotations

from fractions import Fraction
from typing import Any

from hypothesis import strategies as some

from pinchdesk import Case, Network, Side, Stream, Utility
from pinchdesk.formats.case import Basis, Forbid
from pinchdesk.formats.network import End, Exchanger, Mix, Pass, Split
from pinchdesk.formats.study import PriceScenario, Span, Study

names = some.from_regex(r'[A-Za-z0-9][A-Za-z0-9_-]{0,15}', fullmatch=True)
shares = some.integers(0, 1000)
odd_text = some.text(some.characters(blacklist_categories=('Cs',), blacklist_characters='\0\r\n'), max_size=20)


@some.composite
def streams(draw: Any) -> Stream:
    side, latent = draw(some.sampled_from(Side)), draw(some.booleans())
    low = draw(some.integers(-2731, 29999))
    high = draw(some.integers(low + 1, 30000))
    if latent:
        return Stream(draw(names), side, low, low, 0, draw(some.integers(1, 10 ** 10)), draw(shares))
    supply, target = (high, low) if side is Side.HOT else (low, high)
    return Stream(draw(names), side, supply, target, draw(some.integers(1, 100_000)), 0, draw(shares))


@some.composite
def utilities(draw: Any) -> Utility:
    least = draw(some.integers(0, 10 ** 12))
    return Utility(draw(names), draw(some.sampled_from(Side)), draw(some.integers(-2731, 30000)), least,
                   draw(some.integers(least, 10 ** 12)), draw(some.integers(-10 ** 6, 10 ** 6)), draw(shares))


bases = some.builds(
    Basis, scale=some.sampled_from([Fraction(1), Fraction(10), Fraction(1, 100)]),
    price_unit=some.sampled_from(['', 'EUR/MWh', '=1+1']), price_divisor=some.fractions(Fraction(1, 10 ** 6), 10 ** 6),
    cost_unit=some.sampled_from(['', 'EUR/h']), cost_divisor=some.fractions(Fraction(1, 10 ** 6), 10 ** 6),
    names=some.lists(some.tuples(odd_text, names), max_size=3).map(tuple)).filter(
        lambda basis: (basis.price_unit or basis.price_divisor == 1) and (basis.cost_unit or basis.cost_divisor == 1))
cases = some.builds(
    Case, shares, some.lists(streams(), max_size=6).map(tuple), some.lists(utilities(), max_size=3).map(tuple),
    some.lists(some.builds(Forbid, names, names), max_size=3).map(tuple), bases)
duties = some.fractions(Fraction(1, 10 ** 6), 10 ** 12, max_denominator=10 ** 6)
branches = some.from_regex(r'\.?[A-Za-z0-9][A-Za-z0-9_-]{0,15}', fullmatch=True)
statements = some.one_of(some.builds(Exchanger, names, names, names, duties), some.builds(End, branches),
                         some.builds(Split, branches, branches, duties, branches),
                         some.builds(Pass, branches, names, branches), some.builds(Mix, branches, branches, branches))
networks = some.builds(Network, some.lists(statements, max_size=20).map(tuple))
prices = some.integers(-10 ** 6, 10 ** 6)
studies = some.builds(Study, some.lists(some.one_of(
    some.builds(PriceScenario, names, some.lists(some.tuples(names, prices), max_size=3).map(tuple)),
    some.builds(Span, names, prices, prices)), max_size=5).map(tuple))
