"""Bounds of programs, proved in fractions: never above what a point has, whatever the solver says."""
from __future__ import annotations

import itertools
import time
from fractions import Fraction

import pytest
from conftest import example, few_of, tried
from hypothesis import given
from hypothesis import strategies as some

from pinchdesk import Cut, Pinch, completed, read_case
from pinchdesk.search.bounding import has_one_use
from pinchdesk.search.find import how
from pinchdesk.search.solver.linear import LinearRow, Program, allows
from pinchdesk.search.solver.proved_bound import BoundProof, PricedBox, Relaxation, WholeNumbers, proved_least
from pinchdesk.search.staged.transshipment import transshipment
from pinchdesk.search.staged.window_bound import window_bound_program
from pinchdesk.search.staged.windows import whole, windows

ONE, MANY = Fraction(1), 30.0
# What no network at the least cost has fewer exchangers than, and none with its uses of the utilities, by the solver.
LEAST = {'four-stream': (5, 5), 'tc3': (6, 6), 'preheater': (3, 3), 'two-reactors': (6, 6), 'column': (7, 7),
         'own-contributions': (6, 6), 'two-steam-levels': (6, 6), 'three-levels': (9, 9), 'crude': (16, 16)}


def programs_of(pinch: Pinch, name: str) -> tuple[Program, Program]:
    case = completed(read_case(example(f'{name}.csv')))
    flow = pinch.flow(case)
    assert not isinstance(flow, Cut)
    of_cost, _ = transshipment(whole(case, None), Fraction(flow.cost))
    return of_cost, window_bound_program(windows(case, {use.name: use.heat for use in flow.uses}))


@pytest.mark.parametrize('name', few_of(LEAST, ('four-stream', 'tc3', 'three-levels')))
def test_a_bound_that_is_wrong_by_one_is_not_proved(pinch: Pinch, name: str) -> None:
    for program, least in zip(programs_of(pinch, name), LEAST[name]):
        assert proved_least(program, least, MANY) == least
        assert proved_least(program, least + 1, MANY) == least


@some.composite
def covers(draw: some.DrawFn) -> Program:
    """Programs of a few whole variables with rows of both kinds, and one that may be broken."""
    width = draw(some.integers(2, 4))
    factors = some.fractions(-3, 3, max_denominator=4)
    rows = []
    for _ in range(draw(some.integers(1, 4))):
        terms = tuple((at, draw(factors)) for at in range(width + 1))
        low, high = draw(factors), draw(some.integers(0, 3))
        rows.append(LinearRow(terms, *draw(some.sampled_from(((low, None), (None, low), (low, low + high))))))
    aim = tuple((at, Fraction(draw(some.integers(-2, 3)))) for at in range(width))
    return Program((Fraction(0),) * (width + 1), (ONE * 2,) * (width + 1), frozenset(range(width)), tuple(rows), aim)


def least_by_hand(program: Program) -> Fraction | None:
    """The least of a program whose last variable alone may be broken, by looking at all points; None where there is
    none."""
    width, aim = len(program.lows) - 1, LinearRow(program.aim, None, None)
    least = None
    for values in itertools.product(range(3), repeat=width):
        point = tuple(map(Fraction, values))
        if any(allows(program, (*point, last)) for last in ends_of(program, point)):
            least = min(aim.at((*point, Fraction(0))), least if least is not None else Fraction(100))
    return least


def ends_of(program: Program, point: tuple[Fraction, ...]) -> set[Fraction]:
    """Where the last variable may be first, if anywhere."""
    ends = {Fraction(0), Fraction(2)}
    for row in program.rows:
        factor = row.terms[-1][1]
        rest = row.at((*point, Fraction(0)))
        ends |= {(end - rest) / factor for end in (row.low, row.high) if end is not None and factor}
    return ends


@tried(6, 50)
@given(covers())
def test_no_proof_says_more_than_the_least(program: Program) -> None:
    least = least_by_hand(program)
    wanted = 8 if least is None else max(1, int(least) + 1)
    proved = BoundProof(program, wanted, time.monotonic() + MANY).run()
    assert proved == wanted if least is None else Fraction(proved) == max(Fraction(0), least)


@tried(6, 50)
@given(covers(), some.lists(some.floats(-1e12, 1e12, allow_nan=False), min_size=4, max_size=4))
def test_prices_prove_no_more_than_is_true_whatever_they_are(program: Program, prices: list[float]) -> None:
    least, numbers = least_by_hand(program), WholeNumbers(program)
    if least is not None:
        proved = numbers.proved(prices, {})
        assert proved is not None and proved <= least
        excluded = numbers.proved(prices, {}, with_aim=False)
        assert excluded is not None and excluded <= 0


def test_a_solver_that_lies_proves_nothing(pinch: Pinch, monkeypatch: pytest.MonkeyPatch) -> None:
    program, _ = programs_of(pinch, 'tc3')
    count = len(program.rows)
    for liar in (PricedBox((1e6,) * count, None), PricedBox((float('nan'),) * count, None), None):
        monkeypatch.setattr(Relaxation, 'priced', lambda *_, said=liar: said)
        assert proved_least(program, 7, MANY) == 0


def test_what_counts_parts_is_not_rounded_up() -> None:
    half = Program((Fraction(0),), (ONE,), frozenset(), (LinearRow(((0, ONE),), ONE / 2, None),), ((0, ONE),))
    assert proved_least(half, 1, MANY) == 0
    assert proved_least(Program(half.lows, half.highs, frozenset({0}), half.rows, half.aim), 1, MANY) == 1


def test_without_time_there_is_what_needs_none(pinch: Pinch) -> None:
    assert proved_least(programs_of(pinch, 'crude')[0], 16, 0.0) < 16


def test_a_bound_says_how_it_is_known() -> None:
    assert how(7, 7) == ' (in fractions)' and how(7, 0) == ' (by the solver\'s floats)'
    assert how(7, 6) == ' (by the solver\'s floats; 6 in fractions)'


HP, LP, CW = 'heater,HP,3000,0,90000,{},\n', 'heater,LP,2500,{},90000,9,\n', 'cooler,CW,100,0,90000,-3,\n'
USES = [('', True), (HP.format(10), True), (HP.format(10) + LP.format(0), False), (HP.format(4) + CW, True),
        (HP.format(10) + LP.format(90000), True), (HP.format(3) + CW, False)]


@pytest.mark.parametrize('utilities, one', USES)
def test_where_uses_cannot_differ_is_seen(utilities: str, one: bool) -> None:
    rows = 'contribution,,50,,,,\nhot,H,1500,600,20,,\ncold,C,200,1250,25,,\n'
    assert has_one_use(completed(read_case(rows + utilities))) is one
