"""Linear programs in fractions: solved, made exact, and told from those without a point."""
from __future__ import annotations

from fractions import Fraction
from pathlib import Path

import pytest
from hypothesis import given, settings
from hypothesis import strategies as some

from pinchdesk import ProgramError
from pinchdesk.search import child
from pinchdesk.search.solver import linear, process
from pinchdesk.search.solver.elimination import Elimination, Inconsistent
from pinchdesk.search.solver.interior_point import roomy
from pinchdesk.search.solver.linear import LinearRow, Program, Terms

ONE = Fraction(1)


def terms(*factors: int | Fraction) -> Terms:
    return tuple((at, Fraction(factor)) for at, factor in enumerate(factors) if factor)


def test_a_vertex_is_made_exact() -> None:
    rows = (LinearRow(terms(3, 1), None, ONE), LinearRow(terms(1, 7), None, ONE))
    program = Program((Fraction(0),) * 2, (None,) * 2, frozenset(), rows, terms(-1, -1))
    solved = linear.solve(program)
    assert solved is not None and solved.optimal
    assert linear.exact(program, solved.values) == (Fraction(3, 10), Fraction(1, 10))


def test_whole_variables_stay_as_they_are() -> None:
    rows = (LinearRow(terms(1, -5), None, Fraction(0)), LinearRow(terms(1, 0, 1), Fraction(7, 3), Fraction(7, 3)))
    program = Program((Fraction(0),) * 3, (None, ONE, Fraction(1, 3)), frozenset({1}), rows, ((1, ONE),))
    solved = linear.solve(program)
    assert solved is not None and solved.aim == pytest.approx(1) and solved.bound == pytest.approx(1)
    point = linear.exact(program, solved.values)
    assert point is not None and point[1] == 1 and point[0] + point[2] == Fraction(7, 3)
    assert linear.exact(program, (7 / 3, 0.0, 0.0)) is None


def test_a_program_without_a_point() -> None:
    program = Program((Fraction(0),), (ONE,), frozenset({0}), (LinearRow(terms(3), ONE, Fraction(2)),), terms(1))
    assert linear.solve(program) is None
    assert linear.exact(program, (0.4,)) is None


def test_no_time_is_no_answer() -> None:
    size = 60
    lows, highs = (Fraction(0),) * size, (ONE,) * size
    row = LinearRow(tuple((at, Fraction(2 * at + 101)) for at in range(size)), Fraction(5500), Fraction(5500))
    aim = tuple((at, Fraction(at * at % 17 + 1)) for at in range(size))
    with pytest.raises(linear.OutOfTime):
        linear.solve(Program(lows, highs, frozenset(range(size)), (row,), aim), 1e-9)


def test_a_program_of_many_choices_is_solved_apart(monkeypatch: pytest.MonkeyPatch) -> None:
    size = 40
    rows = (LinearRow(tuple((at, Fraction(at % 7 + 2)) for at in range(size)), Fraction(60), None),)
    aim = tuple((at, Fraction(at * at % 11 + 3)) for at in range(size))
    program = Program((Fraction(0),) * size, (ONE,) * size, frozenset(range(size)), rows, aim)
    here = linear.solve(program)
    with process.Apart() as apart:
        there = apart.solve(program, 60)
        assert apart.child is not None and here is not None and there is not None and there.aim == here.aim
    monkeypatch.setattr(child, 'SOURCE', Path('/nowhere'))
    with pytest.raises(ProgramError, match='ends as soon as it is started'):
        process.Apart().solve(program, 60)


def test_equations_that_contradict() -> None:
    equations = Elimination(2)
    assert equations.add(terms(1, 2), Fraction(3)) and not equations.add(terms(2, 4), Fraction(6))
    with pytest.raises(Inconsistent):
        equations.add(terms(1, 2), Fraction(4))
    assert equations.point() is None
    assert equations.add_if_free(terms(0, 1), Fraction(1, 2)) and equations.point() == (Fraction(2), Fraction(1, 2))


@given(some.data())
@settings(max_examples=30, deadline=None)
def test_what_is_given_back_is_a_point(data: some.DataObject) -> None:
    width = data.draw(some.integers(1, 4))
    factor = some.integers(-3, 3).map(Fraction)
    inside = [data.draw(some.fractions(0, 5, max_denominator=7)) for _ in range(width)]
    rows = []
    for _ in range(data.draw(some.integers(1, 4))):
        row_terms = tuple((at, data.draw(factor)) for at in range(width))
        value = LinearRow(row_terms, None, None).at(inside)
        least = value if data.draw(some.booleans()) else None
        rows.append(LinearRow(row_terms, least, value + data.draw(some.integers(0, 1))))
    aim = tuple((at, data.draw(factor)) for at in range(width))
    program = Program((Fraction(0),) * width, (Fraction(5),) * width, frozenset(), tuple(rows), aim)
    solved = linear.solve(program)
    assert solved is not None
    point = linear.exact(program, solved.values)
    assert point is not None and linear.allows(program, point)
    assert float(LinearRow(aim, None, None).at(point)) == pytest.approx(solved.aim, abs=1e-6)


def test_what_is_nearly_tight_does_not_take_the_place_of_what_is() -> None:
    near = LinearRow(terms(1, 1 + Fraction(1, 10 ** 8)), 2 - Fraction(1, 10 ** 7), None)
    rows = (near, LinearRow(terms(1, 1), Fraction(2), None), LinearRow(terms(1, -1), Fraction(0), None))
    assert linear.exact(Program((None,) * 2, (None,) * 2, frozenset(), rows, terms(1)), ()) == (ONE, ONE)


def test_where_rows_want_less_room_more_of_them_have_some() -> None:
    # Between 0 and 1/3 lie multiples of 1/30 whatever the others want.
    rows = (LinearRow(terms(3), Fraction(0), ONE), LinearRow(terms(1, 1), ONE, None))
    point = roomy(Program((None,) * 2, (None,) * 2, frozenset(), rows, ()), (), {0: Fraction(1, 30), 1: ONE})
    assert point is not None and 0 < point[0] < Fraction(1, 3) and point[0].denominator <= 30
