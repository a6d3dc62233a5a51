"""Costs over the least difference: the least of the small case, what it says of other prices, and what is refused."""
from __future__ import annotations

from fractions import Fraction

import pytest
from conftest import as_objects
from costed import ONE_TWO, SMALL, costed_case, law_rows, near, targets

from pinchdesk import Pinch, Refused, WordsError, completed, print_case, read_case
from pinchdesk.costs.supertarget import Supertarget, at_contribution, supertarget
from pinchdesk.figures.cost_curves import supertarget_figure


@pytest.fixture(scope='module')
def small(pinch: Pinch) -> Supertarget:
    return supertarget(SMALL, 5, 100, 5, pinch)


def test_the_points_are_the_targets_at_each_difference(small: Supertarget, pinch: Pinch) -> None:
    assert [point.difference for point in small.points] == list(range(1, 21))
    for point in (small.points[4], small.points[14]):
        case = print_case(at_contribution(read_case(SMALL), int(point.difference * 5)))
        found = targets(case, pinch)
        assert point.cost.whole.told == found.cost.whole.told and point.units == found.units
        assert point.hot == found.flow.use('S') and point.cold == found.flow.use('W')


def test_the_least_lies_between_two_points_and_is_marked(small: Supertarget) -> None:
    """Worked by a second program: 13,776.9 at 6.41 K, within 1 % from 3.8 to 10 K."""
    least = small.least
    assert least.point.found and near(least.annual, '13777')
    assert abs(least.point.difference - Fraction('6.41')) < Fraction('0.02')
    for end, kelvin in zip(least.ends, ('3.8', '10.0')):
        assert end.found and not end.open and abs(end.difference - Fraction(kelvin)) < Fraction('0.05')


@pytest.mark.parametrize('step', [5, 10, 30])
def test_the_range_within_one_per_cent_is_the_same_on_each_grid(step: int, small: Supertarget, pinch: Pinch) -> None:
    """Between two answers uses are taken in proportion, which is exact where no utility changes its slope."""
    least = supertarget(SMALL, 10, 100, step, pinch).least
    for end, other in zip(least.ends, small.least.ends):
        assert abs(end.difference - other.difference) < Fraction(1, 50)


def test_a_range_that_goes_on_is_open(pinch: Pinch) -> None:
    least = supertarget(SMALL, 25, 40, 5, pinch).least
    assert as_objects(*(end.difference for end in least.ends)) == (5, 8)
    assert all(end.open and not end.found for end in least.ends)
    beside = supertarget(SMALL, 0, 40, 40, pinch).least
    assert as_objects(*(end.difference for end in beside.ends)) == (8, 8) and all(end.open for end in beside.ends)


def test_dearer_energy_wants_a_smaller_difference(small: Supertarget) -> None:
    assert small.dearer.point.difference < small.least.point.difference < small.cheaper.point.difference
    assert small.cheaper.annual.high < small.least.annual.low < small.dearer.annual.low


def test_units_step_down_where_a_utility_goes_out(pinch: Pinch) -> None:
    """The hot stream alone can do it at small differences: without steam there are two exchangers."""
    case = costed_case(10, 'H 200 50 2 0.5, C 40 160 1.5 0.4', 'S 250 250 100 2', 'W 5 5 10 1',
                       *law_rows('10000', '400', '0.8', 'factor', '0.2'))
    found = supertarget(case, 150, 220, 10, pinch)
    assert [point.units for point in found.points] == [2, 2, 2, 2, 2, 2, 3, 3]


def test_1_2_shells_have_a_supertarget_too(pinch: Pinch) -> None:
    found = supertarget(SMALL.replace(*ONE_TWO), 40, 60, 10, pinch)
    assert [point.shells for point in found.points] == [point.parts for point in found.points]
    assert found.points[1].shells == 6


def test_own_contributions_are_shifted_alike() -> None:
    case = at_contribution(completed(read_case(SMALL.replace('hot,H,1500,500,200,,', 'hot,H,1500,500,200,,20'))), 20)
    assert [source.contribution for source in case.sources] == [0, 20, 20, 20]


def test_differences_without_a_heat_flow_are_named(pinch: Pinch) -> None:
    found = supertarget(SMALL, 0, 300, 100, pinch)
    assert [difference for difference, _ in found.without] == [0, 40, 60]
    assert found.without[0][1].startswith('case balanced curves: at ')
    assert found.without[1][1] == found.without[2][1] == 'there is no heat flow'
    marks = next(line for line in supertarget_figure(found).axes[0].get_lines() if line.get_label() == 'no cost there')
    assert list(marks.get_xdata()) == [0, 40, 60]


def test_a_range_that_is_none_is_refused(pinch: Pinch) -> None:
    for first, last, step in ((10, 5, 1), (-1, 5, 1), (0, 2000, 1), (5, 10, 0)):
        with pytest.raises(WordsError):
            supertarget(SMALL, first, last, step, pinch)


def test_a_case_without_data_is_refused_by_what_is_missing(pinch: Pinch) -> None:
    with pytest.raises(Refused, match='film coefficient of H is missing'):
        supertarget(SMALL.replace('#film,H,0.5,kW/m2K,,,\n', ''), 40, 60, 10, pinch)
