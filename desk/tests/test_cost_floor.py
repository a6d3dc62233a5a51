"""The floor of the area: by hand, under each network, rising with finer slices, proved whatever the solver says."""
from __future__ import annotations

from fractions import Fraction

import numpy
import pytest
from conftest import example, of_all, tried
from costed import AROMATICS, costed_case, data_of, plants, uses_of
from hypothesis import given
from hypothesis import strategies as st

from pinchdesk import Pinch, completed, follow, read_case, read_network
from pinchdesk.costs.area_floor import area_floor, planned, proof_of, sliced
from pinchdesk.costs.area_target import area_target
from pinchdesk.costs.balanced import carriers
from pinchdesk.costs.enclosure import total
from pinchdesk.costs.network_areas import exchanger_area, network_areas, uses_in
from pinchdesk.formats.case import Side
from pinchdesk.program.answers import Design

LEVELS = costed_case(0, '', '', '', 'hot,A,2000,2000,0,100000,', 'hot,B,1500,1500,0,100000,',
                     'cold,C,1000,1000,0,100000,', 'cold,D,500,500,0,100000,',
                     *(f'#film,{name},{film},kW/m2K,,,' for name, film in zip('ABCD', ('0.1', '1', '1', '0.1'))))


def test_four_levels_are_as_by_hand() -> None:
    """Vertical they have 22 m²; crossed, 52/3, and no plan has less."""
    data = data_of(LEVELS)
    assert Fraction(22) in area_target(data, {}).area
    floor = area_floor(data, {})
    assert Fraction(52, 3) - Fraction(1, 10 ** 6) < floor.area <= Fraction(52, 3)


def test_a_forbidden_match_raises_the_floor() -> None:
    """Without A and D the levels can only meet straight: 22 m²."""
    floor = area_floor(data_of(LEVELS + 'forbid,A,D,,,,\n'), {})
    assert Fraction(22) - Fraction(1, 10 ** 6) < floor.area <= 22


@given(st.lists(st.floats(), min_size=2, max_size=2))
def test_what_is_proved_holds_whatever_the_solver_says(prices: list[float]) -> None:
    data = data_of(LEVELS)
    members = carriers(data, {})
    hot, cold = (sliced(members, side, Fraction(40)) for side in (Side.HOT, Side.COLD))
    plan = planned(data, hot, cold, [])
    plan.proved = Fraction(-10 ** 9)
    proof_of(plan, numpy.array(prices))
    assert plan.proved <= Fraction(52, 3)


def test_where_all_films_are_equal_the_formula_is_the_floor(pinch: Pinch) -> None:
    case = costed_case(10, 'H 150 50 2 0.5, C 40 160 1.5 0.5', 'S 200 200 100 0.5', 'W 20 30 10 0.5')
    data, uses = data_of(case), uses_of(case, pinch)
    formula, floor = area_target(data, uses), area_floor(data, uses)
    assert formula.bound and floor.area == formula.area.low and floor.slice is None


def test_the_floor_rises_with_finer_slices_and_stays_under_the_network(pinch: Pinch) -> None:
    data = data_of(AROMATICS)
    found = network_areas(AROMATICS, example('aromatics-network.txt'), pinch)
    network = read_network(example('aromatics-network.txt'))
    uses = uses_in(follow(data.case, network).passages)
    widths = of_all((20, 10), (20, 10, 5))
    floors = [area_floor(data, uses, 100, Fraction(width)) for width in widths]
    areas = [floor.area for floor in floors]
    assert areas == sorted(areas) and areas[0] > 10_000 and areas[-1] <= found.area.low
    assert [floor.slice for floor in floors] == list(widths)


@tried(3, 8)
@given(plants())
def test_no_network_of_the_program_is_under_the_floor(pinch: Pinch, case: str) -> None:
    whole = completed(read_case(case))
    data, design = data_of(case), pinch.design(case)
    assert isinstance(design, Design)
    passages = follow(whole, read_network(design.text)).passages
    area = total(exchanger_area(data, passage).area for passage in passages)
    floor = area_floor(data, uses_in(passages), 20, Fraction(40))
    assert floor.area <= area.high and floor.area <= area_target(data, uses_in(passages)).area.high


def test_coefficients_of_pairs_count_in_the_floor() -> None:
    """One of 0.5 kW/m²K for all: the vertical plan, 100/(0.5 · 100) m² twice, is the least."""
    rows = [row for row in LEVELS.split('\n') if not row.startswith('#film')]
    floor = area_floor(data_of('\n'.join([*rows, '#overall,,0.5,kW/m2K,,,', ''])), {})
    assert 4 - Fraction(1, 10 ** 6) < floor.area <= 4


@pytest.mark.long
def test_thirty_and_thirty_streams_have_a_floor_and_all_digits(pinch: Pinch) -> None:
    films = ('0.2', '0.5', '1', '2')
    lines = [f'{side}{at} {low + width} {low} {flow} {films[at % 4]}' if side == 'H' else
             f'{side}{at} {low} {low + width} {flow} {films[at % 3]}'
             for side in 'HC' for at in range(30)
             for low, width, flow in [(30 + at * 37 % 200, 20 + at * 53 % 150, 1 + at * 29 % 60)]]
    case = costed_case(10, ', '.join(lines), 'S 450 450 100 1', 'W 5 5 10 1')
    data, uses = data_of(case), uses_of(case, pinch)
    formula, floor = area_target(data, uses).area, area_floor(data, uses, 60, Fraction(20))
    assert len(formula.told.replace('.', '')) >= 6 and formula.high - formula.low < formula.low / 10 ** 20
    assert 0 < floor.area < formula.high


@pytest.mark.parametrize('width', [3, 7])
def test_slices_lie_in_each_other(width: int) -> None:
    data = data_of(AROMATICS)
    members = carriers(data, {'HOT': 1000, 'COLD': 1000})
    wide, fine = (sliced(members, Side.HOT, Fraction(width, part)) for part in (1, 2))
    ends = {(part.carrier.source.name, part.high) for part in fine}
    assert {(part.carrier.source.name, part.high) for part in wide} <= ends
    assert sum(part.heat for part in wide) == sum(part.heat for part in fine)
