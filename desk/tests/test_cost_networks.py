"""Areas and costs of the exchangers of a network: by hand, beside the targets, and refused where they cannot be."""
from __future__ import annotations

from fractions import Fraction

import pytest
from conftest import example
from costed import AROMATICS, NETWORK, SMALL, law_rows, near

from pinchdesk import Pinch, Refused, completed, read_case
from pinchdesk.costs.area_target import asked_area
from pinchdesk.costs.cost_data import CostData
from pinchdesk.costs.network_areas import (NetworkAreas, NoAreas, accepted_network, network_areas, part_duties,
                                           passages_of)
from pinchdesk.costs.network_costs import NetworkCosts, network_costs
from pinchdesk.formats.cost_rows import Service


def areas(case: str, pinch: Pinch) -> NetworkAreas:
    return network_areas(case, NETWORK, pinch)


def costs(case: str, pinch: Pinch) -> NetworkCosts:
    return network_costs(case, NETWORK, pinch)


def test_the_exchangers_of_the_small_case_are_as_by_hand(pinch: Pinch) -> None:
    found = areas(SMALL, pinch)
    assert [exchanger.service for exchanger in found.exchangers] == [Service.EXCHANGER, Service.HEATER, Service.COOLER]
    assert [near(exchanger.area, number) for exchanger, number
            in zip(found.exchangers, ('33.825', '1.825', '4.055'))] == [True] * 3
    assert [exchanger.coefficient for exchanger in found.exchangers] == [Fraction(2000, 9), Fraction(1000, 3),
                                                                         Fraction(1000, 3)]
    assert near(found.area, '39.704') and found.efficiency and 1 in found.efficiency
    cost = costs(SMALL, pinch).cost
    assert near(cost.capital, '38563') and cost.energy == 3500 and near(cost.whole, '13673')


def test_the_costliest_gain_most_with_a_kelvin(pinch: Pinch) -> None:
    costliest = costs(SMALL, pinch).costliest
    assert [priced.exchanger.name for priced in costliest] == ['E', 'W1', 'S1']
    gains = [priced.gain for priced in costliest if priced.gain]
    assert [gain.middle for gain in gains] == sorted((gain.middle for gain in gains), reverse=True)
    assert near(gains[0], '76.1')


def test_1_2_shells_of_a_network(pinch: Pinch) -> None:
    found = areas(SMALL.replace('counter-current,,,,exchanger', '1-2,0.9,,,shell'), pinch)
    assert [exchanger.shells for exchanger in found.exchangers] == [4, 1, 1]
    assert near(found.exchangers[0].factor, '0.7552') and near(found.exchangers[0].area, '44.8')


def test_the_network_of_the_aromatics_plant(pinch: Pinch) -> None:
    """14 exchangers by hand, 17,672 m² by a second program."""
    found = network_costs(AROMATICS, example('aromatics-network.txt'), pinch)
    assert len(found.prices) == 14 and len(found.costliest) == 5
    assert near(found.areas.area, '17672')


def test_coefficients_of_pairs_and_laws_of_kinds_and_materials_come_first(pinch: Pinch) -> None:
    case = SMALL + ('#overall,S,1,kW/m2K,,,\n#law,heater,,0,1000,0.6,m2\n#material,H,SS,,,,\n#material,W,CU,,,,\n'
                    '#law,,SS,0,2,1,ft2\n#law,,CU+SS,5,0,1,m2\n')
    exchanger, heater, cooler = costs(case, pinch).prices
    assert heater.exchanger.coefficient == 1000
    assert near(exchanger.price, '728.17')
    assert cooler.price.low == cooler.price.high == 5


def test_two_coefficients_of_a_pair_are_refused(pinch: Pinch) -> None:
    case = SMALL + '#overall,H,0.5,kW/m2K,,,\n#overall,C,0.6,kW/m2K,,,\n'
    with pytest.raises(Refused, match='they have two: enter a row `#overall,H,VALUE,kW/m2K,C,,`'):
        areas(case, pinch)
    assert areas(case + '#overall,C,0.7,kW/m2K,H,,\n', pinch).exchangers[0].coefficient == 700


def test_a_material_without_a_law_is_refused(pinch: Pinch) -> None:
    case = SMALL + '#material,H,SS,,,,\n'
    with pytest.raises(Refused, match='cost law of an exchanger of SS is missing'):
        costs(case, pinch)
    assert near(areas(case, pinch).area, '39.704')


def test_an_approach_that_real_ends_do_not_leave_is_reported(pinch: Pinch) -> None:
    """The case has its water at 20 °C; it leaves at 70, and the hot side enters at 75."""
    found = areas(SMALL.replace('#range,W,20,30', '#range,W,20,70'), pinch)
    assert [str(fault) for fault in found.faults] == [
        'exchanger W1: at its hot end the difference is 5 K with the real ends of its utility, and 10 K are needed']


def test_a_difference_of_0_is_refused_with_its_place(pinch: Pinch) -> None:
    with pytest.raises(Refused, match='^network exchanger W1: at its hot end the difference is 0 K with the real '
                       'ends of its utility: no area is large enough. It needs a smaller duty, or other real ends'):
        areas(SMALL.replace('#range,W,20,30', '#range,W,20,75'), pinch)


def test_a_network_that_is_not_accepted_has_no_areas(pinch: Pinch) -> None:
    with pytest.raises(NoAreas, match='rejected'):
        network_areas(SMALL, NETWORK.replace('50000', '40000'), pinch)


def test_one_coefficient_for_all_pairs_makes_a_target_that_is_a_bound(pinch: Pinch) -> None:
    found = areas(without_films() + '#overall,,0.5,kW/m2K,,,\n', pinch)
    assert found.target and found.target.bound and found.efficiency and 1 in found.efficiency
    assert near(found.exchangers[0].area, '15.033')


def test_only_pairs_that_meet_need_a_coefficient(pinch: Pinch) -> None:
    """Steam and water do not meet, in this network and in the target."""
    found = areas(without_films() + '#overall,H,0.5,kW/m2K,,,\n#overall,S,1,kW/m2K,C,,\n', pinch)
    assert found.target and not found.target.bound
    with pytest.raises(Refused, match='film coefficient of S is missing'):
        areas(without_films() + '#overall,H,0.5,kW/m2K,,,\n', pinch)


def without_films() -> str:
    return ''.join(f'{row}\n' for row in SMALL.split('\n') if row and not row.startswith('#film'))


@pytest.mark.parametrize(('name', 'area', 'formula', 'bound'), [
    ('aromatics', '17672', '16984', False), ('10sp1', '285.49', '229.18', True), ('bn15', '3302.96', '2915.43', False)])
def test_examples_have_their_published_coefficients(name: str, area: str, formula: str, bound: bool,
                                                    pinch: Pinch) -> None:
    """The coefficients, and the real ends of the utilities that the program adds, are comments of the cases; the areas
    by a second program."""
    case = completed(read_case(example(f'{name}.csv')))
    found = network_areas(case, example(f'{name}-network.txt'), pinch)
    target = asked_area(pinch, case)
    assert near(found.area, area) and near(target.area, formula) and target.bound is bound


def test_shells_beyond_number_are_refused(pinch: Pinch) -> None:
    with pytest.raises(Refused, match='exchanger E: [0-9]+ shells of 1-2 flow cannot do its duty'):
        areas(SMALL.replace('counter-current,,,,exchanger', '1-2,1e-30,,,shell'), pinch)


MONEY_ROWS = '\n'.join(['#price,$/(kW a),1,,,,', '#cost,$/a,1000,,,,',
                        *law_rows('10000', '400', '0.8', 'factor', '0.2')])


def crude(*rows: str) -> str:
    """The example whose crude is in segments, with these rows too."""
    return '\n'.join([example('crude-curve.csv').decode().rstrip('\n'), MONEY_ROWS, *rows]) + '\n'


def test_an_exchanger_that_goes_on_across_a_kink_is_one(pinch: Pinch) -> None:
    """It has the area of its parts together, and pays one charge."""
    case, network = crude('#overall,,500,W/m2K,,,'), example('crude-curve-network.txt')
    alone = ''.join(f'{row}\n' for row in case.split('\n') if row and not row.startswith('#segment'))
    found, parts = (network_costs(text, network, pinch) for text in (case, alone))
    assert len(found.prices) < len(parts.prices) and any('+' in priced.exchanger.name for priced in found.prices)
    assert found.areas.area.low <= parts.areas.area.high and parts.areas.area.low <= found.areas.area.high
    assert found.cost.capital.high < parts.cost.capital.low
    one = next(priced.exchanger for priced in found.prices if '+' in priced.exchanger.name)
    assert one.coefficient == 500 and one.factor.low <= 1 <= one.factor.high
    assert (one.duty / (500 * one.mean)).low <= one.area.high and one.area.low <= (one.duty / (500 * one.mean)).high


def test_a_row_may_speak_of_a_stream_in_segments(pinch: Pinch) -> None:
    names = [row.split(',')[1] for row in crude().split('\n') if row.startswith(('hot', 'heater', 'cooler'))]
    films = [f'#film,{name},1,kW/m2K,,,' for name in names]
    segments = [f'#film,CRUDE-{at},0.5,kW/m2K,,,' for at in range(1, 9)]
    network = example('crude-curve-network.txt')
    whole, parted = (network_areas(crude(*films, *rows), network, pinch)
                     for rows in (['#film,CRUDE,0.5,kW/m2K,,,'], segments))
    assert whole.area.told == parted.area.told
    with pytest.raises(Refused, match='film coefficient of CRUDE is missing: enter a row `#film,CRUDE,'):
        network_areas(crude(*films), network, pinch)


def test_a_utility_with_real_ends_runs_through_an_exchanger_with_a_kink(pinch: Pinch) -> None:
    """Its parts have shares of the range by their duties, from the hot end on."""
    case = completed(read_case(crude('#overall,,500,W/m2K,,,', '#range,FURN,600,430,C,,')))
    followed, _ = accepted_network(pinch, case, example('crude-curve-network.txt'))
    passage = next(passage for passage in passages_of(followed) if passage.hot.source.name == 'FURN'
                   and len(passage.parts) > 1)
    duties = list(part_duties(CostData(case), passage))
    assert (duties[0].hot.inlet, duties[-1].hot.outlet) == (Fraction(6000), Fraction(4300))
    assert all(before.hot.outlet == behind.hot.inlet for before, behind in zip(duties, duties[1:]))
