"""Areas and money in a notebook: of a plant, and of texts."""
from __future__ import annotations

from decimal import Decimal

import pytest
from costed import NETWORK, SMALL, near
from matplotlib.figure import Figure

import pinchdesk
from pinchdesk import Plant, Refused, read
from pinchdesk.costs.cost_target import CostTarget
from pinchdesk.costs.network_areas import NoAreas
from pinchdesk.costs.network_costs import NetworkCosts


@pytest.fixture(scope='module')
def plant() -> Plant:
    return read(SMALL.encode(), 'small.csv')


def test_targets_are_enclosures(plant: Plant) -> None:
    found = plant.costs()
    assert found.area_m2.low < found.area_m2.high and found.area_m2.told.startswith('39.70')
    assert found.area_m2.high - found.area_m2.low < found.area_m2.low / 10 ** 20
    assert found.units == 3 and found.shells is None and found.floor is None and found.currency == '$'
    assert near(found.capital, '39474') and near(found.annual_cost, '13913')
    assert isinstance(found.figure().figure, Figure) and 'area by the formula' in str(found)


def test_the_floor_is_there_where_it_is_asked_for(plant: Plant) -> None:
    floor = plant.costs(floor=1).floor
    assert floor and 0 < floor.area < plant.costs().area_m2.high


def test_exchangers_have_areas_and_prices(plant: Plant) -> None:
    found = plant.areas(NETWORK)
    assert near(found.area_m2, '39.704') and found.efficiency and 1 in found.efficiency
    assert found.annual_cost and near(found.annual_cost, '13673')
    assert [sheet.title for sheet in found.sheets] == ['Exchangers', 'All', 'The costliest exchangers']
    with pytest.raises(NoAreas, match='rejected'):
        plant.areas(NETWORK.replace('50000', '40000'))


def test_without_a_cost_law_there_are_areas_and_a_note() -> None:
    found = read(SMALL.replace('#law,,,10000,400,0.8,m2\n', '').encode(), 'small.csv').areas(NETWORK)
    assert found.annual_cost is None and found.notes[-1].startswith('costs are not shown: case cost law of')
    with pytest.raises(Refused, match='film coefficient of H is missing'):
        read(SMALL.replace('#film,H,0.5,kW/m2K,,,\n', '').encode(), 'small.csv').areas(NETWORK)


def test_the_least_difference_of_least_cost(plant: Plant) -> None:
    found = plant.supertarget(4, 10, 2)
    assert abs(found.least_k - Decimal('6.41')) < Decimal('0.03') and near(found.annual_cost, '13777')
    assert found.flat_k[0] == 4 and abs(found.flat_k[1] - 10) < Decimal('0.1')
    assert isinstance(found.figure().figure, Figure) and len(found.found.points) == 4


@pytest.mark.long
def test_networks_are_chosen_by_their_annual_cost(plant: Plant) -> None:
    found, traded = plant.network(seconds=20, annual=True), plant.tradeoff(NETWORK, seconds=10, annual=True)
    assert found.annual_cost and near(found.annual_cost, '13673')
    assert any('13672.89 $/a' in note for note in found.notes)
    assert traded.annual_cost and near(traded.annual_cost, '13673') and '13672.89 $/a' in str(traded.least_a_year)
    assert plant.tradeoff(NETWORK, seconds=1).annual_cost is None


def test_texts_are_enough() -> None:
    assert near(pinchdesk.areas(SMALL, NETWORK).area, '39.704')
    target, built = pinchdesk.costs(SMALL), pinchdesk.costs(SMALL, NETWORK)
    assert isinstance(target, CostTarget) and near(target.cost.whole, '13913')
    assert isinstance(built, NetworkCosts) and near(built.cost.whole, '13673')
    assert len(pinchdesk.supertarget(SMALL, 20, 50, 10).points) == 4
