"""Areas and money of thirty hot and thirty cold streams: how sure the numbers are, and how long they take."""
from __future__ import annotations

import random
import time
from fractions import Fraction

import pytest
from costed import ONE_TWO, costed_case, law_rows, targets

from pinchdesk import Pinch
from pinchdesk.costs.area_floor import area_floor
from pinchdesk.costs.enclosure import Enclosure
from pinchdesk.costs.supertarget import supertarget


def plant_of(count: int, seed: int) -> str:
    """So many streams a side, by a seed."""
    chance, lines = random.Random(seed), list[str]()
    for side, at in [(side, at) for side in 'HC' for at in range(count)]:
        low, width, flow = chance.randint(25, 250), chance.randint(20, 180), chance.randint(5, 60)
        ends = (low + width, low) if side == 'H' else (low, low + width)
        lines.append(f'{side}{at} {ends[0]} {ends[1]} {flow} {chance.choice(("0.2", "0.5", "1", "2"))}')
    return costed_case(10, ', '.join(lines), 'S 480 480 100 2', 'W 5 10 10 1',
                       *law_rows('10000', '400', '0.8', 'recovery', '0.1', '5'))


def is_sure(number: Enclosure) -> bool:
    """Whether both ends agree to at least six digits."""
    return len(number.told.replace('.', '').lstrip('0')) >= 6 and number.high - number.low <= number.low / 10 ** 7


@pytest.mark.long
def test_targets_of_thirty_and_thirty_take_a_second(pinch: Pinch) -> None:
    for case in (plant_of(30, 7), plant_of(30, 7).replace(*ONE_TWO)):
        began = time.process_time()
        found = targets(case, pinch)
        taken = time.process_time() - began
        numbers = [found.area.area, found.built_area, found.cost.capital, found.cost.capital_a_year, found.cost.whole]
        assert all(map(is_sure, numbers)) and taken < 1
        assert found.units == 80 and found.remarks[0].startswith('there are too many sources')


@pytest.mark.long
def test_the_floor_of_thirty_and_thirty_takes_ten_seconds(pinch: Pinch) -> None:
    """With slices of 5 K, however loaded the processors are."""
    found = targets(plant_of(30, 7), pinch)
    began = time.process_time()
    floor = area_floor(found.data, {use.name: use.heat for use in found.flow.uses}, 1000, Fraction(5))
    assert time.process_time() - began < 10 and found.area.area.low * Fraction(7, 10) < floor.area
    assert floor.area < found.area.area.high


@pytest.mark.long
def test_a_supertarget_of_two_hundred_steps_takes_five_seconds(pinch: Pinch) -> None:
    began = time.process_time()
    found = supertarget(plant_of(30, 7), 1, 200, 1, pinch)
    assert time.process_time() - began < 5 and len(found.points) + len(found.without) == 200
    assert is_sure(found.least.annual) and found.least.point.difference > Fraction(1, 5)
