"""Utilities with a range of temperature, held as streams whose CP the program judges."""
from __future__ import annotations

from dataclasses import replace

import pytest
from hypothesis import given
from hypothesis import strategies as some

from pinchdesk import Case, Pinch, Refused, Side, Stream, Utility, read_case
from pinchdesk.analysis.range_checks import checked_range, checked_ranges, lacking, least_that
from pinchdesk.analysis.range_sizes import with_sizes
from pinchdesk.formats.case import ANY_HEAT, Forbid, print_case
from pinchdesk.formats.comments import Basis, basis_rows, noted
from pinchdesk.formats.limits import CP
from pinchdesk.formats.range_parts import UnsizedRange, range_parts, sized
from pinchdesk.formats.ranges import Lacking, RangedUtility

from anycase import names
from conftest import example, tried
from tabled import made

FOUR = read_case(example('four-stream.csv'))
TABLE = '''Kind;Name;Supply;Target;CP;Duty;Price
;;°C;°C;kW/K;kW;EUR/MWh
cold;C1;20;135;2;;
hot;H2;170;60;3;;
cold;C3;80;140;4;;
hot;H4;150;30;1,5;;
'''


def ranged(name: str, supply: int, target: int, price: int = 1, share: int = 50, least: int = 0,
           most: int = ANY_HEAT) -> UnsizedRange:
    side = Side.HOT if supply > target else Side.COLD
    return UnsizedRange(name, (Stream(name, side, supply, target, 1, 0, share),), price, least, most)


FLUE, WATER = ranged('FLUE', 15000, 1600), ranged('WATER', 200, 300, 0)


def found(pinch: Pinch, *utilities: UnsizedRange, base: Case = FOUR) -> dict[str, int]:
    """The CPs that are found, 0 of what is not used."""
    sizes = {utility.name: utility.cp for utility in with_sizes(pinch, base, utilities).case.basis.ranges}
    return {utility.name: sizes.get(utility.name, 0) for utility in utilities}


def test_flue_gas_by_hand(pinch: Pinch) -> None:
    """The hot target is 20 kW, and one unit of CP, 0.01 kW/K, is 13.4 kW over 1340 K: two of them are needed, and 6.8
    kW of that go on to the cold side."""
    case = with_sizes(pinch, FOUR, [FLUE]).case
    flue, = checked_ranges(pinch, case)
    assert (flue.cp, flue.heat, flue.lacking, flue.spare) == (2, 26_800, 0, 6_800)
    assert flue.less_lacking and flue.less_lacking.heat == 20_000 - 13_400 and flue.is_least
    assert case.basis.ranges == (RangedUtility('FLUE', 1, 2, flue.less_lacking),)
    assert (pinch.targets(case).hot, pinch.targets(case).cold) == (0, 66_800)
    assert read_case(print_case(case)) == case


def test_cooling_water_by_hand(pinch: Pinch) -> None:
    """The cold target is 60 kW, and one unit of CP is 0.1 kW over 10 K: 6 kW/K, which leave nothing over."""
    water, = checked_ranges(pinch, with_sizes(pinch, FOUR, [WATER]).case)
    assert (water.cp, water.heat, water.spare) == (600, 60_000, 0)
    assert water.less_lacking and water.less_lacking.heat == 100


def test_of_both_sides_the_cold_one_takes_what_the_hot_one_has_too_much(pinch: Pinch) -> None:
    case = with_sizes(pinch, FOUR, [FLUE, WATER]).case
    flue, water = checked_ranges(pinch, case)
    assert (flue.heat, flue.spare, water.heat, water.spare) == (26_800, 6_800, 66_800, 0)
    assert (pinch.targets(case).hot, pinch.targets(case).cold) == (0, 0)


def test_a_pinch_within_the_range_sets_the_size(pinch: Pinch) -> None:
    """A stream of 10 kW/K from 100 to 110 °C takes 100 kW; of a gas from 120 to 30 °C, 10 K away, the lower end is too
    cold for it. All of the heat has to come between 120 and 110 °C: 10 kW/K, which give 900 kW."""
    base = read_case('contribution,,50,,,,\ncold,C,1000,1100,1000,,\n')
    gas, = checked_ranges(pinch, with_sizes(pinch, base, [ranged('GAS', 1200, 300)]).case)
    assert (gas.cp, gas.heat, gas.spare) == (1000, 900_000, 800_000)


def test_the_cheapest_is_used_first_and_no_more_than_pays(pinch: Pinch) -> None:
    """20 kW are needed. Hot oil from 170 to 150 °C can give all. At twice the price of the gas it only gives the
    6.6 kW that one unit of CP of the gas, 13.4 kW, leaves: that costs 26.6, and a second unit 26.8."""
    assert found(pinch, ranged('OIL', 1700, 1500, 1), ranged('GAS', 15000, 1600, 2)) == {'OIL': 100, 'GAS': 0}
    assert found(pinch, ranged('OIL', 1700, 1500, 2), ranged('GAS', 15000, 1600, 1)) == {'OIL': 33, 'GAS': 1}


def test_beside_a_level_the_cost_is_least(pinch: Pinch) -> None:
    """A stream from 20 to 120 °C, 10 kW/K, takes 1000 kW. Waste heat from 80 to 40 °C, 10 K away, is cheap: it serves
    what is below 70 °C, 500 kW at most. 40 K of it from 80 to 40 °C are 12.5 kW/K."""
    base = read_case('contribution,,50,,,,\ncold,C,200,1200,1000,,\nheater,STEAM,1500,0,1000000000000,30,\n')
    case = with_sizes(pinch, base, [ranged('WASTE', 800, 400, 10)]).case
    waste, = checked_ranges(pinch, case)
    assert (waste.cp, waste.heat, waste.lacking, waste.less_lacking) == (1250, 500_000, 0, None)
    assert waste.dearer == 400 * (30 - 10) and waste.is_least
    assert found(pinch, ranged('WASTE', 800, 400, 40), base=base) == {'WASTE': 0}


def test_what_only_rounds_up_on_the_cold_side_needs_no_hot_utility(pinch: Pinch) -> None:
    """5.5 kW are to be cooled. 0.3 kW are one unit of the water, so that 19 of them take 0.2 kW more than there is: no
    reason for flue gas, of which a unit has 13.4 kW."""
    base = read_case('contribution,,50,,,,\nhot,H,1000,500,11,,\n')
    assert found(pinch, FLUE, ranged('W', 100, 400, 0), base=base) == {'FLUE': 0, 'W': 19}


def test_what_the_cold_side_has_to_take_is_a_need_of_the_hot_one(pinch: Pinch) -> None:
    """Coolant from 10 to 170 °C has to take the 50 kW of a stream from 100 to 50 °C: 1.25 kW/K of it from 10 to 50 °C,
    where it then takes 150 kW above that. No gas gives these but from 300 to 180 °C."""
    base = read_case('contribution,,0,,,,\nhot,H,1000,500,100,,\n')
    case = with_sizes(pinch, base, [ranged('GAS', 3000, 1800, 1, 0), ranged('W', 100, 1700, 0, 0)]).case
    gas, water = checked_ranges(pinch, case)
    assert gas.is_least and water.is_least and gas.less_lacking and pinch.targets(case).hot < 1600
    assert water.heat - gas.heat - 50_000 == pinch.targets(case).hot == gas.lacking


@pytest.mark.long
def test_two_with_a_range_are_sized_together(pinch: Pinch) -> None:
    """90 kW from 35 to 125 °C, shifted. Of the gas, from 365 to 40 °C, 6 units are needed for the 15 kW above 110 °C,
    where the oil begins. They have 19.5 kW, so that the oil gives 70.5 kW, 101 units of 0.7 kW, and not all 75 kW."""
    base = read_case('contribution,,50,,,,\ncold,C,300,1200,100,,\n')
    oil, gas = ranged('OIL', 1150, 450, 4), ranged('GAS', 3700, 450, 40)
    assert found(pinch, oil, gas, base=base) == {'OIL': 101, 'GAS': 6}


def test_where_a_level_has_a_most_one_unit_less_is_not_enough(pinch: Pinch) -> None:
    base = read_case('contribution,,50,,,,\ncold,C,200,1200,1000,,\nheater,STEAM,1500,0,500000,30,\n')
    waste, = checked_ranges(pinch, with_sizes(pinch, base, [ranged('WASTE', 800, 400, 10)]).case)
    assert (waste.cp, waste.less_lacking and waste.less_lacking.heat, waste.is_least) == (1250, 400, True)


def test_gains_are_taken_as_far_as_they_pay(pinch: Pinch) -> None:
    """Raised steam at a price below 0 takes all that is warm enough, and no heat of the heater, which is dearer."""
    base = read_case('contribution,,50,,,,\nhot,H,2000,1000,100,,\nheater,S,2500,0,1000000000000,30,\n')
    boiler = UnsizedRange('RAISED', (Stream('RAISED', Side.COLD, 1000, 1500, 1, 0, 50),), -3, 0, ANY_HEAT)
    case = with_sizes(pinch, base, [boiler, ranged('CW', 200, 300, 1)]).case
    assert [utility.name for utility in case.basis.ranges] == ['RAISED', 'CW']
    targets = pinch.targets(case)
    assert targets.hot < 100 and targets.cold == 0
    raised, _ = checked_ranges(pinch, case)
    assert raised.is_least and raised.heat > 80_000


def test_several_segments_stay_in_proportion(pinch: Pinch) -> None:
    """Boiler feed water to 100 °C, steam from it, superheat: 42 kW/K over 50 K, 2000 kW, 20 kW/K over 50 K."""
    parts = (Stream('S-1', Side.COLD, 500, 1000, 4200, 0, 50), Stream('S-2', Side.COLD, 1000, 1000, 0, 20_000_000, 50),
             Stream('S-3', Side.COLD, 1000, 1500, 2000, 0, 50))
    base = read_case('contribution,,50,,,,\nhot,H,3000,1200,1000,,\n')
    case = with_sizes(pinch, base, [UnsizedRange('STEAM', parts, 0, 0, ANY_HEAT)]).case
    steam, = checked_ranges(pinch, case)
    first, boiling, last = steam.parts
    assert abs(boiling.load - first.cp * 20_000_000 / 4200) <= 1 and abs(last.cp - first.cp * 2000 / 4200) <= 1
    assert steam.is_least and pinch.targets(case).cold == 0
    assert case.basis.segments[0].name == 'STEAM' and read_case(print_case(case)) == case


@pytest.mark.parametrize('utilities, base, cause', [
    ([ranged('OIL', 850, 600)], FOUR, 'it is not hot enough'),
    ([replace(FLUE, most=13_400)], FOUR, '6.6 kW are missing: take a larger'),
    ([ranged('WATER', 800, 900)], FOUR, 'it is not cold enough'),
    ([FLUE], replace(FOUR, utilities=(Utility('STEAM', Side.HOT, 2000, 0, ANY_HEAT, 1, 50),)), 'price as STEAM'),
    ([FLUE, replace(FLUE, name='GAS', parts=ranged('GAS', 12000, 1600).parts)], FOUR, 'the same price as'),
    ([FLUE], replace(FOUR, streams=tuple(Stream(f'H{at}', Side.HOT, 900, 800, 1, 0, 50) for at in range(30))),
     'at most 30 hot streams, and with its utilities with a range, which it holds as streams, this one has 31'),
])
def test_what_cannot_be_sized_is_refused(pinch: Pinch, utilities: list[UnsizedRange], base: Case, cause: str) -> None:
    with pytest.raises(Refused) as refused:
        with_sizes(pinch, base, utilities)
    assert cause in refused.value.text


def test_a_forbidden_match_with_one_is_kept(pinch: Pinch) -> None:
    """C3 is forbidden to the flue gas: then it serves nothing that is needed there, and is refused."""
    with pytest.raises(Refused) as refused:
        with_sizes(pinch, FOUR, [FLUE], [Forbid('FLUE', 'C3'), Forbid('FLUE', 'C1')])
    assert 'FLUE is not enough' in refused.value.text
    case = with_sizes(pinch, FOUR, [FLUE], [Forbid('FLUE', 'C1')]).case
    assert case.forbids == (Forbid('FLUE', 'C1'),)


@some.composite
def plants(draw: some.DrawFn) -> tuple[Case, UnsizedRange]:
    """A case, and a utility with a range that is beyond all its streams."""
    streams: list[Stream] = []
    for at in range(draw(some.integers(1, 5))):
        side, low = draw(some.sampled_from(Side)), draw(some.integers(300, 2000))
        high = low + draw(some.integers(1, 1500))
        ends = (high, low) if side is Side.HOT else (low, high)
        streams.append(Stream(f'S{at}', side, *ends, draw(some.integers(1, 500)), 0, draw(some.integers(0, 100))))
    side, share = draw(some.sampled_from(Side)), draw(some.integers(0, 100))
    supply = draw(some.integers(3700, 12000) if side is Side.HOT else some.integers(-2000, 100))
    target = draw(some.integers(300, 3600) if side is Side.HOT else some.integers(200, 2000))
    return Case(50, tuple(streams)), ranged('U', supply, target, share=share)


@tried(8, 100)
@given(plants())
def test_what_is_found_is_enough_and_one_unit_less_is_not(plant: tuple[Case, UnsizedRange]) -> None:
    base, utility = plant
    pinch = Pinch()
    try:
        case = with_sizes(pinch, base, [utility]).case
    except Refused as fault:
        assert 'U is not enough' in fault.text
        assert target(pinch, replace(base, streams=(*base.streams, *sized(utility.parts, CP.most))), utility.side)
        return
    if not case.basis.ranges:
        assert target(pinch, base, utility.side) == 0
        return
    checked = checked_range(pinch, case, case.basis.ranges[0])
    less = sized(checked.parts, checked.cp - 1) if checked.cp > 1 else ()
    lacks = target(pinch, replace(base, streams=(*base.streams, *less)), utility.side)
    assert target(pinch, case, utility.side) == 0 < lacks
    assert checked.less_lacking and checked.less_lacking.heat == lacks and checked.lacking == 0
    assert checked.spare == checked.heat - target(pinch, base, utility.side) >= 0
    assert read_case(print_case(case)) == case


def target(pinch: Pinch, case: Case, side: Side) -> int:
    targets = pinch.targets(case)
    return targets.hot if side is Side.HOT else targets.cold


@given(some.integers(0, 50), some.integers(0, 50), some.integers(0, 60))
def test_the_least_is_found_whatever_the_bounds(first: int, more: int, least: int) -> None:
    last = first + more
    assert least_that(lambda number: number >= least, first, last) == min(max(first, least), last)


utilities_in_rows: some.SearchStrategy[RangedUtility] = some.builds(
    RangedUtility, names, some.integers(-10 ** 6, 10 ** 6), some.integers(1, 10 ** 5), some.none() | some.builds(
        lambda offer, more: Lacking(offer + more, offer), some.integers(0, 10 ** 12), some.integers(1, 10 ** 9)))


@given(some.lists(utilities_in_rows, max_size=4, unique_by=lambda utility: str(utility.name)))
def test_what_is_printed_of_them_is_read_again(utilities: list[RangedUtility]) -> None:
    basis, read = Basis(ranges=tuple(utilities)), Basis()
    for row in basis_rows(basis):
        assert len(row) == 7
        read = noted(read, row)
    assert read == basis


@pytest.mark.parametrize('row, cause', [
    ('#utility,GAS,1,2,,,', 'GAS is not a stream of the case'), ('#utility,my gas,1,2,,,', 'not a name of a stream'),
    ('#utility,H2,x,2,,,', 'not a number'), ('#utility,H2,1,0,,,', 'not above 0'), ('#utility,H2,1,2,3,4,', 'above'),
    ('#utility,H2,1,2,4,3,1', 'five fields'), ('#utility,H2,1/2,2,,,', 'not a whole number'),
    ('#utility,H2,1,2,,,\n#utility,H2,1,2,,,', 'stands in a row above')])
def test_a_row_that_says_what_cannot_be_is_refused(row: str, cause: str) -> None:
    with pytest.raises(Refused) as refused:
        read_case(f'{row}\n'.encode() + example('four-stream.csv'))
    assert cause in refused.value.text and refused.value.place.startswith('case row ')


def test_a_row_with_a_target_is_a_range(pinch: Pinch) -> None:
    table = made(f'{TABLE}heater;flue gas;1500;160;;;35\ncooler;water;20;30;;;0,5\n')
    assert not table.case.utilities and [utility.name for _, utility in table.ranges] == ['flue-gas', 'water']
    assert [row for row, _ in table.ranges] == [7, 8]
    case = with_sizes(pinch, table.case, [utility for _, utility in table.ranges]).case
    assert [utility.cp for utility in case.basis.ranges] == [2, 668]
    # What whole units of CP leave has their prices.
    assert [(utility.name, utility.level, utility.price) for utility in case.utilities] == [
        ('HOT', 15000, 350), ('COLD', 200, 5)]
    flue = range_parts(case, case.basis.ranges[0])
    assert [(part.supply, part.target) for part in flue] == [(15000, 1600)]
    assert lacking(pinch, case, Side.HOT) is None
