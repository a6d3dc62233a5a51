"""Targets of area, units, shells and cost before a network: by hand, as published, and what has to hold of any case."""
from __future__ import annotations

from collections.abc import Sequence
from fractions import Fraction

import pytest
from conftest import as_objects, example, tried
from costed import AROMATICS, ONE_TWO, SMALL, costed_case, data_of, law_rows, near, plants, targets, uses_of
from hypothesis import given
from hypothesis import strategies as st

from pinchdesk import Pinch, Refused, Side, Stream, completed, print_case, read_case
from pinchdesk.analysis.least_units import Units, least_units
from pinchdesk.costs.area_floor import area_floor
from pinchdesk.costs.area_target import AreaTarget, area_target, interval_area, target_of
from pinchdesk.costs.balanced import Carrier, HeatInterval, carriers, intervals_of
from pinchdesk.costs.cost_data import CostData, EndTemperatures
from pinchdesk.costs.cost_target import duty_of_interval, one_two_area
from pinchdesk.costs.enclosure import Enclosure, total
from pinchdesk.costs.quick_area import quick_area, quick_one_two, quick_shells
from pinchdesk.costs.shells import Duty, correction, correction_at, shells_of, whole_shells
from pinchdesk.costs.supertarget import supertarget
from pinchdesk.costs.unit_target import unit_target
from pinchdesk.formats.case import Source
from pinchdesk.program.answers import HeatFlow


def test_the_small_case_is_as_it_was_worked_by_hand(pinch: Pinch) -> None:
    found = targets(SMALL, pinch)
    rows = [(area.interval.heat, area.interval.cold_end, area.interval.warm_end) for area in found.area.intervals]
    assert as_objects(*rows) == ((50000, 30, 45), (150000, 35, 10), (30000, 60, 40))
    for area, mean, metres in zip(found.area.intervals, ('36.995', '19.956', '49.326'), ('4.055', '33.825', '1.825')):
        assert near(area.mean, mean) and near(area.area, metres)
    assert near(found.area.area, '39.704') and not found.area.bound
    assert found.units == 3 and found.shells is None
    assert near(found.cost.capital, '39474') and found.cost.energy == 3500
    assert near(found.cost.whole, '13913')


def test_the_formula_is_no_bound_where_films_differ() -> None:
    """Four levels: vertical 22 m², and crossed 17.333."""
    case = costed_case(0, 'X 1 0 1', 'A 200 200 1 0.1, B 150 150 1 1', 'C 100 100 1 1, D 50 50 1 0.1')
    data = data_of(case)
    levels = [Carrier(source, data.ends(source), Fraction(100_000), data.resistance(source))
              for source in data.case.utilities]
    area = total(interval_area(interval).area for interval in intervals_of(levels))
    assert Fraction(22) in area


def test_shells_are_those_that_were_worked_by_hand() -> None:
    second = Duty(EndTemperatures(Fraction(1500), Fraction(750)), EndTemperatures(Fraction(400), Fraction(1400)))
    shells = shells_of(second, Fraction(9, 10))
    assert near(shells, '3.934') and whole_shells(shells) == 4
    factor = correction(second, 4)
    assert factor and near(factor, '0.7552')
    first = Duty(EndTemperatures(Fraction(750), Fraction(500)), EndTemperatures(Fraction(200), Fraction(300)))
    assert near(shells_of(first, Fraction(9, 10)), '0.425')
    factor = correction(first, 1)
    assert factor and near(factor, '0.9685')


def test_a_shell_that_cannot_do_its_duty_has_no_factor() -> None:
    duty = Duty(EndTemperatures(Fraction(1500), Fraction(750)), EndTemperatures(Fraction(400), Fraction(1400)))
    assert correction(duty, 1) is None


def test_a_flat_side_has_no_correction_and_needs_no_shell_of_its_own() -> None:
    duty = Duty(EndTemperatures(Fraction(2000), Fraction(2000)), EndTemperatures(Fraction(400), Fraction(1400)))
    assert shells_of(duty, Fraction(9, 10)).high == 0
    factor = correction(duty, 1)
    assert factor and factor.low == factor.high == 1


ENDS = st.integers(1, 2000)


@st.composite
def duties(draw: st.DrawFn) -> Duty:
    cold, warming, gap, other, cooling = (draw(ENDS) for _ in range(5))
    low = Fraction(cold + gap)
    high = max(Fraction(cold + warming + other), low + cooling)
    return Duty(EndTemperatures(high, low), EndTemperatures(Fraction(cold), Fraction(cold + warming)))


def mirrored(duty: Duty) -> Duty:
    """Hot and cold exchanged."""
    return Duty(*(EndTemperatures(-side.inlet, -side.outlet) for side in (duty.cold, duty.hot)))


def meet(one: Enclosure, other: Enclosure) -> bool:
    return one.low <= other.high and other.low <= one.high


@tried(8, 20)
@given(duties())
def test_shells_and_factors_are_those_of_the_mirrored_exchanger(duty: Duty) -> None:
    part = Fraction(9, 10)
    shells = shells_of(duty, part)
    assert meet(shells, shells_of(mirrored(duty), part))
    count = whole_shells(shells)
    factor, other = correction(duty, count), correction(mirrored(duty), count)
    assert factor and other and meet(factor, other)
    assert 0 < factor.low and factor.high <= 1 + Fraction(1, 10 ** 20)
    assert correction_at(duty.ratio, part).low <= factor.high + Fraction(1, 10 ** 20)


@given(duties(), st.fractions(min_value=Fraction(1, 50), max_value=Fraction(49, 50), max_denominator=100))
def test_shells_add_up_along_a_straight_piece(duty: Duty, share: Fraction) -> None:
    middle_hot = duty.hot.low + share * (duty.hot.high - duty.hot.low)
    middle_cold = duty.cold.low + share * (duty.cold.high - duty.cold.low)
    lower = Duty(EndTemperatures(middle_hot, duty.hot.low), EndTemperatures(duty.cold.low, middle_cold))
    upper = Duty(EndTemperatures(duty.hot.high, middle_hot), EndTemperatures(middle_cold, duty.cold.high))
    part = Fraction(9, 10)
    assert meet(shells_of(lower, part) + shells_of(upper, part), shells_of(duty, part))


def test_shells_of_a_case_are_rounded_up_on_each_side_of_the_pinch(pinch: Pinch) -> None:
    found = targets(SMALL.replace(*ONE_TWO), pinch)
    assert found.shells is not None
    assert [near(count, number) for count, number in zip(found.shells.regions, ('0', '4.359'))] == [True, True]
    assert found.shells.shells == 6 and found.parts == 6
    assert found.shells.area.low > found.area.area.high


def test_no_shell_is_larger_than_the_most(pinch: Pinch) -> None:
    case = SMALL.replace('counter-current,,,,exchanger', 'counter-current,,5,m2,shell')
    found = targets(case, pinch)
    assert found.parts == 8
    assert targets(case.replace('m2,shell', 'm2,exchanger'), pinch).parts == 3


@pytest.mark.parametrize(('row', 'factor'), [('recovery,0.1,5', '0.26380'), ('compound,0.1,5', '0.32210'),
                                             ('factor,0.322,', '0.32200'), ('recovery,0,5', '0.20000')])
def test_both_annual_factors_of_books_are_told_apart(row: str, factor: str) -> None:
    data = data_of(SMALL.replace('recovery,0.1,5', row))
    assert abs(data.annual_factor - Fraction(factor)) <= Fraction(1, 2 * 10 ** 5)


def test_installation_and_index_multiply_the_capital(pinch: Pinch) -> None:
    plain = targets(SMALL, pinch).cost.capital
    dear = targets(SMALL.replace('#capital,$,1,,,,', '#capital,$,2.5,600,400,,'), pinch).cost.capital
    assert meet(dear, plain * Fraction(15, 4))


def test_prices_an_hour_need_the_hours_of_a_year(pinch: Pinch) -> None:
    hourly = SMALL.replace('#cost,$/a', '#cost,$/h')
    with pytest.raises(Refused, match='number of hours a year is missing'):
        targets(hourly, pinch)
    found = targets(hourly.replace('recovery,0.1,5,,,', 'recovery,0.1,5,8000,,'), pinch)
    assert found.cost.energy == 3500 * 8000


@pytest.mark.parametrize(('row', 'told'), [
    ('#film,C,0.4,kW/m2K,,,', 'film coefficient of C is missing'),
    ('#law,,,10000,400,0.8,m2', 'cost law of an exchanger is missing'),
    ('#build,,counter-current,,,,exchanger', 'build of an exchanger is missing'),
    ('#capital,$,1,,,,', 'currency of the cost laws is missing'),
    ('#annual,recovery,0.1,5,,,', 'annual factor of the capital is missing'),
    ('#cost,$/a,1000000,,,,', 'case prices: they have no unit')])
def test_what_is_missing_is_refused_by_its_name(row: str, told: str, pinch: Pinch) -> None:
    with pytest.raises(Refused, match=told):
        targets(SMALL.replace(row + '\n', ''), pinch)


def test_two_moneys_are_refused(pinch: Pinch) -> None:
    with pytest.raises(Refused, match=r'two currencies|another currency'):
        targets(SMALL.replace('#capital,$', '#capital,EUR'), pinch)


def test_a_utility_that_the_program_added_is_refused(pinch: Pinch) -> None:
    rows = [row for row in SMALL.split('\n') if not row.startswith(('heater,', '#film,S'))]
    with pytest.raises(Refused, match='HOT: the program added this utility.*heater,NAME,LEVEL'):
        targets('\n'.join(rows), pinch)


def test_curves_that_touch_are_refused_with_their_place(pinch: Pinch) -> None:
    touching = SMALL.replace('contribution,,50', 'contribution,,0')
    with pytest.raises(Refused, match='kW from the cold end the difference is 0 K'):
        targets(touching, pinch)


def test_real_ends_of_a_utility_that_cross_are_refused(pinch: Pinch) -> None:
    with pytest.raises(Refused, match='no area is large enough'):
        targets(SMALL.replace('#range,W,20,30', '#range,W,20,300'), pinch)


def test_units_may_be_mixed(pinch: Pinch) -> None:
    """0.4 kW/m²K in other units, and with a fouling that is given as a resistance or as a coefficient."""
    plain = targets(SMALL, pinch).area.area
    for row in ('#film,C,400,W/(m2 K),,,', '#film,C,1440,kJ/(h m2 °C),,,', '#film,C,0.5,kW/m2K,0.5,m2K/kW,',
                '#film,C,0.5,kW/m2K,2000,W/m2K,'):
        assert meet(targets(SMALL.replace('#film,C,0.4,kW/m2K,,,', row), pinch).area.area, plain)


def test_the_scale_of_a_case_changes_no_area(pinch: Pinch) -> None:
    scaled = SMALL.replace(',200,,', ',2000,,').replace(',150,,', ',1500,,')
    found = targets('#scale,10,,,,,\n' + scaled, pinch)
    assert meet(found.area.area, targets(SMALL, pinch).area.area)
    assert found.cost.energy == 3500


def test_what_is_said_of_areas_is_kept_by_a_case() -> None:
    case = read_case(SMALL)
    assert len(case.basis.cost_rows) == 9
    assert read_case(print_case(case)) == case


@pytest.mark.parametrize(('row', 'cause'), [
    ('#film,H,0.7,kW/m2K,,,', 'a row above says something else'), ('#film,K,x,kW/m2K,,,', 'x is not a number'),
    ('#film,,0.7,kW/m2K,,,', 'the source is missing'), ('#law,pump,,1,1,1,m2', 'not a kind of exchanger'),
    ('#law,,X,1,1,2,m2', 'the exponent 2 is above 1'), ('#build,cooler,1-2,,,,shell', 'as 0.9'),
    ('#range,W,20,30,,,', 'unit of temperature is missing'),
    ('#film,K,,kW/m2K,,,', 'film coefficient is missing'),
    ('#law,cooler,,1,,1,m2', 'the factor is missing'), ('#law,cooler,,1,1,,m2', 'the exponent is missing')])
def test_a_row_that_says_what_cannot_be_is_refused(row: str, cause: str) -> None:
    with pytest.raises(Refused, match=cause):
        read_case(SMALL + row + '\n')


@pytest.mark.parametrize(('annual', 'cause'), [
    ('recovery,10,5,', '10 % are 0.1'), ('recovery,1,5,', 'an interest of 1 is 100 % or more'),
    ('recovery,-0.1,5,', 'at least 0'), ('recovery,0.1,0,', 'whole, 1 to 100'), ('recovery,0.1,,', 'years is missing'),
    ('recovery,,5,', 'interest is missing'), ('recovery,0.1,5,87600', 'a year has at most 8784 hours'),
    ('factor,0.1,5,', 'an annual factor has no years'), ('factor,5,,', 'above 1, more than the whole capital'),
    ('factor,,,', 'annual factor is missing'), ('recovery,0.1,5,0', 'hours a year has to be above 0')])
def test_a_cost_of_a_year_that_may_be_another_one_is_refused(annual: str, cause: str) -> None:
    with pytest.raises(Refused, match=cause):
        read_case(SMALL.replace('recovery,0.1,5,', annual))


@pytest.mark.parametrize(('fouling', 'cause'), [
    ('0,kW/m2K', 'no fouling is a resistance of 0'), ('-1,m2K/kW', 'the fouling is -1, and has to be at least 0'),
    ('0.5,', 'the fouling 0.5 has no unit'), ('0.5,kW', 'kW` is not a unit of fouling, as m2K/kW or kW/m2K')])
def test_a_fouling_that_is_none_is_refused(fouling: str, cause: str) -> None:
    with pytest.raises(Refused, match=cause):
        assert data_of(SMALL.replace('#film,C,0.4,kW/m2K,,', f'#film,C,0.4,kW/m2K,{fouling}')).films


def test_a_fouling_of_0_is_none() -> None:
    films = data_of(SMALL.replace('#film,C,0.4,kW/m2K,,', '#film,C,0.4,kW/m2K,0,m2K/W')).films
    assert films == data_of(SMALL).films


@pytest.mark.parametrize(('row', 'cause'), [
    ('#film,K,0.7,kW/m2K,,,', 'no such source'), ('#range,H,20,30,C,,', 'it is not a utility'),
    ('#range,S,20,30,C,,', 'a hot utility cools down'),
    ('#overall,H,1,kW/K,C,,', 'kW/K` is not a unit of film or overall coefficients, as kW/m2K'),
    ('#overall,H,1,,,,', 'the overall coefficient 1 has no unit'),
    ('#overall,H,0,kW/m2K,,,', 'the overall coefficient is 0, and has to be above 0')])
def test_a_row_that_does_not_fit_its_case_is_refused(row: str, cause: str) -> None:
    data = data_of(SMALL + row + '\n')
    with pytest.raises(Refused, match=cause):
        assert data.films and data.ranges and data.overalls


def area_of(case: str, pinch: Pinch) -> AreaTarget:
    return area_target(data_of(case), uses_of(case, pinch))


@tried(4, 15)
@given(plants(), st.lists(st.fractions(min_value=0, max_value=1, max_denominator=1000), max_size=4))
def test_a_finer_cut_changes_nothing(pinch: Pinch, case: str, shares: list[Fraction]) -> None:
    found = area_of(case, pinch)
    whole = max(area.interval.end for area in found.intervals)
    cut = [piece for area in found.intervals for piece in cut_at(area.interval, [share * whole for share in shares])]
    finer = total(interval_area(interval).area for interval in cut)
    assert meet(finer, found.area)
    assert found.area.high - found.area.low < found.area.low / 10 ** 20


def cut_at(interval: HeatInterval, places: list[Fraction]) -> list[HeatInterval]:
    """An interval in pieces that end at these places."""
    ends = sorted({interval.begin, interval.end, *(place for place in places if interval.begin < place < interval.end)})
    return [HeatInterval(begin, end, between(interval, interval.hot, begin, end),
                         between(interval, interval.cold, begin, end), interval.resistance, interval.sources)
            for begin, end in zip(ends, ends[1:])]


def between(interval: HeatInterval, side: EndTemperatures, *places: Fraction) -> EndTemperatures:
    return EndTemperatures(*(side.low + (place - interval.begin) / interval.heat * (side.high - side.low)
                             for place in places))


@tried(4, 15)
@given(plants())
def test_the_area_in_whole_numbers_is_the_same(pinch: Pinch, case: str) -> None:
    check_quick_area(case, pinch)


@pytest.mark.parametrize('case', [SMALL, AROMATICS])
def test_the_area_in_whole_numbers_is_that_of_plants_with_ranges(pinch: Pinch, case: str) -> None:
    check_quick_area(case, pinch)


def check_quick_area(case: str, pinch: Pinch) -> None:
    members = carriers(data_of(case), uses_of(case, pinch))
    target, part = target_of(members), Fraction(9, 10)
    shells = total(shells_of(duty_of_interval(area.interval), part) * (area.interval.sources - 1)
                   for area in target.intervals)
    for found, slow in ((quick_area(members), target.area), (quick_one_two(members, part), one_two_area(target, part)),
                        (quick_shells(members, part), shells)):
        assert found and meet(found, slow) and found.high - found.low <= found.low / 10 ** 20


def test_curves_that_touch_have_no_area_in_whole_numbers(pinch: Pinch) -> None:
    touching = SMALL.replace('contribution,,50', 'contribution,,0')
    assert quick_area(carriers(data_of(touching), uses_of(touching, pinch))) is None


@tried(4, 15)
@given(plants())
def test_mirroring_hot_and_cold_changes_nothing(pinch: Pinch, case: str) -> None:
    members = carriers(data_of(case), uses_of(case, pinch))
    mirror = intervals_of([mirrored_carrier(member) for member in members])
    assert meet(total(interval_area(interval).area for interval in mirror), target_of(members).area)


def mirrored_carrier(carrier: Carrier) -> Carrier:
    side = Side.COLD if carrier.source.side is Side.HOT else Side.HOT
    source = Stream(carrier.source.name, side, 0, 0, 0, 0, 0)
    return Carrier(source, EndTemperatures(-carrier.ends.inlet, -carrier.ends.outlet), carrier.heat, carrier.resistance)


@tried(4, 15)
@given(plants(equal=True), st.integers(1, 200))
def test_a_warmer_hot_utility_never_raises_the_area(pinch: Pinch, case: str, warmer: int) -> None:
    """With equal films and the same uses."""
    warm = case.replace('heater,S,4500', f'heater,S,{4500 + warmer}')
    uses = uses_of(case, pinch)
    assert area_target(data_of(warm), uses).area.low <= area_target(data_of(case), uses).area.high


def test_a_latent_stream_is_a_flat_piece(pinch: Pinch) -> None:
    """A vapour of 100 °C that gives 100 kW to a boiling liquid of 60 °C: 100/(0.25 · 40) = 10 m²."""
    case = costed_case(10, '', 'S 200 200 100 2', 'W 20 20 10 1', 'hot,V,1000,1000,0,100000,',
                       'cold,B,600,600,0,100000,', '#film,V,0.5,kW/m2K,,,', '#film,B,0.5,kW/m2K,,,')
    assert Fraction(10) in area_of(case, pinch).area


@pytest.mark.parametrize('name', ['four-stream', 'tc3', 'two-reactors', 'column', 'own-contributions'])
def test_units_are_those_of_the_word(name: str, pinch: Pinch) -> None:
    case = example(f'{name}.csv')
    counted, flow = least_units(case, pinch), pinch.uses(case)
    assert isinstance(counted, Units) and isinstance(flow, HeatFlow)
    found = unit_target(counted.case, counted.targets, flow)
    assert found.regions == tuple(region.region for region in counted.at_pinches)
    assert found.units == sum(region.least for region in counted.at_pinches)


def test_the_remarks_say_what_a_target_leaves_out(pinch: Pinch) -> None:
    found = targets(SMALL + '#law,heater,,1,1,1,m2\n#overall,S,0.9,kW/m2K,,,\n', pinch)
    assert [remark.split(':')[0] for remark in found.remarks] == [
        'the cost laws of heater are those of single exchangers']


def test_a_target_has_the_law_of_the_material_that_all_streams_have(pinch: Pinch) -> None:
    steel = SMALL + '#material,H,SS,,,,\n#material,C,SS,,,,\n#law,,SS,0,1,1,m2\n'
    found = targets(steel, pinch)
    assert meet(found.cost.capital, found.area.area) and near(found.cost.capital, '39.704')
    assert near(targets(steel.replace('C,SS', 'C,CU'), pinch).cost.capital, '39474')
    assert meet(supertarget(steel, 50, 50, 1, pinch).points[0].cost.capital, found.cost.capital)


def test_a_case_in_units_of_its_own_has_the_same_area(pinch: Pinch) -> None:
    """The small case in tenths of °F and in Btu/h with the same numbers for CPs, so that all heats are 1.8 times as
    many, in Btu/h."""
    def fahrenheit(tenths: str) -> str:
        return str(int(tenths) * 18 // 10 + 320)

    rows = [row.split(',') for row in SMALL.split('\n') if row]
    for row in rows:
        if row[0] in ('hot', 'cold'):
            row[2:4] = fahrenheit(row[2]), fahrenheit(row[3])
        elif row[0] in ('heater', 'cooler'):
            row[2] = fahrenheit(row[2])
        elif row[0] == 'contribution':
            row[2] = str(int(row[2]) * 18 // 10)
    text = ''.join(f'{",".join(row)}\n' for row in [['#units', '°F', 'Btu/h', '65941/225000', '10', '0', '1'], *rows])
    case = completed(read_case(text))
    flow = pinch.uses(case)
    assert isinstance(flow, HeatFlow)
    data, uses = CostData(case), {use.name: use.heat for use in flow.uses}
    share = Fraction(65941, 225000) * Fraction(9, 5)
    assert meet(area_target(data, uses).area, targets(SMALL, pinch).area.area * share)
    assert data.kelvins(18) == 1 and data.tenths(2120) == 1000


# The formula as an integral, by floats and in a way of its own.

FOUR = costed_case(13, 'H1 175 45 10 .2, H2 125 65 40 .2, C3 20 155 20 .2, C4 40 112 15 .2', 'S/3 180 179 120 .2',
                   'CW/3 15 25 10 .2', *law_rows('30000', '750', '0.81', 'compound', '0.1', '5'))
SLICES = 4000


@pytest.mark.parametrize(('case', 'hot', 'cold'), [(SMALL, 30, 50), (AROMATICS, None, None), (FOUR, 360, 280)])
def test_the_formula_is_the_integral_of_resistance_over_difference(case: str, hot: int | None, cold: int | None,
                                                                   pinch: Pinch) -> None:
    """Case 4S1 of Shenoy (1995) has the targets 360 and 280 kW at 13 K."""
    found = targets(case, pinch)
    if hot:
        assert [use.heat for use in found.flow.uses] == [hot * 1000, cold * 1000 if cold else 0]
    lines = [by_heat(found.data.case.sources, side, case, pinch) for side in (Side.HOT, Side.COLD)]
    whole = lines[0][-1][0]
    places = [whole * (at + 0.5) / SLICES for at in range(SLICES)]
    sides = [[at_heat(line, place) for place in places] for line in lines]
    area = sum(whole / SLICES * (above[1] + below[1]) / (above[0] - below[0]) for above, below in zip(*sides))
    assert abs(area / float(found.area.area.middle) - 1) < 2e-4


Corner = tuple[float, float, float]


def by_heat(sources: Sequence[Source], side: Side, case: str, pinch: Pinch) -> list[Corner]:
    """A composite curve as corners: the heat below it in W, its temperature in °C, and the mean resistance of a watt of
    the piece that ends there."""
    data, uses = data_of(case), uses_of(case, pinch)
    parts = [(float(data.ends(source).low) / 10, float(data.ends(source).high) / 10,
              float(source.heat if isinstance(source, Stream) else uses[source.name]), float(data.resistance(source)))
             for source in sources if source.side is side]
    parts = [(low, high if high > low else low + 1e-6, heat, film) for low, high, heat, film in parts if heat]
    ends = sorted({end for low, high, _, _ in parts for end in (low, high)})
    corners: list[Corner] = [(0.0, ends[0], 0.0)]
    for low, high in zip(ends, ends[1:]):
        inside = [(heat / (end - begin) * (high - low), film) for begin, end, heat, film in parts
                  if begin <= low and high <= end]
        whole = sum(heat for heat, _ in inside)
        mean = sum(heat * film for heat, film in inside) / whole if whole else 0.0
        corners.append((corners[-1][0] + whole, high, mean))
    return corners


def at_heat(corners: Sequence[Corner], place: float) -> tuple[float, float]:
    """The temperature and the resistance at a place along the axis of heat."""
    at = next(at for at, corner in enumerate(corners) if corner[0] >= place)
    (begin, low, _), (end, high, film) = corners[at - 1], corners[at]
    return low + (place - begin) / (end - begin) * (high - low), film


# Coefficients of pairs.

def by_pairs(case: str) -> str:
    """The case with an overall coefficient for each pair, as its films make it."""
    data = data_of(case)
    sources = data.case.sources
    rows = [f'#overall,{hot.name},{data.coefficient(hot, cold)},W/m2K,{cold.name},,' for hot in sources
            for cold in sources if (hot.side, cold.side) == (Side.HOT, Side.COLD)]
    return ''.join(f'{row}\n' for row in (*case.split('\n'), *rows) if row and not row.startswith('#film'))


@tried(4, 15)
@given(plants())
def test_coefficients_of_pairs_that_films_make_give_the_area_of_the_films(pinch: Pinch, case: str) -> None:
    found = area_of(by_pairs(case), pinch)
    assert meet(found.area, area_of(case, pinch).area)


def test_parts_of_an_interval_meet_in_proportion_to_their_heats(pinch: Pinch) -> None:
    """100 kW at 30 K on both ends, half of it at 1, half at 0.5 kW/m²K: 50/30 + 50/15 = 5 m²."""
    case = costed_case(10, 'H1 100 50 1, H2 100 50 1, C 20 70 2', 'S 200 200 100', 'W 5 5 10',
                       *law_rows('10000', '400', '0.8', 'factor', '0.2'), '#overall,H1,1,kW/m2K,,,',
                       '#overall,H2,0.5,kW/m2K,,,')
    found = targets(case, pinch)
    assert Fraction(5) in found.area.area and not found.area.bound
    assert found.remarks[0].startswith('pairs that could meet have several coefficients')


def test_one_coefficient_for_all_is_a_bound_and_the_floor(pinch: Pinch) -> None:
    case = ''.join(f'{row}\n' for row in SMALL.split('\n') if row and not row.startswith('#film'))
    found = targets(case + '#overall,,250,W/m2K,,,\n', pinch)
    assert found.area.bound and not found.remarks
    floor = area_floor(found.data, uses_of(case, pinch))
    assert floor.slice is None and floor.area == found.area.area.low


def test_what_a_target_has_no_regard_to_is_said(pinch: Pinch) -> None:
    """Steam of 200 °C that leaves at 145: H gives 190 kW up to there, H and steam 12.727 kW from 145 to 150 °C, where C
    has 152.727 kW and 141.818 °C."""
    close = targets(SMALL.replace('heater,S,2000,0', '#range,S,200,145,C,,\nheater,S,2000,0'), pinch)
    assert close.remarks == ('utility S: with its real ends the balanced curves come within 8.18 K at 202.727 kW from '
                             'the cold end, and 10 K are needed',)
    assert not targets(SMALL, pinch).remarks
    forbidding = targets(SMALL + 'forbid,S,W,,,,\n', pinch)
    assert forbidding.remarks[0].startswith('the area by the formula has no regard to forbidden matches')
    with pytest.raises(Refused, match='case #range of S: `X` is not a unit of temperature, as C, K or F'):
        targets(SMALL.replace('heater,S,2000,0', '#range,S,200,145,X,,\nheater,S,2000,0'), pinch)
