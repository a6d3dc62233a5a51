"""Areas, shells and costs as they are published. What a source rounds is within its rounding; where one of its numbers
cannot be right, the test says which. The sources were not at hand: all of it is from notes or from memory."""
from __future__ import annotations

from fractions import Fraction

import pytest
from conftest import of_all
from costed import AROMATICS, costed_case, data_of, law_rows, near, targets

from pinchdesk import Pinch
from pinchdesk.costs.area_floor import area_floor
from pinchdesk.costs.area_target import area_target
from pinchdesk.costs.cost_data import EndTemperatures
from pinchdesk.costs.network_areas import network_areas
from pinchdesk.costs.network_costs import network_costs
from pinchdesk.costs.shells import Duty, correction, shells_of, whole_shells
from pinchdesk.costs.supertarget import Supertarget, supertarget

# CPs in kW/K are a thousandth of the book's MW/K, so that everything but the charges is a thousandth.
REACTORS = costed_case(10, 'H1 250 40 150 1, H2 200 80 250 0.8, C1 20 180 200 0.6, C2 140 230 300 0.8',
                       'S 240 239 120 3', 'CW 20 30 10 1', *law_rows('40000', '500', '1', 'recovery', '0.1', '5'))


def test_two_reactors_as_in_smith_2005(pinch: Pinch) -> None:
    """Chapter 17: 7,410 m², 3.985 million of capital, 1.051 million of it a year, 1.0 million of energy."""
    found = targets(REACTORS, pinch)
    assert near(found.area.area, '7410')
    assert found.units == 7
    assert near(found.cost.capital / 10 ** 6, '3.985')
    assert near(found.cost.capital_a_year / 10 ** 6, '1.051')
    assert found.cost.energy == 1_000_000


def test_two_reactors_in_1_2_shells(pinch: Pinch) -> None:
    """As the guide has it; by a second program 9,608.947 m² and 10.62 and 6.65 shells on the sides of the pinch."""
    shells = targets(REACTORS.replace('counter-current,,,,exchanger', '1-2,0.9,,,shell'), pinch).shells
    assert shells and shells.shells == 18 and near(shells.area, '9608.95')
    assert [near(count, number) for count, number in zip(shells.regions, ('10.62', '6.65'))] == [True, True]


@pytest.fixture(scope='module')
def reactors(pinch: Pinch) -> Supertarget:
    return supertarget(REACTORS, 10, 70, 10, pinch)


@pytest.mark.parametrize(('difference', 'hot', 'cold', 'area', 'capital', 'whole'), [
    (2, '4.3', '6.8', '15519', '2.121', '2.705'), (4, '5.1', '7.6', '11677', '1.614', '2.302'),
    (6, '5.9', '8.4', '9645', '1.346', '2.138'), (8, '6.7', '9.2', '8336', '1.173', '2.069'),
    (10, '7.5', '10.0', '7410', '1.051', '2.051'), (12, '8.3', '10.8', '6716', '0.960', '2.064'),
    (14, '9.1', '11.6', '6174', '0.888', '2.096')])
def test_two_reactors_over_the_least_difference(difference: int, hot: str, cold: str, area: str, capital: str,
                                                whole: str, reactors: Supertarget) -> None:
    """Smith 2005, chapter 17, the table of the costs over ΔTmin: MW, m², and millions a year."""
    point = next(point for point in reactors.points if point.difference == difference)
    assert (point.hot, point.cold) == (Fraction(hot) * 10 ** 6, Fraction(cold) * 10 ** 6) and point.units == 7
    assert near(point.area, area) and near(point.cost.capital_a_year / 10 ** 6, capital)
    assert near(point.cost.whole / 10 ** 6, whole)


def test_the_least_cost_of_two_reactors_is_at_ten_kelvin(reactors: Supertarget) -> None:
    """Smith 2005 says 10 °C, by steps of 2 °C."""
    assert abs(reactors.least.point.difference - 10) < Fraction(1, 10)


def test_four_streams_of_shenoy_1995(pinch: Pinch) -> None:
    """Case 4S1 at 20 °C: 605 and 525 kW, and 1,312.6 m² counter-current. The book writes 0.322 for 1.1⁵/5."""
    case = costed_case(20, 'H1 175 45 10 .2, H2 125 65 40 .2, C3 20 155 20 .2, C4 40 112 15 .2',
                       'S/10 180 179 120 .2', 'CW/10 15 25 10 .2',
                       *law_rows('30000', '750', '0.81', 'compound', '0.1', '5'))
    found = targets(case, pinch)
    assert [use.heat for use in found.flow.uses] == [605_000, 525_000]
    assert near(found.area.area, '1312.6') and found.data.annual_factor == Fraction('0.322102')


def test_the_aromatics_plant_of_linnhoff_and_ahmad_1990(pinch: Pinch) -> None:
    """Worked by a second program; what the paper has is not sure."""
    found = targets(AROMATICS, pinch)
    assert near(found.area.area, '16984')
    assert found.units == 15


def test_unequal_films_of_colberg_and_morari_1990() -> None:
    """Two hot and two cold streams with 620 kW of steam, 230 kW of water and no least difference: 258.8 m² is the least
    area. The formula has more, and the floor comes up to it with finer slices."""
    data = data_of(costed_case(0, 'H1 122 70 4 2, H2 132 15 6 .2, C1 20 220 5 2, C2 80 110 10 .2', 'S 247 247 1 2',
                               'W 5 15 1 2'))
    uses = {'S': 620_000, 'W': 230_000}
    assert near(area_target(data, uses).area, '295.7')
    width, least = of_all((10, 188), (1, 251))
    assert least < area_floor(data, uses, 60, Fraction(width)).area < Fraction('258.8')


# The network of example 1 of Yee and Grossmann (1990), whose splits are not mixed at one temperature. The duties are
# published; of H1 and C1 as much goes to E1 and to E3 as gives their areas.
YEE = costed_case(1, 'H1 170 60 30, H2 150 30 15, C1 20 135 20, C2 80 140 40', 'S 177 177 80', 'W 20 40 20',
                  *law_rows('0', '1000', '0.6', 'factor', '1'), '#law,heater,,0,1200,0.6,m2',
                  '#overall,,0.8,kW/m2K,,,', '#overall,S,1.2,kW/m2K,,,')
YEE_NETWORK = '''exchanger E1 H1 C2 2400000
exchanger E2 H1 C1 271200
exchanger E3 H2 C1 1400000
exchanger E4 H1 C1 628800
exchanger W1 H2 W 400000
split H1 a 13743/5 b
pass a E1 c
pass b E2 d
mix c d e
pass e E4 f
end f
pass H2 E3 g
pass g W1 h
end h
pass C1 E4 i
split i j 17043/10 k
pass j E3 l
pass k E2 m
mix l m n
end n
pass C2 E1 o
end o
'''


def test_a_network_of_yee_and_grossmann_1990(pinch: Pinch) -> None:
    """Five areas as published; two of them come out by the splits, three by themselves. The published 80,274 $ a year
    is 1.5 $ less than these areas cost, and 5.6 $ more than they cost as they are rounded: so it is of other splits."""
    found = network_costs(YEE, YEE_NETWORK, pinch)
    areas = {priced.exchanger.name: priced.exchanger.area for priced in found.prices}
    published = {'E1': '265.1', 'E2': '19.3', 'E3': '179.0', 'E4': '22.8', 'W1': '38.3'}
    assert [near(areas[name], area) for name, area in published.items()] == [True] * 5
    assert found.cost.energy == 8000 and near(found.cost.whole, '80275.5')
    other = YEE_NETWORK.replace('13743/5', '2750').replace('17043/10', '1703')
    assert near(network_costs(YEE, other, pinch).cost.whole, '80274')


# Single exchangers.

def exchanger(hot_in: str, hot_out: str, cold_in: str, cold_out: str) -> Duty:
    """Ends in any degrees."""
    return Duty(*(EndTemperatures(10 * Fraction(inlet), 10 * Fraction(outlet))
                  for inlet, outlet in ((hot_in, hot_out), (cold_in, cold_out))))


@pytest.mark.parametrize(('ends', 'mean', 'factor'), [
    ('100 50 0 50', '50', '0.80'), ('93 85 75 80', '11.4', '0.947'), ('150 90 68 90', '37.9', '0.81')])
def test_log_means_and_factors_of_one_shell(ends: str, mean: str, factor: str) -> None:
    """Bowman, Mueller and Nagle (1940): R = 1 and P = 0.5 have 0.80. Kern (1950), chapter 7, in °F: raw and distilled
    water have 11.4 and 0.945, which is read from a chart; a solution of phosphate and water 37.9 and 0.81."""
    duty = exchanger(*ends.split())
    found = correction(duty, 1)
    assert near(duty.mean, mean) and found and near(found, factor)


@pytest.mark.parametrize(('ends', 'mean', 'factor', 'printed'), [
    ('390 200 100 170', '152.2', '0.892', ('152.5', '0.905')), ('95 40 25 40', '30.8', '0.812', ('31', '0.85'))])
def test_numbers_of_books_that_cannot_be_right(ends: str, mean: str, factor: str, printed: tuple[str, str]) -> None:
    """Kern (1950), kerosene and crude oil, has 152.5 °F, where it is 120/ln 2.2, and reads 0.905 from a chart. Coulson
    and Richardson, volume 6, methanol and water, round to 31 °C, and read 0.85 at an S of 0.21 for 3/14."""
    duty = exchanger(*ends.split())
    found = correction(duty, 1)
    assert near(duty.mean, mean) and found and near(found, factor)
    assert (near(duty.mean, printed[0]), near(found, printed[1])) in ((False, False), (True, False))


def test_equal_flows_are_no_case_of_their_own() -> None:
    """R = 1, P = 0.5, by hand."""
    duty = exchanger('100', '50', '0', '50')
    factor = correction(duty, 1)
    assert near(shells_of(duty, Fraction(9, 10)), '0.897') and factor and near(factor, '0.8023')


def test_shells_and_area_of_a_textbook_exchanger() -> None:
    """Smith 2005, chapter 15: 3.5 MW from 300 to 100 °C into 60 to 200 °C at 100 W/m²K and X = 0.9 need 2.33 shells by
    W = 0.6748, so three. The rest by hand: R = 10/7, P = 7/12, LM 60/ln 2.5 = 65.481 K; (1-RP)/(1-P) is 0.4, its third
    root 0.736806, so p of one shell is 0.263194/0.691765 = 0.380467; s = 1.743790, LM(1-p, 1-Rp) = 0.533844,
    ln(1.739463/0.412554) = 1.438964, Ft = 0.663455/0.768182 = 0.8637, and 35,000/(65.481 Ft) is 618.9 m²."""
    duty = exchanger('300', '100', '60', '200')
    shells = shells_of(duty, Fraction(9, 10))
    assert near(shells, '2.33') and whole_shells(shells) == 3 and near(duty.mean, '65.481')
    factor = correction(duty, 3)
    assert factor and abs(factor.middle - Fraction('0.86365')) < Fraction(5, 10 ** 5)
    assert near(35000 / (factor * duty.mean), '618.9')


# Exchangers with films and fouling, through a case and a network.

ONE = 'exchanger E {hot} {cold} {heat}\npass {hot} E a\nend a\npass {cold} E b\nend b\n'


def test_the_double_pipe_of_kern_1950(pinch: Pinch) -> None:
    """Example 6.1: toluene 160 to 100 °F warms benzene 80 to 120 °F by 167,000 Btu/h; films of 323 and 276 Btu/(h ft²
    °F) and 0.001 of fouling on each make 115; the surface is 50.5 ft². Its log mean of 28.8 °F is 20/ln 2, 28.854,
    cut off. CPs are in 5/3."""
    case = '#units,°F,Btu/h,65941/225000,10,0,6\n#build,,counter-current,,,,exchanger\ncontribution,,100,,,,\n' \
           'hot,TOL,1600,1000,1670,,\ncold,BEN,800,1200,2505,,\n#film,TOL,323,Btu/(h ft2 °F),0.001,h ft2 °F/Btu,\n' \
           '#film,BEN,276,Btu/h-ft2-F,0.001,h ft2 F/Btu,\n'
    exchanger = network_areas(case, ONE.format(hot='TOL', cold='BEN', heat=6 * 167_000), pinch).exchangers[0]
    foot = Fraction('0.3048')
    assert near(exchanger.mean * Fraction(9, 5), '28.9') and near(exchanger.area / foot ** 2, '50.5')
    assert exchanger.coefficient
    assert round(exchanger.coefficient * 3600 * foot ** 2 / Fraction('1055.056') * Fraction(5, 9)) == 115


def test_the_multipass_exchanger_of_cengel(pinch: Pinch) -> None:
    """Chapter 11, glycerin 20 to 50 °C by water 80 to 40 °C in two shell passes and four tube passes: 24.7 °C and a
    factor of 0.91 from a chart; films of 160 and 25 make 21.6, with a fouling of 0.0006 m²K/W on one side 21.3
    W/(m²K), and 3.77 m² pass 1,830 and 1,805 W."""
    duty = exchanger('80', '40', '20', '50')
    factor = correction(duty, 2)
    assert near(duty.mean, '24.7') and factor and near(factor, '0.91')
    for fouling, coefficient, heat in (('', '21.6', 1830), ('0.0006', '21.3', 1805)):
        case = costed_case(10, 'W 80 40 0.6, G 20 50 0.8', '', '', '#film,W,160,W/m2K,,,',
                           f'#film,G,25,W/m2K,{fouling},{"m2K/W" if fouling else ""},',
                           *law_rows('0', '1', '1', 'factor', '1'))
        found = network_areas(case, ONE.format(hot='W', cold='G', heat=24_000), pinch).exchangers[0]
        assert found.coefficient and abs(found.coefficient - Fraction(coefficient)) < Fraction(1, 20)
        # The example rounds the factor, the coefficient and the mean.
        passed = Fraction('3.77') * found.coefficient * (factor * duty.mean).middle
        assert abs(passed / heat - 1) < Fraction(1, 200)


def test_the_condenser_and_the_oil_cooler_of_incropera(pinch: Pinch) -> None:
    """Chapter 11. Steam of 50 °C condenses and warms water from 20 °C by 2·10⁹ W, 30,000 kg/s at 4,179 J/(kg K) to
    36.0 °C: the log mean is 21.0 °C, films of 7,552 and 11,000 make 4,478 W/(m²K), and 30,000 tubes of 25 mm with two
    passes are 4.51 m long; here a thousandth of all. Oil is cooled from 100 to 60 °C by water from 30 to 40.2 °C:
    43.2 °C."""
    water = Fraction(2 * 10 ** 9, 30_000 * 4179)
    duty = exchanger('50', '50', '20', str(20 + water))
    assert near(duty.mean, '21.0') and near(exchanger('100', '60', '30', '40.2').mean, '43.2')
    case = costed_case(10, '', '', '', 'hot,S,500,500,0,2000000,', 'cold,W,200,360,12500,,',
                       '#film,S,11000,W/m2K,,,', '#film,W,7552,W/m2K,,,', *law_rows('0', '1', '1', 'factor', '1'))
    found = network_areas(case, ONE.format(hot='S', cold='W', heat=2 * 10 ** 6), pinch).exchangers[0]
    assert found.coefficient and round(found.coefficient) == 4478
    assert near(found.area / (30 * 2 * Fraction('3.14159265') * Fraction('0.025')), '4.51')


@pytest.mark.parametrize(('interest', 'years', 'factor'), [
    ('0.06', 20, '0.08718'), ('0.08', 10, '0.14903'), ('0.12', 15, '0.14682'), ('0.1', 5, '0.26380')])
def test_capital_recovery_factors_are_those_of_tables(interest: str, years: int, factor: str) -> None:
    """(A/P, i, n) of any book on engineering economy."""
    case = REACTORS.replace('recovery,0.1,5', f'recovery,{interest},{years}')
    assert abs(data_of(case).annual_factor - Fraction(factor)) < Fraction(1, 2 * 10 ** 5)
