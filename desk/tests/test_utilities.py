"""The word `utilities`: numbers worked by hand and published ones; the program agrees that what is exact is neither
more nor less; and what is no flue gas, heat pump or steam is refused."""
from __future__ import annotations

from dataclasses import replace
from decimal import Decimal
from fractions import Fraction
from math import ceil, floor
from pathlib import Path
from types import SimpleNamespace

import numpy
import pytest
from conftest import example, pinchdesk
from hypothesis import assume, given
from hypothesis import strategies as some
from looking import cut_off, lines_named, overlapping, pale, svg_texts

from pinchdesk import Case, Pinch, Side, Stream, WordsError, print_case, read
from pinchdesk.analysis.flue_gas import FlueGas, furnace
from pinchdesk.analysis.grand_curve import GrandCurve
from pinchdesk.analysis.heat_pump import HeatPump, pumped_heat
from pinchdesk.analysis.utility_targets import UtilityTargets
from pinchdesk.errors import Status
from pinchdesk.figures import beside_curve_figure
from pinchdesk.formats.shown import Shown
from pinchdesk.program.answers import Point
from pinchdesk.report.sheet import Cell
from pinchdesk.words.draw_word import beside_curve
from pinchdesk.words.page_word import PageOptions, page
from pinchdesk.words.utilities_word import UtilitiesOptions, found_utilities, utilities
from pinchdesk.words.word import Answer, Files, TextFile

FOUR = example('four-stream.csv')
COLD = b"""contribution,,50,,,,
hot,gas,300,-500,100,,
cold,feed,-300,100,50,,
cold,product,400,900,20,,
heater,S,1500,0,1000000000000,1,
cooler,CW,250,0,1000000000000,1,
cooler,R1,-200,0,1000000000000,2,
cooler,R2,-600,0,1000000000000,5,
"""
# Nothing takes what is too cold for R1.
SHORT = COLD.replace(b'R2,-600,0,1000000000000', b'R2,-600,0,0')


def files_of(content: bytes) -> Files:
    return Files({'case': (TextFile('case.csv', content),)})


def answered(content: bytes, **said: str) -> Answer:
    return utilities(files_of(content), UtilitiesOptions(**said))


def facts_of(content: bytes, **said: str) -> dict[str, Cell]:
    return {fact.name: fact.value for fact in answered(content, **said).facts[0]}


def refused(content: bytes, **said: str) -> str:
    with pytest.raises(WordsError) as fault:
        answered(content, **said)
    return str(fault.value)


def test_without_options_there_is_the_curve() -> None:
    targets, curve = answered(FOUR).sheets
    assert [row[1] for row in targets.rows] == [20, 60, 85]
    assert [f'{row[0]} {row[1]}' for row in curve.rows] == ['165 20', '145 80', '140 82.5', '85 0', '55 75', '25 60']
    assert curve.headings == ('shifted °C', 'kW')


def test_a_flue_gas_of_four_streams_by_hand() -> None:
    """Down to the pinch, 90 °C of the flue gas, 20 kW are needed over 910 K; nothing above it needs a greater CP."""
    facts = facts_of(FOUR, flame='1000', stack='80', ambient='20')
    assert facts['flue gas CP'] == Decimal('0.022') and facts['flue gas touches the curve at, shifted'] == 85
    assert facts['flue gas leaves at'] == 90
    assert facts['fuel'] == Decimal('21.538') and facts['stack loss'] == Decimal('1.538')
    assert facts['furnace efficiency'] == Decimal('92.86')
    higher = facts_of(FOUR, flame='1000', stack='120', ambient='20')
    assert higher['flue gas touches the curve at, shifted'] == 'the stack' and higher['flue gas leaves at'] == 120
    assert higher['furnace efficiency'] == Decimal('89.8')


def test_a_flue_gas_may_touch_the_curve_away_from_the_pinch() -> None:
    """Down to 195 °C shifted these two reactors need 4.5 MW of 7.5; a flame of 260 °C has 60 K down to there."""
    facts = facts_of(example('two-reactors.csv'), flame='400', stack='150', ambient='20')
    assert facts['flue gas touches the curve at, shifted'] == 145
    facts = facts_of(example('two-reactors.csv'), flame='260', stack='150', ambient='20')
    assert facts['flue gas touches the curve at, shifted'] == 195 and facts['flue gas CP'] == 75
    assert facts['flue gas leaves at'] == 160


def test_a_published_furnace() -> None:
    """Smith (2005), chapter 16, from memory: a flame of 1800 °C, a dew point of 160 °C that the pinch of the process
    keeps the flue gas above, 25 K for the flue gas, 10 °C outside: 8.24 MW of fuel, 0.74 MW lost, 91 %."""
    facts = facts_of(example('two-reactors.csv'), flame='1800', stack='160', ambient='10', flue_contribution='25')
    assert (facts['fuel'], facts['stack loss']) == (Decimal('8236.196'), Decimal('736.196'))
    assert facts['furnace efficiency'] == Decimal('91.06') and facts['flue gas leaves at'] == 170


def test_a_heat_pump_of_four_streams_by_hand() -> None:
    """From 70 to 95 °C shifted: 15/30 of 75 kW may be taken, 10/55 of 82.5 kW be replaced. By Carnot 373.15/35 is
    10.661, half of it 5.331, and 15 kW need 15/5.331 = 2.814 kW."""
    facts = facts_of(FOUR, pump_from='65', pump_to='100', pump_efficiency='0.5')
    assert facts['pump evaporates at, shifted'] == 70 and facts['heat that can be taken there'] == Decimal('37.5')
    assert facts['pump condenses at, shifted'] == 95 and facts['hot utility that it can replace there'] == 15
    assert facts['pump performance, estimate'] == Decimal('5.331')
    assert facts['pump work, estimate'] == Decimal('2.814') and facts['saved hot utility, estimate'] == 15
    assert facts['saved cold utility, estimate'] == Decimal('12.186')


@pytest.mark.parametrize('low, high', [('95', '120'), ('40', '80'), ('80', '120'), ('40', '90')])
def test_a_heat_pump_that_does_not_cross_the_pinch_saves_nothing(low: str, high: str) -> None:
    answer = answered(FOUR, pump_from=low, pump_to=high, pump_efficiency='60 %')
    facts = {fact.name: fact.value for fact in answer.facts[0]}
    assert facts['saved hot utility, estimate'] == facts['saved cold utility, estimate'] == 0
    assert answer.headline == 'the heat pump does not work across the pinch, from below 85 °C to above 85 °C ' \
                              'shifted, so it saves nothing'
    assert answer.headline in str(answer.content('text'))


def test_past_what_is_no_pinch_of_the_program_no_heat_flows_either() -> None:
    """What boils at the hottest end takes all the heat: the program calls only 90 °C a pinch, and between both there
    is nothing to replace."""
    case = b'contribution,,0,,,,\ncold,boiler,1500,1500,0,5000,\nhot,H,900,400,100,,\n'
    answer = answered(case, pump_from='60', pump_to='120', pump_efficiency='0.5')
    assert answer.headline.endswith('from below 90 °C to above 150 °C shifted, so it saves nothing')
    assert facts_of(case, pump_from='60', pump_to='150', pump_efficiency='0.5')['saved hot utility, estimate'] == 5
    assert facts_of(case, flame='400', stack='100')['flue gas leaves at'] == 150


def test_refrigeration_by_hand() -> None:
    """R1 takes what lies above its level, R2 the rest: of R2 233.15 ... 213.15 K, 85/213.15 of its heat over 0.6."""
    answer = answered(COLD, refrigeration='0.6', ambient='25')
    title, sheet = answer.sheets[2].title, answer.sheets[2]
    assert title == 'Refrigeration below 25 °C, efficiency 0.6'
    assert [row[0] for row in sheet.rows] == ['R1', 'R2']
    for row, level in zip(sheet.rows, (Fraction('253.15'), Fraction('213.15'))):
        ideal = Fraction(str(row[2])) * (Fraction('298.15') - level) / level
        assert abs(Fraction(str(row[3])) - ideal) < Fraction(1, 1000)
        assert abs(Fraction(str(row[4])) - ideal / Fraction(6, 10)) < Fraction(1, 500)
        assert abs(Fraction(str(row[5])) - Fraction(str(row[2])) - Fraction(str(row[4]))) < Fraction(1, 500)
    assert sum(Fraction(str(row[2])) for row in sheet.rows) > 0
    none = answered(FOUR.replace(b'hot,H4', b'cooler,CW,250,0,1000000000000,1,\nhot,H4'), refrigeration='0.6')
    assert none.sheets[2].title == 'No cold utility is below 25 °C'


def test_turbines_by_the_factor_of_carnot_by_hand() -> None:
    """From 170 to 91 °C the factor is 79/443.15; 0.7 of it, 0.12479, of what the steam gives: 1.5 kW are left of
    1.7139 kW."""
    sheet = answered(example('two-steam-levels.csv'), exergetic='0.7').sheets[2]
    assert [list(map(str, row)) for row in sheet.rows] == [['HP', '170', '18.5', '0'], ['LP', '91', '1.5', '0.214']]
    alone = answered(example('two-steam-levels.csv'), exergetic='1', mains='LP', inlet='170')
    ideal = Fraction(3, 2) * (Fraction('443.15') / Fraction('364.15') - 1)
    assert abs(Fraction(str(alone.sheets[2].rows[0][3])) - ideal) < Fraction(1, 1000)


def test_turbines_by_steam_tables() -> None:
    """Steam of 100 bar and 500 °C has 3375.1 kJ/kg and 6.5995 kJ/(kg K) (steam tables, from memory); at 10 bar that
    entropy has 2785 kJ/kg within a few."""
    pytest.importorskip('iapws')
    case = example('three-levels.csv')
    mains = 'LP'
    row, = answered(case, isentropic='0.8', mains=mains, inlet='100 bar 500 °C').sheets[2].rows
    worked = Fraction(8, 10) * (Fraction('3375.1') - 2785)
    ideal = 1500 * worked / (Fraction('3375.1') - worked - Fraction('763'))
    assert abs(Fraction(str(row[3])) / ideal - 1) < Fraction(1, 100)
    assert 'does not expand to HP' in refused(case, isentropic='0.8', inlet='20 bar 500 °C')
    assert 'there is no steam of 100 bar and 300 °C' in refused(case, isentropic='0.8', inlet='100 bar 300 °C')


class FewTables:
    """Three states of steam (steam tables, from memory): 100 bar and 500 °C, its entropy at the pressure of 180 °C, and
    liquid there; and where steam of 100 bar is saturated."""

    def __init__(self, T: float = 0, P: float = 0, s: float = 0, x: float | None = None) -> None:
        if x == 1:
            self.T = 584.15
        elif x == 0:
            self.P, self.h = 1.0028, 763.0
        elif s:
            assert (P, s) == (1.0028, 6.5995)
            self.h = 2785.0
        else:
            assert round(T, 2) == 773.15
            self.P, self.h, self.s = P, 3375.1, 6.5995


def test_turbines_by_steam_tables_by_hand(monkeypatch: pytest.MonkeyPatch) -> None:
    """A kilogram works 0.8 (3375.1 - 2785) = 472.08 kJ and gives 3375.1 - 472.08 - 763 = 2140.02 kJ: beside 1500 kW
    these are 330.9 kW."""
    monkeypatch.setitem(__import__('sys').modules, 'iapws', SimpleNamespace(IAPWS97=FewTables))
    row, = answered(example('three-levels.csv'), isentropic='0.8', mains='LP',
                    inlet='100 bar 500 °C').sheets[2].rows
    assert [str(cell) for cell in row] == ['LP', '180', '1500', '330.9']


def test_without_steam_tables_that_is_said(monkeypatch: pytest.MonkeyPatch) -> None:
    monkeypatch.setitem(__import__('sys').modules, 'iapws', None)
    assert refused(example('three-levels.csv'), isentropic='0.8') == \
        '--isentropic needs the steam tables `iapws` (Debian: python3-iapws), which are not installed; --exergetic ' \
        'needs none'


PUMP = {'pump_from': '65', 'pump_to': '100', 'pump_efficiency': '0.5'}
REFUSED = [
    ({'flame': '1000'}, '--flame needs --stack too'),
    ({'flue_contribution': '5'}, '--flue-contribution needs --flame and --stack too'),
    ({'pump_from': '60', 'pump_to': '90'}, '--pump-from needs --pump-efficiency too'),
    ({'mains': 'HP'}, '--mains needs --isentropic or --exergetic too'),
    ({'flame': '100', 'stack': '120'}, 'the stack temperature 120 °C has to be below the flame temperature 100 °C'),
    ({'flame': '1000', 'stack': '20', 'ambient': '30'}, 'the ambient temperature 30 °C is above the stack'),
    ({'flame': '100', 'stack': '80'}, 'the flame temperature 100 °C is too low: the process needs heat at 95 °C'),
    ({'flame': 'hot', 'stack': '80'}, '--flame hot: a temperature, in °C or with its unit, is needed'),
    ({'flame': '1.000', 'stack': '80'}, '--flame 1.000: it may be 1 or 1000'),
    ({'flame': '1000', 'stack': '-300'}, '--stack -300: no temperature is so low'),
    ({'flame': '1000', 'stack': '80', 'flue_contribution': '-1'}, 'a difference is at least 0'),
    (PUMP | {'pump_to': '60'}, 'and 65 °C is not below 60 °C'),
    (PUMP | {'pump_efficiency': '0'}, '--pump-efficiency 0: an efficiency is above 0 and 1 at most'),
    (PUMP | {'pump_efficiency': '1.1'}, 'an efficiency is above 0 and 1 at most, as 0.6 or "60 %"'),
    (PUMP | {'pump_efficiency': '60'}, 'an efficiency is above 0 and 1 at most'),
    (PUMP | {'pump_efficiency': '0.05'}, 'at an efficiency of 0.05 a heat pump from 65 °C to 100 °C gives no more'),
    ({'refrigeration': '0.6', 'ambient': '50'}, 'the case has no cooler of its own, and COLD, which stands in'),
    ({'exergetic': '0.7'}, 'the case has no heater of its own, so it has no steam main'),
    ({'exergetic': '0.7', 'mains': ','}, '--mains ,: names of heaters are needed, with commas between them'),
    ({'isentropic': '0.7', 'inlet': '100 bar'}, '100 bar: a pressure needs its temperature beside it'),
    ({'isentropic': '0.7', 'inlet': '0 bar 500'}, '--inlet 0 bar 500: the pressure has to be above 0'),
    ({'isentropic': '0.7', 'inlet': '-1 bar 500'}, '--inlet -1 bar 500: the pressure has to be above 0'),
    ({'isentropic': '0.7', 'exergetic': '0.7'}, 'an isentropic or an exergetic efficiency, not both')]


@pytest.mark.parametrize('said, told', REFUSED, ids=[told[:40] for _, told in REFUSED])
def test_what_is_none_is_refused(said: dict[str, str], told: str) -> None:
    assert told in refused(FOUR, **said)


@pytest.mark.long
def test_numbers_have_their_units() -> None:
    own = b'#units,\xc2\xb0F,Btu/h,65941/225000,50/9,32,65941/225000\n' + FOUR
    assert facts_of(own, flame='1832 °F', stack='80 °C', ambient='293.15 K')['furnace efficiency'] == Decimal('92.86')
    assert '--flame 1832: it has no unit, and the case is in °F: say "1832 °F"' in refused(own, flame='1832', stack='8')
    assert 'say "9 °F", or "10 K"' in refused(own, flame='1832 °F', stack='80 °C', flue_contribution='9')
    assert '`kW` is not a unit of temperatures' in refused(FOUR, flame='1000 kW', stack='80')
    case = example('two-steam-levels.csv')
    assert 'it is a temperature alone' in refused(case, exergetic='0.7', inlet='40 bar 400')
    assert '`mol` is not a unit of pressures' in refused(case, isentropic='0.7', inlet='40 mol 400')
    assert '`kW` is not a unit of differences' in refused(FOUR, flame='1000', stack='80', flue_contribution='1 kW')


def test_mains_that_are_none_are_refused() -> None:
    case = example('two-steam-levels.csv')
    assert 'the case has no heater MP: there are HP, LP' in refused(case, exergetic='0.7', mains='MP')
    assert 'there is no main below HP, so no turbine' in refused(case, exergetic='0.7', mains='HP')
    assert 'the inlet, 150 °C, is colder than HP' in refused(case, exergetic='0.7', inlet='150')
    hotter = case.replace(b'HP,1700', b'HP,5000')
    assert 'no saturated steam at the temperature of HP' in refused(hotter, exergetic='0.7')


RANGED = b'#utility,GAS,1,2,,,\n#utility,CW,0,668,,,\n' + FOUR + b"""hot,GAS,15000,1600,2,,
cold,CW,200,300,668,,
heater,HOT,15000,0,1000000000000,1,
cooler,COLD,200,0,1000000000000,0,
"""


def test_utilities_with_a_range_are_not_in_the_curve() -> None:
    """They are streams of the case, so that it needs nothing else; the plant needs what it needs without them."""
    asked = {'flame': '1000', 'stack': '80', 'ambient': '20'}
    facts, alone = facts_of(RANGED, **asked), facts_of(FOUR, **asked)
    assert {name: facts[name] for name in alone} == alone and facts['fuel'] == Decimal('21.538')
    told = str(answered(RANGED, **asked).content('text'))
    assert 'without the utilities with a range, GAS, CW' in told


def test_what_stands_in_for_a_range_is_no_level_and_no_main() -> None:
    assert 'CW has a range of temperature from 20 °C on, below the surroundings at 25 °C' in refused(
        RANGED, refrigeration='0.6')
    assert 'No cold utility is below 15 °C' in str(answered(RANGED, refrigeration='0.6', ambient='15').content('text'))
    assert 'so it has no steam main' in refused(RANGED, exergetic='0.7')


def test_without_a_pinch_there_is_nothing_to_pump_or_burn() -> None:
    case = b'contribution,,50,,,,\nhot,H,1000,500,10,,\n'
    assert refused(case, **PUMP) == 'the case needs no hot utility, so there is no pinch that a heat pump could cross'
    assert refused(case, flame='1000', stack='80') == 'the case needs no hot utility, so it needs no flue gas'
    cold = b'contribution,,50,,,,\ncold,C,500,1000,10,,\n'
    assert 'needs no cold utility' in refused(cold, **PUMP)
    assert facts_of(cold, flame='1000', stack='80', ambient='20')['flue gas leaves at'] == 80


def test_without_a_heat_flow_there_is_its_cut() -> None:
    assert answered(SHORT, refrigeration='0.6').status == Status.NO
    assert answered(SHORT).status == Status.GOOD


def test_the_command_writes_it_and_many_have_its_facts(tmp_path: Path) -> None:
    (tmp_path / 'four.csv').write_bytes(FOUR)
    (tmp_path / 'none.csv').write_bytes(b'contribution,,50,,,,\nhot,H,1000,500,10,,\n')
    asked = ('--flame', '1000', '--stack', '80', '--form', 'csv')
    done = pinchdesk('utilities', 'four.csv', *asked, cwd=tmp_path)
    assert done.status == 0 and 'furnace efficiency,93.33,%' in done.out and 'ambient,25,°C' in done.out
    many = pinchdesk('many', 'utilities', '.', *asked, cwd=tmp_path)
    assert many.status == Status.FAILED and 'furnace efficiency %' in many.out
    assert 'none.csv,failed,' in many.out and 'so it needs no flue gas' in many.out


def test_a_notebook_has_exact_numbers() -> None:
    plant = read(FOUR, 'four.csv')
    answer = plant.utilities(flame=1000, stack=80, ambient=20, pump_from=65, pump_to=100, pump_efficiency=0.5)
    assert answer.furnace and answer.furnace.efficiency == Fraction(13, 14) and answer.leaves_c == 90
    assert answer.pump and answer.pump.available_kw == Fraction(75, 2) and answer.saved_hot_kw == 15
    assert answer.pump.work_kw == 15 / (Fraction('0.5') * Fraction('373.15') / 35)
    assert answer.refrigeration_kw is None and 'Heat pump' in str(answer)
    cold = read(COLD, 'cold.csv').utilities(refrigeration='60 %', exergetic=1, inlet=200)
    assert cold.refrigeration_kw and cold.turbines_kw and cold.fuel_kw is None and cold.saved_hot_kw is None
    short = read(SHORT, 'short.csv').utilities(refrigeration=1)
    assert short.found is None and 'No heat flow' in str(short)


PICTURES = [(FOUR, {'flame': '1000', 'stack': '80', 'pump_from': '65', 'pump_to': '100', 'pump_efficiency': '0.5'}),
            (example('two-reactors.csv'), {'flame': '260', 'stack': '150', 'pump_from': '160', 'pump_to': '200',
                                           'pump_efficiency': '0.5'})]


@pytest.mark.parametrize('content, said', PICTURES, ids=['pump', 'no-pump'])
def test_the_picture_can_be_read_and_its_line_touches_the_curve(content: bytes, said: dict[str, str]) -> None:
    found = found_utilities(files_of(content), UtilitiesOptions(**said))
    assert isinstance(found, UtilityTargets) and found.furnace
    figure = beside_curve_figure(found)
    assert overlapping(figure) == [] and cut_off(figure) == [] and pale(figure) == []
    texts = ' '.join(svg_texts(figure))
    assert found.shown.heat(found.furnace.fuel) in texts and found.shown.heat(found.furnace.loss) in texts
    axes = figure.axes[0]
    flue = lines_named(axes, 'flue')[0]
    heats, levels = zip(*reversed(lines_named(axes, 'curve')[0]))
    apart = [float(numpy.interp(level, levels, heats)) - heat for heat, level in flue if level <= levels[-1]]
    assert min(apart) > -1e-6 and min(apart) < 0.02 * heats[-1]
    bars = lines_named(axes, 'utility')
    assert len(bars) == (2 if found.pumped and found.pumped.saves else 0)
    assert all(bar[1][0] <= float(numpy.interp(bar[1][1], levels, heats)) + 1e-9 for bar in bars)
    assert ('(the heat pump saves nothing)' in texts) == (not bars)


@pytest.mark.usefixtures('without_curves')
def test_the_page_has_what_was_asked_and_how_it_is_made_again() -> None:
    asked = {'flame': '1000', 'stack': '80', 'flue_contribution': '5', 'refrigeration': '0.6'}
    made = str(page(files_of(COLD), PageOptions(**asked)).content('html'))
    assert 'Utilities beside the grand composite curve' in made and 'furnace efficiency' in made
    assert 'Refrigeration below 25 °C' in made and 'alt="Grand composite curve with what was asked"' in made
    assert '--flame 1000 --stack 80 --flue-contribution 5 --refrigeration 0.6' in made
    assert page(files_of(SHORT), PageOptions(refrigeration='0.6')).status == Status.NO


def test_draw_and_a_notebook_have_the_picture() -> None:
    drawn = beside_curve(files_of(FOUR), UtilitiesOptions(flame='1000', stack='80')).content('svg')
    assert isinstance(drawn, bytes) and b'1000 to 90 ' in drawn
    shown = read(FOUR, 'four.csv').utilities(flame=1000, stack=80).figure()
    assert any('1000 to 90 ' in str(line.get_label()) for line in shown.figure.axes[0].get_lines())
    with pytest.raises(WordsError, match='no picture of utilities'):
        read(SHORT, 'short.csv').utilities(refrigeration=1).figure()


@some.composite
def cases(draw: some.DrawFn) -> Case:
    """A few streams of which some are latent."""
    made: list[Stream] = []
    for at in range(draw(some.integers(2, 5))):
        side, low = draw(some.sampled_from(Side)), draw(some.integers(0, 300)) * 10
        if draw(some.integers(0, 3)) == 0:
            made.append(Stream(f'S{at}', side, low, low, 0, draw(some.integers(1, 10 ** 5)), draw(some.integers(0, 9))))
            continue
        high, share = low + draw(some.integers(1, 100)) * 10, draw(some.integers(0, 100))
        ends = (high, low) if side is Side.HOT else (low, high)
        made.append(Stream(f'S{at}', side, *ends, draw(some.integers(1, 200)), 0, share))
    return Case(50, tuple(made))


def curve_of(case: Case) -> GrandCurve:
    return GrandCurve(Pinch().curves(print_case(case)).net)


def with_streams(case: Case, *streams: Stream) -> Case:
    return replace(case, streams=(*case.streams, *streams))


def latent(side: Side, shifted: int, load: int) -> Stream:
    return Stream('X', side, shifted, shifted, 0, load, 0)


@given(cases(), some.integers(500, 20000), some.integers(0, 4000), some.integers(0, 300))
def test_the_flue_gas_is_enough_and_less_is_not(case: Case, flame: int, stack: int, share: int) -> None:
    curve = curve_of(case)
    flue = FlueGas(Fraction(flame), Fraction(stack), Fraction(0), Fraction(share))
    try:
        found = furnace(curve, flue, Shown())
    except WordsError:
        return
    leaves = found.leaves - share
    needs = [(found.cp * (flame - share - max(Fraction(corner.temperature), leaves)), curve.hot - corner.heat)
             for corner in curve.corners if corner.temperature <= flame - share]
    assert all(gives >= needed for gives, needed in needs)
    assert found.leaves >= stack and found.fuel == curve.hot + found.loss
    end = max(stack, curve.zero + share)
    least = replace(latent(Side.HOT, 0, 0), supply=flame, target=end, contribution=share)
    enough, less = ceil(found.cp), ceil(found.cp) - 1
    assume(enough <= 100_000)
    assert Pinch().targets(print_case(with_streams(case, replace(least, cp=enough)))).hot == 0
    if less:
        assert Pinch().targets(print_case(with_streams(case, replace(least, cp=less)))).hot > 0


@given(cases(), some.integers(-50, 4200))
def test_the_program_agrees_how_much_can_be_taken_and_replaced(case: Case, shifted: int) -> None:
    curve, pinch = curve_of(case), Pinch()
    for side, most in ((Side.COLD, floor(curve.taken_below(Fraction(shifted)))),
                       (Side.HOT, floor(curve.replaced_above(Fraction(shifted))))):
        for load in (most, most + 1):
            if load:
                targets = pinch.targets(print_case(with_streams(case, latent(side, shifted, load))))
                kept = (targets.hot, curve.hot) if side is Side.COLD else (targets.cold, curve.cold)
                assert (kept[0] == kept[1]) == (load == most)


@given(some.dictionaries(some.integers(-500, 500), some.integers(0, 1000), min_size=2, max_size=6),
       some.integers(-600, 600), some.integers(-600, 600), some.integers(10, 100))
def test_a_heat_pump_and_its_mirror(heats: dict[int, int], low: int, high: int, percent: int) -> None:
    """No more is saved than the curve leaves, and the curve upside down takes where the other one gives."""
    curve = GrandCurve(tuple(Point(heat, level) for level, heat in sorted(heats.items(), reverse=True)))
    mirrored = GrandCurve(tuple(Point(corner.heat, -corner.temperature) for corner in reversed(curve.corners)))
    assert curve.taken_below(Fraction(low)) == mirrored.replaced_above(Fraction(-low))
    pump = HeatPump(Fraction(low), Fraction(high), Fraction(percent, 100), Fraction(0))
    try:
        found = pumped_heat(curve, pump, Shown())
    except WordsError:
        return
    assert found.given <= found.replaced and found.taken <= found.available
    assert found.given == found.taken + found.work and found.saves == (found.given > 0)
    assert found.given in (found.replaced, found.available * found.performance / (found.performance - 1))
