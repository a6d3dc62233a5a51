"""Cases in the units of their tables: nothing is rounded that is whole there, and the same numbers are said in °C and
kW where that is asked."""
from __future__ import annotations

import re
import shlex
from dataclasses import replace
from fractions import Fraction
from pathlib import Path

import pytest
from conftest import few_of, pinchdesk, tried
from hypothesis import given
from hypothesis import strategies as some
from plant_tables import SEIDER, TABLES
from tabled import made, refusal

from pinchdesk import Pinch, Refused, WordsError
from pinchdesk import read as pinchdesk_read
from pinchdesk.analysis.change_table import read_changes
from pinchdesk.analysis.least_units import Units, least_units
from pinchdesk.analysis.sweep_request import asked_range
from pinchdesk.formats.case import completed, print_case, read_case, said_in_si
from pinchdesk.formats.case_units import CaseUnits
from pinchdesk.formats.shown import Shown
from pinchdesk.formats.site import read_site
from pinchdesk.report.answer_sheets import flow_sheets, targets_sheets
from pinchdesk.tables.convert import Converted, Wanted, checked

OWN = Wanted('10 °F', own_units=True)
UNITS = '#units,°F,Btu/hr,65941/225000,10,0,1\n'


def whole(content: str | bytes, wanted: Wanted, pinch: Pinch) -> Converted:
    return checked(made(content, wanted, 't'), pinch)


def test_four_streams_of_seider_have_their_published_targets(pinch: Pinch) -> None:
    converted = whole(SEIDER, OWN, pinch)
    text = print_case(converted.case)
    assert text.startswith(UNITS) and 'hot,H1,2600,1600,3000,,\n' in text and 'contribution,,50,' in text
    assert converted.notes == ('the case is in °F and Btu/hr, as the table',)
    sheets = targets_sheets(completed(read_case(text)), pinch.targets(text))
    assert [[str(cell) for cell in row] for row in sheets[0].rows] == [
        ['hot utility', '500000', 'Btu/hr'], ['cold utility', '600000', 'Btu/hr']]
    assert sheets[1].headings[0] == 'shifted °F'
    flow = flow_sheets(completed(read_case(text)), pinch.flow(text))
    assert flow[0].headings[2:4] == ('level °F', 'use Btu/hr')


@pytest.mark.parametrize('name', TABLES)
def test_the_targets_of_a_table_in_its_own_units_are_those_of_its_numbers(name: str, pinch: Pinch) -> None:
    """`checked` compares the printed targets with those of the exact numbers, and says where they differ."""
    table = TABLES[name]
    converted = whole(table.content, Wanted(table.difference, own_units=True), pinch)
    rounded = [note for note in converted.notes if 'is rounded, by' in note]
    assert bool(rounded) >= any('target is' in note for note in converted.notes)
    assert print_case(read_case(print_case(converted.case))) == print_case(converted.case)


SEGMENTS = """Stream;Supply (°F);Target (°F);Duty (MMBtu/h)
H1;330;230;2
H1;230;130;4
C1;70;170;1.5
C1;170;330;4.8
"""
CURVES = 'Kind;Stream;T (°F);H (MMBtu/h)\nhot;H1;330;6\n;;230;4\n;;130;0\ncold;C1;70;0\n;;170;1.5\n;;330;6.3\n'


@pytest.mark.parametrize('table', [SEGMENTS, CURVES])
def test_streams_of_segments_have_their_exact_targets_in_their_own_units(table: str, pinch: Pinch) -> None:
    """By hand: the cold stream lacks 0.6 above 310 °F, and 1.0 more down to 210 °F; the whole lacks 0.3."""
    converted = whole(table, Wanted('20 °F', own_units=True), pinch)
    case = converted.case
    targets, units = pinch.targets(print_case(case)), case.basis.units
    assert units is not None and units.temperature == '°F' and units.heat == 'MMBtu/h'
    assert [heat / units.parts for heat in (targets.hot, targets.cold)] == [Fraction(8, 5), Fraction(13, 10)]
    assert not any('rounded' in note for note in converted.notes)
    assert [(stream.supply, stream.target) for stream in case.streams] == [(3300, 2300), (2300, 1300), (700, 1700),
                                                                           (1700, 3300)]
    again = read_case(print_case(case))
    assert again == case and [len(stream.segments) for stream in again.basis.segments] == [2, 2]
    counted = least_units(print_case(case), pinch)
    assert isinstance(counted, Units) and counted.whole.least == 3


@tried(8, 25)
@given(some.lists(some.tuples(some.integers(-300, 900), some.integers(1, 600), some.integers(1, 999), some.booleans()),
                  min_size=1, max_size=6))
def test_whole_numbers_of_a_table_give_its_exact_targets(rows: list[tuple[int, int, int, bool]]) -> None:
    lines = [f'S{at};{low + span if hot else low};{low if hot else low + span};{cp * span}'
             for at, (low, span, cp, hot) in enumerate(rows)]
    text = '\n'.join(['Name;Tin (°F);Tout (°F);Duty (Btu/h)', *lines, ''])
    converted = whole(text, OWN, Pinch())
    assert converted.notes == ('the case is in °F and Btu/h, as the table',)
    assert [stream.heat for stream in converted.case.streams] == [
        cp * span * converted.case.basis.units.parts for _, span, cp, _ in rows if converted.case.basis.units]


def test_units_that_cannot_be_and_those_of_a_site_are_refused() -> None:
    with pytest.raises(Refused, match='a site has tenths'):
        read_site(UNITS + 'contribution,,50,,,,\n')
    assert 'has no scale' in refusal(SEIDER, Wanted('10 °F', own_units=True, scale=Fraction(10)))
    for row in ('#units,°X,Btu/hr,1,10,0,1', '#units,°F,Btu/hr,0,10,0,1', '#units,°F,Btu/hr,1,0,0,1',
                '#units,°F,,1,10,0,1'):
        with pytest.raises(Refused, match='case row 1 #units'):
            read_case(row + '\ncontribution,,50,,,,\nhot,H,100,50,1,,\n')


def test_costs_are_those_of_the_prices_of_the_table(pinch: Pinch) -> None:
    head = 'Kind;Name;Tin (°F);Tout (°F);Duty (MMBtu/h);Price ($/MMBtu)\n'
    text = f'{head}cold;C;100;200;3;\nheater;S;300;;;4\ncooler;W;60;;;1\n'
    printed = print_case(made(text, OWN).case)
    case = completed(read_case(printed))
    uses = flow_sheets(case, pinch.flow(printed))[0]
    assert uses.headings == ('utility', '', 'level °F', 'use MMBtu/h', 'price $/MMBtu', 'cost $/h')
    assert [str(cell) for cell in uses.rows[0]] == ['S', 'gives', '300', '3', '4', '12']


def test_temperatures_below_the_limits_have_another_zero(pinch: Pinch) -> None:
    text = 'Name;Tin (°F);Tout (°F);CP (Btu/(h °F))\nH;-300;-420;1000\nC;-440;-350;900\n'
    converted = whole(text, OWN, pinch)
    units = converted.case.basis.units
    assert units is not None and units.zero == -440
    assert Shown(converted.case.basis).temperature(converted.case.streams[0].supply) == '-300'
    assert Shown().temperature(1234) == '123.4' and CaseUnits().flow == 'kW/K' and units.flow == 'Btu/(h °F)'


def test_the_same_numbers_are_said_in_celsius_and_kilowatts(pinch: Pinch) -> None:
    text = print_case(made(SEIDER, OWN).case).encode()
    said = said_in_si(text)
    assert said.replace(b'#units,\xc2\xb0C,kW,1000,18,-160/9,225000000/65941\n', UNITS.encode()) == text
    case, same = read_case(text), read_case(said)
    assert case.streams == same.streams and pinch.targets(text) == pinch.targets(said)
    shown, in_si = Shown(case.basis), Shown(same.basis)
    assert (shown.temperature(2600), shown.difference(50), shown.heat(3000000), shown.flow(3000)) == (
        '260', '5', '3000000', '30000')
    assert (in_si.temperature(2600), in_si.difference(50), in_si.heat(3000000), in_si.flow(3000)) == (
        '126.67', '2.78', '879.2133', '15.82584')
    assert said_in_si(said) == said and said_in_si(b'contribution,,50,,,,\n') == b'contribution,,50,,,,\n'
    assert said_in_si(b'\xef\xbb\xbf' + text) == b'\xef\xbb\xbf' + said
    with pytest.raises(Refused, match='stand alone in its line'):
        said_in_si(b'"#units",\xc2\xb0F,Btu/hr,1,10,0,1\ncontribution,,50,,,,\n')


@pytest.mark.parametrize('words, said', [
    (('10', '20', '5'), 'say "10 °F"'), (('10 °F', '20 °F', '0.1 °F'), 'a multiple of 0.2 °F'),
    (('20 °F', '10 °F', '5 °F'), 'the first least difference, 20 °F, is above the last one, 10 °F'),
    (('10 °F', '300 °F', '5 °F'), 'is 200 °F at most'), (('10 °F', '20 °F', '0 °F'), '0.2 °F is the least')])
def test_differences_of_a_case_in_fahrenheit_have_their_unit(words: tuple[str, str, str], said: str) -> None:
    units = read_case(print_case(made(SEIDER, OWN).case)).basis.units
    with pytest.raises(WordsError, match=said):
        asked_range(*words, 1, units)
    assert asked_range('10', '20', '5', 1, replace(units or CaseUnits(), temperature='K')) == (50, 100, 25)
    assert asked_range('10 °F', '10 K', '1,8 F', 1, units) == (50, 90, 9)
    assert asked_range('4', '16', '4', 1) == (20, 80, 20)


def test_changes_of_a_case_in_its_own_units_have_their_units() -> None:
    case = read_case(print_case(made(SEIDER, OWN).case))
    table = 'scenario;source;field;value\na;H1;supply;{}\n'
    changed = read_changes(table.format('90 °C').encode(), 't.csv', case.basis)
    assert changed.variants[0].changes[0].value == 1940
    changed = read_changes(table.format('+10 K').encode(), 't.csv', case.basis)
    assert changed.variants[0].changes[0].value == 180
    changed = read_changes(b'scenario;source;CP (MMBtu/(h F))\na;H1;0.05\n', 't.csv', case.basis)
    assert changed.variants[0].changes[0].value == 5000
    with pytest.raises(Refused, match='the case is in °F and Btu/hr: write with the number its unit'):
        read_changes(table.format('190').encode(), 't.csv', case.basis)


EVERY_WORD = ('targets', 'flow', "sweep '10 °F' '50 °F' '10 °F'", 'units', 'whatif',
              'network --seconds 0.5 --workers 1')


@pytest.mark.parametrize('words', few_of(EVERY_WORD, EVERY_WORD[:-1]))
def test_every_word_that_shows_targets_has_the_published_ones(words: str, tmp_path: Path) -> None:
    (tmp_path / 'seider.csv').write_text(print_case(made(SEIDER, OWN).case), encoding='utf-8')
    word, *more = shlex.split(words)
    done = pinchdesk(word, 'seider.csv', *more, cwd=tmp_path)
    assert done.status == 0, done.err
    if word in ('targets', 'flow', 'sweep'):
        assert re.search('500000', done.out) and re.search('600000', done.out), done.out
    assert not re.search(r'°C|kW| K\b', done.out), done.out
    in_si = pinchdesk(word, 'seider.csv', *more, '--units', 'SI', cwd=tmp_path)
    # Prices without a unit are those of the table's unit of heats.
    assert in_si.status == 0 and not re.search('°F|(?<!per )(?<!times )Btu', in_si.out), in_si.out


def test_a_notebook_has_a_plant_in_its_own_units() -> None:
    plant = pinchdesk_read(SEIDER.encode(), 'seider.csv', difference='10 °F', units='table')
    targets = plant.targets()
    assert (str(targets.hot_kw), str(targets.cold_kw)) == ('146.536', '175.843')
    assert targets.exact.pinches_c == (Fraction(85),) and '500000' in str(targets)
    assert plant.sweep('10 °F', '20 °F', '10 °F').points[0].exact.difference_k == Fraction(50, 9)
    assert '146.5356  kW' in str(plant.in_si().targets())
    again = pinchdesk_read(plant.text.encode(), 'seider-case.csv')
    assert again.notes == ('read as a case file, in its own units, °F and Btu/hr',)
