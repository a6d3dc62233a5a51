"""What words say and do of utilities with a range: tables, answers, networks, the page, and what is left."""
from __future__ import annotations

import re
from dataclasses import replace
from fractions import Fraction
from pathlib import Path

import pytest

from pinchdesk import Pinch, Stream, completed, follow, read_case
from pinchdesk.analysis.open_branches import Left, Rounding, Scale, left_of, open_branches, rest_case
from pinchdesk.errors import Refused
from pinchdesk.formats.case import Case, print_case
from pinchdesk.formats.cost_rows import Film, Material, Measured, Overall
from pinchdesk.formats.kept_rows import kept_cost_rows
from pinchdesk.formats.network import read_network
from pinchdesk.formats.range_parts import cost_of_ranges, cost_told, range_costs
from pinchdesk.formats.shown import Shown
from pinchdesk.formats.whole_streams import whole_streams
from pinchdesk.live.case_lines import removed
from pinchdesk.plant.whole_plant import read
from pinchdesk.program.verdicts import Accepted, Rejected
from pinchdesk.search.find import NoNetwork, limit_of
from pinchdesk.tables.convert import Wanted
from pinchdesk.words.case_word import CaseOptions, case_text, converted
from pinchdesk.words.table_of_case import ReadingOptions, understood_of
from pinchdesk.words.word import TextFile

from conftest import EXAMPLES, Done, pinchdesk
from live_desk import opened
from tabled import made, refusal

HEAD = 'Kind;Name;Supply;Target;CP;Duty;Price\n;;°C;°C;kW/K;kW;EUR/MWh\n'
FOUR = f'{HEAD}cold;C1;20;135;2;;\nhot;H2;170;60;3;;\ncold;C3;80;140;4;;\nhot;H4;150;30;1,5;;\n'
STANDING = ('HOT', 'COLD')
BOTH = f'{FOUR}heater;flue gas;1500;160;;;35\ncooler;water;20;30;;;0,5\n'
STEAM = f'{HEAD}hot;H;300;60;10;;\nheater;HP;310;;;;35\ncooler;steam;100;200;4,2;;-15\n' \
        'cooler;steam;200;200;;1940;\ncooler;steam;200;250;2,5;;\ncooler;water;20;30;;;0,5\n'


def case_of(table: str, difference: str = '10', units: str = 'SI', ranges: str = 'stream') -> Case:
    asked = CaseOptions(difference, units=units, ranges=ranges).wanted
    return converted(Pinch(), TextFile('t.csv', table.encode()), asked).case


def stream_of(case: Case, name: str) -> Stream:
    return next(stream for stream in case.streams if stream.name == name)


@pytest.fixture(name='plant')
def plant_of(tmp_path: Path) -> Path:
    """The case of four streams with flue gas and cooling water, in a folder of its own."""
    (tmp_path / 't.csv').write_text(BOTH, encoding='utf-8')
    assert pinchdesk('case', '-d', '10', 't.csv', '-o', 'case.csv', cwd=tmp_path).status == 0
    return tmp_path


def answer(*words: str, cwd: Path) -> Done:
    done = pinchdesk(*words, cwd=cwd)
    assert done.status == 0, done.err
    return done


def test_what_was_found_is_reported_with_what_it_rests_on(tmp_path: Path) -> None:
    (tmp_path / 't.csv').write_text(BOTH, encoding='utf-8')
    err = answer('case', '-d', '10', 't.csv', cwd=tmp_path).err
    assert 'row 7: flue-gas is a hot utility from 1500 to 160 °C, held as a stream: it gives 26.8 kW with a CP of ' \
           '0.02 kW/K; with 0.01 kW/K it is not enough: 6.6 kW are missing; 6.8 kW of that are more than is ' \
           'needed' in err
    assert 'row 8: water is a cold utility from 20 to 30 °C' in err and 'HOT stands in for what whole units' in err


def test_a_range_is_a_level_only_where_that_is_asked_for(tmp_path: Path) -> None:
    (tmp_path / 't.csv').write_text(BOTH, encoding='utf-8')
    done = answer('case', '-d', '10', '--ranges', 'level', 't.csv', cwd=tmp_path)
    assert 'heater,flue-gas,1600,0,1000000000000,350,' in done.out and '#utility' not in done.out
    assert 'of 1500 °C to 160 °C the end that is worth less is taken, 160 °C' in done.err
    plant = read(BOTH.encode(), 't.csv', difference=10, ranges='level')
    assert [utility.level for utility in plant.case.utilities] == [1600, 300]


def test_a_utility_in_segments_is_one_stream(pinch: Pinch) -> None:
    case = case_of(STEAM)
    whole, = (stream for stream in whole_streams(case) if stream.name == 'steam')
    assert (whole.supply, whole.target, len(case.basis.segments[0].segments)) == (1000, 2500, 3)
    first, boiling, last = (stream_of(case, f'steam-{at}') for at in (1, 2, 3))
    assert abs(boiling.load * 420 - first.cp * 1_940_000) <= 420 and abs(last.cp * 420 - first.cp * 250) <= 420
    assert read_case(print_case(case)) == case and pinch.targets(case).cold == 0


@pytest.mark.parametrize('old, new, cause', [
    (';0,5', ';', 'the price of water is missing'),
    ('1940;', '1940;-14', 'have two prices: a utility has one'),
    ('cooler;steam;200;250', 'cooler;steam;210;250', 'the segments of a stream meet'),
    ('cooler;water;20;30', 'cooler;water;30;20', 'a cooler runs the other way: it warms up'),
    ('cooler;steam;100;200;4,2;;-15\ncooler;steam;200;200;;1940;\ncooler;steam;200;250;2,5;;',
     'cooler;steam;200;200;;1940;-15\ncooler;steam;200;200;;125;', 'steam has one temperature'),
    ('water;20;30;;', 'water;20;30;4;', 'a utility has no cp: what it gives or takes is found')])
def test_what_is_wrong_with_a_range_is_refused_by_its_row(old: str, new: str, cause: str) -> None:
    assert old in STEAM and cause in refusal(STEAM.replace(old, new, 1))


def test_a_utility_in_segments_is_no_level() -> None:
    with pytest.raises(Refused) as refused:
        case_of(STEAM, ranges='level')
    assert 'row 5 column 2: steam has several segments, of which --ranges level makes no level' in refused.value.text


@pytest.mark.parametrize('rows', ['heater;HOT;1500;160;;;35\n', 'heater;gas;1500;160;;;35\ncooler;COLD;10;;;;2\n'])
def test_names_of_what_stands_in_are_refused_in_words(rows: str) -> None:
    with pytest.raises(Refused) as refused:
        case_of(f'{FOUR}{rows}cooler;water;20;30;;;0,5\n')
    assert 'is the name of what stands in beside utilities with a range' in refused.value.text


def test_a_least_and_a_most_are_told() -> None:
    table = 'Kind;Name;Supply;Target;CP;Least;Most;Price\n;;°C;°C;kW/K;kW;kW;EUR/MWh\nhot;H;100;10;5;;;\n' \
            'cold;C;20;60;4;;;\nheater;gas;150;100;;200;;35\ncooler;CW;20;30;;;100;0,5\ncooler;brine;-5;0;;;;25\n'
    notes = converted(Pinch(), TextFile('t.csv', table.encode()), CaseOptions('10').wanted).notes
    assert 'gas has its least, 200 kW' in notes and 'CW has its most, 100 kW' in notes


def test_one_that_is_not_hot_enough_is_refused_by_its_row() -> None:
    with pytest.raises(Refused) as refused:
        case_of(BOTH.replace('1500;160', '80;60'))
    assert 'row 7: flue-gas is not enough' in refused.value.text and 'not hot enough' in refused.value.text


def test_a_range_in_the_units_of_its_table_is_whole_there(pinch: Pinch) -> None:
    table = 'Kind;Name;Supply;Target;CP\n;;°F;°F;Btu/(h °F)\nhot;H;350;160;1000\ncold;C;100;250;500\n' \
            'cooler;CW;70;90;\n'
    case = case_of(table, '18 °F', units='table')
    water = stream_of(case, 'CW')
    assert case.basis.units and (water.supply, water.target, case.basis.units.temperature) == (700, 900, '°F')
    assert pinch.targets(case).cold == 0 and read_case(print_case(case)) == case


def test_words_show_them_with_their_cost_beside_that_of_the_program(plant: Path) -> None:
    targets, flow = (answer(word, 'case.csv', cwd=plant).out for word in ('targets', 'flow'))
    assert 'flue-gas     hot      1500    160     0.02     26.8' in targets
    assert 'with 6.67 kW/K it is not enough: 0.1 kW are missing' in targets
    assert 'with the cost of the program' in flow and flow.count('0.971') == 2
    assert 'Utilities with a range, as streams' in answer('units', 'case.csv', cwd=plant).out
    (plant / 'list.txt').write_text('case.csv\n', encoding='utf-8')
    assert 'flue-gas kW,water kW' in answer('many', 'targets', 'list.txt', '--form', 'csv', cwd=plant).out


def test_the_real_ends_are_audited(plant: Path, pinch: Pinch) -> None:
    """A hot stream from 38 °C has water of 30 °C at its hot end, 8 K away; at 20 °C it would be far enough."""
    design = pinch.design((plant / 'case.csv').read_bytes())
    verdict = pinch.audit((plant / 'case.csv').read_bytes(), design.text)
    assert isinstance(verdict, Accepted) and verdict.cost == 0
    case = '#utility,W,0,80,,,\ncontribution,,50,,,,\nhot,H,380,300,100,,\ncold,W,200,300,80,,\n'
    network = 'exchanger E H W 8000\npass H E h\nend h\npass W E w\nend w\n'
    rejected = pinch.audit(case, network)
    assert isinstance(rejected, Rejected) and rejected.reason == 'HotEndApproach'
    (plant / 'net.txt').write_text(design.text, encoding='utf-8')
    audited = answer('audit', 'case.csv', 'net.txt', cwd=plant).out
    assert 'with the cost of the program' in audited and '0.971' in audited


def test_the_table_that_they_came_from_is_found_again(plant: Path) -> None:
    case, table = read_case((plant / 'case.csv').read_bytes()), TextFile('t.csv', BOTH.encode())
    assert understood_of(table, case, ReadingOptions()).rows
    levels = case_of(BOTH, ranges='level')
    assert understood_of(table, levels, ReadingOptions()).rows
    with pytest.raises(Refused) as refused:
        understood_of(table, case_of(BOTH.replace('1500', '1400')), ReadingOptions())
    assert 'another case' in refused.value.text


@pytest.mark.long
def test_the_page_has_them(plant: Path) -> None:
    (plant / 'net.txt').write_text(Pinch().design((plant / 'case.csv').read_bytes()).text, encoding='utf-8')
    answer('page', 'case.csv', 'net.txt', '--table', 't.csv', '-o', 'p.html', cwd=plant)
    page = (plant / 'p.html').read_text(encoding='utf-8')
    assert 'Utilities with a range, as streams' in page and '<td>utility</td>' in page
    assert 'it is not enough: 0.1 kW are missing' in page and 'with the utilities with a range 0.971 EUR/h' in page
    assert 'cost with the utilities with a range, EUR/h' in page and page.count('0.971') == 4


def test_the_live_desk_has_their_cost_in_that_of_a_network(plant: Path, pinch: Pinch) -> None:
    (plant / 'network.txt').write_text(pinch.design((plant / 'case.csv').read_bytes()).text, encoding='utf-8')
    score = opened(plant).view().score
    assert (score.cost, score.floor) == ('0.971 EUR/h', '0.971 EUR/h')
    assert any('flue-gas 0.938 EUR/h, water 0.033 EUR/h' in note for note in score.notes)


def test_what_is_left_and_what_is_taken_out_is_a_case_again(plant: Path) -> None:
    text = (plant / 'case.csv').read_text(encoding='utf-8')
    (plant / 'begun.txt').write_text('exchanger E flue-gas C1 26800\npass flue-gas E f\nend f\npass C1 E c\n',
                                     encoding='utf-8')
    answer('rest', 'case.csv', 'begun.txt', '--case', 'rest.csv', cwd=plant)
    left = read_case((plant / 'rest.csv').read_bytes())
    assert [utility.name for utility in left.basis.ranges] == ['water']
    assert [utility.name for utility in read_case(removed(text, 'stream water')).basis.ranges] == ['flue-gas']


def test_rows_of_what_is_gone_go_with_it_and_those_of_parts_have_their_names(plant: Path) -> None:
    """H2 and water are gone; flue gas and C3 are left in two branches each, and C1 as it is."""
    rows = ''.join(f'#film,{name},500,W/m2K,,,\n' for name in ('C1', 'H2', 'C3', 'H4', 'flue-gas', 'water', 'HOT'))
    rows += '#overall,H2,400,W/m2K,C1,,\n#overall,flue-gas,90,W/m2K,C3,,\n#material,C3,SS,,,,\n#law,,,1,2,1,m2\n'
    text = (rows + (plant / 'case.csv').read_text(encoding='utf-8')).encode()
    begun = 'exchanger E H2 water 66800\nsplit flue-gas f1 1 f2\nsplit C3 c1 100 c2\n' \
            'pass H2 E h\nend h\npass water E w\nend w\n'
    case = rest_case(completed(read_case(text)), left_of_case(text, begun), {name: Fraction(0) for name in STANDING},
                     Scale(1), Rounding.HARDER)
    assert [(utility.name, utility.price, utility.cp) for utility in case.basis.ranges] == \
        [('f1', 350, 1), ('f2', 350, 1)]
    films = [row.source for row in case.basis.cost_rows if isinstance(row, Film)]
    assert films == ['C1', 'c1', 'c2', 'H4', 'f1', 'f2', 'HOT']
    pairs = [(row.source, row.other) for row in case.basis.cost_rows if isinstance(row, Overall)]
    assert pairs == [('f1', 'c1'), ('f1', 'c2'), ('f2', 'c1'), ('f2', 'c2')]
    assert [row.source for row in case.basis.cost_rows if isinstance(row, Material)] == ['c1', 'c2']
    again = read_case(print_case(case))
    assert (again.streams, again.basis.cost_rows, again.basis.ranges) == (case.streams, case.basis.cost_rows,
                                                                          case.basis.ranges)


def left_of_case(case: bytes, network: str) -> tuple[Left, ...]:
    followed = follow(completed(read_case(case)), read_network(network.encode()))
    return tuple(left for left in left_of(followed.case, open_branches(followed)) if left.heat)


def test_rows_of_a_stream_in_segments_stay_with_what_is_left_of_it() -> None:
    """Of three segments the first is gone: a row of the stream stays with the other two, as that of one of them."""
    wholes, names = {'CRUDE': ['CRUDE']}, {'CRUDE-2': ['CRUDE-2'], 'CRUDE-3': ['CRUDE-3']}
    rows = [Film(name, Measured(Fraction(1), 'kW/m2K')) for name in ('CRUDE', 'CRUDE-1', 'CRUDE-3')]
    assert kept_cost_rows(rows, names, wholes) == (rows[2], rows[0])
    apart = {'CRUDE': ['CRUDE-2', 'CRUDE-3']}
    rows[0] = replace(rows[0], coefficient=Measured(Fraction(2), 'kW/m2K'))
    assert kept_cost_rows(rows, names, apart) == (rows[2], replace(rows[0], source='CRUDE-2'))


def test_a_price_study_has_no_price_of_one(plant: Path) -> None:
    (plant / 'study.csv').write_text('scenario,A,,\nprice,flue-gas,40,\n', encoding='utf-8')
    done = pinchdesk('prices', 'case.csv', 'study.csv', cwd=plant)
    assert done.status == 3 and 'study row 2: flue-gas is a utility with a range, held as a stream' in done.err
    (plant / 'study.csv').write_text('scenario,A,,\nprice,HOT,30.25,\n', encoding='utf-8')
    done = answer('prices', 'case.csv', 'study.csv', cwd=plant)
    assert 'keep the sizes of the case in all rows' in done.err and '0.971' in done.out


def test_words_that_change_the_case_say_that_the_sizes_stay(plant: Path) -> None:
    assert 'keep the sizes of the case in all rows' in answer('sweep', 'case.csv', '5', '10', '5', cwd=plant).err
    done = pinchdesk('supertarget', 'case.csv', '10', '20', '10', cwd=plant)
    assert done.status == 3 and 'make the case with --ranges level for a supertarget' in done.err


def test_a_scenario_that_changes_one_has_what_that_costs(plant: Path) -> None:
    """13.4 kW more of flue gas are 0.469 EUR/h; that much more to be cooled, 0.007 EUR/h."""
    (plant / 'changes.csv').write_text('scenario;source;field;value\ngas;flue-gas;CP;+0.01\n', encoding='utf-8')
    out = answer('whatif', 'case.csv', 'changes.csv', '--form', 'csv', cwd=plant).out
    assert 'least cost with utilities with a range EUR/h' in out
    assert 'base,0,,0,,none,0.971,' in out and 'gas,0,0,13.4,13.4,none,1.447,0.476' in out


def test_a_notebook_has_them_behind_its_answers(plant: Path) -> None:
    made = read(str(plant / 'case.csv'))
    for answered in (made.targets(), made.flow(), made.what_if()):
        assert 'all of them, in no cost of the program' in str(answered) and '0.971' in str(answered)


def test_costs_a_year_have_them_beside(plant: Path) -> None:
    rows = '#overall,,500,W/m2K,,,\n#law,,,1000,500,1,m2\n#build,,counter-current,,,,exchanger\n' \
           '#capital,EUR,1,,,,\n#annual,factor,0.2,,8000,,\n'
    text = rows + (plant / 'case.csv').read_text(encoding='utf-8')
    (plant / 'cost.csv').write_text(text, encoding='utf-8')
    out = answer('cost', 'cost.csv', cwd=plant).out
    shown = {name: float(number) for name, number in re.findall(r'^([a-z ]+ a year|annual cost) +([0-9.]+)', out, re.M)}
    assert shown['utilities with a range a year'] == 7771.2
    assert abs(sum(shown.values()) - 2 * shown['annual cost']) < 0.02


def test_coefficients_of_them_are_kept(pinch: Pinch) -> None:
    """With them those of what stands in; those of a utility that is not used go with it."""
    table = 'Kind;Name;Supply;Target;CP;Price;h\n;;°C;°C;kW/K;EUR/MWh;kW/m2K\nhot;H;150;60;2;;1\n' \
            'heater;gas;900;200;;30;0,1\ncooler;water;20;30;;1;2\n'
    case = case_of(table)
    rows = [(row.source, row.coefficient.value) for row in case.basis.cost_rows if isinstance(row, Film)]
    assert [source for source, _ in rows] == ['H', 'water', 'HOT', 'COLD'] and pinch.targets(case).cold == 0


@pytest.mark.long
def test_a_network_is_found_and_accepted(plant: Path) -> None:
    answer('network', 'case.csv', '--seconds', '5', '--workers', '1', '-o', 'net.txt', cwd=plant)
    head = (plant / 'net.txt').read_text(encoding='utf-8')
    assert '# cost 0.971 EUR/h: 0.938 EUR/h of flue-gas, 0.033 EUR/h of water, 0 EUR/h by the program\n# floor' in head
    out = answer('table', 'case.csv', 'net.txt', cwd=plant).out
    assert out.startswith('accepted') and 'flue-gas' in out


def test_what_a_network_may_cost_has_their_cost_in_it(plant: Path) -> None:
    """All of them cost 0.971 EUR/h, and what the program knows costs nothing."""
    case = read_case((plant / 'case.csv').read_bytes())
    shown, beside = Shown(case.basis), cost_of_ranges(case)
    assert cost_told(range_costs(case), 0, shown) == \
        '0.971 EUR/h: 0.938 EUR/h of flue-gas, 0.033 EUR/h of water, 0 EUR/h by the program'
    assert limit_of(0, shown.in_program(Fraction(1)), None, shown, beside) == shown.in_program(Fraction(1)) - beside
    assert limit_of(0, None, 10, shown, beside) == Fraction(beside, 10)
    with pytest.raises(NoNetwork) as none:
        limit_of(0, shown.in_program(Fraction('0.9')), None, shown, beside)
    assert 'no network costs less than 0.9714 EUR/h' in str(none.value)


def test_the_example_of_the_guide(pinch: Pinch) -> None:
    table = converted(pinch, TextFile('t', (EXAMPLES / 'flue-gas-table.txt').read_bytes()), Wanted('10'))
    assert [(utility.name, utility.cp) for utility in table.case.basis.ranges] == [
        ('flue-gas', 150), ('cooling-water', 60_100)]
    assert read_case(case_text(table)).streams == table.case.streams
    assert not made((EXAMPLES / 'flue-gas-table.txt').read_bytes()).case.utilities
