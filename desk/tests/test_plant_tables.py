"""Tables as books, simulators and plants have them are taken as they are."""
from __future__ import annotations

import pytest
from further_tables import FURTHER, OWN_UNITS
from plant_tables import BOOK, GERMAN, HYSYS, SHENOY, TABLES, Rows
from simulator_tables import BIEGLER, HINT, REFUSED, SIDES, SIMULATORS
from tabled import made, refusal, workbook

from pinchdesk import Pinch
from pinchdesk.formats.case import print_case, read_case
from pinchdesk.report.understood_sheet import understood_sheet
from pinchdesk.tables.convert import Wanted, checked


ALL_TABLES = TABLES | SIMULATORS | FURTHER


@pytest.mark.parametrize('name', ALL_TABLES)
def test_a_table_is_taken_at_the_first_try(name: str, pinch: Pinch) -> None:
    table = ALL_TABLES[name]
    case = checked(made(table.content, Wanted(table.difference), 't'), pinch).case
    targets = pinch.targets(case)
    assert abs(targets.hot / 1000 - table.hot) <= table.off, targets
    assert abs(targets.cold / 1000 - table.cold) <= table.off, targets


@pytest.mark.parametrize('name', OWN_UNITS)
def test_published_answers_come_out_in_the_units_of_the_table(name: str, pinch: Pinch) -> None:
    case = checked(made(FURTHER[name].content, Wanted(FURTHER[name].difference, own_units=True), 't'), pinch).case
    targets, units = pinch.targets(print_case(case)), case.basis.units
    assert units is not None
    assert (str(targets.hot / units.parts), str(targets.cold / units.parts)) == OWN_UNITS[name]


@pytest.mark.parametrize('name', REFUSED)
def test_a_table_that_has_two_meanings_is_refused_with_what_to_write(name: str) -> None:
    content, cause = REFUSED[name]
    assert cause in refusal(content)


def test_a_table_in_its_own_units_needs_no_scale() -> None:
    large = BIEGLER.replace(';0.', ';1.')
    assert '--scale 0.1 would do' in refusal(large, Wanted('20 K'))
    assert made(large, Wanted('20 K', own_units=True)).case.basis.units is not None


def test_the_contribution_of_each_stream_is_that_of_the_case() -> None:
    case = made(HINT + 'Steam\t\t200\t200\t\t\t\t\n'.replace('Steam', 'Hot utility'), Wanted()).case
    assert case.contribution == 50 and case.utilities[0].contribution == 50
    two = refusal(HINT.replace('0.5\t5\n', '0.5\t8\n', 1), Wanted())
    assert 'no contribution: give the least difference, as -d 10, which utilities have then' in two


def test_duties_of_either_sign_are_taken_where_a_kind_says_the_same() -> None:
    turned = SIDES.replace('-8.', '8.').replace('1.188', '-1.188').replace('6.48', '-6.48')
    assert made(turned).case == made(SIDES).case
    assert 'a hot stream runs the other way' in refusal(SIDES.replace('170.0;60.0', '60.0;170.0'))


def test_utilities_are_what_their_titles_and_names_say() -> None:
    wanted: tuple[tuple[str | bytes, list[tuple[str, str, int]]], ...] = (
        (GERMAN, [('Dampf-10-bar', 'hot', 1800), ('Kuehlwasser', 'cold', 250)]),
        (SHENOY, [('Hot-utility', 'hot', 1790), ('Cold-utility', 'cold', 250)]),
        (BOOK, [('HP-steam', 'hot', 2390), ('Cooling-water', 'cold', 250)]))
    for content, levels in wanted:
        case = made(content, Wanted('10 K', levels=True), 't').case
        assert [(utility.name, utility.side.value, utility.level) for utility in case.utilities] == levels
    assert 'has to say heater or cooler' in refusal('Utilities\nName;Level;Price\nBFW;150;3\n\nName;Tin;Tout;CP\n'
                                                    'H1;150;60;2\n')


def test_coefficients_are_kept_as_comments_with_their_units() -> None:
    case = made(SHENOY, Wanted('10 K')).case
    text = print_case(case)
    assert '#film,H1,0.2,kW/m2 °C,,,\n' in text and '#film,Hot-utility,0.2,kW/m2 °C,,,\n' in text
    assert read_case(text) == case
    overall = made('Name;Tin;Tout;CP;U (W/m2 C);h\nH;150;60;2;500;0.3\nC;20;60;2;400;\n')
    assert print_case(overall.case).startswith('#film,H,0.3,,,,\n#overall,H,500,W/m2 C,,,\n#overall,C,400,W/m2 C,,,\n')
    assert all(line.count(',') == 6 for line in print_case(overall.case).splitlines())


def test_columns_that_are_not_known_are_passed_over_and_reported() -> None:
    table = made(HYSYS, Wanted('10 K'))
    assert {note for note in table.notes} == {f'passed over, the column `{title}`' for title in
                                              ('Segm.', 'Clean/dirty')}
    assert "`Tagret` is not known" in refusal('Name;Tin;Tagret;CP\nH;150;60;2\n')


def test_how_a_table_was_understood_is_one_table() -> None:
    table = made('Plant 7\nName;Tin (°C);Tout;MCp [kW/K];Fluid\nH1;150;60;2;oil\nSum;;;2;\n')
    sheet = understood_sheet(table)
    assert sheet.headings == ('place', 'in the table', 'taken as', 'unit')
    assert sheet.rows == (
        ('row 2 column 1', 'Name', 'name', ''), ('row 2 column 2', 'Tin (°C)', 'supply temperature', '°C'),
        ('row 2 column 3', 'Tout', 'target temperature', '°C, unless a number has its own'),
        ('row 2 column 4', 'MCp [kW/K]', 'CP', 'kW/K'), ('row 1', 'Plant 7', 'passed over: above the headings', ''),
        ('row 2 column 5', 'Fluid', 'passed over: a column', ''), ('row 4', 'Sum 2', 'passed over: a sum', ''))


def test_a_column_in_a_second_unit_has_to_say_the_same() -> None:
    twins = 'Name;Tin (°C);Tout (°C);Tin (K);CP (kW/K)\nH;150;60;{};2\n'
    assert made(twins.format('423,15')).case.streams[0].supply == 1500
    assert 'are not the same' in refusal(twins.format('433,15'))


HEAD = 'Stream;Tin (°C);Tout (°C);CP (kW/K)\nH;150;60;2\nC;20;60;2\n'
EXCHANGERS = ('Exchanger;Tin (°C);Tout (°C);Duty (kW)\nE1;150;60;180\n',
              'Exchanger;Hot stream;Cold stream;Duty (kW);Area\nE1;H;C;180;20\n')


@pytest.mark.parametrize('other', EXCHANGERS)
def test_a_list_of_exchangers_is_no_table_of_streams(other: str) -> None:
    table = made(f'{HEAD}\n{other}')
    assert [stream.name for stream in table.case.streams] == ['H', 'C']
    assert any('row 6: passed over, of another table: `E1' in note for note in table.notes)
    assert refusal(other)
    assert 'a further table, of `Gadget`' in refusal(f'{HEAD}\n{EXCHANGERS[0]}'.replace('Exchanger', 'Gadget'))


def test_what_a_plant_needs_is_no_temperature_of_a_utility() -> None:
    assert 'the target temperature is missing' in refusal(f'{HEAD}Hot utility;120;;\n')


def test_a_title_holds_for_what_stands_below_it() -> None:
    bare = 'Stream;Tin;Tout;CP (kW/K)\n{};{}\n'
    kelvins = bare.format('B', '300;400;2')
    assert 'names a unit' in refusal(bare.format('A', '150;60;2') + 'Temperatures in K\n' + kelvins)
    utilities: list[list[object]] = [['Temperatures in K'], ['Utility', 'Tin', 'Tout', 'Price'], ['Steam', 500, 499, 3]]
    book = workbook([[*'ab'], ['Stream', 'Tin', 'Tout', 'CP (kW/K)'], ['H', 150, 60, 2]], Utilities=utilities)
    assert 'and none is given for' in refusal(book)


@pytest.mark.parametrize('head', ['Name;T1;T2;CP', 'Name;Te;Ta;CP', 'Name;Tin;Tout;cp (kJ/kg K)',
                                  'Name;Tin;Tout;m (kg/s)', 'Name;Tin;Tout;colour', 'Name;Tin;CP;Tin',
                                  'Name;Hot in;Hot out;CP'])
def test_headings_that_are_not_enough_or_two_things_are_refused(head: str) -> None:
    assert refusal(f'{head}\nH;150;60;2\nK;120;60;3\n')


def test_columns_that_may_be_the_other_way_round_are_taken_where_a_stream_says_how_it_runs() -> None:
    assert made('Name;T1;T2;CP\nH1;150;60;2\nFeed;20;60;3\n').case.streams[1].side.value == 'cold'
    assert made('Name;Te;Ta;CP\nHot streams\nA;150;60;2\nCold streams\nB;20;60;3\n').case.streams[0].supply == 1500
    assert made('Kind;Name;T1;T2;CP\nhot;A;150;60;2\n').case.streams[0].supply == 1500
    assert 'H1 is hot, and would run the other way' in refusal('Name;T1;T2;CP\nH1;60;150;2\nFeed;20;60;3\n')
    assert '`Te` and `Ta` may be supply and target, or others' in refusal('Name;Te;Ta;CP\nA;150;60;2\nB;20;60;3\n')


def test_a_table_on_its_side_is_refused_by_its_places() -> None:
    table = 'Stream;H1;C1\nSupply (°C);170;20\nTarget (°C);60;135\nCP (kW/K);3;{}\n'
    assert 'row 4 column 3' in refusal(table.format('x'))
    assert 'the table lies on its side: each of its columns is taken as a row' in made(table.format('2')).notes
    sheet = understood_sheet(made(table.format('2')))
    assert sheet.rows[1] == ('row 2 column 1', 'Supply (°C)', 'supply temperature', '°C')


def test_masses_go_with_specific_and_latent_heats() -> None:
    masses = 'Name;m (t/h);cp (kJ/kg K);Tin;Tout\nH;7,2;4,2;150 °C;60 °C\n'
    assert [stream.cp for stream in made(masses).case.streams] == [840]
    latent = 'Kind;Name;Flow (t/h);Latent heat (kJ/kg);Tin;Tout\nhot;V;3,6;2000;120;120\n'
    assert [stream.load for stream in made(latent).case.streams] == [2_000_000]
    assert 'needs a mass flow beside it' in refusal('Name;m;cp (kJ/kg K);Tin;Tout\nH;2;4,2;150;60\n')


def test_a_price_of_steam_per_tonne_needs_its_latent_heat() -> None:
    text = 'Kind;Name;Tin;Tout;CP;Price;Latent heat (kJ/kg)\nhot;H;150;60;2;;\nheater;S;200;;;18 EUR/t;1800\n'
    table = made(text)
    assert table.case.basis.price_unit == 'EUR/MWh' and table.case.utilities[0].price == 36
    assert any('18 EUR/t is 36 EUR/MWh, by a latent heat of 1800 kJ/kg' in note for note in table.notes)
    assert 'is a price per mass' in refusal(text.replace(';Latent heat (kJ/kg)', ';Remark').replace(';1800', ';'))


def test_steam_of_a_pressure_is_priced_by_the_steam_tables() -> None:
    pytest.importorskip('iapws')
    text = 'Kind;Name;Tin;Tout;CP;Price (EUR/t);Pressure\nhot;H;150;60;2;;\nheater;S;180;;;20;10 bar\n'
    assert any('by a latent heat of 2014.6 kJ/kg at 10 bar' in note for note in made(text).notes)


def test_a_title_may_say_the_least_difference() -> None:
    text = 'ΔTmin = 20 °C;;;\nName;Tin;Tout;CP\nH;150;60;2\n'
    assert made(text, Wanted()).case.contribution == 100 and made(text, Wanted('10')).case.contribution == 50
    assert 'no contribution' in refusal('dTmin = 20 K or dTmin = 10 K\n' + text, Wanted())


def test_hot_and_cold_streams_on_sheets_of_their_own() -> None:
    head: list[object] = ['Name', 'Tin (°C)', 'Tout (°C)', 'CP (kW/K)']
    hot: Rows = [head, ['H1', 150, 60, 2]]
    cold: Rows = [head, ['C1', 20, 60, 2]]
    both: Rows = [*hot, *cold[1:]]
    assert [stream.name for stream in made(workbook(hot, Cold=cold)).case.streams] == ['H1', 'C1']
    assert 'have streams: use --sheet' in refusal(workbook(hot, Other=both))
    assert 'have streams: use --sheet' in refusal(workbook([['Plant 7']], Base=both, Revamp=both))
    read = made(workbook(both, Revamp=both))
    assert 'of the sheets the first one, Streams, is read, not Revamp (--sheet)' in read.notes


def test_a_number_beside_a_mass_flow_may_be_a_specific_heat() -> None:
    assert 'may be a CP or a specific heat' in refusal('Name;m (kg/s);cp;Tin;Tout\nA;2;4.2;150;60\n')
    assert made('Name;m (kg/s);cp;Tin;Tout;Q (kW)\nA;2;4.2;150;60;378\n').case.streams[0].cp == 420
    assert 'makes 378 kW' in refusal('Name;m (kg/s);cp;Tin;Tout;Q (kW)\nA;2;4.2;150;60;756\n')
