"""What rows say in words is taken where it has one meaning, and refused where something else contradicts it."""
from __future__ import annotations

import pytest
from further_tables import (BOILING, COSTS_BELOW, CURVES, ENTHALPY_CHANGES, FOOTNOTES, LATENT, LETTERS_FRENCH,
                            LETTERS_GERMAN, QUESTIONS, RANKINE, REQUIRED, TWO_DUTIES, UNISIM, UNSIZED)
from tabled import made, refusal, streams, workbook

from pinchdesk.tables.convert import Wanted

HEAD = 'Stream;Tin (°C);Tout (°C);CP (kW/K);Q (kW)\nH1;170;60;3;\nC1;20;135;2;\n'
NAMED = HEAD + '{};120;120;;100\n'
OPEN = 'a column `kind` has to say'


@pytest.mark.parametrize('name, side', [('H2', 'hot'), ('C2', 'cold'), ('Hot 7', 'hot'), ('cold-2', 'cold')])
def test_a_latent_stream_has_the_side_of_its_name(name: str, side: str) -> None:
    assert streams(NAMED.format(name))[-1][0] == side
    assert any(f'`{name}` is {side} by its name' in note for note in made(NAMED.format(name)).notes)


def test_a_name_says_nothing_where_others_contradict_it_or_none_agrees() -> None:
    assert OPEN in refusal(NAMED.format('H2').replace('C1;20;135', 'C1;135;20'))
    assert OPEN in refusal(NAMED.format('C3').replace('H1;', 'Effluent;'))
    assert OPEN in refusal(NAMED.format('H')) and OPEN in refusal(NAMED.format('Heptane'))
    # Hydrogen, butane and propane.
    assert OPEN in refusal(NAMED.format('C3').replace('H1;', 'H2;').replace('C1;', 'C4;'))


def test_signs_of_duties_are_taken_either_way_where_names_or_kinds_agree() -> None:
    assert 'what a stream gives' in refusal(RANKINE.replace('H1,', 'A,'), Wanted('10 °F'))
    assert 'what a stream gives' in refusal(RANKINE.replace('3.0', '-3.0'), Wanted('10 °F'))


@pytest.mark.parametrize('old, new', [
    ('Cooler"\n"E-101"', 'Hot"\n"E-101"'), ('"170.0000","60.0000"', '"60.0000","170.0000"'),
    ('"330.0000"', '""'), ('"Heater"\n"E-103"', '"Cooler"\n"E-103"')])
def test_heaters_and_coolers_are_streams_only_where_all_of_them_are(old: str, new: str) -> None:
    assert old in UNISIM and refusal(UNISIM.replace(old, new))


@pytest.mark.parametrize('name', ['CW', 'Steam', 'MP steam', 'Steam (40 bar)', 'HP-Steam', 'Kühlwasser', 'LPS'])
def test_a_row_without_a_size_is_a_utility_where_its_name_is_that_of_one(name: str) -> None:
    table = made(HEAD + f'{name};290;290;;\n')
    assert [utility.level for utility in table.case.utilities] == [2900]
    assert any('neither a CP nor a duty: it is taken as a utility' in note for note in table.notes)


@pytest.mark.parametrize('name', ['H2', 'Condensate', 'Steam condensate', 'Vapor', 'Cooling water return'])
def test_a_stream_without_a_size_is_refused(name: str) -> None:
    assert refusal(HEAD + f'{name};290;290;;\n')
    assert refusal(HEAD + f'{name};90;30;?;?\n')


def test_a_utility_of_no_known_name_has_the_side_that_its_level_leaves() -> None:
    table = HEAD + 'X;{};{};(var);(var)\n'
    assert [utility.side.value for utility in made(table.format(171, 171)).case.utilities] == ['hot']
    assert [utility.side.value for utility in made(table.format(19, 19)).case.utilities] == ['cold']
    assert OPEN in refusal(table.format(170, 170)) and OPEN in refusal(table.format(20, 20))
    assert OPEN in refusal(table.replace('X;', 'BFW;').format(300, 300))


def test_what_boils_is_cold_and_what_condenses_is_hot() -> None:
    assert 'a hot stream does not do that' in refusal(BOILING.replace('Reboiler,cold', 'Reboiler,hot'))
    assert streams(BOILING.replace('Reboiler,cold', 'Reboiler,'))[-2][0] == 'cold'
    assert 'cold' in {row[0] for row in streams(BOILING.replace('boiling', 'isothermal'))[-2:]}
    assert refusal(BOILING.replace('boiling', 'bubbling'))


def test_a_mark_is_passed_over_where_its_footnote_names_no_other_unit() -> None:
    assert '`*`' in ' '.join(made(FOOTNOTES).notes)
    for old, new in (('* limited by freezing\n', ''), ('limited by freezing', 'in K'), ('1) design case', '3) of 2026'),
                     ('330¹⁾', '330²')):
        assert refusal(FOOTNOTES.replace(old, new))


def test_a_bracket_at_a_temperature_is_no_sign() -> None:
    assert refusal(HEAD.replace('170', '(170)')) and refusal(HEAD.replace('3;', '(3);'))


def test_the_sizes_of_utilities_are_not_those_of_streams() -> None:
    assert [utility.name for utility in made(QUESTIONS).case.utilities] == []
    assert len(made(UNSIZED).case.streams) == 4 and len(made(LATENT).case.streams) == 6


def test_the_column_of_a_duty_says_which_way_its_stream_runs() -> None:
    assert [row[0] for row in streams(TWO_DUTIES)] == ['hot', 'hot', 'cold', 'cold']
    assert 'runs the other way' in refusal(TWO_DUTIES.replace('170,60', '60,170'))
    assert refusal(TWO_DUTIES.replace('330,\n', '330,330\n')) and refusal(TWO_DUTIES.replace('330,\n', ',\n'))
    assert refusal(TWO_DUTIES.replace('Heating duty (kW)', 'Heating duty (MW)'))
    kinds = REQUIRED.replace('Stream', 'Kind;Stream').replace('H', 'hot;H').replace('C', 'cold;C')
    assert kinds.count('hot;H') == 4 and refusal(kinds)
    latent = streams(TWO_DUTIES.replace('150,30', '150,150'))[1]
    assert latent[0] == 'hot' and latent[-1] == 180_000


def test_a_curve_has_the_name_of_its_title() -> None:
    assert [row[:2] for row in streams(workbook(CURVES))] == [
        ('hot', 'H1-1'), ('hot', 'H1-2'), ('cold', 'C1-1'), ('cold', 'C1-2')]
    below = ('Stream: Feed (cold)\nT (°C);H (kW)\n20;0\n100;160\n140;400\n\n'
             'Cooling curve of S2\nT (°C);H (kW)\n170;9\n60;0\n')
    assert [row[:2] for row in streams(below)] == [('cold', 'Feed-1'), ('cold', 'Feed-2'), ('hot', 'S2')]
    for old, new in ((' (cold)', ''), ('Stream: Feed (cold)', 'Cold streams'), ('Stream: Feed (cold)\n', ''),
                     (' (cold)', ' (hot and cold)'), ('Cooling curve of S2', 'Cooling curve of S2 (cold)')):
        assert refusal(below.replace(old, new))


@pytest.mark.parametrize('said', ['Pincement minimal : 10 °C', 'minimale Temperaturdifferenz 10 K', 'Grädigkeit: 10 K',
                                  'Diferencia mínima de temperatura: 10 °C', 'Écart minimal de 10 K',
                                  'Differenza minima di temperatura = 10 °C', 'minimum approach 10 K'])
def test_a_title_has_the_least_difference_in_five_languages(said: str) -> None:
    assert made(f'{said}\n{HEAD}', Wanted()).case.contribution == 50


def test_letters_of_kinds_are_those_of_one_language() -> None:
    assert [row[0] for row in streams(LETTERS_FRENCH)] == ['hot', 'hot', 'cold', 'cold']
    assert 'is not a kind' in refusal(LETTERS_FRENCH.replace('F2;C', 'F2;H'))
    assert 'runs the other way' in refusal(LETTERS_FRENCH.replace('170;60', '60;170'))
    assert streams(LETTERS_GERMAN) == streams(LETTERS_GERMAN.replace(';K;', ';C;'))


def test_a_latent_heat_is_no_change_of_enthalpy() -> None:
    assert streams(ENTHALPY_CHANGES)[0][-2:] == (300, 0)
    assert 'a CP or a duty is missing' in refusal(ENTHALPY_CHANGES.replace('Δh (kJ/kg)', 'Latent heat (kJ/kg)'))
    assert 'a CP or a duty is missing' in refusal(ENTHALPY_CHANGES.replace('Flow (kg/s)', 'Flow (m3/s)'))


def test_rows_of_costs_are_passed_over_and_streams_are_not() -> None:
    assert any('Interest rate 10 %' in note for note in made(COSTS_BELOW).notes)
    assert refusal(COSTS_BELOW.replace('Plant life;5;years', 'Plant air;5;years'))
    assert refusal(COSTS_BELOW.replace('Plant life;5;years', 'Plant life;5;60'))


SIGNED = 'Name,Tin (°C),Tout (°C),ΔH (kW)\nB1,170,60,-330\nB2,20,135,230\n{},{},{},{}\n'


def test_the_sign_of_a_duty_says_the_side_of_a_latent_stream() -> None:
    assert streams(SIGNED.format('B3', 95, 95, -150))[-1] == ('hot', 'B3', 950, 950, 0, 150_000)
    assert streams(SIGNED.format('B3', 95, 95, 150))[-1] == ('cold', 'B3', 950, 950, 0, 150_000)
    kinds = 'Kind,' + SIGNED.format('B3', 95, 95, -150).replace('B1', 'hot,B1').replace('B2', 'cold,B2')
    assert streams(kinds.replace('B3', 'hot,B3'))[-1][0] == 'hot'
    assert 'the duty -150 kW is below 0, and the stream warms up' in refusal(kinds.replace('B3', 'cold,B3'))
    assert 'what a stream gives' in refusal(SIGNED.format('B3', 95, 60, 150))
    assert OPEN in refusal(SIGNED.format('B3', 95, 95, 150).replace('-330', '330'))


BOTH_ENDS = 'Stream;T in (°C);T out (°C);Flow (kg/s);{};{}\nH1;170;60;2;1330;1000\nC1;20;135;2;100;330\n'


@pytest.mark.parametrize('first, second', [
    ('Enthalpy in (kW)', 'Enthalpy out (kW)'), ('Enthalpy in [kW]', 'Enthalpy out [kW]'),
    ('h in (kJ/kg)', 'h out (kJ/kg)'),
    ('Enthalpy, in (kJ/kg)', 'Enthalpy, out (kJ/kg)'), ('Enthalpie ein (kW)', 'Enthalpie aus (kW)'),
    ('Cp in (kJ/kg K)', 'Cp out (kJ/kg K)'), ('CP in (kW/K)', 'CP out (kW/K)')])
def test_heats_at_both_ends_are_none_of_the_stream(first: str, second: str) -> None:
    assert 'are those at both ends of a stream' in refusal(BOTH_ENDS.format(first, second))


@pytest.mark.parametrize('title', ['Enthalpy (kJ/kg)', 'h (kJ/kg)', 'Specific enthalpy (kJ/kg)', 'Enthalpy in (kJ/kg)'])
def test_an_enthalpy_at_one_place_is_no_change_of_it(title: str) -> None:
    assert refusal(BOTH_ENDS.format(title, 'Remark'))


@pytest.mark.parametrize('title', ['Duty in kW', 'Duty in (kW)', 'Leistung in [kW]'])
def test_a_unit_behind_in_is_one(title: str) -> None:
    assert streams(BOTH_ENDS.format(title, 'Remark'))[0][4] == 1209


@pytest.mark.parametrize('given, taken', [('Cooling required', 'Heating required'), ('Q ab', 'Q zu'),
                                          ('Kühlleistung', 'Heizleistung'), ('Heat removed', 'Heat added')])
def test_duties_of_hot_and_cold_streams_have_their_columns(given: str, taken: str) -> None:
    assert streams(f'Stream;Tin;Tout;{given} (kW);{taken} (kW)\nA;170;60;330;\nB;20;135;;230\n') == [
        ('hot', 'A', 1700, 600, 300, 0), ('cold', 'B', 200, 1350, 200, 0)]


def test_a_title_over_two_columns_of_a_text_has_the_unit_of_both() -> None:
    rows = 'H1;338;140;5;4;330\nC1;68;275;8;7;230\n'
    table = 'Stream;Temperature (°F);;Pressure (bar);;Duty (kW)\n;in;out;in;out;\n' + rows
    assert streams(table, Wanted('18 °F')) == [('hot', 'H1', 1700, 600, 300, 0), ('cold', 'C1', 200, 1350, 200, 0)]
    assert 'passed over, the column `out`' in made(table, Wanted('18 °F')).notes
    assert refusal(table.replace('(bar)', '(°F)'), Wanted('18 °F'))


def test_a_rate_of_money_is_no_mass_flow() -> None:
    assert 'passed over, the column `Rate (€/MWh)`' in made(
        'Stream;Kind;Tin;Tout;CP (kW/K);Rate (€/MWh)\nH;hot;170;60;3;\nS;heater;200;;;30\n').notes
