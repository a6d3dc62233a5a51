"""What a table leaves open is told where it is taken for granted, and refused where two readings are as likely."""
from __future__ import annotations

import pytest
from conftest import example
from hypothesis import assume, given
from hypothesis import strategies as some
from tabled import TEN, made, refusal, streams

from pinchdesk import Pinch, read_case
from pinchdesk.figures import sweep_figure
from pinchdesk.tables.convert import Wanted
from pinchdesk.tables.names import FIT, fit_names


# The columns of a table without headings.

@pytest.mark.parametrize('text', [
    'H1;2;150;60\nH2;8;90;60\nC1;2.5;20;125\n', 'A;2;150;60\nB;8;90;60\nC;2.5;20;125\n',
    'H1;150;60;180\nC1;20;125;262.5\n',
    'A;200;150;60\nB;180;20;125\n', 'A;300;150;60\nB;250;20;125\n', 'hot;A;2;150;60\ncold;B;2.5;20;125\n',
    '1;60;150;2\n2;20;125;3\n3;30;40;900\n', 'H1;60;150;2\nC1;20;125;3\n',
    'H;60;150;2\nC;20;125;3\n', 'C1;150;60;2\nC2;20;125;3\n',
    '150;60;2;180\n20;125;2.5;262.5\n', 'hot;150;60;2;180\ncold;20;125;2.5;262.5\n',
    'hot;A;150;60;2\nheater;HP;250;35\n', 'A;2;150;40\nB;8;90;30\n'])
def test_columns_without_headings_that_may_be_others_are_refused(text: str) -> None:
    assert 'give headings' in refusal(text)


def test_columns_without_headings_are_told() -> None:
    table = made('hot;H1;150;60;2\ncold;C1;20;125;2.5\nheater;HP;250;;;30\nforbid;H1;C1\n')
    assert table.notes[:2] == ('there are no headings: the columns of a stream are taken as name, supply, target, CP',
                               'there are no headings: the columns of a utility are taken as name, supply, price')
    assert streams('H1;150;60;2;180\nC1;20;125;100;10500\n')[1][4] == 10_000
    assert streams('A;150 °C;60 °C;200 kW/K\nB;20 °C;125 °C;180 kW/K\n')[0][4] == 20_000
    assert streams('A;-20;-150;2\nB;-160;-30;2.5\n')[0][:4] == ('hot', 'A', -200, -1500)
    assert streams('1;150;60;2\n2;20;125;2.5\n')[1][1] == '2'


# Units that one kind of numbers has and another one has not.

@pytest.mark.parametrize('head, row', [
    ('name;supply (°F);target (°F);CP', 'A;302;140;2'), ('name;supply;target;CP (Btu/(h °F))', 'A;302;140;2000'),
    ('name;supply (°R);target (°R);CP', 'A;702;540;2'),
    ('name;supply;target;CP (kW/K);contribution (°F)', 'A;302;140;2;9'),
    ('name;supply (°F);target (°F);CP (kW/K);contribution', 'A;302;140;2;9'),
    ('name;supply °C;target °C;CP;duty (MW)', 'A;150;60;2;\nB;150;60;;0.18'),
    ('name;supply °C;target °C;CP (W/K);duty', 'A;150;60;2000;\nB;150;60;;180'),
    ('kind;name;supply °C;target °C;CP;most (MW)', ';A;150;60;2;\nheater;S;200;;;5')])
def test_a_unit_that_stands_with_another_kind_is_not_passed_over(head: str, row: str) -> None:
    assert 'and none is given for' in refusal(f'{head}\n{row}\n', Wanted('10 K'))


def test_units_that_go_together_are_taken() -> None:
    assert streams('name;supply (K);target (K);CP\nA;423.15;333.15;2\n')[0][4] == 200
    assert streams('name;supply (°F);target (°F);duty\nA;302;140;180\n', Wanted('10 K'))[0][4] == 200
    assert streams('name;supply °C;target °C;CP;duty (kW)\nA;150;60;2;180\n')[0][4] == 200


@pytest.mark.parametrize('difference', ['18', '18,0', '10'])
def test_a_least_difference_without_a_unit_beside_fahrenheit_is_refused(difference: str) -> None:
    for head in ('Stream;Supply (F);Target (F);CP (kW/K)', 'Stream;Supply °F;Target °F;Duty (kW)'):
        assert f'say -d "{difference} °F"' in refusal(f'{head}\nFeed;68;356;10\n', Wanted(difference))
    text = 'Stream;Supply (F);Target (F);CP (kW/K)\nFeed;68;356;10\n'
    assert made(text, Wanted('18 °F')).case.contribution == made(text, Wanted('10 K')).case.contribution == 50
    assert made('Stream;Supply (K);Target (K);CP\nFeed;300;356;10\n', TEN).case.contribution == 50


# Prices.

PRICED = 'Kind;Name;Supply °C;Target °C;CP kW/K;Price (EUR/MWh)\nhot;H;150;60;2;\ncold;C;20;60;2,5;\n'


def test_a_utility_without_a_price_beside_priced_ones_of_its_side_is_refused() -> None:
    said = refusal(f'{PRICED}heater;st;180;;;30\ncooler;cw;20;;;2\ncooler;brine;-10;;;\n')
    assert said == 'row 6 column 6: the price of brine is missing, and cw has one'
    assert 'the price of lp is missing' in refusal(f'{PRICED}heater;st;180;;;30\nheater;lp;120;;;\n')


def test_coolers_without_any_price_cost_nothing_and_that_is_told() -> None:
    table = made(f'{PRICED}heater;st;180;;;30\ncooler;cw;20;;;\ncooler;air;40;;;\n')
    assert 'no price is given for cw, air: a cooler costs nothing' in table.notes
    assert 'no cooler is given: COLD is added, and costs nothing' in made(f'{PRICED}heater;st;180;;;30\n').notes
    none = made(PRICED.replace(' (EUR/MWh)', '') + 'heater;st;180;;;\ncooler;cw;20;;;\n')
    assert 'no price is given for the utilities: a heater costs 1 per W, and a cooler nothing' in none.notes


# Duties.

@pytest.mark.parametrize('rows', ['H1;60;150;-180\nC1;20;125;262.5', 'C1;20;125;-262.5', 'H1;150;60;-180\nH2;90;60;240',
                                  'H1;150;60;180\nH2;90;60;-240\nC1;20;125;262.5'])
@pytest.mark.parametrize('heading', ['ΔH (kW)', 'Duty (kW)', 'Q [kW]'])
def test_a_duty_whose_sign_contradicts_its_temperatures_is_refused(heading: str, rows: str) -> None:
    said = refusal(f'Stream;Supply (°C);Target (°C);{heading}\n{rows}\n')
    assert 'warms up' in said or 'cools down' in said


def test_duties_with_signs_that_agree_are_read() -> None:
    head = 'Stream;Supply (°C);Target (°C);ΔH (kW)\n'
    for rows in ('H1;150;60;-180\nC1;20;125;262.5', 'H1;150;60;180\nC1;20;125;262.5'):
        assert [stream[4] for stream in streams(f'{head}{rows}\n')] == [200, 250]
    both = 'Stream;Supply (°C);Target (°C);CP (kW/K);ΔH (kW)\n'
    assert 'warms up' in refusal(f'{both}C1;20;125;2.5;-262.5\n')


def test_of_a_cp_and_a_duty_that_differ_a_little_the_cp_counts_and_that_is_told() -> None:
    table = made('name,supply °C,target °C,CP kW/K,duty kW\nH,150,60,2.0,182\n')
    assert table.notes == ('row 2 column 5: the CP 2.0 kW/K is used, which makes 180 kW, not the duty 182 kW',)


# What a sweep replaces.

def test_the_picture_of_a_sweep_says_that_contributions_are_replaced(pinch: Pinch) -> None:
    for name, said in (('own-contributions', True), ('four-stream', False)):
        content = example(f'{name}.csv')
        title = sweep_figure(read_case(content), pinch.sweep(content, 50, 60, 10)).axes[0].get_title()
        assert ('contributions of their own are replaced' in title) is said


# Names.

NAMES = [
    (['Rauchgas Kessel 2', 'Rauchgas Kessel 1'], ['Rauchgas-Kesse-2', 'Rauchgas-Kesse-1']),
    (['Rauchgas Kessel 2'], ['Rauchgas-Kesse-2']),
    (['Rauchgas-Kessel', 'Rauchgas Kessel 2'], ['Rauchgas-Kessel', 'Rauchgas-Kesse-2']),
    (['Rauchgas Kessel', 'Rauchgas Kessel 2', 'Rauchgas-Kesse-2'], ['Rauchgas-Kessel', None, 'Rauchgas-Kesse-2']),
    (['Column 1/overhead vapour', 'Column 1/overhead liquid'], ['Column-1-vapour', 'Column-1-liquid']),
    (['Superlongstreamname1', 'Superlongstreamname2'], ['Superlongstream1', 'Superlongstream2']),
    (['Feed:', 'Feed;', 'Feed 2'], ['Feed', 'Feed-b', 'Feed-2']),
    (['Reactor effluent cooler 11', 'Reactor effluent cooler 12', 'Reactor effluent cooler 1'],
     ['Reactor-efflu-11', 'Reactor-efflu-12', 'Reactor-efflue-1']),
    (['Kühlwasser Rücklauf'], ['Kuehlwasser-Ruec']), (['cooling water'], ['cooling-water']), (['温度', 'A'], ['S1', 'A']),
    (['S1', '温度'], ['S1', 'S2']), (['温度', '圧力', 'S 1'], [None, 'S2', 'S-1']),
]


@pytest.mark.parametrize('names, wanted', NAMES)
def test_names_keep_what_tells_them_apart(names: list[str], wanted: list[str | None]) -> None:
    found = [fit_names(names)[name] for name in names]
    assert [one if two else None for one, two in zip(found, wanted)] == wanted
    assert len(set(found)) == len(found)


WORDS = some.lists(some.sampled_from(['Rauchgas', 'Kessel', 'overhead', 'vapour', 'A', '1', '2', '11', 'ü', '-', ':']),
                   min_size=1, max_size=6).map(' '.join)


@given(some.lists(WORDS, min_size=1, max_size=8, unique=True))
def test_any_names_are_fit_and_apart(names: list[str]) -> None:
    found = fit_names(names)
    assert len(set(found.values())) == len(names) and all(FIT.fullmatch(fit) for fit in found.values())
    assert all(found[name] == name for name in names if FIT.fullmatch(name))


@given(some.sampled_from(['Rauchgas Kessel', 'Column 1 overhead vapour', 'E-100 A/B product cooler no.', 'Feed']),
       some.integers(0, 999), some.integers(0, 999))
def test_a_number_at_the_end_of_a_name_stays(stem: str, one: int, other: int) -> None:
    assume(one != other)
    found = fit_names([f'{stem} {one}', f'{stem} {other}'])
    assert [fit.rpartition('-')[2] for fit in found.values()] == [str(one), str(other)]
