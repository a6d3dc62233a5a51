"""A number outside its limits is named, with its column, the limit, and the scale that would do; what is missing or not
known is told in the engineer's words, all at once."""
from __future__ import annotations

from dataclasses import replace
from fractions import Fraction
from pathlib import Path
from typing import Any

import openpyxl
import pytest
from conftest import CASES, as_objects, example, few_of, of_all, pinchdesk
from tabled import TEN, made, refusal, saved, streams, workbook

from pinchdesk import Pinch, Refused, read, read_case
from pinchdesk.analysis.change_table import read_changes
from pinchdesk.analysis.what_if import what_if
from pinchdesk.formats.comments import Basis
from pinchdesk.tables.convert import Wanted, checked
from pinchdesk.tables.roundings import exact_targets, span_of

HEAD = 'Kind;Name;Supply (°C);Target (°C);CP (kW/K);Duty (MW);Contribution (K);Least (MW);Most (MW)\n'


@pytest.mark.parametrize('row, said', [
    (';A;150;60;2000;;;;', 'row 3 column 5: the CP 2000 kW/K is outside its limits, 0.01 to 1000 kW/K'),
    (';A;150;60;;180;;;', 'row 3 column 6: the CP of the duty 180 MW, 2000 kW/K, is outside its limits, 0.01 to 1000'),
    (';A;3500;60;2;;;;', 'row 3 column 3: the supply 3500 °C is outside its limits, -273.1 to 3000 °C'),
    (';A;150;-280;2;;;;', 'row 3 column 4: the target -280 °C is outside its limits, -273.1 to 3000 °C'),
    (';A;150;60;2;;101;;', 'row 3 column 7: the contribution 101 K is outside its limits, 0 to 100 K'),
    (';A;150;60;2;;-1;;', 'row 3 column 7: the contribution -1 K is outside its limits, 0 to 100 K'),
    ('hot;A;150;150;;12000;;;', 'row 3 column 6: the duty 12000 MW is outside its limits, 0.000001 to 10000 MW'),
    ('heater;A;150;;;;;;2000000', 'row 3 column 9: the most 2000000 MW is outside its limits, 0 to 1000000 MW'),
    ('heater;A;150;;;;;-3;', 'row 3 column 8: the least -3 MW is outside its limits, 0 to 1000000 MW'),
    ('heater;A;150;;;;;3;2', 'row 3 column 8: the least 3 MW is above the most 2 MW')])
def test_a_number_outside_its_limits_is_named(row: str, said: str) -> None:
    assert said in refusal(f'{HEAD};B;20;125;2,5;;;;\n{row}\n')


def test_the_scale_that_would_do_is_named_and_does() -> None:
    text = f'{HEAD};B;20;125;25;;;;\n;A;150;60;2000;;;;\nhot;C;90;90;;12000;;;\n;D;150;60;;1800;;;\n'
    assert refusal(text).split('\n')[-1] == '--scale 0.01 would do: all CPs and heats a hundredth, and what the desk ' \
                                            'shows is as in the table'
    assert streams(text, replace(TEN, scale=Fraction(1, 100)))[1][4] == 2000
    small = f'{HEAD};B;20;125;0,004;;;;\n;A;150;60;2;;;;\n'
    assert '--scale 10 would do' in refusal(small) and 'the CP is 0' in refusal(small)
    assert streams(small, replace(TEN, scale=Fraction(10)))[0][4] == 4
    assert '--scale 1 would do: all CPs and heats as they are' in refusal(
        f'{HEAD};B;20;125;25;;;;\n;A;150;60;200;;;;\n', replace(TEN, scale=Fraction(10)))
    assert 'no --scale brings all within' in refusal(f'{HEAD};B;20;125;0,0000001;;;;\n;A;150;60;2000;;;;\n')


def test_at_a_scale_the_limits_are_those_of_the_table() -> None:
    said = refusal(f'{HEAD};A;150;60;200;;;;\n', replace(TEN, scale=Fraction(10)))
    assert 'the CP 200 kW/K is outside its limits, 0.001 to 100 kW/K' in said


@pytest.mark.parametrize('difference', ['500', '400 °F', '-5'])
def test_a_least_difference_outside_its_limits_is_named(difference: str) -> None:
    assert f'the least difference {difference} is outside its limits, 0 to 200 K' in refusal(
        'H;150;60;2;180\n', Wanted(difference))


def test_too_many_sources_are_counted() -> None:
    hot = 'name,supply °C,target °C,CP kW/K\n' + ''.join(f'S{at},150,60,2\n' for at in range(31))
    assert refusal(hot) == 'row 32: a case has at most 30 hot streams, and this is the 31st'
    coolers = 'kind,name,supply °C,target °C,CP kW/K\nhot,H,150,60,2\n' + ''.join(
        f'cooler,U{at},15,,\n' for at in range(13))
    assert refusal(coolers) == 'row 15: a case has at most 12 heaters and coolers, and this is the 13th'
    many = ''.join(f'a name that is long {":" * (at % 99)},150,60,2\n' for at in range(of_all(999, 2999)))
    head = 'name,supply °C,target °C,CP kW/K\n'
    assert 'row 502: a case has at most 30 hot and 30 cold streams' in refusal(head + many)


def test_a_number_of_a_case_or_a_scenario_outside_its_limits_is_named(pinch: Pinch, tmp_path: Path) -> None:
    case = 'contribution,,50,,,,\nhot,H,1500,600,200000,,\ncold,C,200,1250,250,,\n'
    with pytest.raises(Refused) as fault:
        pinch.targets(case)
    assert (fault.value.place, fault.value.cause) == ('case row 2', 'OutOfRange')
    assert fault.value.text == 'case row 2 OutOfRange: the CP 200000 is outside its limits, 1 to 100000 (in 10 W/K)'
    (tmp_path / 'case.csv').write_text(case)
    done = pinchdesk('targets', 'case.csv', cwd=tmp_path)
    assert (done.status, done.err) == (3, f'pinchdesk: case.csv: {fault.value.text}\n')
    variants = read_changes(b'scenario;source;field;value\nS;H;CP;5000 kW/K\n', 's.csv', Basis()).variants
    made_of = what_if(case.replace('200000', '200'), variants, pinch)
    assert made_of.outcomes[0].fault == 'H: the CP 500000 is outside its limits, 1 to 100000 (in 10 W/K) (OutOfRange)'


def test_all_headings_that_are_not_known_are_told_at_once() -> None:
    said = '\n'.join(made('name,colour,supply,target,CP,owner,weather\nA,red,150,60,2,me,fine\n').notes)
    assert all(f'`{heading}`' in said for heading in ('colour', 'owner', 'weather'))
    with pytest.raises(Refused) as fault:
        read_changes(b'scenario;source;colour;field;value;owner\nS;H;red;CP;+5;me\n', 's.csv', Basis())
    assert fault.value.text.count('is not known') == 2


def test_a_list_with_headings_that_are_not_known_names_them(tmp_path: Path) -> None:
    (tmp_path / 'list.csv').write_text('case;network;colour;owner\na.csv;n.txt;red;me\n')
    done = pinchdesk('many', 'audit', 'list.csv', cwd=tmp_path)
    assert done.status == 3 and 'the heading `colour` is not known' in done.err and '`owner`' in done.err


def test_a_workbook_whose_first_sheet_has_no_table_names_those_that_have() -> None:
    rows: list[list[object]] = [['Stream', 'Supply (°C)', 'Target (°C)', 'CP (kW/K)'], ['H', 150, 60, 2]]
    cover: list[list[object]] = [['Plant A'], ['Rev 3']]
    said = refusal(workbook(cover, Plant=rows, Prices=[['a']], Winter=rows))
    assert said == 'the sheets Plant and Winter have streams: use --sheet Plant'
    assert streams(workbook(cover, Plant=rows), replace(TEN, sheet='Plant'))[0][1] == 'H'
    assert 'no stream' in refusal(workbook(cover, Prices=[['a']]))
    numbers: list[list[object]] = [['Revision', 3], ['Sheets', 2]]
    assert streams(workbook(numbers, Plant=rows))[0][1] == 'H'
    notes = made(workbook(rows, Note=[['°F']])).notes
    assert 'of the sheets the first one, Streams, is read, not Note (--sheet)' in notes


PRICED = 'Kind;Name;Supply °C;Target °C;CP kW/K;{}\nhot;H;150;60;2;\ncold;C;20;60;2,5;\nheater;st;180;;;{}\n'


@pytest.mark.parametrize('heading, price, said', [
    ('Price ($)', '30', '`$` is a currency, and a price is per unit of heat: write $/MWh'),
    ('Price $', '30', '`$` is a currency, and a price is per unit of heat: write $/MWh'),
    ('Price', '30 €', '`€` is a currency, and a price is per unit of heat: write €/MWh'),
    ('Price (EUR)', '30', '`EUR` is a currency, and a price is per unit of heat: write EUR/MWh'),
    ('Price (EUR/MWh)', '$30', 'two currencies, `EUR/MWh` in the heading and `$` here'),
    ('Price (EUR/MWh)', '30 $', 'two currencies, `EUR/MWh` in the heading and `$` here'),
    ('Price (EUR/MWh)', '30 $/MWh', 'two currencies, `EUR/MWh` in the heading and `$/MWh` here'),
    ('Price (EUR/MWh)', '30 EUR/GJ', 'two units, `EUR/MWh` in the heading and `EUR/GJ` here'),
    ('Price (EUR/t)', '30', '`EUR/t` is a price per mass: the latent heat has to stand in a column, or the pressure'),
    ('Price (EUR/m2)', '30', 'a price is per heat, as EUR/MWh, or per power and year'),
    ('Price ($/MMBtu)', '30 USD/MMBtu', '`$` may be another currency than USD: write one of them')])
def test_money_is_told_in_the_engineers_words(heading: str, price: str, said: str) -> None:
    assert said in refusal(PRICED.format(heading, price))


def test_signs_and_names_of_one_money_go_together() -> None:
    for heading, price in (('Price (€/MWh)', '30 EUR/MWh'), ('Price (EUR/MWh)', '30 €'), ('Price ($/MWh)', '30 $'),
                           ('Price (EUR / MWh)', '30 EUR/MWh'), ('Price (£/MWh)', '30 GBP/MWh')):
        assert made(PRICED.format(heading, price)).case.utilities[0].price == 30
    both = 'kind;name;supply °C;target °C;CP kW/K;price\nhot;H;150;60;2;\nheater;a;180;;;30 €/MWh\n' \
           'heater;b;200;;;40 EUR/MWh\n'
    assert [utility.price for utility in made(both).case.utilities] == [30, 40]
    assert '$ and EUR are two currencies' in refusal(both.replace('€', '$'))


def test_the_format_of_a_currency_agrees_with_its_heading() -> None:
    book = openpyxl.Workbook()
    for row in (['kind', 'name', 'supply °C', 'target °C', 'CP kW/K', 'price €/MWh'], ['hot', 'H', 150, 60, 2],
                ['heater', 'S', 180, None, None, 30]):
        book.active.append(row)
    book.active['F3'].number_format = '#,##0.00 [$€-407]'
    assert made(saved(book)).case.utilities[0].price == 30
    book.active['F3'].number_format = '[$$-409]#,##0.00'
    assert 'two currencies, `€/MWh` in the heading and `$` here' in refusal(saved(book))


# How far roundings take the targets.

ROUNDED_TABLE = 'Stream;Supply (°C);Target (°C);CP (kW/K)\nH1;150,03;60;2,001\nC1;20;125;2,5123\n'
ROUNDED_SAID = 'by what is rounded the hot target is 0.091 kW too low, and the cold target stays'


def test_what_is_rounded_says_how_far_the_targets_are_off(pinch: Pinch) -> None:
    seider = ('Stream;Ts (°F);Tt (°F);CP (Btu/(h °F))\nH1;260;160;30000\nH2;250;130;15000\nC1;120;235;20000\n'
              'C2;180;240;40000\n')
    table = checked(made(seider, Wanted('10 °F')), pinch)
    said = 'by what is rounded the hot target is 1.844 kW too high, and the cold target is 1.397 kW too high'
    assert table.notes[-1] == said and table.comments[-1] == f'# {said}'
    whole = checked(made('H;150;60;2;180\nC;20;125;2.5\n'), pinch)
    assert not any('by what is rounded' in note for note in whole.notes)


@pytest.mark.parametrize('name', CASES)
def test_the_exact_targets_of_a_case_in_whole_numbers_are_those_of_the_program(name: str, pinch: Pinch) -> None:
    case, targets = read_case(example(f'{name}.csv')), pinch.targets(example(f'{name}.csv'))
    spans = [span_of(stream.side, (Fraction(stream.supply), Fraction(stream.target)), Fraction(stream.heat),
                     Fraction(stream.contribution)) for stream in case.streams]
    assert as_objects(*exact_targets(spans)) == (targets.hot, targets.cold)


ROUNDED = ('targets #', 'sweep # 5 15 5', 'whatif #', 'draw grid # net.txt -o c.svg', 'draw curves # -o c.svg',
           'draw composite # -o c.svg', 'draw sweep # 5 15 5 -o c.svg', 'page # -o c.html')


@pytest.mark.parametrize('words', few_of(ROUNDED, ROUNDED[:4]))
def test_a_word_that_shows_targets_says_how_far_they_are_off(words: str, tmp_path: Path, pinch: Pinch) -> None:
    (tmp_path / 't.csv').write_text(ROUNDED_TABLE)
    assert pinchdesk('case', '-d', '10', 't.csv', '-o', 'c.csv', cwd=tmp_path).status == 0
    (tmp_path / 'whole.csv').write_bytes(example('tc3.csv'))
    for case in ('c.csv', 'whole.csv'):
        (tmp_path / 'net.txt').write_text(pinch.design((tmp_path / case).read_bytes()).text)
        done = pinchdesk(*words.replace('#', case).split(), cwd=tmp_path)
        rounded = case == 'c.csv'
        assert done.status == 0 and done.err.count(f'pinchdesk: c.csv: {ROUNDED_SAID}\n') == rounded
        assert 'rounded' in done.err or not rounded
        if words.startswith('page'):
            assert (f'<p>B{ROUNDED_SAID[1:]}.</p>' in (tmp_path / 'c.html').read_text()) == rounded


@pytest.mark.long
def test_each_answer_and_picture_in_a_notebook_says_how_far_the_targets_are_off() -> None:
    plant, whole = read(ROUNDED_TABLE.encode(), 't.csv', difference=10), read(example('tc3.csv'), 'tc3.csv')
    for asked, said in ((plant, True), (whole, False)):
        network = asked.pinch.design(asked.text).text
        swept = asked.sweep(10, 20, 10)
        answers: list[Any] = [
            asked.targets(), asked.flow(), swept, asked.audit(network), asked.table(network), asked.units(network),
            asked.rest(network), asked.what_if(), asked.curves(), asked.grid(network), swept.figure()]
        for answer in answers:
            assert answer.notes.count(ROUNDED_SAID) == said
            assert (f'<li>{ROUNDED_SAID}</li>' in (answer._repr_html_() or '')) == said
