"""From tables to cases: any unit, separator and mark gives the same case; what is ambiguous or wrong is refused by its
place."""
from __future__ import annotations

import io
from dataclasses import replace
from fractions import Fraction

import openpyxl
import pytest
from conftest import example

from tabled import TEN, made, refusal, streams, workbook

from pinchdesk import Pinch, Refused, WordsError, read_case
from pinchdesk.formats.case import print_comments
from pinchdesk.tables.convert import Wanted, case_of_table, checked

REACTORS = '''Stream;Supply [°C];Target [°C];CP (MW/K);Duty (MW)
Feed-1;20;180;0,2;32,0
Product-1;250;40;0,15;31,5
Feed-2;140;230;0,3;27,0
Product-2;200;80;0,25;30,0
'''


# What the scripts got wrong.

def test_units_of_megawatts_in_the_headings_are_not_dropped(pinch: Pinch) -> None:
    targets = pinch.targets(checked(made(REACTORS), pinch).case)
    assert (targets.hot, targets.cold, targets.pinches) == (7_500_000, 10_000_000, (1450,))
    duties = ''.join(';'.join([*line.split(';')[:3], line.split(';')[4]]) + '\n' for line in REACTORS.splitlines())
    assert pinch.targets(made(duties).case).hot == 7_500_000


def test_kelvins_and_fahrenheits_are_not_taken_for_celsius() -> None:
    assert streams('name,Ts (K),Tt (K),CP\nH,423.15,333.15,2\n') == [('hot', 'H', 1500, 600, 200, 0)]
    assert streams('name,Ts (°F),Tt (°F),CP (kW/K)\nH,302,140,2\n', Wanted('10 K')) == [
        ('hot', 'H', 1500, 600, 200, 0)]


def test_a_number_with_two_readings_is_refused_with_both() -> None:
    table = 'Strom;Ein;Aus;CP\n'.replace('Ein', 'in').replace('Aus', 'out') + 'S1;150;60;32.000\n'
    assert refusal(table) == 'row 2 column 4: `32.000` may be 32 or 32000: use --decimal . or --decimal ,'
    assert streams(table, replace(TEN, decimal='.'))[0][4] == 3200
    assert 'the CP 32000 kW/K is outside its limits' in refusal(table, replace(TEN, decimal=','))
    assert 'may be 1250 or 1.25' in refusal('S1\t150\t60\t1,250\n')
    assert streams('S1\t150,5\t60\t1,250\n')[0] == ('hot', 'S1', 1505, 600, 125, 0)


def test_a_cp_and_a_duty_that_disagree_are_refused() -> None:
    said = refusal('name,supply,target,CP,duty\nH,150,60,2.0,180\nC,20,120,3.0,300000\n')
    assert said.startswith('row 3 column 5: the CP 3.0 kW/K makes 300 kW') and '300000 kW' in said
    assert streams('name,supply,target,CP,duty\nH,150,60,2.0,182\n')[0][4] == 200
    assert 'row 2 column 5' in refusal('name,supply,target,CP,duty\nH,150,60,2.00,190\n')


def test_what_the_program_refuses_is_refused_by_the_row_of_the_table(pinch: Pinch) -> None:
    table = 'My plant,,,,\n\nkind,name,supply,target,CP\nhot,A,150,60,2\nheater,A,200,,\n'
    with pytest.raises(Refused) as fault:
        checked(made(table), pinch)
    assert (fault.value.status, fault.value.text) == (3, 'row 5: the name is used above already (SameName)')
    hot = 'name,supply,target,CP\n' + ''.join(f'H{at},150,60,2\n' for at in range(31))
    with pytest.raises(Refused) as fault:
        checked(made(hot), pinch)
    assert fault.value.place == 'row 32'
    with pytest.raises(Refused) as fault:
        checked(made('name,supply,target,CP\nA,-280,60,2\n'), pinch)
    assert fault.value.place == 'row 2 column 2'


def test_a_textbook_sheet_meets_its_published_targets(pinch: Pinch) -> None:
    """Case 4S1 of Shenoy (1995), with a title, units in a row of their own, duties beside CPs, a sum and a note."""
    book = workbook([['Case 4S1'], [],
                     ['Stream', 'Inlet temperature', 'Outlet temperature', 'Heat capacity flow', 'Duty'],
                     ['', '°C', '°C', 'kW/°C', 'kW'], ['H1', 175, 45, 10, 1300], ['H2', 125, 65, 40, 2400],
                     ['C1', 20, 155, 20, 2700], ['C2', 40, 112, 15, 1080], ['Sum', None, None, None, 7480],
                     ['from the book']])
    for difference, published in (('20', (605_000, 525_000, (1150,))), ('13', (360_000, 280_000, (1185,)))):
        case = checked(made(book, Wanted(difference=difference), '4s1.xlsx'), pinch).case
        targets = pinch.targets(case)
        assert (targets.hot, targets.cold, targets.pinches) == published


# Layouts.

LAYOUTS = [
    'H,150,60,2\n', 'hot,H,150,60,2\n', 'sep=;\r\nname;supply;target;CP\r\nH;150;60;2\r\n', 'H;150;60;2\n',
    'H\t150\t60\t2\n', 'H|150|60|2\n', '"H";"150";"60";"2"\r\n', 'name,supply,target,CP\nH,150,60,2\n',
    'CP,target,supply,name\n2,60,150,H\n', 'Stream,Tin,Tout,mCp\nH,150,60,2\n',
    'name,supply,target,CP\n,°C,°C,kW/K\nH,150,60,2\n',
    'name,supply,target,CP\n-,[K],[K],[W/K]\nH,423.15,333.15,2000\n',
    'Plant 7,,,\nrevision 2,,,\n\nname,supply,target,CP\nH,150,60,2\n\nSum,,,2\nall from the data sheet,,,\n',
    'name,supply,target,CP,duty\nH,150,60,2,180\n,,,,180\n', '\ufeffname,supply,target,CP\rH,150,60,2\r',
    'stream,temperature,,CP\n,supply (K),target (K),kW/K\nH,423.15,333.15,2\n',
    'stream,temperature,,CP\n,supply,target,\nunits,(K),(K),(kW/K)\nH,423.15,333.15,2\n',
    'stream,temperature,,CP\n,target,supply,\nH,60,150,2\n',
    'no,name,supply,target,CP\n1,H,150,60,2\n', ',Temperatures (K),,\nname,supply,target,CP\nH,423.15,333.15,2\n',
    'name,supply,target,CP\nH,150 °C,60 °C,2 kW/K\n', 'name,supply °C,target °C,CP in kW/K\nH,150,60,2\n',
    'name,supply,target,"CP, kW/K"\nH,150,60,2\n', 'name,supply,target,duty / kW\nH,150,60,180\n',
    'name,supply,target,ΔH [kW],note\nH,150,60,-180,"of column, top"\n',
    'type,name,supply,target,CP\nHot stream,H,150,60,2\n', '#,a comment\nname,supply,target,CP\n# x\nH,150,60,2\n',
]


@pytest.mark.parametrize('text', LAYOUTS)
def test_a_table_in_any_layout_is_read(text: str) -> None:
    assert streams(text) == [('hot', 'H', 1500, 600, 200, 0)]


def test_latin_1_and_utf_16_are_read() -> None:
    table = 'Strom;Eintrittstemperatur (°C);Austrittstemperatur (°C);Wärmestrom (kW)\nKühler;150,0;60,0;180,0\n'
    for encoding in ('utf-8', 'utf-8-sig', 'latin-1', 'utf-16'):
        assert streams(table.encode(encoding)) == [('hot', 'Kuehler', 1500, 600, 200, 0)]


def test_no_unit_at_all_is_told() -> None:
    notes = made('name,supply,target,CP\nH,150,60,2\n').notes
    assert sorted(notes) == ['no unit is given for the column `CP`: kW/K is taken',
                             'no unit is given for the column `supply`: °C '
                             'is taken', 'no unit is given for the column `target`: °C is taken']
    assert not made('name,supply °C,target °C,CP kW/K\nH,150,60,2\n').notes


def test_what_is_rounded_is_told() -> None:
    conversion = made('name,supply °C,target °C,CP kW/K\nH,150.04,60,2.346\n')
    assert streams('name,supply °C,target °C,CP kW/K\nH,150.04,60,2.346\n') == [('hot', 'H', 1500, 600, 235, 0)]
    assert conversion.notes == ('row 2 column 2: 150.04 °C is rounded to 150 °C',
                                'row 2 column 4: 2.346 kW/K is rounded to 2.35 kW/K')
    notes = made('name,supply °C,target °C,duty kW\nH,150,60,181\n').notes
    assert notes == ('row 2 column 4: from 181 kW the CP is rounded to 2.01 kW/K, which makes 180.9 kW',)
    notes = made('name,supply °C,target °C,CP kW/K\nH,150,60,2\n', Wanted(difference='18.3 °F')).notes
    assert notes == ('half of the least difference 18.3 °F is rounded to 5.1 K',)


def test_what_is_rounded_in_a_scaled_case_is_told_as_the_plant_has_it() -> None:
    notes = made('kind,name,supply °C,target °C,CP kW/K,duty kW,most kW\nhot,H,150,60,0.02346,,\n'
                 'cold,B,90,90,,1.50004,\ncold,C,20,90,,1.5,\nheater,ST,150,,,,2.00007\n',
                 Wanted(difference='10', scale=Fraction(10))).notes
    assert notes[:4] == ('row 2 column 5: 0.02346 kW/K is rounded to 0.023 kW/K',
                         'row 3 column 6: 1.50004 kW is rounded to 1.5 kW',
                         'row 4 column 6: from 1.5 kW the CP is rounded to 0.021 kW/K, which makes 1.47 kW',
                         'row 5 column 7: 2.00007 kW is rounded to 2.0001 kW')


def test_prices_that_are_rounded_are_told_in_their_unit() -> None:
    notes = made('kind,name,supply °C,target °C,CP kW/K,price EUR/MWh\nhot,H,150,60,2,\nheater,HP,160,,,1000.01\n'
                 'heater,LP,120,,,30.12345\ncooler,CW,20,,,2\n').notes
    assert notes == ('row 4 column 6: the price 30.12345 is rounded to 30.12 EUR/MWh',)


def test_a_scale_takes_all_heats_times_ten() -> None:
    table = ('kind,name,supply °C,target °C,CP kW/K,duty kW,most kW\nhot,H,150,60,0.0234,,\ncold,B,90,90,,1.5,\n'
             'heater,S,200,,,,7\n')
    case = made(table, replace(TEN, scale=Fraction(10))).case
    assert [(stream.cp, stream.load) for stream in case.streams] == [(23, 0), (0, 15000)]
    assert case.utilities[0].most == 70000 and case.basis.scale == 10
    assert 'the CP is 0' in refusal('name,supply,target,CP\nH,150,60,0.004\n')


def test_latent_streams_have_equal_temperatures_and_a_duty() -> None:
    table = 'kind,name,supply,target,CP,duty (MW)\nhot,condenser,82,82,-,3.6\ncold,reboiler,116,116,,3.677\n'
    assert streams(table) == [('hot', 'condenser', 820, 820, 0, 3_600_000),
                              ('cold', 'reboiler', 1160, 1160, 0, 3_677_000)]
    assert 'has to say hot or cold' in refusal('name,supply,target,duty\nB,90,90,5\n')
    assert 'the duty is missing' in refusal('kind,name,supply,target,duty\nhot,B,90,90,\n')
    assert 'has a duty and no CP' in refusal('kind,name,supply,target,CP,duty\nhot,B,90,90,4,5\n')
    assert 'a duty is above 0' in refusal('kind,name,supply,target,duty\nhot,B,90,90,0\n')
    both = refusal('kind,name,supply,target,duty\nhot,A,95,95,-5\ncold,B,90,90,-5\n')
    assert 'is below 0, and the stream warms up' in both


def test_utilities_have_prices_and_all_costs_come_back(pinch: Pinch) -> None:
    table = ('kind;name;supply °C;target °C;CP kW/K;price\nhot;H;170;60;3;\ncold;C;80;140;4;\n'
             'heater;HP;250;;;35,5 EUR/MWh\nheater;LP;91;;;20 EUR/MWh\ncooler;CW;15;;;\n')
    case = made(table).case
    assert [utility.price for utility in case.utilities] == [355, 200, 0]
    assert (case.basis.price_unit, case.basis.cost_unit) == ('EUR/MWh', 'EUR/h')
    assert [utility.price for utility
            in made(table.replace(' EUR/MWh', '').replace('price', 'Price €/MWh')).case.utilities] == [355, 200, 0]
    assert made(table.replace('EUR/MWh', 'EUR/(kW a)'),
                replace(TEN, hours=Fraction(8000))).case.basis.cost_unit == 'EUR/a'
    assert 'is a price per mass' in refusal(table.replace('EUR/MWh', 'EUR/t'))
    assert 'not that of a price' in refusal(table.replace('EUR/MWh', 'EUR/m3'))
    assert 'is missing' in refusal(table.replace('20 EUR/MWh', ''))
    assert '--hours' in refusal(table.replace('20 EUR/MWh', '20 EUR/(kW a)'))
    assert pinch.targets(case).hot >= 0
    cooler = 'kind;name;supply;target;CP;price\nhot;H;170;60;3;\ncooler;BFW;140;;;-3'
    assert 'no heater with one' in refusal(cooler + ' EUR/MWh\n')
    assert 'no heater is given: HOT is added, at the price 1' in made(cooler + '\n').notes


def test_a_contribution_and_forbidden_matches() -> None:
    table = 'contribution,,5,,,,\nhot,Feed gas,150.5,60,2,,\ncold,C,20,100,3,,2.5\nforbid,Feed gas,C,,,,\n'
    case = made(table, Wanted()).case
    assert (case.contribution, case.streams[1].contribution) == (50, 25)
    assert (case.forbids[0].hot, case.forbids[0].cold) == ('Feed-gas', 'C')
    headed = 'kind,name,supply,target,CP\nhot,H,150,60,2\ncold,C,20,100,3\nforbid,H,C,,\ncontribution,,5,,\n'
    assert made(headed, Wanted()).case.forbids[0].cold == 'C'
    assert 'two names' in refusal('hot,H,150,60,2\nforbid,H,,,\n')
    assert 'a second contribution' in refusal('contribution,,5\ncontribution,,5\nhot,H,150,60,2\n', Wanted())
    assert '-d gives one too' in refusal('contribution,,5\nhot,H,150,60,2\n')
    assert 'give the least difference' in refusal('hot,H,150,60,2\n', Wanted())


def test_the_least_difference_may_have_a_unit() -> None:
    for told, share in (('10', 50), ('10,0', 50), ('18 °F', 50), ('7.5 K', 38)):
        assert made('H,150,60,2\n', Wanted(difference=told)).case.contribution == share
    for told in ('x', '10 kW', '1,250'):
        with pytest.raises(WordsError):
            made('H,150,60,2\n', Wanted(difference=told))


def test_names_are_made_fit_and_told() -> None:
    table = ('name,supply °C,target °C,CP kW/K\nKühlwasser Rücklauf,150,60,2\nColumn 1/overhead vapour,150,60,2\n'
             'Column 1/overhead liquid,150,60,2\n温度,150,60,2\n<script>alert(1)</script>,150,60,2\nfit,150,60,2\n'
             '=1+1,150,60,2\n')
    case = made(table).case
    names = [stream.name for stream in case.streams]
    assert names == ['Kuehlwasser-Ruec', 'Column-1-vapour', 'Column-1-liquid', 'S4', 'script-alert-1-s', 'fit',
                     '1-plus-1']
    assert len(set(names)) == 7
    assert case.basis.names[1] == ('Column 1/overhead vapour', 'Column-1-vapour')
    assert 'the name `温度` becomes S4' in made(table).notes
    assert read_case(example('four-stream.csv')).basis.names == ()


REFUSED = [
    ('hot,A,150,x,2\n', 'row 1 column 4'), ('hot,A,150,60 kW,2\n', 'row 1 column 4'),
    ('hot;A;150,5;60.5;2\n', 'row 1 column 4'), ('hot,A,60,150,2\n', 'row 1 column 4'),
    ('A 150 60 2\n', 'the table has no stream'), ('hot,A,150,150,\n', 'row 1 column 6'),
    ('hot,A,150,60,\n', 'row 1 column 5'), ('hot,A,150,60,2,,,9\n', 'row 1 column 8'), ('hot,A,150,60,"2\n', 'row'),
    ('name,supply,target,colour\nA,150,60,2\n', 'row 1 column 4'),
    ('name,supply,target,CP,CP\nA,150,60,2,3\n', 'row 1 column 5'), ('name,target,CP\nA,60,2\n', 'row 1'),
    ('name,supply,target,CP (%)\nA,150,60,2\n', 'row 2 column 4: the unit `%` is not known here'),
    ('name,supply,target,duty [€]\nA,150,60,2\n', 'row 2 column 4: the unit `€` is not known here'),
    ('name,supply (°),target,CP\nA,150,60,2\n', 'row 2 column 2: the unit `°` is not known here'),
    ('name,supply (grad),target,CP\nA,150,60,2\n', 'row 2 column 2: the unit `grad` is not known here'),
    ('name,supply,target,CP (kJ/kg/K)\nA,150,60,2\n', 'row 2 column 4'),
    ('name,supply,target,CP (kW/K)\n,,,MW/K\nA,150,60,2\n', 'row 2 column 4'), ('name,supply,CP\nA,150,2\n', 'row 2'),
    ('name,supply (°C),target,CP\nA,423 K,60,2\n', 'row 2 column 2'),
    ('name,supply,target,CP\nA,150,,2\n', 'row 2 column 3'), ('name,supply,target,CP\nA,,60,2\n', 'row 2 column 2'),
    ('name,supply,target,CP\n,150,60,2\n', 'row 2 column 1'),
    ('kind,name,supply,target,CP\nwarmish,A,150,60,2\n', 'row 2 column 1'),
    ('name,supply,target,CP\nA,150,60,#REF!\n', 'row 2 column 4'),
    ('kind,name,supply,target,CP\nheater,W,25,35,\nhot,A,150,60,2\n', 'row 2 column 4'), ('', ''), ('\n\n', ''),
    ('name,supply,target,CP\nA,150,60,5 %\n', 'row 2 column 4'), ('sep=;\nname;supply;CP\nA;x;2\n', 'row 3'),
    ('name,supply,target,CP,price\nA,150,60,2,3\n', 'row 2 column 5: a stream has no price'),
    ('kind,name,supply,target,duty\nheater,W,25,,5\nhot,A,150,60,2\n', 'row 2 column 5: a utility has no load'),
    ('name,supply,target,CP\nA,150,60,(2)\n', 'row 2 column 4'),
    ('name,supply,target,CP\nA,150,60,1 25\n', 'row 2 column 4'),
    ('name,supply,target,duty (GJ/a)\nA,150,60,2\n', 'row 2 column 4'),
    ('contribution,,50,,,,\nhot,H,1000,500,10,,\n', 'this is a case already'), ('\0\1\2', 'this is neither'),
]


@pytest.mark.parametrize('text, said', REFUSED)
def test_what_is_not_understood_is_refused_by_its_place(text: str, said: str) -> None:
    assert refusal(text).startswith(said)


def test_comments_stay_in_the_case() -> None:
    assert made('# of the "old" unit;\n# =1+1;\nH;150;60;2\n').comments == ('# of the "old" unit', '# =1+1')
    assert read_case(print_comments(['# a, "b"', '#scale']) + 'contribution,,50,,,,\n').basis.scale == 1


def test_all_faults_are_told_at_once() -> None:
    said = refusal('name,supply,target,CP\nA,x,60,2\nB,150,y,2\n').split('\n')
    assert [line.partition(':')[0] for line in said] == ['row 2 column 2', 'row 3 column 3']


# Workbooks.

def test_a_workbook_is_read() -> None:
    rows: list[list[object]] = [['Plant 7'], [], ['Stream', 'Supply (°C)', 'Target (°C)', 'Duty (MW)', 'Remarks'],
                                ['H', 150, 60.0, 0.18, 'top'], ['C', '20 °C', 120, 0.3], ['Sum', None, None, 0.48],
                                ['estimated']]
    assert streams(workbook(rows)) == [('hot', 'H', 1500, 600, 200, 0), ('cold', 'C', 200, 1200, 300, 0)]


def test_a_named_sheet_is_read() -> None:
    rows: list[list[object]] = [['name', 'supply', 'target', 'CP'], ['H', 150, 60, 2]]
    book = workbook([['nothing here']], Plant=rows)
    assert streams(book, replace(TEN, sheet='Plant')) == [('hot', 'H', 1500, 600, 200, 0)]
    assert 'there is no sheet Site: the workbook has Streams, Plant' in refusal(book, replace(TEN, sheet='Site'))
    assert refusal(workbook([['name', 'supply', 'target', 'CP'], ['H', 150, 'x',
                                                                  2]])).startswith('sheet Streams row 2 column C')


def test_cells_that_are_no_plain_numbers_are_refused() -> None:
    import datetime
    for cell, said in (('=1+1', 'a formula without a saved value'), (True, 'a truth value'),
                       (datetime.date(2026, 5, 1), 'a date')):
        assert said in refusal(workbook([['name', 'supply', 'target', 'CP'], ['H', 150, 60, cell]]))


def test_units_of_formats_and_of_merged_titles_are_seen() -> None:
    book = openpyxl.Workbook()
    page = book.active
    for row in (['', 'Temperatures (K)', '', ''], ['name', 'supply', 'target', 'CP'], ['H', 423.15, 333.15, 0.002]):
        page.append(row)
    page.merge_cells('B1:C1')
    page['D3'].number_format = '0.000 "MW/K"'
    saved = io.BytesIO()
    book.save(saved)
    assert streams(saved.getvalue()) == [('hot', 'H', 1500, 600, 200, 0)]
    page['A1'], page['B1'], page['D1'] = 'stream', 'Temperatures [K]', 'CP'
    page['D2'], page['D3'].number_format = 'MW/K', '0.000'
    saved = io.BytesIO()
    book.save(saved)
    assert streams(saved.getvalue()) == [('hot', 'H', 1500, 600, 200, 0)]
    page['D3'].number_format = '0.0%'
    saved = io.BytesIO()
    book.save(saved)
    assert 'a percentage' in refusal(saved.getvalue())


def test_numbers_of_formulas_have_fifteen_digits() -> None:
    assert made(workbook([['name', 'supply °C', 'target °C', 'CP kW/K'],
                          ['H', 0.1 + 0.2, 60, 2.0000000000000004]])).notes == (
        'sheet Streams row 2 column B: 0.3 °C is rounded to 0.3 °C',)[1:]


def test_what_is_no_workbook_is_refused() -> None:
    for content, name in ((b'PK\x03\x04rubbish', 'a.xlsx'), (b'\xd0\xcf\x11\xe0old', 'a.xls'),
                          (b'name,supply', 'a.xlsx')):
        with pytest.raises(Refused) as fault:
            case_of_table(content, name, TEN)
        assert 'workbook' in fault.value.text
