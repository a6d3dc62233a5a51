"""Each row of a table is read, or refused, or told with its text; none vanishes."""
from __future__ import annotations

import re

import openpyxl
import pytest
from openpyxl.comments import Comment
from tabled import TEN, made, refusal, saved, streams

from pinchdesk import Pinch
from pinchdesk.tables.convert import Wanted, checked

HEAD = 'Stream;Supply (°C);Target (°C);CP (kW/K)\n'
DUTY = 'Stream;Supply (°C);Target (°C);Duty\n'
FEED = [('cold', 'Feed', 200, 1800, 1162, 0)]


# Names that begin with the sign of a comment.

def test_a_stream_whose_name_begins_with_a_hash_is_a_stream(pinch: Pinch) -> None:
    table = made(f'{HEAD}#2 diesel;250;60;12\nFeed;20;180;10\nH1;150;60;2\n')
    assert [stream.name for stream in table.case.streams] == ['2-diesel', 'Feed', 'H1']
    assert pinch.targets(checked(table, pinch).case).hot == 0
    assert 'row 2: a stream, since it has numbers, and no comment: `#2 diesel 250 60 12`' in table.notes
    assert table.comments == ()


@pytest.mark.parametrize('text', ['#2 diesel;250;60;12\nC1;20;180;10\n',
                                  '# Stream;Supply;Target;CP\n#2 diesel;250;60;12\n',
                                  'Kind;Stream;Supply;Target;CP\n;#2 diesel;250;60;12\n',
                                  'No;Stream;Supply;Target;CP\n#7;diesel;250;60;12\n'])
def test_a_hash_begins_a_name_in_each_layout(text: str) -> None:
    assert streams(text)[0][2:] == (2500, 600, 1200, 0)


@pytest.mark.parametrize('row', ['# H2;150;60;2', '#;H2;150;60;2', '# 2 diesel;250;60;12', '#REF!;60;12;1'])
def test_a_row_that_may_be_a_stream_or_one_left_out_is_refused(row: str) -> None:
    said = refusal(f'Stream;Supply;Target;CP;Note\n{row}\nH1;150;60;2\n')
    assert ('may be a comment or a stream' in said or 'an error of the spreadsheet' in said) and 'row 2' in said


def test_a_comment_is_told_with_its_text_and_stays_in_the_case() -> None:
    table = made(f'# from the flow sheet; rev. 3\n{HEAD}# by hand\nH1;150;60;2\n')
    assert table.comments == ('# from the flow sheet rev. 3', '# by hand')
    assert [note for note in table.notes if 'by hand' in note] == ['row 3: passed over, a comment: `# by hand`']
    assert any('`# from the flow sheet rev. 3`' in note for note in table.notes)


# Rows of units.

@pytest.mark.parametrize('unit, duty', [('1000 kcal/h', '1600'), ('10^3 kcal/h', '1600'), ('10³ kcal/h', '1600'),
                                        ('x 1000 kcal/h', '1600'), ('× 10^6 Btu/h', '6.3452'), ('1e6 kcal/h', '1.6'),
                                        ('MMkcal/h', '1.6'), ('10**6 kcal/h', '1.6'), ('1000 kcal/hr', '1600')])
def test_a_unit_with_a_multiple_is_read_wherever_it_stands(unit: str, duty: str) -> None:
    for text in (f'{DUTY};;;{unit}\n', f'{DUTY}# a comment\n;;;{unit}\n', f'{DUTY}unit;°C;°C;{unit}\n',
                 f'{DUTY[:-1]} ({unit})\n', f';;;{unit}\n{DUTY}', f';;;[{unit}]\n{DUTY}'):
        assert streams(f'{text}Feed;20;180;{duty}\n', Wanted('10', decimal='.')) == FEED


@pytest.mark.parametrize('row', [';;;1600 kcal/h', ';;;1000', 'H2;;;1000 kcal/h', ';;;1000 K', ';100 °C;50 °C;10 kW',
                                 ';;;10e3 kcal/h', ';;;1,000 kcal/h', ';;;1.000 kcal/h', ';;;10^6'])
def test_what_may_be_units_and_may_be_numbers_is_refused(row: str) -> None:
    assert 'row 2' in refusal(f'{DUTY}{row}\nFeed;20;180;1600\nH1;150;60;180\n')


@pytest.mark.parametrize('row', [';;;3.4 MW', 'Sum;;;3400 MW', 'total;;;1780 kcal/h', ';;;1000 kcal/h',
                                 ';;;10^3 kcal/h'])
def test_a_sum_in_another_unit_than_is_taken_is_refused(row: str) -> None:
    assert 'and none is given for the column `Duty`' in refusal(f'{DUTY}Feed;20;180;1600\nH1;150;60;180\n{row}\n')


def test_a_sum_in_the_unit_that_is_taken_is_told_with_its_text() -> None:
    assert 'row 3: passed over, a sum: `Sum 1780 kW`' in made(f'{DUTY}Feed;20;180;1780\nSum;;;1780 kW\n').notes


@pytest.mark.parametrize('row', ['Sum;180;20;10', 'Average;100;80;4', 'Σ;100;80;4', 'max;100;80;4', 'Mittelwert;9;8;4'])
def test_a_sum_with_temperatures_may_be_a_stream_and_is_refused(row: str) -> None:
    assert 'may be a sum or a stream' in refusal(f'{HEAD}Feed;20;180;10\n{row}\n')
    assert streams(f'{HEAD}Summer feed;20;180;10\n')[0][1] == 'Summer-feed'


# Titles, notes, and words beside the numbers.

# A title that begins as a heading does is refused as one; one that begins with a number as a stream.
REFUSED = re.compile('names a unit, and the numbers have none|a second column|is missing|no number')
TITLES = ['ALL TEMPERATURES IN DEG F', 'ALL TEMPERATURES IN F', 'TEMPERATURES IN FAHRENHEIT',
          'Temperatures in F and duties in kW', 'TEMPERATURES IN °F', 'all temperatures: °F',
          'T [°F], Q [kW]', 'Temperaturen in °F']
OPEN_TITLES = ['US units', 'all in SI units', 'temperatures in tenths of °C', 'Imperial Units', 'English units',
               'Temp. F (old) or C', 'hot side in °F', 'temperatures in °F or in K', 'Temp. F',
               'Temperatures in K or °C', 'Temperatures in °C or K', 'units: °C or K',
               'Temperature (°C/K)', 'Temperaturen in °C oder K',
               'Températures en °C ou en K', 'T in °C or °F']
KELVINS = ['TEMPERATURE / K', 'DEGREES KELVIN', 'units: K, kW', 'Temperatures in kelvins']
HEATS = ['Duties in 1000 kcal/h', 'DUTIES IN 1000 KCAL/H', 'Heat loads: 10^3 kcal/h', 'Q [1000 kcal/h]',
         'Duties in 10³ kcal/h']
# With a duty in them that is 1859.6 kW.
OTHER_HEATS = [('10³ kcal/h', '1600'), ('10^6 Btu/h', '6.3452'), ('MMkcal/h', '1.6'), ('in 1e6 kcal/h', '1.6'),
               ('DUTY IN MMBTU/HR', '6.3452'), ('HEAT IN GCAL/H', '1.6'), ('Duties in 1000 kW', '1.8596'),
               ('duties in 10 kW', '185.96'), ('heat in KJ/H', '6694560'), ('heat in horsepower', '2493.76'),
               ('BTUH', '6345300')]
OPEN_HEATS = ['DUTIES IN MEGAWATTS', 'Duties in thousands', 'duty, 1 000 kcal/h', 'Wärme in 10 000 kcal/h', 'in HP',
              'duties in kcal/h and in 1000 kcal/h', 'US units', 'duties of the hot side in 1000 kcal/h']


def beside_numbers(title: str, head: str, row: str) -> tuple[str, ...]:
    """A table with words at one row: in a column of notes, or under no heading."""
    return f'{head};Note\n{row};{title}\n', f'{head}\n{row};{title}\n'


@pytest.mark.parametrize('title', TITLES)
def test_a_title_that_names_the_unit_of_all_temperatures_gives_it(title: str) -> None:
    head, row = 'Stream;Supply;Target;CP (kW/K)', 'Feed;68;356;10'
    for text in (f'{title};;;\n{head}\n{row}\n', f'{head}\n{row}\n{title};;;\n', f'# {title};;;\n{head}\n{row}\n'):
        table = made(text, Wanted('10 K'))
        assert [stream.supply for stream in table.case.streams] == [200], text
        assert any('is taken for numbers of temperature, as' in note for note in table.notes)
    for text in beside_numbers(title, head, row):
        assert REFUSED.search(refusal(text)), text


@pytest.mark.parametrize('title', KELVINS)
def test_a_title_that_names_kelvins_gives_them(title: str) -> None:
    head, row = 'Stream;Supply;Target;CP (kW/K)', 'Feed;293.15;453.15;10'
    for text in (f'{title};;;\n{head}\n{row}\n', f'{head}\n{row}\n{title};;;\n'):
        assert [stream.supply for stream in made(text).case.streams] == [200], text


@pytest.mark.parametrize('title, duty', OTHER_HEATS)
def test_a_title_that_is_a_unit_of_heats_gives_it(title: str, duty: str) -> None:
    assert streams(f'{title};;;\n{DUTY}Feed;20;180;{duty}\n', Wanted('10', decimal='.')) == FEED


@pytest.mark.parametrize('title', OPEN_TITLES)
def test_a_title_that_leaves_a_unit_open_is_refused(title: str) -> None:
    head, row = 'Stream;Supply;Target;CP (kW/K)', 'Feed;68;356;10'
    for text in (f'{title};;;\n{head}\n{row}\n', f'{head}\n{row}\n{title};;;\n', f'# {title};;;\n{head}\n{row}\n',
                 f'Stream ({title});Supply;Target;CP (kW/K)\n{row}\n', *beside_numbers(title, head, row)):
        assert REFUSED.search(refusal(text)), text


@pytest.mark.parametrize('title', HEATS)
def test_a_title_that_names_the_unit_of_all_heats_gives_it(title: str) -> None:
    for text in (f'{title};;;\n{DUTY}Feed;20;180;1600\n', f'{DUTY}Feed;20;180;1600\n{title};;;\n',
                 f'{DUTY}{title};°C;°C;\nFeed;20;180;1600\n'):
        assert streams(text) == FEED, text


@pytest.mark.parametrize('title', OPEN_HEATS)
def test_a_title_that_leaves_a_unit_of_heats_open_is_refused(title: str) -> None:
    for text in (f'{title};;;\n{DUTY}Feed;20;180;1600\n', f'{DUTY}Feed;20;180;1600\n{title};;;\n',
                 f'{DUTY}{title};°C;°C;\nFeed;20;180;1600\n'):
        assert REFUSED.search(refusal(text)), text


@pytest.mark.parametrize('title', ['Plant K, 20 MW furnace', 'Kemp, K. Smith and W. F. Jones', 'a furnace of 10 MW',
                                   'temperatures in °C, duties in kW', 'DUTIES IN KW', 'dTmin = 10 K', 'Unit F',
                                   'in kilowatts', 'Imperial College', 'made by SI', 'Heat and power, 5 of 7'])
def test_a_title_that_names_none_is_told_with_its_text(title: str) -> None:
    table = made(f'{title};;;\n\nStream;Supply;Target;Duty\nFeed;20;180;1600\n')
    assert f'row 1: passed over, above the headings: `{title}`' in table.notes
    assert [stream.cp for stream in table.case.streams] == [1000]


def test_a_stream_above_the_headings_is_refused() -> None:
    assert 'row 1: a stream above the headings: `H2 90 60 8`' in refusal(f'H2;90;60;8\n{HEAD}H1;150;60;2\n')
    assert len(streams(f'Rev.;3;;\ndTmin;10;K;\n{HEAD}H1;150;60;2\n')) == 1


def test_a_remark_of_a_workbook_is_a_note() -> None:
    book = openpyxl.Workbook()
    for row in (['Stream', 'Supply', 'Target', 'CP (kW/K)'], ['H1', 150, 60, 2]):
        book.active.append(row)
    book.active['B1'].comment = Comment('Author:\nat the battery limit', 'me')
    said = 'sheet Sheet row 1 column B: passed over, a remark: `Author: at the battery limit`'
    assert said in made(saved(book)).notes
    book.active['B2'].comment = Comment('all temperatures in °F', 'me')
    assert 'names a unit, and the numbers have none' in refusal(saved(book))


def test_the_column_of_notes_is_told() -> None:
    assert 'passed over, the column `Remark`' in made(f'{HEAD[:-1]};Remark\nH1;150;60;2;top\n').notes


@pytest.mark.parametrize('name', ['// H1', '-- H1', '%H1', '! H1', '~~H1~~', 'REM H1', '-', 'n/a', '#REF!'])
def test_a_name_that_is_none_or_that_marks_a_row_as_left_out_is_refused(name: str) -> None:
    assert 'row 2' in refusal(f'{HEAD}{name};150;60;2\nH2;150;60;2\n')


def test_a_heading_in_letters_that_are_not_known_is_refused() -> None:
    for heading in ('Supply (華氏)', 'Supply (°С)', 'Supply華氏', 'Supply ф'):
        assert 'row 1' in refusal(f'Stream;{heading};Target;CP\nH1;302;140;2\n') or 'not known here' in refusal(
            f'Stream;{heading};Target;CP\nH1;302;140;2\n')


def test_words_among_the_headings_are_told() -> None:
    notes = made('Stream (of unit 7);Supply (°C);Target (°C);CP\nall of 2026;;;kW/K\nFeed;20;180;10\n').notes
    assert 'row 1 column 1: passed over, beside a heading: `of unit 7`' in notes
    assert 'row 2 column 1: passed over, beside a heading: `all of 2026`' in notes


@pytest.mark.parametrize('title', ['Utilities', 'Hot utilities:', 'UTILITIES', 'Heizmittel', 'Cooling media',
                                   'B. Utilities', 'Betriebsmittel', 'Hot and cold utilities'])
def test_rows_below_a_title_that_makes_utilities_of_them_are_refused(title: str) -> None:
    table = f'{HEAD}Feed;20;180;10\n{title};;;\nCooling water;20;30;50\n'
    assert 'a utility has no cp' in refusal(table)
    assert len(streams(f'Kind;{HEAD}cold;Feed;20;180;10\n{title};;;;\ncooler;Cooling water;20;;\n')) == 1


def test_titles_with_utilities_that_make_none_of_them_are_passed_over() -> None:
    for title in ('Streams without utilities;;;', 'no utilities;;;', 'Utilities are those of the site, of 2026;;;'):
        assert len(streams(f'{HEAD}{title}\nFeed;20;180;10\n')) == 1
    assert len(streams(f'Streams and utilities;;;\n{HEAD}Feed;20;180;10\n')) == 1


def test_rows_below_a_title_that_names_the_other_side_are_refused() -> None:
    table = f'{HEAD}Hot streams;;;\nH1;150;60;2\nCold streams;;;\nC1;20;125;2,5\n'
    assert [stream[:2] for stream in streams(table)] == [('hot', 'H1'), ('cold', 'C1')]
    assert 'row 5: below `Cold streams` stands a stream that cools down' in refusal(table.replace('20;125', '125;20'))


def test_a_contribution_has_one_number() -> None:
    head = 'Kind;Stream;Supply;Target;CP;Contribution\nhot;H;150;60;2;\n'
    assert made(f'{head}contribution;;5;;;\n', Wanted()).case.contribution == 50
    for row in ('contribution;;5;10;;', 'contribution;;5;;;7', 'contribution;H;;;;5', 'contribution;;;;5;'):
        assert 'row 3' in refusal(head + row + '\n', Wanted())


def test_an_empty_table_of_notes_has_no_stream() -> None:
    assert 'no stream' in refusal('# a;b\n', TEN)
