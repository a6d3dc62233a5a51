"""The same plant in other units, at another scale and with prices in other money says the same: each number of each
word has its unit beside it, and is that of the plant in the program's own units."""
from __future__ import annotations

import re
from collections.abc import Iterator
from dataclasses import replace
from fractions import Fraction
from html import unescape
from pathlib import Path

import pytest
from conftest import few_of
from sameplant import (FIXED, OWN_UNITS, PLAIN, STYLES, Files, Page, Said, Style, Told, cells_of, csv_cells, files_of,
                       texts_of, token_of)

from pinchdesk import Pinch, Refused, read_case
from pinchdesk.cli.main import main
from pinchdesk.formats.site import read_site
from pinchdesk.words.all_words import all_words
from pinchdesk.words.word import WordGroup

Parts = list[Told | str]
OWN = 'its own units, °F and MJ/h'
# Columns of mere numbers: how many there are of something.
COUNTS = ('sources', 'sets', 'exchangers', 'that can be joined', 'in the network', 'partly', 'splits',
          'exchangers so far', 'hot', 'cold', 'pump performance, estimate')
UTILITIES = '--flame 1000°C --stack 130°C --flue-contribution 15K --pump-from 60°C --pump-to 110°C --pump-efficiency ' \
            '0.5 --refrigeration 0.6 --ambient 300K --exergetic 0.7'
TABLES = ['targets {case.csv}', 'flow {case.csv}', 'audit {case.csv} {case-network.txt}', 'audit {case.csv} {bad.txt}',
          'table {case.csv} {case-network.txt}', 'table {case.csv} {bad.txt}', 'sweep {case.csv} 4 16 4',
          'prices {case.csv} {case-study.txt}', 'site {site.csv}', 'units {case.csv}',
          'units {case.csv} {case-network.txt}', 'rest {case.csv} {begun.txt}', 'rest {case.csv} {bad.txt}',
          'whatif {case.csv}', 'whatif {case.csv} {changes.csv}', f'utilities {{case.csv}} {UTILITIES}']
SEARCHES = ['tradeoff {case.csv} {case-network.txt} --seconds 0.2', 'network {case.csv} --steps 2']
PICTURES = ['curves {case.csv}', 'composite {case.csv}', 'balanced {case.csv}', 'grand {case.csv}',
            'grid {case.csv} {case-network.txt}', 'grid {case.csv} {bad.txt}', 'site {site.csv}',
            'sweep {case.csv} 4 16 4', 'prices {case.csv} {case-study.txt}',
            'utilities {case.csv} ' + UTILITIES.partition(' --refrigeration')[0]]
PAGES = ['{case.csv}', '{case.csv} {case-network.txt} {bad.txt}']
pytestmark = pytest.mark.usefixtures('searched_here')


@pytest.fixture(scope='module')
def plain(tmp_path_factory: pytest.TempPathFactory) -> Files:
    """The plant in the program's own units."""
    return files_of(PLAIN, tmp_path_factory.mktemp('plain') / 'plant', Pinch())


@pytest.fixture(scope='module')
def own(tmp_path_factory: pytest.TempPathFactory) -> Files:
    """The plant in the units of its table."""
    return files_of(STYLES[OWN], tmp_path_factory.mktemp('own') / 'plant', Pinch())


@pytest.fixture(scope='module', params=few_of(STYLES, ('a tenth, MW and K, per kW and year', OWN)))
def other(request: pytest.FixtureRequest, tmp_path_factory: pytest.TempPathFactory) -> Files:
    """The plant in another table."""
    return files_of(STYLES[request.param], tmp_path_factory.mktemp('other') / 'plant', Pinch())


def skip_site(words: str, files: Files) -> None:
    """A site has no units of its own."""
    if files.style.own and words.split()[0] == 'site':
        pytest.skip('a site has tenths of °C and 10 W/K')


def told_of(answer: Said, files: Files) -> Parts:
    return [cell for sheet in answer.sheets
            for cell in cells_of(sheet.title, sheet.headings, sheet.rows, files.style)]


def step_of(heading: str) -> Fraction:
    """By how much of a CP a number is meant."""
    match = re.match(r'CP \+([\d.]+) kW/K', heading)
    return Fraction(match[1]) if match else Fraction(1)


def shape(text: str) -> str:
    """A text without its numbers and units."""
    units = '|'.join(map(re.escape, FIXED))
    return re.sub(rf'[−-]?\d[\d\u202f]*(\.\d+)?( \(\d+/\d+\))?|(?<![\w/])(?:{units})(?![\w/])', '#', text)


def check_own(one: Parts, same: Parts, style: Style) -> None:
    """Each number of the plain plant is that of a case in units of its own, in these. How much more of a stream is
    asked for is a step of the case."""
    assert [shape(part if isinstance(part, str) else part.place) for part in one] == [
        shape(part if isinstance(part, str) else part.place) for part in same]
    for first, second in zip(one, same):
        if isinstance(first, Told) and isinstance(second, Told) and ' +' not in first.heading:
            times_by_unit = OWN_UNITS | {'cost': ('cost', style.cost), 'price': ('price', style.price)}
            unit, times = times_by_unit.get(first.unit, (first.unit, Fraction(1)))
            zero, last = 32 if first.unit == '°C' else 0, Fraction(1, 200 if first.unit in ('°C', 'K') else 2000)
            assert second.unit == unit, (first, second)
            if first.heading in COUNTS or first.row in COUNTS:
                times, zero = Fraction(1), 0
            assert abs(first.value * times + zero - second.value) <= (1 + times) * last, (first, second)


def check_same(one: Parts, same: Parts, files: Files) -> None:
    """Each number of the plain plant is that of the other one."""
    if files.style.own:
        check_own([part for part in one if shape(part if isinstance(part, str) else '-') != '#'],
                  [part for part in same if shape(part if isinstance(part, str) else '-') != '#'], files.style)
        return
    assert len(one) == len(same)
    for first, second in zip(one, same):
        if isinstance(first, str) or isinstance(second, str):
            assert first == second
            continue
        assert (first.unit, first.place) == (second.unit, second.place)
        factor = {'cost': files.style.cost, 'price': files.style.price}.get(first.unit, Fraction(1))
        last = Fraction(1, 1000 if first.unit == 'cost' else 10 ** 6) if factor != 1 else Fraction(0)
        ways = (step_of(second.heading), step_of(first.heading))
        assert abs(first.value * factor * ways[0] - second.value * ways[1]) <= (1 + factor) * last / 2, (first, second)


def check_units(told: Parts) -> None:
    """Each number has its unit beside it, but for those of how many there are."""
    for part in told:
        assert isinstance(part, str) or part.unit or part.heading in COUNTS or part.row in COUNTS, part


@pytest.mark.parametrize('words', TABLES)
def test_each_number_of_a_table_is_that_of_the_same_plant(words: str, plain: Files, other: Files) -> None:
    skip_site(words, other)
    answers = [plant.answer(words) for plant in (plain, other)]
    one, same = told_of(answers[0], plain), told_of(answers[1], other)
    check_units(same)
    check_same(one, same, other)
    for sheet in answers[1].sheets:
        headings = [heading for heading in sheet.headings if heading]
        assert len(headings) == len(set(headings)), headings


@pytest.mark.parametrize('words', few_of([words for words in TABLES if not words.startswith('site')], TABLES[:3]))
def test_a_case_in_its_own_units_is_shown_in_si_where_that_is_asked(words: str, plain: Files, own: Files) -> None:
    one, same = told_of(plain.answer(words), plain), told_of(own.answer(f'{words} --units SI'), own)
    check_same(one, same, replace(own, style=replace(own.style, own=False)))


@pytest.mark.parametrize('words', few_of(SEARCHES, ()))
def test_what_searches_find_is_told_in_the_same_units(words: str, plain: Files, other: Files) -> None:
    """A search may end elsewhere; what it costs at least is the same, and so is what it began with."""
    answers = [plant.answer(words) for plant in (plain, other)]
    if answers[0].sheets:
        check_units(told_of(answers[1], other))
        head: list[Parts] = [list(cells_of('', sheet.headings, sheet.rows[:1], files.style)) for sheet, files in
                             zip((answer.sheets[0] for answer in answers), (plain, other))]
    else:
        texts = [str(answer.content).split('\nexchanger')[0].split('\n') for answer in answers]
        known = r' kW$| MJ/h$| exchangers$|<cost>$|^# (bound|rule|search|duties|the same again)| at the least approach '
        assert all(re.search(known, token_of(line, other.style)) for line in texts[1])
        head = [[part for line in lines if re.match('# (cost|floor)', line) for part in texts_of(line, files.style)]
                for lines, files in zip(texts, (plain, other))]
    check_same(head[0], head[1], other)


def svg_texts(files: Files, words: str) -> Iterator[str]:
    content = files.answer(f'draw {words} -o {{out.svg}}').content
    assert isinstance(content, bytes)
    for element in re.findall('<text.*?</text>', content.decode(), re.S):
        yield unescape(re.sub('<[^>]*>', '', element)).strip()


def parts_of_picture(files: Files, words: str) -> Parts:
    """The texts of a picture in order: labels of a price and its cost as such, without the marks of scales of costs."""
    told: Parts = []
    for text in svg_texts(files, words):
        pair = re.fullmatch(r'(-?[\d.]+): (-?[\d.]+)', text)
        if pair:
            told += [Told('label', Fraction(pair[1]), 'price'), Told('label', Fraction(pair[2]), 'cost')]
        elif words.split()[0] not in ('prices', 'sweep') or not re.fullmatch(r'[−-]?[\d.\u202f]+', text):
            told += texts_of(text, files.style)
    return told


@pytest.mark.parametrize('words', few_of(PICTURES, PICTURES[5:-1]))
def test_a_picture_is_that_of_the_same_plant(words: str, plain: Files, other: Files) -> None:
    skip_site(words, other)
    one, same = parts_of_picture(plain, words), parts_of_picture(other, words)
    check_same(one, same, other)


@pytest.mark.parametrize('words', few_of(PAGES, PAGES[1:]))
def test_a_page_is_that_of_the_same_plant(words: str, plain: Files, other: Files) -> None:
    told: list[Parts] = []
    for files in (plain, other):
        content = str(files.answer(f'page {words} -o {{out.html}}').content)
        divided = re.sub(r' All heats and CPs are divided by [\d/]+, by which the case holds them.', '', content)
        assert (divided != content) == (Fraction(files.style.scale) != 1)
        told.append(list(Page(divided).told(files.style)))
    check_units(told[1])
    check_same(told[0], told[1], other)


MANY = ['targets', 'flow', 'audit', 'table', 'sweep 4 16 4', 'prices', 'units', 'rest', 'whatif', 'site',
        f'utilities {UTILITIES}', 'network --steps 2', 'tradeoff --seconds 0.2']


def many_of(files: Files, words: str) -> Parts:
    word, *more = words.split()
    place = '{sites}' if word == 'site' else '{list}'
    content = str(files.answer(' '.join(['many', word, place, *more, '--processes', '1', '--form', 'csv'])).content)
    headings, rows = csv_cells(content)
    assert len(headings) == len(set(headings))
    return list(cells_of('many', headings, rows, files.style))


@pytest.mark.parametrize('words', few_of(MANY, MANY[:11]))
def test_a_row_of_many_is_that_of_the_same_plant(words: str, plain: Files, other: Files) -> None:
    skip_site(words, other)
    one, same = many_of(plain, words), many_of(other, words)
    check_units(same)
    if words.split()[0] in ('network', 'tradeoff'):
        costs = [[part for part in told if isinstance(part, Told) and part.unit == 'cost'][:2] for told in (one, same)]
        check_same(list(costs[0]), list(costs[1]), other)
    else:
        check_same(one, same, other)


def test_every_word_is_walked() -> None:
    """What is not here has no number of its own: `case` has its notes, which are tested where they are made; or needs
    what is in no table, cost laws: `cost` and `supertarget` (test_cost_words)."""
    walked = {words.split()[0] for words in (*TABLES, *SEARCHES)} | {'draw', 'page', 'case'}
    assert walked == {word.name for word in all_words()} - {'cost', 'supertarget'}
    parts = {part.name for group in all_words() if isinstance(group, WordGroup) for part in group.parts}
    assert {words.split()[0] for words in PICTURES} == parts - {'area', 'driving', 'supertarget'}
    assert {words.split()[0] for words in MANY} == walked - {'draw', 'page', 'case'}


OF_COSTS = ('flow', 'audit', 'rest', 'sweep 4 8 4', 'prices', 'network --steps 2', 'tradeoff --seconds 0.2')


@pytest.mark.parametrize('words', few_of(OF_COSTS, OF_COSTS[:5]))
def test_cases_of_different_units_share_no_column_of_costs(words: str, plain: Files, other: Files, tmp_path: Path,
                                                           capfd: pytest.CaptureFixture[str]) -> None:
    names = ('case.csv', 'case-network.txt', 'case-study.txt')
    rows = [[files.path(name) for name in names] for files in (plain, other)]
    (tmp_path / 'list').write_text('\n'.join(['case;network;study', *map(';'.join, rows), '']))
    word, *more = words.split()
    main(['many', word, str(tmp_path / 'list'), *more, '--form', 'csv', '--processes', '2'])
    headings, result_rows = csv_cells(capfd.readouterr().out)
    unit = other.style.cost_unit
    costs = [at for at, heading in enumerate(headings) if heading.endswith((' price times W', f' {unit}'))]
    assert costs
    for row in result_rows:
        own = PLAIN.cost_unit if row[0] == rows[0][0] else unit
        assert all(headings[at].endswith(f' {own}') for at in costs if row[at] is not None)


# What two rows say is refused.

def test_a_second_scale_or_unit_is_refused() -> None:
    for rows in (b'#scale,10,,,,,\n#scale,100,,,,,\n', b'#price,EUR/MWh,10,,,,\n#price,EUR/MWh,1,,,,\n',
                 b'#cost,EUR/h,10,,,,\n#cost,EUR/a,10,,,,\n'):
        with pytest.raises(Refused, match='case row 2 #.*: a row above says something else'):
            read_case(rows + b'contribution,,50,,,,\nhot,H,1000,500,10,,\n')
        same = rows.split(b'\n')[0] + b'\n'
        assert read_case(same * 2 + b'contribution,,50,,,,\nhot,H,1000,500,10,,\n').streams


SCALED = '{0}contribution,,50,,,,\nmain,HP,2000,,,,\nplant,A,,,,,\n{1}hot,H,2500,600,100,,\nplant,B,,,,,\n' \
         '{2}cold,C,200,1900,80,,\n'
TEN, HUNDRED = '#scale,10,,,,,\n', '#scale,100,,,,,\n'


def test_a_site_of_scaled_plants_has_one_scale() -> None:
    for rows in ((TEN, '', ''), ('', TEN, TEN), (TEN, TEN, ''), (TEN, TEN, TEN)):
        assert read_site(SCALED.format(*rows)).basis.scale == 10
    assert read_site(SCALED.format('', '', '')).basis.scale == 1
    for rows, row in ((('', TEN, ''), 4), (('', TEN, HUNDRED), 7), ((TEN, HUNDRED, HUNDRED), 8)):
        with pytest.raises(Refused, match=f'site row {row}: the plants have the scales .*, and one has to hold'):
            read_site(SCALED.format(*rows))
    with pytest.raises(Refused, match='site row 1 #scale: `x` is not a number'):
        read_site(SCALED.format('#scale,x,,,,,\n', '', ''))
