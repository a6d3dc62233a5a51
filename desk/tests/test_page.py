"""The page: what `pinch` printed is on it, hostile names are only names, a browser shows it whole."""
from __future__ import annotations

import re
import shlex
import subprocess
from datetime import date
from hashlib import sha256
from html import unescape
from pathlib import Path
from shutil import which
from typing import Any

import pytest
from conftest import EXAMPLES, Done, example, pinchdesk

from pinchdesk import Accepted, Pinch, completed, read_case
from pinchdesk.cli.main import main
from pinchdesk.formats.shown import Shown
from pinchdesk.program.digests import desk_digest
from pinchdesk.report.page import Given, page_of, review_of
from pinchdesk.report.page_head import difference_told
from pinchdesk.report.pdf import as_pdf, browser, run_browser
from pinchdesk.version import __version__

STEAM = ('two-reactors-steam.csv', 'two-reactors-steam-network.txt')
WITH_BROWSER = pytest.mark.skipif(browser() is None, reason='no browser to look at the page with')
# In the browser: what is cut is wider than its box and does not scroll; the page itself never scrolls sideways.
LOOK = """<script>addEventListener('load', () => {
const found = [];
for (const each of document.querySelectorAll('h1, h2, h3, h4, p, caption, th, td, summary, pre, figure, .wide'))
    if (each.scrollWidth > each.clientWidth + 1 && each.clientWidth
        && !/auto|scroll/.test(getComputedStyle(each).overflowX))
        found.push(each.tagName + ' ' + each.textContent.slice(0, 60));
for (const each of document.images) if (!each.complete || !each.naturalWidth) found.push('no picture ' + each.alt);
if (document.documentElement.scrollWidth > innerWidth) found.push('page ' + document.documentElement.scrollWidth);
document.body.setAttribute('data-seen', JSON.stringify(found));
})</script>"""


def given(*names: str) -> list[Given]:
    return [Given(name, str(EXAMPLES / name), example(name)) for name in names]


@pytest.fixture(scope='module')
def steam() -> str:
    case, network = given(*STEAM)
    less = Given('less.txt', 'less.txt', network.content.replace(b'CW 10000000', b'CW 9999000'))
    review = review_of(Pinch(), case, [network, less])
    assert review.ending == (1, 'rejected')
    return page_of(review)


def words_of(page: str) -> str:
    return ' '.join(unescape(re.sub('<[^>]*>', ' ', page)).split())


def test_all_that_was_printed_is_on_the_page(steam: str, pinch: Pinch) -> None:
    case, network = (example(name) for name in STEAM)
    verdict = pinch.audit(case, network)
    assert isinstance(verdict, Accepted)
    text = words_of(steam)
    for answer in (pinch.targets(case), pinch.flow(case), pinch.curves(case), verdict):
        assert ' '.join(answer.text.split()) in text


def test_numbers_are_in_engineers_units(steam: str, pinch: Pinch) -> None:
    case, network = (example(name) for name in STEAM)
    shown, targets, verdict = Shown(read_case(case).basis), pinch.targets(case), pinch.audit(case, network)
    assert isinstance(verdict, Accepted)
    text = words_of(steam)
    for wanted in (f'hot utility {shown.heat(targets.hot)} kW', f'cold utility {shown.heat(targets.cold)} kW',
                   'shifted °C hot side °C cold side °C 145 150 140', f'cost {shown.cost(verdict.cost)} price times W',
                   f'floor: no network costs less {shown.cost(verdict.floor)} price times W',
                   'verdict accepted rejected', 'the target is missed: 40.007 (6001/150) °C instead of 40 °C'):
        assert wanted in text


def test_the_page_stands_alone_and_styles_do_not_meet(steam: str) -> None:
    assert '<svg' not in steam and steam.count('<style>') == 1 and '<script' not in steam
    assert re.findall('(?:src|href)="(?!data:image/svg)', steam) == []
    assert steam.count('<img src="data:image/svg+xml;base64,') == 5


@pytest.mark.usefixtures('without_curves')
def test_prices_and_costs_of_the_page_have_the_units_of_the_table(tmp_path: Path) -> None:
    table, case, page = (tmp_path / name for name in ('table.csv', 'case.csv', 'page.html'))
    table.write_text('kind;name;supply;target;CP;price\nhot;Kühlung;170;60;3;\ncold;C;80;140;10;\n'
                     'heater;ST;180;;;120 EUR/(kW a)\ncooler;Fluß;15;;;5 EUR/(kW a)\n')
    assert main(['case', '-d', '10', str(table), '-o', str(case)]) == 0
    assert main(['page', str(case), '-o', str(page)]) == 0
    text = words_of(page.read_text())
    targets, shown = Pinch().targets(case.read_bytes()), Shown(read_case(case.read_bytes()).basis)
    assert 'price, EUR/(kW a)' in text and 'per W' not in text and 'Kuehlung hot 170 60 3 330 5 Kühlung' in text
    assert re.search(r'Fluss cooler .* Fluß least cost', text) and text.count('in the table') == 2
    wanted = 120 * targets.hot // 1000 + 5 * targets.cold // 1000
    assert f'Least cost of a heat flow: {wanted} EUR/a' in text and shown.price(120) == '120'


@pytest.mark.usefixtures('without_curves')
def test_hostile_names_and_texts_are_only_shown() -> None:
    case, network = given('preheater.csv', 'preheater-network.txt')
    bad = '<script>alert(1)</script>{{ 7 * 7 }}\x1b[31m.csv'
    hostile = Given(bad, 'x', case.content.replace(b'\n', b'\n#</pre><script>alert(2)</script>,,,,,,\n', 1))
    page = page_of(review_of(Pinch(), hostile, [Given('"><img src=x onerror=alert(3)>', 'y', network.content)]))
    assert '<script' not in page and '<img src=x' not in page
    assert '&lt;script&gt;alert(1)&lt;/script&gt;{{ 7 * 7 }}' in page and '&lt;script&gt;alert(2)' in page


@pytest.mark.usefixtures('without_curves')
def test_a_page_says_what_it_is_and_how_it_is_made_again(tmp_path: Path, pinch: Pinch) -> None:
    names = ('own-contributions.csv', 'own-contributions-network.txt')
    for name in names:
        (tmp_path / name).write_bytes(example(name))
    said = ('--title', 'Heat recovery <2>', '--plant', 'Unit & 3', '--author', 'A. "B"\x1b', '--revision', 'C',
            '--date', '1 May')
    assert pinchdesk('page', *names, *said, '-o', 'p.html', cwd=tmp_path).status == 0
    page = (tmp_path / 'p.html').read_text('utf-8')
    assert '<h1>Heat recovery &lt;2&gt;</h1>' in page and '<title>Heat recovery &lt;2&gt;</title>' in page
    text = words_of(page)
    for wanted in ('plant Unit & 3 author A. "B"? revision C date 1 May',
                   'ΔTmin 10 K, by the contribution row of the case: each stream and utility contributes 5 K, but '
                   'off-gas 15 K, reboiler 2.5 K, steam 2.5 K',
                   f'desk pinchdesk {__version__} {desk_digest()}',
                   *(f'{name} {sha256(example(name)).hexdigest()}' for name in names),
                   f'program pinch {sha256(Path(pinch.path).read_bytes()).hexdigest()}'):
        assert wanted in text
    command = re.search('<pre>(pinchdesk page .*?)</pre>', page)
    assert command
    words = shlex.split(unescape(command[1]))[1:]
    assert pinchdesk(*words[:-1], 'again.html', cwd=tmp_path).status == 0
    assert (tmp_path / 'again.html').read_text('utf-8') == page


def test_a_page_has_the_day_on_which_it_is_made(steam: str) -> None:
    assert f'date {date.today().isoformat()} ΔTmin 10 K' in words_of(steam)


@pytest.mark.parametrize(('head', 'options', 'origin'), [
    ('', ('-d', '18 °F'), 'by -d 18 °F'), ('ΔTmin = 10 °C;;;\n', (), 'by row 1 of the table'),
    ('', (), 'by row 3 of the table')])
def test_a_page_says_where_the_least_difference_comes_from(head: str, options: tuple[str, ...], origin: str,
                                                           tmp_path: Path) -> None:
    row = '' if head or options else 'contribution;;5;;\n'
    (tmp_path / 't.csv').write_text(f'{head}kind;name;supply °C;target °C;CP kW/K\nhot;H;150;60;2\n{row}')
    assert pinchdesk('case', *options, 't.csv', '-o', 'c.csv', cwd=tmp_path).status == 0
    case = (tmp_path / 'c.csv').read_text()
    assert difference_told(read_case(case)) == f'10 K, {origin}: each stream and utility contributes 5 K'
    changed = case.replace('contribution,,50,', 'contribution,,60,')
    assert difference_told(read_case(changed)).startswith('12 K, by the contribution row of the case: each ')


def test_the_least_difference_of_a_case_in_its_own_units_is_in_these(tmp_path: Path) -> None:
    (tmp_path / 't.csv').write_text('name;supply (°F);target (°F);CP (Btu/(h °F));contribution (°F)\n'
                                    'H;260;160;30000;\nC;120;235;20000;15\n')
    words = ('case', '-d', '18 °F', '--units', 'table', 't.csv', '-o', 'c.csv')
    assert pinchdesk(*words, cwd=tmp_path).status == 0
    told = difference_told(read_case((tmp_path / 'c.csv').read_bytes()))
    assert told == '18 °F, by -d 18 °F: each stream and utility contributes 9 °F, but C 15 °F'


def test_of_many_own_contributions_the_page_says_how_many_there_are() -> None:
    told = difference_told(completed(read_case(example('refinery.csv'))))
    assert told.endswith('contributes 10 K, but 21 of 36 have one of their own, 5 to 25 K')


def test_without_a_heat_flow_the_page_says_why(tmp_path: Path, capfd: pytest.CaptureFixture[str]) -> None:
    path = tmp_path / 'a page - of mine.html'
    assert main(['page', str(EXAMPLES / 'too-little-cooling.csv'), '-o', str(path)]) == 1
    text = words_of(path.read_text())
    assert 'There is no heat flow' in text and 'The parts that cannot be served' in text
    assert capfd.readouterr().err == ''


@pytest.mark.usefixtures('without_curves')
def test_a_page_is_written_whole_or_not_at_all(tmp_path: Path) -> None:
    case, page = tmp_path / "it's - a case.csv", tmp_path / '-page.html'
    case.write_bytes(example('four-stream.csv'))
    page.write_text('before')
    refused = pinchdesk('page', str(case), str(EXAMPLES / 'tc3-network.txt'), '-o', str(page))
    assert refused.status == 3 and page.read_text() == 'before' and 'tc3-network.txt' in refused.err
    assert pinchdesk('page', str(case), '-o', str(case)).status == 2
    assert case.read_bytes() == example('four-stream.csv')
    assert sorted(file.name for file in tmp_path.iterdir()) == ['-page.html', "it's - a case.csv"]


def long(*row: object) -> Any:
    return pytest.param(*row, marks=pytest.mark.long)


@pytest.mark.parametrize(('words', 'status'), [
    (('draw', 'curves', '{four-stream.csv}', '-o', 'a b/curves -1.svg'), 0),
    (('draw', 'curves', '{too-little-cooling.csv}', '-o', 'c.png'), 1),
    long(('draw', 'grid', '{preheater.csv}', '{preheater-network.txt}', '-o', '-grid.pdf'), 0),
    long(('draw', 'sweep', '{four-stream.csv}', '0', '20', '10', '-o', 's.svg'), 0),
    (('draw', 'site', '{three-plants.csv}', '-o', 'site.svg'), 0),
    (('draw', 'curves', '{four-stream.csv}', '-o', 'c.gif'), 2),
    (('draw', 'curves', '{four-stream.csv}'), 2),
    (('draw', '-o', 'x.svg'), 2),
    (('page', '{four-stream.csv}', '-o', 'page.doc'), 2),
    (('draw', 'grid', '{four-stream.csv}', '{tc3-network.txt}', '-o', 'g.svg'), 3),
    (('draw', 'grid', '{four-stream.csv}', 'less.txt', '-o', 'g.svg'), 1),
    long(('page', '{four-stream.csv}', '{four-stream-network.txt}', 'less.txt', '-o', 'p.html'), 1),
])
def test_pictures_are_files_and_have_statuses(words: tuple[str, ...], status: int, tmp_path: Path,
                                              monkeypatch: pytest.MonkeyPatch) -> None:
    monkeypatch.chdir(tmp_path)
    (tmp_path / 'a b').mkdir()
    rejected = tmp_path / 'less.txt'
    rejected.write_bytes(example('four-stream-network.txt').replace(b'COLD 60000', b'COLD 59000'))
    given_words = [str(EXAMPLES / word[1:-1]) if word.startswith('{') else word for word in words]
    if given_words[-1].startswith('-grid'):
        given_words[-2:] = [f'--output={given_words[-1]}']
    assert main(given_words) == status
    made = [file for file in tmp_path.rglob('*') if file.is_file() and file != rejected]
    assert len(made) == (status < 2) and all(file.stat().st_size > 1000 for file in made)


@pytest.mark.long
@WITH_BROWSER
@pytest.mark.parametrize('width', [pytest.param(1280, marks=pytest.mark.long), 500])
def test_a_browser_shows_the_page_whole(width: int, steam: str, tmp_path: Path) -> None:
    looked = re.sub('<meta http-equiv[^>]*>', LOOK, steam).replace('<details>', '<details open>')
    dom = run_browser([f'--window-size={width},900', '--virtual-time-budget=5000', '--dump-dom'], looked, tmp_path)
    seen = re.search('data-seen="([^"]*)"', dom.decode())
    assert seen and seen[1] == '[]'


def sheets_of(pdf: Path, page: str) -> list[list[str]]:
    """The lines of each sheet of paper. No heading, no title of a table and no row of headings stands last on one."""
    done = subprocess.run(['pdftotext', '-layout', str(pdf), '-'], capture_output=True, check=True)
    sheets = [[' '.join(line.split()) for line in sheet.splitlines() if line.strip()]
              for sheet in done.stdout.decode().split('\f')]
    headings = {words_of(element) for element in re.findall(r'<(?:h[1-4]|caption|summary|th)\b.*?</', page, re.S)}
    headings |= {words_of(element) for element in re.findall('<thead>.*?</thead>', page, re.S)}
    assert len(sheets) > 3 and not [lines[-1] for lines in sheets if lines and lines[-1] in headings]
    return sheets


@WITH_BROWSER
@pytest.mark.skipif(which('pdftotext') is None, reason='nothing here reads a PDF')
@pytest.mark.long
def test_on_paper_no_heading_stands_alone_and_no_line_is_cut(steam: str, pinch: Pinch, tmp_path: Path) -> None:
    path, page = tmp_path / 'page.pdf', steam.replace('<details>', '<details open>')
    path.write_bytes(as_pdf(page))
    text = ''.join(''.join(''.join(lines).split()) for lines in sheets_of(path, page))
    verdict = pinch.audit(*(example(name) for name in STEAM))
    for line in (pinch.flow(example(STEAM[0])).text + verdict.text).splitlines():
        assert ''.join(line.split()) in text


@pytest.mark.long
@WITH_BROWSER
def test_a_browser_prints_the_page(tmp_path: Path) -> None:
    path, names = tmp_path / 'page of a case.pdf', ('crude.csv', 'crude-network.txt')
    done: Done = pinchdesk('page', *(str(EXAMPLES / name) for name in names), '-o', str(path))
    assert done.status == 0, done.err
    assert path.read_bytes().startswith(b'%PDF')
    if which('pdftotext'):
        case, network = given(*names)
        # A table that has no room below a picture begins on a sheet of its own.
        page = page_of(review_of(Pinch(), case, [network]), True)
        assert any(lines[0] == 'Exchangers' for lines in sheets_of(path, page) if lines)
