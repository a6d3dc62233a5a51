"""How the live page looks and is read: narrow windows, large letters, screen readers, fingers, names like markup."""
from __future__ import annotations

from itertools import product
from pathlib import Path

import pytest

from conftest import EXAMPLES
from pinchdesk import Pinch
from pinchdesk.program.answers import Design

pytest.importorskip('selenium', reason='no selenium to lead a browser')
pytest.importorskip('uvicorn', reason='no uvicorn to serve the page')

from selenium.webdriver.common.keys import Keys  # noqa: E402

from live_browser import NEEDS_BROWSER, LivePage, Opens, copied  # noqa: E402

pytestmark = NEEDS_BROWSER

LONG_NUMBERS = """#units,°F,Btu/h,65941/225000,10,0,1
contribution,,50,,,,
hot,H1,2600,1600,3000,,
cold,C1,1200,2350,123456,,
"""
SPOKEN = {'button', 'textbox', 'slider', 'combobox', 'spinbutton', 'img', 'DisclosureTriangle'}


@pytest.mark.long
def test_nothing_is_wider_than_the_window(opens: Opens, tmp_path: Path) -> None:
    """In narrow windows, and with letters of twice the size, all can be reached without scrolling to the side."""
    (page, desk), wider = opens(copied(tmp_path)), []
    driver = page.driver
    try:
        for letters, width in product((16, 32), (400, 620, 900, 1180, 1500)):
            driver.set_window_size(width, 900)
            driver.execute_cdp_cmd('Page.setFontSizes', {'fontSizes': {'standard': letters, 'fixed': letters}})
            page.go(desk.address).choose('E4')
            page.until(lambda: page.all('#ways .ways'))
            if driver.execute_script('const page = document.documentElement;'
                                     'return page.scrollWidth > page.clientWidth'):
                wider.append((letters, width))
        assert not wider
    finally:
        driver.execute_cdp_cmd('Page.setFontSizes', {'fontSizes': {'standard': 16, 'fixed': 13}})
        driver.set_window_size(1500, 960)


@pytest.mark.long
def test_no_number_of_a_cell_is_cut(opens: Opens, tmp_path: Path) -> None:
    """A number that has lost its last digit reads as another one."""
    (tmp_path / 'case.csv').write_text(LONG_NUMBERS, encoding='utf-8')
    page, _ = opens(tmp_path / 'case.csv')
    page.until(lambda: page.all('.cells input'))
    cut = page.driver.execute_script("return [...document.querySelectorAll('.cells input')]"
                                     ".filter(cell => cell.scrollWidth > cell.clientWidth).map(cell => cell.value)")
    assert cut == []
    assert '1234560' in [cell.get_attribute('value') for cell in page.all('.cells input')]


PLACES = '''return ['chosen', 'ways', 'score', 'steps', 'curves'].map(name =>
  document.getElementById(name).getBoundingClientRect().top + scrollY)'''
# Of temperatures and shares those that an exchanger is drawn over, and whether all of the verdict is seen.
CROSSED = '''const last = [...document.querySelectorAll('#grid .exchanger')].pop();
return [...document.querySelectorAll('#grid .temperature, #grid .share')]
  .filter(label => !(last.compareDocumentPosition(label) & Node.DOCUMENT_POSITION_FOLLOWING)).length'''
IN_SIGHT = '''const box = document.getElementById('verdict').getBoundingClientRect();
return box.top >= 0 && document.elementFromPoint(box.x + 9, box.y + box.height / 2).closest('#verdict') !== null'''


@pytest.mark.long
def test_a_split_moves_nothing_beside_the_diagram_and_the_verdict_stays_in_sight(page: LivePage) -> None:
    """Nor does the last gesture; and no bar goes through a temperature or a share."""
    driver = page.driver
    before = driver.execute_script(PLACES)
    page.place(('S1', '120'), ('S3', '137.5'))
    page.place(('S2', '240'), ('S4', '135'))
    page.until(lambda: page.all('[data-joint]'))
    assert driver.execute_script(PLACES) == before
    assert 'placed + to come' in page.text('#score h3') and page.text('#score .units').startswith('2 + 5 = 7')
    page.click(lambda: page.button('Serve the rest', '#score'))
    page.says('Accepted')
    assert driver.execute_script(PLACES) == before
    assert page.all('#grid .share') and not driver.execute_script(CROSSED)
    driver.execute_script('scrollTo(0, document.documentElement.scrollHeight)')
    assert driver.execute_script('return scrollY') > 0 and driver.execute_script(IN_SIGHT)


@pytest.mark.long
def test_a_screen_reader_has_a_name_for_all_that_can_be_done(opens: Opens, tmp_path: Path) -> None:
    """What the browser tells a screen reader: each control with its own name, the verdict as what changes."""
    page, _ = opens(copied(tmp_path))
    page.choose('E4')
    page.until(lambda: page.all('#ways .ways'))
    tree = page.driver.execute_cdp_cmd('Accessibility.getFullAXTree', {})['nodes']
    nodes = [(node['role']['value'], node.get('name', {}).get('value', '')) for node in tree
             if not node['ignored'] and 'role' in node]
    assert not [role for role, name in nodes if role in SPOKEN and not name.strip()]
    names = {name for _, name in nodes}
    assert ('status', '') in nodes and 'Grid diagram' in names
    assert 'exchanger E4, S1 to S3, 20 kW, below the pinch' in names
    assert 'split of S2: 43.75 %, 56.25 %' in names
    assert {'supply of S1', 'duty of E4 in kW', 'least approach ΔTmin', 'remove S1'} <= names
    assert any(name.startswith('Composite curves: utilities hot 107.5 kW, cold 40 kW') for name in names)


@pytest.mark.long
def test_a_finger_places_an_exchanger(page: LivePage) -> None:
    source, target = (page.middle(page.piece(*named)) for named in (('S1', '120'), ('S3', '137.5')))
    touches: list[tuple[str, list[tuple[float, float]]]] = [
        ('touchStart', [source]), ('touchMove', [(source[0] + 9, source[1] + 9)]), ('touchMove', [target]),
        ('touchEnd', [])]
    for kind, points in touches:
        page.driver.execute_cdp_cmd('Input.dispatchTouchEvent', {
            'type': kind, 'touchPoints': [{'x': x, 'y': y} for x, y in points]})
    page.until(lambda: len(page.exchangers()) == 1)


@pytest.mark.long
def test_a_hostile_name_is_only_a_name(opens: Opens, tmp_path: Path) -> None:
    """Names that a case can have, and what a file may be called."""
    case = tmp_path / '<img src=x onerror=alert(1)>&"\'.csv'
    text = (EXAMPLES / 'tc3.csv').read_text(encoding='utf-8')
    case.write_text(text.replace('S1', '<b>S1</b>').replace('S3', 'S"3\'&amp;'), encoding='utf-8')
    page, _ = opens(case, tmp_path / 'network.txt')
    assert '<img src=x onerror=alert(1)>' in page.text('#files')
    assert not page.all('img') and not page.all('#grid b')
    assert not page.errors()


# Of each thing of the diagram, what it is drawn with: the colour, the width, and whether it is dashed.
DRAWN = '''const seen = selector => [...document.querySelectorAll(selector)].map(found => {
  const style = getComputedStyle(found);
  return {selector, stroke: style.stroke, width: style.strokeWidth, dashes: style.strokeDasharray};
});
return arguments[0].flatMap(seen)'''
TEXTS = '''return [...document.querySelectorAll('#grid text')].map(found => getComputedStyle(found).fill)'''
GROUNDS = '''return ['body', '#grid', '#grid .names'].map(place =>
  getComputedStyle(document.querySelector(place)).backgroundColor)'''


@pytest.mark.long
def test_forced_colours_leave_all_to_be_told_apart(opens: Opens, tmp_path: Path) -> None:
    """In the few colours of a system each line and each text is seen, and what is chosen is thicker too."""
    page, _ = opens(copied(tmp_path))
    driver = page.driver
    try:
        for scheme in ('light', 'dark'):
            features = {'forced-colors': 'active', 'prefers-color-scheme': scheme, 'prefers-contrast': 'custom'}
            driver.execute_cdp_cmd('Emulation.setEmulatedMedia', {'features': [
                {'name': name, 'value': value} for name, value in features.items()]})
            assert driver.execute_script("return matchMedia('(forced-colors: active)').matches")
            page.choose('E4')
            drawn = driver.execute_script(DRAWN, ['.line line', '.joint .upright', '.exchanger .bar', '.ending rect',
                                                  '.pinch line', '.row .level'])
            ground, = {*driver.execute_script(GROUNDS)}
            assert drawn and {one['stroke'] for one in drawn}.isdisjoint({ground, 'none'})
            colour, = {*driver.execute_script(TEXTS)}
            assert colour != ground
            badge = driver.execute_script("const style = getComputedStyle(document.querySelector('.badge'));"
                                          "return [style.color, style.backgroundColor]")
            assert badge[0] != badge[1]
            chosen, other = (driver.execute_script(DRAWN, [f'[data-exchanger={name}] .bar'])[0]
                             for name in ('E4', 'E1'))
            assert chosen['stroke'] != other['stroke'] and chosen['width'] != other['width']
    finally:
        driver.execute_cdp_cmd('Emulation.setEmulatedMedia', {'features': []})


@pytest.mark.long
def test_letters_of_twice_the_size_are_worked_with(opens: Opens, tmp_path: Path) -> None:
    """The diagram grows with its texts, none of which lies over another; a drag and a number in a cell go as before."""
    page, desk = opens(copied(tmp_path), tmp_path / 'mine.txt')
    driver = page.driver
    small = page.one('#grid .grid:not(.names)').size['height']
    try:
        driver.execute_cdp_cmd('Page.setFontSizes', {'fontSizes': {'standard': 32, 'fixed': 32}})
        page.go(desk.address)
        assert page.one('#grid .grid:not(.names)').size['height'] > 1.9 * small
        page.drag(page.piece('S1', '120'), page.piece('S3', '137.5'))
        page.until(lambda: len(page.exchangers()) == 1)
        assert driver.execute_script(OVER) == []
        cut = driver.execute_script("return [...document.querySelectorAll('.cells input')]"
                                    ".filter(cell => cell.scrollWidth > cell.clientWidth).map(cell => cell.value)")
        assert cut == []
    finally:
        driver.execute_cdp_cmd('Page.setFontSizes', {'fontSizes': {'standard': 16, 'fixed': 13}})


# The pairs of ends and pieces of the diagram that lie over one another.
OVER = '''const boxes = [...document.querySelectorAll('#grid .ending rect, #grid .piece rect')]
  .map(found => [found.parentNode.textContent, found.getBoundingClientRect()]);
const over = [];
for (const [at, [one, box]] of boxes.entries()) for (const [other, near] of boxes.slice(at + 1)) {
  const beside = box.left > near.right - 1 || near.left > box.right - 1;
  if (!beside && box.top < near.bottom - 1 && near.top < box.bottom - 1) over.push(`${one} ${other}`);
}
return over'''
PLANTS = EXAMPLES.parent / 'checks' / 'plant'


@pytest.mark.long
def test_nearly_two_hundred_exchangers_are_shown_and_worked_on(opens: Opens, tmp_path: Path, pinch: Pinch) -> None:
    """Twenty streams with the network that `design` prints: 175 exchangers, none of which lies over another."""
    case = (PLANTS / 'xiao20-dt10.csv').read_bytes()
    design = pinch.design(case)
    assert isinstance(design, Design)
    (tmp_path / 'case.csv').write_bytes(case)
    (tmp_path / 'network.txt').write_text(design.text, encoding='utf-8')
    page, _ = opens(tmp_path / 'case.csv', tmp_path / 'network.txt')
    page.says('Accepted')
    names = page.exchangers()
    assert len(names) == 175 and page.driver.execute_script(OVER) == []
    page.driver.execute_script('arguments[0].focus()', page.exchanger(names[80]))
    page.press(Keys.DELETE)
    page.says('Unfinished')
    assert names[80] not in page.exchangers() and page.driver.execute_script(OVER) == []
    page.undo()
    page.says('Accepted')
    assert page.exchangers() == names and not page.errors()
