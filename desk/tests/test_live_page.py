"""The live page in a real browser: a network is made by hand, by pointer and by keys, and judged at each step."""
from __future__ import annotations

from pathlib import Path

import pytest

from conftest import EXAMPLES, pinchdesk

pytest.importorskip('selenium', reason='no selenium to lead a browser')
pytest.importorskip('uvicorn', reason='no uvicorn to serve the page')

from selenium.webdriver import ActionChains  # noqa: E402
from selenium.webdriver.common.actions.action_builder import ActionBuilder  # noqa: E402
from selenium.webdriver.common.by import By  # noqa: E402
from selenium.webdriver.common.keys import Keys  # noqa: E402

from live_browser import NEEDS_BROWSER, LivePage, OpenDesk, Opens, copied  # noqa: E402
from segmented_cases import FEED  # noqa: E402

pytestmark = NEEDS_BROWSER


def place_rest(page: LivePage) -> None:
    """The published network of tc3: three drags after the first one, and a button."""
    if not page.exchangers():
        page.place(('S1', '120'), ('S3', '137.5'))
    page.place(('S2', '240'), ('S4', '135'))
    page.place(('S2', '105'), ('S3', '125'))
    page.place(('S1', '60'), ('S3', '20'))
    page.click(lambda: page.button('Serve the rest', '#score'))
    page.says('Accepted')


def test_a_drag_makes_an_exchanger_and_the_verdict_follows(page: LivePage, desk: OpenDesk) -> None:
    page.says('Nothing placed', '107.5 kW')
    assert page.exchangers() == []
    page.place(('S1', '120'), ('S3', '137.5'))
    page.says('Unfinished')
    name, = page.exchangers()
    page.until(lambda: '120' in page.exchanger(name).text)
    assert f'exchanger {name} S1 S3 120000' in desk.network.read_text(encoding='utf-8')
    assert not page.errors()


@pytest.mark.long
def test_the_cost_stands_beside_the_pointer_before_the_drop(page: LivePage) -> None:
    page.drag(page.piece('S1', '120'), page.piece('S3', '137.5'), drop=False)
    page.until(lambda: '120 kW, ticks off S1' in page.text('#hint') and 'costs nothing' in page.text('#hint'))
    assert len(page.all('.piece.partner')) > 1
    page.press(Keys.ESCAPE)
    page.until(lambda: not page.text('#hint'))
    ActionChains(page.driver).release().perform()
    assert page.exchangers() == []


@pytest.mark.long
def test_the_line_beside_a_piece_is_as_good_as_the_piece(page: LivePage) -> None:
    """A drag may begin and end beside pills, up to the pinch, whose line stays where it was."""
    lines = page.attributes('.pinch line', 'x1')
    source, target, same = page.piece('S1', '120'), page.piece('S3', '137.5'), page.piece('S2', '240')
    chain = ActionChains(page.driver, duration=20)
    chain.move_to_element_with_offset(source, -40, 0).click_and_hold().move_by_offset(9, 9)
    chain.move_to_element_with_offset(same, 40, 0).perform()
    page.until(lambda: 'both are hot' in page.text('#hint'))
    chain = ActionChains(page.driver, duration=20)
    chain.move_to_element_with_offset(target, -40, 0).release().perform()
    page.until(lambda: len(page.exchangers()) == 1)
    assert page.attributes('.pinch line', 'x1') == lines
    ActionChains(page.driver).move_to_element_with_offset(page.piece('S2', '240'), 40, 0).click().perform()
    page.until(lambda: page.all('[data-key="offer 0"]') and 'S2: 240 kW open' in page.text('#chosen'))
    page.one('[data-key=most]').send_keys('50', Keys.ENTER)
    page.until(lambda: ' 50 kW' in page.text('[data-key="offer 0"]'))
    page.click(lambda: page.one('[data-key="offer 0"]'))
    page.until(lambda: len(page.exchangers()) == 2)
    assert page.one('[data-key=duty]').get_attribute('value') == '50' and not page.errors()


@pytest.mark.long
def test_tc3_is_made_broken_and_mended(page: LivePage, desk: OpenDesk) -> None:
    """It makes the pictures of the documents too: LIVE_PICTURES=docs/pictures."""
    page.drag(page.piece('S1', '120'), page.piece('S3', '137.5'), drop=False)
    page.until(lambda: 'costs nothing' in page.text('#hint'))
    page.picture('live-drag')
    ActionChains(page.driver).release().perform()
    page.until(lambda: len(page.exchangers()) == 1)
    place_rest(page)
    page.says('107.5 kW')
    assert len(page.exchangers()) == 7
    assert audited(desk) == 'accepted'
    page.until(lambda: page.all('#ways[aria-busy=false]'))
    page.click(lambda: page.button('break it: E4 goes (20 kW)', '#ways'))
    page.says('Rejected', '80 °C', '62 °C', '18 K')
    assert page.all('.exchanger.fault')
    mending = page.until(lambda: page.all('#ways[aria-busy=false] .mending'))[0]
    assert '4 to 140' in mending.text
    # The grid shows the path whose box has the focus, not one that came below the resting pointer.
    names = {leg[1:] for leg in str(mending.get_attribute('data-way')).split(',')}
    page.until(lambda: set(page.attributes('.exchanger.leg', 'data-exchanger')) == names)
    page.picture('live-broken')
    field = mending.find_element(By.CSS_SELECTOR, 'input')
    assert field.get_attribute('value') == '4' and page.one('#ways').get_property('scrollTop') == 0
    page.click(lambda: page.one('#ways .mending').find_element(By.XPATH, './/button[.="move"]'))
    page.says('Accepted', '111.5 kW')
    assert len(page.exchangers()) == 6
    assert audited(desk) == 'accepted'
    assert not page.errors()


def audited(desk: OpenDesk) -> str:
    return pinchdesk('audit', str(desk.case), str(desk.network)).out.split()[0].rstrip(':,.').lower()


@pytest.mark.long
def test_undo_gives_the_very_bytes(page: LivePage, desk: OpenDesk) -> None:
    texts = [desk.network.read_bytes() if desk.network.exists() else b'']
    for source, target in ((('S1', '120'), ('S3', '137.5')), (('S2', '240'), ('S4', '135'))):
        page.place(source, target)
        texts.append(desk.network.read_bytes())
    for text in reversed(texts[1:]):
        assert desk.network.read_bytes() == text
        count = len(page.exchangers())
        page.undo()
        page.until(lambda: len(page.exchangers()) == count - 1)  # noqa: B023
    page.click(lambda: page.button('↷ Redo'))
    page.until(lambda: len(page.exchangers()) == 1)
    assert desk.network.read_bytes() == texts[1]


def test_by_keys_alone(page: LivePage, desk: OpenDesk) -> None:
    """The diagram is one stop of Tab; arrows go, Enter opens the partners and takes the first."""
    page.driver.execute_script('document.activeElement.blur()')
    for _ in range(12):
        page.press(Keys.TAB)
        if page.focused().startswith('piece'):
            break
    page.until(lambda: 'S1' in page.said())
    page.press(Keys.ENTER)
    page.until(lambda: page.focused() == 'offer 0')
    page.press(Keys.ARROW_DOWN)
    page.until(lambda: page.focused() == 'offer 1')
    page.press(Keys.ARROW_UP, Keys.ENTER)
    page.until(lambda: len(page.exchangers()) == 1)
    page.until(lambda: page.focused().startswith('exchanger'))
    page.press(Keys.ENTER)
    page.until(lambda: page.focused() == 'duty')
    page.press('100', Keys.ENTER)
    page.until(lambda: '100000' in desk.network.read_text(encoding='utf-8'))
    page.undo()
    page.until(lambda: '100000' not in desk.network.read_text(encoding='utf-8'))
    page.undo('y')
    page.until(lambda: '100000' in desk.network.read_text(encoding='utf-8') and page.focused() == 'duty')
    page.press(Keys.ESCAPE)
    page.until(lambda: page.focused().startswith('exchanger'))
    page.press(Keys.DELETE)
    page.until(lambda: page.exchangers() == [])
    assert page.focused().startswith('piece')
    page.press('U')
    page.says('Accepted')


@pytest.mark.long
def test_tc3_by_keys_alone(page: LivePage, desk: OpenDesk) -> None:
    """The published network, broken and mended, without a pointer."""
    page.driver.execute_script('document.activeElement.blur()')
    page.tab_to('open piece')
    for count, (stream, duty) in enumerate((('S1', '120'), ('S2', '240'), ('S2', '105'), ('S1', '60')), 1):
        page.walk(f'[data-piece][aria-label*="of {stream},"][aria-label*=", {duty} "]')
        page.press(Keys.ENTER)
        page.until(lambda: page.focused() == 'offer 0')
        page.press(Keys.ENTER)
        page.until(lambda: len(page.exchangers()) == count and page.focused().startswith('exchanger'))  # noqa: B023
    page.press('U')
    page.says('Accepted', '107.5 kW')
    page.until(lambda: page.all('#ways .ways') and 'stale' not in str(page.one('#ways').get_attribute('class')))
    page.press('g')
    page.tab_to('break it: E4 goes (20 kW)')
    page.press(Keys.ENTER)
    page.says('Rejected')
    page.until(lambda: page.all('#ways .mending') and page.said().startswith('heat to be moved'))
    # Pressed twice it moves once, and what is in the next box is not moved.
    page.press(Keys.ENTER, Keys.ENTER)
    page.says('Accepted', '111.5 kW')
    page.until(lambda: page.focused().startswith(('exchanger', 'joint')))
    assert audited(desk) == 'accepted' and len(page.exchangers()) == 6
    page.undo()
    page.says('Rejected')
    page.undo()
    page.says('Accepted', '107.5 kW')
    # What is taken away leaves a piece, which has the focus: Delete once more takes nothing.
    page.driver.execute_script('arguments[0].focus()', page.exchanger('E4'))
    page.press(Keys.DELETE)
    page.until(lambda: len(page.exchangers()) == 6 and page.focused().startswith('piece'))


@pytest.mark.long
def test_the_published_network_of_four_streams_is_made_in_five_gestures(opens: Opens, tmp_path: Path) -> None:
    page, desk = opens(copied(tmp_path, 'four-stream'), tmp_path / 'network.txt')
    for source, target in ((('H2', '240'), ('C3', '240')), (('H4', '90'), ('C1', '110')),
                           (('H2', '90'), ('C1', '120')), (('H4', '90'), ('C1', '30'))):
        page.place(source, target)
    page.click(lambda: page.button('Serve the rest', '#score'))
    page.says('Accepted', '20 kW')
    assert exchanged(desk.network) == exchanged(EXAMPLES / 'four-stream-network.txt')


def exchanged(network: Path) -> list[list[str]]:
    """What exchanges how much in a network, whatever the exchangers are called."""
    return sorted(line.split()[2:] for line in network.read_text(encoding='utf-8').splitlines()
                  if line.startswith('exchanger '))


@pytest.mark.long
def test_another_place_is_one_click_away(page: LivePage, desk: OpenDesk) -> None:
    page.place(('S2', '240'), ('S4', '135'))
    first = desk.network.read_text(encoding='utf-8')
    page.click(lambda: page.one('[data-key="instead 0"]'))
    page.until(lambda: desk.network.read_text(encoding='utf-8') != first and len(page.exchangers()) == 1)
    page.until(lambda: page.all('[data-key="instead 0"]'))


@pytest.mark.long
def test_the_slider_changes_nothing_until_enter(page: LivePage, desk: OpenDesk) -> None:
    before = desk.case.read_bytes()
    first = page.text('.told')
    page.click(lambda: page.one('#curves input[type=range]'))
    page.until(lambda: page.text('.told') != first and page.all('.before'))
    assert desk.case.read_bytes() == before
    page.press(Keys.ESCAPE)
    page.until(lambda: page.text('.told') == first)
    field = page.one('#curves input[data-key=difference]')
    field.send_keys(Keys.CONTROL + 'a' + Keys.NULL, '30')
    page.until(lambda: page.all('.before') and page.text('.told') != first)
    assert desk.case.read_bytes() == before
    field.send_keys(Keys.ENTER)
    page.until(lambda: desk.case.read_bytes() != before)
    page.until(lambda: not page.all('.before'))
    page.undo()


@pytest.mark.long
def test_what_is_wrong_is_said_in_its_cell(page: LivePage, desk: OpenDesk) -> None:
    before = desk.case.read_bytes()
    cell = page.one('#streams input[aria-label="supply of S1"]')
    cell.send_keys(Keys.CONTROL + 'a' + Keys.NULL, 'warm', Keys.ENTER)
    wrong = page.until(lambda: page.all('#streams input[aria-invalid]'))[0]
    assert wrong.get_attribute('value') == 'warm' and page.text('#cell-fault') and page.text('#toast')
    assert desk.case.read_bytes() == before
    wrong.send_keys(Keys.CONTROL + 'a' + Keys.NULL, '160', Keys.ENTER)
    page.until(lambda: desk.case.read_bytes() != before)
    page.undo()
    page.until(lambda: desk.case.read_bytes() == before)
    page.until(lambda: not page.all('#streams input[aria-invalid]'))


@pytest.mark.long
def test_a_page_that_is_loaded_again_is_the_same(page: LivePage, desk: OpenDesk) -> None:
    page.place(('S1', '120'), ('S3', '137.5'))
    names, steps = page.names(), page.text('#steps')
    page.go(desk.address)
    assert (page.names(), page.text('#steps')) == (names, steps)


@pytest.mark.long
def test_a_search_goes_on_from_here_and_pictures_open_beside(page: LivePage, desk: OpenDesk) -> None:
    place_rest(page)
    page.click(lambda: page.one('#rest summary'))
    field = page.one('#rest input[aria-label^=seconds]')
    field.send_keys(Keys.CONTROL + 'a' + Keys.NULL, '2', Keys.ENTER)
    page.until(lambda: 'Searching' in page.text('#rest'))
    page.until(lambda: 'Searching' not in page.text('#rest'))
    page.says('Accepted')
    assert audited(desk) == 'accepted'
    links = [str(link.get_attribute('href')) for link in page.all('#rest a')]
    assert [link.removeprefix(desk.address) for link in links] == ['report', 'picture/grid.svg', 'picture/curves.svg']
    for link, words in zip(links, ('Accepted', '<svg', '<svg')):
        kinds = page.driver.execute_async_script(
            'fetch(arguments[0]).then(answer => answer.text()).then(arguments[arguments.length - 1])', link)
        assert words.lower() in str(kinds).lower()


SCROLLED = '''const at = document.querySelector("#grid .wide");
return at.scrollTop + at.clientHeight > at.scrollHeight - 2'''


@pytest.mark.long
def test_a_drag_reaches_what_is_out_of_sight(opens: Opens, tmp_path: Path) -> None:
    """A large diagram scrolls inside, and by itself where something is dragged to its edge."""
    page, _ = opens(copied(tmp_path, 'crude'), tmp_path / 'network.txt')
    driver = page.driver
    bottom = driver.execute_script('return document.querySelector("#grid .wide").getBoundingClientRect().bottom')
    assert page.middle(page.piece('CR1', '32550'))[1] > bottom
    _, y = page.middle(page.piece('KERO', '4620'))
    ActionChains(driver, duration=20).move_to_element(page.piece('KERO', '4620')).click_and_hold() \
        .move_by_offset(0, 20).move_by_offset(0, int(bottom - 8 - y - 20)).perform()
    page.until(lambda: bool(driver.execute_script(SCROLLED)))
    x, y = page.middle(page.piece('CR1', '32550'))
    assert y < bottom - 60
    chain = ActionBuilder(driver)
    chain.pointer_action.move_to_location(int(x), int(y)).pointer_up()
    chain.perform()
    page.until(lambda: len(page.exchangers()) == 1)


@pytest.mark.long
def test_a_gesture_is_painted_soon(page: LivePage) -> None:
    """From the release of the pointer; on a busy machine it may take some times as long as on a quiet one."""
    page.place(('S1', '120'), ('S3', '137.5'))
    page.place(('S2', '240'), ('S4', '135'))
    times = page.painted()
    assert 0 <= times['asked'] < times['answered'] < times['painted'] < 5000


@pytest.mark.long
def test_an_end_and_the_whole_are_moved_by_keys_and_by_a_drag(page: LivePage, desk: OpenDesk) -> None:
    """Each place with what it costs before it is taken."""
    page.place(('S1', '120'), ('S3', '137.5'))
    page.driver.execute_script('arguments[0].focus()', page.exchanger('E1'))
    page.press('e')
    page.until(lambda: page.focused() == 'move 0')
    page.until(lambda: page.all('.piece.partner'))
    page.until(lambda: 'costs' in page.text('.offers'))
    page.tab_to('S4')
    page.press(Keys.ENTER)
    page.until(lambda: any('E1, S1 to S4' in name for name in page.names()))
    page.drag(page.one('[data-exchanger=E1] [data-end=cold]'), page.piece('S3', '137.5'), drop=False)
    page.until(lambda: 'move this end of E1 here' in page.text('#hint') and 'costs' in page.text('#hint'))
    ActionChains(page.driver).release().perform()
    page.until(lambda: 'exchanger E1 S1 S3 90000' in desk.network.read_text(encoding='utf-8'))
    page.until(lambda: any('E1, S1 to S3, 90 kW' in name for name in page.names()))
    page.drag(page.one('[data-exchanger=E1] .touch'), page.piece('S1', '60'), drop=False)
    page.until(lambda: 'move E1 here, on S1 and S3' in page.text('#hint') and 'costs nothing' in page.text('#hint'))
    assert page.all('.piece.partner.cold') and page.all('.piece.partner.hot')
    ActionChains(page.driver).release().perform()
    page.until(lambda: any('E1, S1 to S3, 60 kW, below the pinch' in name for name in page.names()))
    assert not page.errors()


@pytest.mark.long
def test_exchangers_against_cost_and_a_network_that_is_taken(page: LivePage, desk: OpenDesk) -> None:
    page.click(lambda: page.button('Serve the rest', '#score'))
    page.says('Accepted')
    page.click(lambda: page.one('#tradeoff summary'))
    page.one('#tradeoff input').send_keys(Keys.CONTROL + 'a' + Keys.NULL, '2', Keys.ENTER)
    page.until(lambda: 'Searching' in page.text('#tradeoff'))
    page.until(lambda: 'accepted by the audit' in page.text('#tradeoff [role=status]'))
    assert 'no network costs less' in page.text('#tradeoff tbody tr')
    buttons = page.all('#tradeoff tbody button')
    name = str(buttons[-1].get_attribute('aria-label'))
    count = int(name.split()[4])
    assert name == f'take the network of {count} exchangers' and count <= 7
    page.click(lambda: page.all('#tradeoff tbody button')[-1])
    page.until(lambda: len(page.exchangers()) == count)
    page.says('Accepted')
    assert audited(desk) == 'accepted' and f'{count} exchangers' in page.text('#steps [aria-current]')


# Its cooler is warmer than the end of its hot stream.
WARM_COOLER = '''contribution,,50,,,,
hot,H,1000,300,100,,
cold,C,200,600,100,,
heater,HP,1500,0,1000000,0,
cooler,AIR,400,0,1000000,0,
'''


def fill_in(page: LivePage, kind: str, **fields: str) -> None:
    """Fills in a form that adds something, by keys, and sends it."""
    page.click(lambda: page.one(f'[data-key="add {kind}"]'))
    for name, text in fields.items():
        page.one(f'[data-key="new {kind} {name}"]').send_keys(text)
    page.click(lambda: page.one(f'[data-key="add {kind} now"]'))


@pytest.mark.long
def test_what_is_added_renamed_and_removed_by_forms(page: LivePage, desk: OpenDesk) -> None:
    fill_in(page, 'stream', name='S9', side='cold', supply='20', target='60', load='60.01')
    page.until(lambda: 'give the CP 1.5 in its place' in page.text('.adder .fault'))
    assert page.one('[data-key="new stream target"]').get_attribute('value') == '60'
    page.one('[data-key="new stream load"]').send_keys(Keys.CONTROL + 'a' + Keys.NULL, '60', Keys.ENTER)
    page.until(lambda: page.all('#streams input[aria-label="supply of S9"]'))
    page.until(lambda: page.focused() == 'new stream name')
    page.press('S10', Keys.TAB, Keys.TAB, '30', Keys.TAB, '40', Keys.TAB, '1', Keys.ENTER)
    page.until(lambda: page.all('#streams input[aria-label="supply of S10"]'))
    page.click(lambda: page.one('[data-key="remove stream S10"]'))
    page.until(lambda: not page.all('#streams input[aria-label="supply of S10"]'))
    fill_in(page, 'utility', name='MP', side='hot', level='230', price='100')
    page.until(lambda: page.all('#streams input[aria-label="level of MP"]'))
    fill_in(page, 'forbid', hot='S1', cold='S9')
    page.until(lambda: 'S1 and S9 may not meet' in page.text('.forbids'))
    name = page.one('#streams input[aria-label="name of S9"]')
    name.send_keys(Keys.CONTROL + 'a' + Keys.NULL, 'FEED', Keys.ENTER)
    page.until(lambda: 'S1 and FEED may not meet' in page.text('.forbids'))
    assert 'cold,FEED,200,600,150,,' in desk.case.read_text(encoding='utf-8')
    page.click(lambda: page.one('[data-key="remove stream FEED"]'))
    page.until(lambda: not page.all('.forbids') and not page.all('#streams input[aria-label="name of FEED"]'))
    assert 'FEED' not in desk.case.read_text(encoding='utf-8') + desk.network.read_text(encoding='utf-8')
    assert not page.errors()


@pytest.mark.long
def test_each_number_of_an_exchanger_has_its_unit(opens: Opens, tmp_path: Path) -> None:
    """Areas too, where the case gives coefficients."""
    page, _ = opens(copied(tmp_path, 'reactors-cost'))
    page.choose('E1')
    page.until(lambda: 'm²' in page.text('#chosen dd'))
    page.click(lambda: page.one('#table summary'))
    page.until(lambda: page.all('#table caption'))
    assert page.text('#table caption') == 'duties in kW, temperatures in °C, differences in K, areas in m²'


@pytest.mark.long
def test_where_no_utility_reaches_the_page_offers_to_add_one(opens: Opens, tmp_path: Path) -> None:
    (tmp_path / 'case.csv').write_text(WARM_COOLER, encoding='utf-8')
    page, desk = opens(tmp_path / 'case.csv')
    page.click(lambda: page.one('#grid [data-piece].fault'))
    page.until(lambda: 'No utility of the case reaches 30 °C on H' in page.text('#chosen'))
    page.click(lambda: page.button('add a cold utility', '#chosen'))
    page.until(lambda: page.focused() == 'new utility name')
    page.press('CW', Keys.TAB, Keys.TAB, '10', Keys.ENTER)
    page.until(lambda: page.exchangers() == [] and not page.all('#grid [data-piece].fault'))
    assert 'cooler,CW,100,' in desk.case.read_text(encoding='utf-8')
    page.click(lambda: page.button('Serve the rest', '#score'))
    page.says('Accepted')
    assert not page.errors()


@pytest.mark.long
def test_shares_utilities_and_names_by_forms(opens: Opens, tmp_path: Path) -> None:
    """A split with shares that are typed, then joined; a heater with another utility and another name."""
    page, desk = opens(copied(tmp_path, 'two-steam-levels'), tmp_path / 'mine.txt')
    piece = page.one('#grid [data-piece].cold')
    page.driver.execute_script('arguments[0].focus()', piece)
    page.press('s')
    page.until(lambda: page.all('[data-joint]'))
    page.driver.execute_script('arguments[0].focus()', page.one('[data-joint]'))
    page.press(Keys.ENTER)
    page.until(lambda: page.focused() == 'share 0')
    page.press('25', Keys.TAB, '75', Keys.ENTER)
    page.until(lambda: '25 %' in page.text('#grid') and '75 %' in page.text('#grid'))
    page.driver.execute_script('arguments[0].focus()', page.one('[data-joint]'))
    page.press(Keys.DELETE)
    page.until(lambda: not page.all('[data-joint]'))
    page.click(lambda: page.button('Serve the rest', '#score'))
    page.says('Accepted')
    heater = str(page.one('.exchanger.heater').get_attribute('data-exchanger'))
    page.choose(heater)
    choice = page.one('[data-key="change utility"]')
    others = [option.text for option in choice.find_elements(By.TAG_NAME, 'option') if not option.is_selected()]
    choice.send_keys(others[0])
    page.until(lambda: f'exchanger {heater} {others[0]} ' in desk.network.read_text(encoding='utf-8')
               or others[0] in page.text('#toast'))
    page.until(lambda: page.focused() == 'change utility')
    name = page.one('[data-key=name]')
    name.send_keys(Keys.CONTROL + 'a' + Keys.NULL, 'H-101', Keys.ENTER)
    page.until(lambda: 'exchanger H-101 ' in desk.network.read_text(encoding='utf-8'))
    assert not page.errors()


@pytest.mark.long
def test_a_stream_of_several_segments_is_one_line_that_opens(opens: Opens, tmp_path: Path) -> None:
    (tmp_path / 'feed.csv').write_text(FEED, encoding='utf-8')
    page, desk = opens(tmp_path / 'feed.csv')
    assert not page.all('#streams input[aria-label="CP of FEED-1"]')
    page.driver.execute_script('arguments[0].focus()', page.one('[data-key="unfold whole FEED"]'))
    page.press(Keys.ENTER)
    page.until(lambda: page.all('#streams input[aria-label="CP of FEED-1"]'))
    assert page.focused() == 'unfold whole FEED'
    kink = page.one('#streams input[aria-label="target of FEED-1"]')
    kink.send_keys(Keys.CONTROL + 'a' + Keys.NULL, '85', Keys.ENTER)
    page.until(lambda: page.all('#streams input[aria-label="supply of FEED-3"][value="85"]'))
    assert 'cold,FEED-3,850,1200' in desk.case.read_text(encoding='utf-8')
    name = page.one('#streams input[aria-label="name of FEED"]')
    name.send_keys(Keys.CONTROL + 'a' + Keys.NULL, 'RAW', Keys.ENTER)
    page.until(lambda: page.all('[data-row=RAW]'))
    assert not page.errors()
