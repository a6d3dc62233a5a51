"""The page on the screen of a telephone, in a real browser: pictures scroll in their own boxes at a size that can be
read, and the page itself does not."""
from __future__ import annotations

from collections.abc import Iterator
from functools import cache
from pathlib import Path
from shutil import which
from typing import Any

import pytest
from conftest import EXAMPLES, example

from pinchdesk import Pinch
from pinchdesk.figures import grid_figure
from pinchdesk.figures.style import READABLE
from pinchdesk.report.page import Given, page_of, review_of

webdriver = pytest.importorskip('selenium.webdriver', reason='no selenium to look at the page with')
CHROMIUM, DRIVER = which('chromium'), which('chromedriver')
# In one process, since all look at the same page.
pytestmark = [pytest.mark.skipif(not (CHROMIUM and DRIVER), reason='no chromium with its chromedriver'),
              pytest.mark.xdist_group('narrow')]
NARROW, WIDE = 390, 1280
PICTURES = """return [...document.querySelectorAll('figure')].map(each => {
const image = each.querySelector('img');
return [image.alt, each.clientWidth, each.scrollWidth, image.getBoundingClientRect().width, image.naturalWidth,
        getComputedStyle(each).overflowX]})"""
# What passes the edge of the screen, and is not in a box that scrolls by itself.
BEYOND = """return [...document.querySelectorAll('body *')]
.filter(each => each.getBoundingClientRect().right > innerWidth + 1 && !each.closest('figure, .wide'))
.map(each => each.tagName + ' ' + each.textContent.slice(0, 40))"""


@pytest.fixture(scope='module')
def driver() -> Iterator[Any]:
    options = webdriver.ChromeOptions()
    options.binary_location = CHROMIUM
    for word in ('--headless', '--no-sandbox', '--disable-gpu', '--host-resolver-rules=MAP * ~NOTFOUND'):
        options.add_argument(word)
    from selenium.webdriver.chrome.service import Service
    made = webdriver.Chrome(service=Service(DRIVER or ''), options=options)
    yield made
    made.quit()


@pytest.fixture(scope='module')
def page(tmp_path_factory: pytest.TempPathFactory) -> Path:
    """A page with a grid of many columns."""
    names = ('crude.csv', 'crude-network.txt')
    case, network = (Given(name, str(EXAMPLES / name), example(name)) for name in names)
    path = tmp_path_factory.mktemp('narrow') / 'page.html'
    path.write_text(page_of(review_of(Pinch(), case, [network]), unfolded=True), encoding='utf-8')
    return path


def seen(driver: Any, page: Path, wide: int) -> list[list[Any]]:
    """The pictures as the browser shows them: name, room, length to scroll, width, own width, what is done with what
    passes the edge."""
    driver.execute_cdp_cmd('Emulation.setDeviceMetricsOverride',
                           {'width': wide, 'height': 844, 'deviceScaleFactor': 1, 'mobile': wide == NARROW})
    driver.get(page.as_uri())
    found: list[list[Any]] = driver.execute_script(PICTURES)
    return found


@pytest.mark.long
def test_on_a_narrow_screen_the_grid_scrolls_in_its_box_and_the_page_does_not(driver: Any, page: Path) -> None:
    pictures = {picture[0]: picture[1:] for picture in seen(driver, page, NARROW)}
    assert len(pictures) == 4
    assert driver.execute_script('return [innerWidth, document.documentElement.scrollWidth]') == [NARROW, NARROW]
    assert driver.execute_script(BEYOND) == []
    room, length, wide, own, overflow = pictures['Grid diagram of crude-network.txt']
    assert room < NARROW < length and overflow == 'auto' and length >= int(wide)
    box = "document.querySelectorAll('figure')[3]"
    assert driver.execute_script(f'{box}.scrollLeft = 10000; return {box}.scrollLeft') > length - room - 2
    assert driver.execute_script('scrollTo(10000, 0); return scrollX') == 0


@pytest.mark.long
@pytest.mark.parametrize(('screen', 'least'), [(NARROW, 1.25 * READABLE), (WIDE, READABLE)])
def test_letters_of_all_pictures_can_be_read(driver: Any, page: Path, screen: int, least: float) -> None:
    for name, _, _, wide, own, _ in seen(driver, page, screen):
        assert wide / own * smallest(name) >= least - 0.05, name


@cache
def smallest(name: str) -> float:
    """The size of the smallest letters of a picture of the page, in points, where it is not scaled."""
    from matplotlib.text import Text
    from pinchdesk import Pinch, completed, follow, read_case, read_network
    from pinchdesk.analysis.follow import pinches_of
    from pinchdesk.figures import balanced_figure, composite_figure, grand_figure
    pinch, content, text = Pinch(), example('crude.csv'), example('crude-network.txt')
    case = completed(read_case(content))
    answers = pinch.targets(content), pinch.curves(content)
    drawings = {'Composite curves': composite_figure, 'Balanced composite curves': balanced_figure,
                'Grand composite curve': grand_figure}
    if name in drawings:
        figure = drawings[name](case, *answers, pinch.flow(content))
    else:
        figure = grid_figure(follow(case, read_network(text)), pinches_of(*answers), pinch.audit(content, text))
    return min(float(letters.get_fontsize()) for letters in figure.findobj(Text) if letters.get_text().strip())
