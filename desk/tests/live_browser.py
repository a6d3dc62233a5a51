"""What the tests of the live page share: a desk that is open, a browser, what is done in it by pointer and by keys."""
from __future__ import annotations

import io
import os
import re
import shutil
import subprocess
import sys
import time
from argparse import ArgumentParser
from collections.abc import Callable, Iterator
from contextlib import ExitStack, contextmanager
from dataclasses import dataclass
from pathlib import Path
from typing import TypeVar

import pytest
from selenium.common.exceptions import StaleElementReferenceException
from selenium.webdriver import ActionChains, Chrome, ChromeOptions
from selenium.webdriver.chrome.service import Service
from selenium.webdriver.common.by import By
from selenium.webdriver.common.keys import Keys
from selenium.webdriver.remote.webelement import WebElement

from conftest import DESK, EXAMPLES
from live_desk import served
from pinchdesk.cli.open_desk import add_open, bench_of

CHROMIUM, CHROMEDRIVER = (shutil.which(name) for name in ('chromium', 'chromedriver'))
WAIT, COLOURS = 20.0, 64
WORDS = ('--headless=new', '--no-sandbox', '--disable-gpu', '--disable-dev-shm-usage')
Found = TypeVar('Found')
NEEDS_BROWSER = [pytest.mark.skipif(not CHROMIUM or not CHROMEDRIVER,
                                    reason='no chromium and chromedriver to show the page'),
                 pytest.mark.xdist_group('browser')]
# The marks that the page sets: the last one of each name.
LAST = "const last = name => performance.getEntriesByName(name).pop()?.startTime ?? 0;"
LATER = LAST + "return last('painted') > last('answered') && last('answered') > last('asked')"
TIMES = LAST + """const from = Math.max(last('dropped'), 0) || last('asked');
return {asked: last('asked') - from, answered: last('answered') - from, painted: last('painted') - from};"""


@contextmanager
def browser(*words: str, size: str = '1500,960') -> Iterator[Chrome]:
    """A browser without a window."""
    options = ChromeOptions()
    options.binary_location = str(CHROMIUM)
    for word in (*WORDS, f'--window-size={size}', *words):
        options.add_argument(word)
    options.set_capability('goog:loggingPrefs', {'browser': 'ALL'})
    driver = Chrome(service=Service(str(CHROMEDRIVER)), options=options)
    try:
        yield driver
    finally:
        driver.quit()


@dataclass(frozen=True)
class OpenDesk:
    """A desk that serves two files; how it is ended, at once; the number of its process where it has one of its own."""

    address: str
    case: Path
    network: Path
    kill: Callable[[], None]
    process: int | None = None


def words_of(case: Path, network: Path | None, more: tuple[str, ...]) -> tuple[list[str], Path]:
    """The words that open a case and a network without a browser, and that network: the one beside the case unless
    another one is given."""
    given = [str(network)] if network else []
    return [str(case), *given, '--no-browser', *more], network or case.with_name(f'{case.stem}-network.txt')


def open_desk(case: Path, network: Path | None = None, *more: str) -> OpenDesk:
    """A desk in this process, which need not be loaded for each test."""
    words, network = words_of(case, network, more)
    parser = ArgumentParser()
    add_open(parser)
    with ExitStack() as stack:
        server = stack.enter_context(served(bench_of(parser.parse_args(words), stack)))
        return OpenDesk(server.address, case, network, stack.pop_all().close)
    raise AssertionError('no desk')


def desk_apart(case: Path, network: Path | None = None, *more: str) -> OpenDesk:
    """A desk in a process of its own, as the command makes it, which can be killed."""
    words, network = words_of(case, network, more)
    process = subprocess.Popen([sys.executable, str(DESK / 'pinchdesk'), 'open', *words], stdout=subprocess.PIPE,
                               stdin=subprocess.DEVNULL, text=True, env=dict(os.environ))

    def kill() -> None:
        process.kill()
        process.wait(timeout=WAIT)

    assert process.stdout is not None
    for line in process.stdout:
        found = re.search(r'http://127\.0\.0\.1:\d+/\S+/', line)
        if found:
            return OpenDesk(found.group(), case, network, kill, process.pid)
    raise AssertionError(f'no address was printed; status {process.wait()}')


def copied(folder: Path, name: str = 'tc3') -> Path:
    """The case of an example in a folder, with its published network beside it where it has one."""
    for file in (EXAMPLES / f'{name}.csv', EXAMPLES / f'{name}-network.txt'):
        if file.exists():
            shutil.copy(file, folder)
    return folder / f'{name}.csv'


@dataclass(frozen=True)
class LivePage:
    """The page in a browser."""

    driver: Chrome

    def go(self, address: str) -> LivePage:
        self.errors()
        self.driver.get(address)
        self.until(lambda: self.all('body.ready'))
        return self

    def until(self, true: Callable[[], Found], seconds: float = WAIT) -> Found:
        """Waits until something is there; what goes away meanwhile is looked for again."""
        end = time.monotonic() + seconds
        while True:
            try:
                found = true()
                if found:
                    return found
            except StaleElementReferenceException:
                pass
            assert time.monotonic() < end, f'waited in vain: {self.text("#verdict")!r} {self.text("#toast")!r}'
            time.sleep(0.03)

    def all(self, selector: str) -> list[WebElement]:
        return list(self.driver.find_elements(By.CSS_SELECTOR, selector))

    def one(self, selector: str) -> WebElement:
        return self.until(lambda: self.all(selector))[0]

    def text(self, selector: str) -> str:
        return ' '.join(element.text for element in self.all(selector))

    def names(self, selector: str = '#grid [role=button]') -> list[str]:
        """What a screen reader says of the places of the diagram."""
        return self.attributes(selector, 'aria-label')

    def piece(self, stream: str, duty: str) -> WebElement:
        """An open piece of a stream, by its duty."""
        return self.one(f'[data-piece][aria-label*="of {stream},"][aria-label*=", {duty} "]')

    def exchanger(self, name: str) -> WebElement:
        return self.one(f'[data-exchanger="{name}"]')

    def choose(self, name: str) -> None:
        """Chooses an exchanger, wherever the diagram is scrolled to."""
        self.driver.execute_script('arguments[0].dispatchEvent(new MouseEvent("click", {bubbles: true}))',
                                   self.exchanger(name))
        self.until(lambda: self.all('[data-key=duty]'))

    def exchangers(self) -> list[str]:
        return sorted(self.attributes('[data-exchanger]', 'data-exchanger'))

    def attributes(self, selector: str, name: str) -> list[str]:
        """An attribute of all elements, as they are at one moment."""
        return [str(value) for value in self.driver.execute_script(
            'return [...document.querySelectorAll(arguments[0])].map(found => found.getAttribute(arguments[1]))',
            selector, name)]

    def button(self, text: str, inside: str = 'body') -> WebElement:
        """The first button whose text begins so."""
        return self.until(lambda: [button for button in self.all(f'{inside} button')
                                   if button.text.startswith(text)])[0]

    def click(self, find: Callable[[], WebElement]) -> None:
        """Clicks an element, which is found again where the page draws it anew before the click."""
        self.until(lambda: (find().click(), True))

    def middle(self, element: WebElement) -> tuple[float, float]:
        """Where an element is in the window."""
        x, y = self.driver.execute_script('const box = arguments[0].getBoundingClientRect();'
                                          'return [box.x + box.width / 2, box.y + box.height / 2]', element)
        return (float(x), float(y))

    def drag(self, source: WebElement, target: WebElement, *, drop: bool = True) -> None:
        chain = ActionChains(self.driver, duration=20)
        chain.move_to_element(source).click_and_hold().move_by_offset(9, 9).move_to_element(target)
        (chain.release() if drop else chain).perform()

    def place(self, source: tuple[str, str], target: tuple[str, str]) -> None:
        """Drags one piece to another, and waits until there is one exchanger more."""
        count = len(self.exchangers())
        self.drag(self.piece(*source), self.piece(*target))
        self.until(lambda: len(self.exchangers()) > count)

    def press(self, *keys: str) -> None:
        ActionChains(self.driver).send_keys(*keys).perform()

    def undo(self, key: str = 'z') -> None:
        """Ctrl+Z, or Ctrl+Y."""
        ActionChains(self.driver).key_down(Keys.CONTROL).send_keys(key).key_up(Keys.CONTROL).perform()

    def focused(self) -> str:
        """What has the focus: its key."""
        return str(self.driver.execute_script('return document.activeElement.getAttribute("data-key")'))

    def said(self) -> str:
        """What a screen reader says of what has the focus."""
        return str(self.driver.execute_script('const at = document.activeElement;'
                                              'return at.getAttribute("aria-label") ?? at.textContent'))

    def walk(self, selector: str) -> None:
        """Goes by arrows to a place of the diagram, first up or down and then along the row."""
        for _ in range(60):
            target = self.one(selector)
            if self.driver.execute_script('return document.activeElement === arguments[0]', target):
                return
            (x, y), (u, v) = self.middle(self.one('#grid .here')), self.middle(target)
            self.press((Keys.ARROW_DOWN if v > y else Keys.ARROW_UP) if abs(v - y) > 4 else
                       Keys.ARROW_RIGHT if u > x else Keys.ARROW_LEFT)
        raise AssertionError(f'no way to {selector}')

    def tab_to(self, text: str, key: str = Keys.TAB) -> None:
        """Goes by Tab until what has the focus is called so."""
        for _ in range(80):
            if self.said().startswith(text):
                return
            self.press(key)
        raise AssertionError(f'Tab does not come to {text}')

    def says(self, *words: str) -> None:
        """Waits until the verdict has these words."""
        self.until(lambda: all(word in self.text('#verdict') for word in words))

    def picture(self, name: str) -> None:
        """Keeps what is seen as a picture of the documents, where `LIVE_PICTURES` names their folder."""
        folder = os.environ.get('LIVE_PICTURES')
        if not folder:
            return
        from PIL import Image
        small = io.BytesIO()
        seen = Image.open(io.BytesIO(self.driver.get_screenshot_as_png()))
        seen.convert('RGB').quantize(COLOURS).save(small, 'png', optimize=True)
        Path(folder, f'{name}.png').write_bytes(small.getvalue())

    def painted(self) -> dict[str, float]:
        """How long the last gesture took from the pointer's release or the key, in ms: until it was asked, answered and
        painted."""
        self.until(lambda: bool(self.driver.execute_script(LATER)))
        return dict(self.driver.execute_script(TIMES))

    def errors(self) -> list[str]:
        """What went wrong in scripts or was kept from loading; a question about a state that is no more is no fault."""
        return [str(entry['message']) for entry in self.driver.get_log('browser')
                if entry['level'] == 'SEVERE' and '409 (Conflict)' not in str(entry['message'])]


# Opens a case, a network or that beside it, with further words of the command.
Opens = Callable[..., tuple[LivePage, OpenDesk]]
