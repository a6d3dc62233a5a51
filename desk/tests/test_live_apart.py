"""The live desk in a real browser, and what comes from elsewhere: other windows, other pages, files and disks."""
from __future__ import annotations

import errno
import json
import os
import shutil
import threading
from collections.abc import Iterator
from contextlib import contextmanager
from functools import partial
from http.server import SimpleHTTPRequestHandler, ThreadingHTTPServer
from pathlib import Path
from urllib.parse import quote

import pytest

from conftest import EXAMPLES

pytest.importorskip('selenium', reason='no selenium to lead a browser')
pytest.importorskip('uvicorn', reason='no uvicorn to serve the page')

from selenium.webdriver import Chrome  # noqa: E402
from selenium.webdriver.common.by import By  # noqa: E402
from selenium.webdriver.common.keys import Keys  # noqa: E402

from live_browser import NEEDS_BROWSER, LivePage, OpenDesk, Opens, browser, copied, desk_apart, open_desk  # noqa: E402

pytestmark = NEEDS_BROWSER


@pytest.fixture
def killed(tmp_path: Path) -> Iterator[OpenDesk]:
    """A desk that can be killed, with a network that is not there yet."""
    desk = desk_apart(copied(tmp_path), tmp_path / 'mine.txt')
    yield desk
    desk.kill()


@pytest.mark.long
def test_two_windows_follow_each_other(page: LivePage, desk: OpenDesk) -> None:
    with browser() as second:
        other = LivePage(second).go(desk.address)
        page.place(('S1', '120'), ('S3', '137.5'))
        other.until(lambda: len(other.exchangers()) == 1)
        other.place(('S2', '240'), ('S4', '135'))
        page.until(lambda: len(page.exchangers()) == 2)


@pytest.mark.long
def test_a_change_from_outside_is_shown_as_a_step(page: LivePage, desk: OpenDesk) -> None:
    shutil.copy(EXAMPLES / 'tc3-network.txt', desk.network)
    page.until(lambda: len(page.exchangers()) == 7)
    page.says('Accepted')
    page.undo()
    page.until(lambda: page.exchangers() == [])


@pytest.mark.long
def test_a_desk_that_is_gone_is_told_and_nothing_is_lost(killed: OpenDesk, driver: Chrome, opens: Opens) -> None:
    """The next desk has the same port, and its page the steps: in the same tab."""
    page, desk = LivePage(driver).go(killed.address), killed
    page.place(('S1', '120'), ('S3', '137.5'))
    text, steps = desk.network.read_bytes(), page.text('#steps')
    desk.kill()
    page.until(lambda: 'does not answer' in page.text('#lost'))
    assert desk.network.read_bytes() == text
    again, other = opens(desk.case, desk.network)
    assert other.address.split('/')[2] == desk.address.split('/')[2] and other.address != desk.address
    again.until(lambda: again.text('#steps') == steps)
    assert len(again.exchangers()) == 1
    again.undo()
    again.until(lambda: again.exchangers() == [])


@pytest.mark.long
def test_steps_go_on_in_a_window_that_is_opened_anew(killed: OpenDesk, driver: Chrome) -> None:
    """The window that was left open gives them to the next one; after the text was changed meanwhile it does not."""
    page, desk = LivePage(driver).go(killed.address), killed
    page.place(('S1', '120'), ('S3', '137.5'))
    steps, first = page.text('#steps'), driver.current_window_handle
    desk.kill()
    page.until(lambda: 'does not answer' in page.text('#lost'))
    again = open_desk(desk.case, desk.network)
    try:
        driver.switch_to.new_window('tab')
        page.go(again.address).until(lambda: page.text('#steps') == steps)
        second = driver.current_window_handle
        driver.switch_to.window(first)
        page.until(lambda: 'goes on in the window' in page.text('#lost'))
        driver.switch_to.window(second)
        page.undo()
        page.until(lambda: page.exchangers() == [])
    finally:
        again.kill()
        driver.close()
        driver.switch_to.window(first)


# All that a page can try with an address, and what it hears: nothing, by whatever way it asks. What it can do is to go
# there, as anyone can who has the address: the page then opens by itself, out of its reach.
FOREIGN = '''<!DOCTYPE html><title>foreign</title><body><script>
const [desk, told] = [new URLSearchParams(location.search).get('desk'), {}];
const finish = JSON.stringify({version: 1, gesture: {kind: 'finish'}});
const post = (kind, more) => fetch(desk + 'gesture', {method: 'POST', body: finish, headers: {'Content-Type': kind},
  ...more}).then(answer => answer.type === 'opaque' ? Promise.reject() : answer.text());
const line = (kind, ...words) => new Promise((read, shut) => {
  const open = new kind(desk.replace('http', kind === WebSocket ? 'ws' : 'http') + 'changes', ...words);
  open.onmessage = event => read(event.data);
  open.onopen = () => read('open');
  open.onclose = open.onerror = shut;
});
const loaded = (name, fields) => new Promise((read, shut) => {
  const made = Object.assign(document.createElement(name), fields, {onload: () => read('loaded'), onerror: shut});
  document.body.append(made);
  if (name === 'object') setTimeout(shut, 700);
});
const sent = kind => new Promise((read, shut) => {
  const frame = Object.assign(document.createElement('iframe'), {name: kind});
  const form = Object.assign(document.createElement('form'), {method: 'post', action: desk + 'gesture', enctype: kind,
    target: kind});
  form.append(Object.assign(document.createElement('input'), {name: finish.slice(0, -1), value: '}'}));
  document.body.append(frame, form);
  form.submit();
  setTimeout(() => { try { read(frame.contentDocument.body.textContent || shut()); } catch { shut(); } }, 700);
});
const tries = {
  read: () => fetch(desk + 'view').then(answer => answer.text()),
  history: () => fetch(desk + 'history').then(answer => answer.text()),
  json: () => post('application/json'), text: () => post('text/plain', {mode: 'no-cors'}),
  line: () => line(WebSocket), events: () => line(EventSource),
  beacon: () => navigator.sendBeacon(desk + 'gesture', new Blob([finish])) && Promise.reject(),
  urlencoded: () => sent('application/x-www-form-urlencoded'), plain: () => sent('text/plain'),
  multipart: () => sent('multipart/form-data'),
  image: () => loaded('img', {src: desk + 'page/icon.svg'}),
  picture: () => loaded('img', {src: desk + 'picture/grid.svg'}),
  script: () => loaded('script', {src: desk + 'page/main.js'}),
  module: () => import(desk + 'page/state.js').then(() => 'loaded'),
  style: () => loaded('link', {rel: 'stylesheet', href: desk + 'page/style.css'}),
  object: () => loaded('object', {type: 'text/html', data: desk}),
};
Promise.all(Object.entries(tries).map(([name, asks]) => Promise.resolve().then(asks).catch(() => '')
  .then(heard => { told[name] = heard; }))).then(() => { document.title = JSON.stringify(told); });
document.body.append(Object.assign(document.createElement('iframe'), {id: 'frame', src: desk}));
</script>'''


@contextmanager
def foreign_pages(folder: Path) -> Iterator[list[str]]:
    """The addresses of the same page in other hands: a file, another port of this machine, another host."""
    (folder / 'foreign.html').write_text(FOREIGN, encoding='utf-8')
    handler = partial(QuietHandler, directory=str(folder))
    with ThreadingHTTPServer(('127.0.0.1', 0), handler) as server:
        threading.Thread(target=server.serve_forever, daemon=True).start()
        port = server.server_address[1]
        yield [(folder / 'foreign.html').as_uri(),
               *(f'http://{host}:{port}/foreign.html' for host in ('127.0.0.1', 'localhost'))]
        server.shutdown()


class QuietHandler(SimpleHTTPRequestHandler):
    """Serves a folder, and says nothing of it."""

    def log_message(self, format: str, *args: object) -> None:
        del format, args


@pytest.mark.long
def test_a_foreign_page_that_knows_the_address_can_do_nothing(driver: Chrome, desk: OpenDesk, tmp_path: Path) -> None:
    """It can neither read nor write nor frame it, nor load a part of it, from a file, another port or another host."""
    page = LivePage(driver)
    with foreign_pages(tmp_path) as addresses:
        for address in addresses:
            driver.get(f'{address}?desk={quote(desk.address)}')
            page.until(lambda: str(driver.title).startswith('{'))
            told = json.loads(driver.title)
            assert len(told) == 16 and {name: heard for name, heard in told.items() if heard} == {}, address
            driver.switch_to.frame('frame')
            assert not driver.find_elements(By.CSS_SELECTOR, '#grid')
            driver.switch_to.default_content()
        opened(page, desk)
    page.go(desk.address)
    assert page.text('#steps li') == 'opened' and not page.exchangers()


def opened(page: LivePage, desk: OpenDesk) -> None:
    """What a foreign page has of a window with the desk that it opens: nothing, for it is cut off from it."""
    driver, first = page.driver, page.driver.current_window_handle
    driver.execute_script('window.another = window.open(arguments[0])', desk.address)
    page.until(lambda: len(driver.window_handles) > 1)
    page.until(lambda: bool(driver.execute_script('return window.another.closed')))
    driver.switch_to.window(next(name for name in driver.window_handles if name != first))
    page.until(lambda: page.all('body.ready'))
    assert driver.execute_script('return window.opener') is None
    driver.close()
    driver.switch_to.window(first)


@pytest.mark.long
def test_a_full_disk_loses_nothing(page: LivePage, desk: OpenDesk, monkeypatch: pytest.MonkeyPatch) -> None:
    """Neither by a gesture nor by both texts at once; the page says so, and goes on where there is room again."""
    page.place(('S1', '120'), ('S3', '137.5'))
    case, network = desk.case.read_bytes(), desk.network.read_bytes()
    names = sorted(path.name for path in desk.case.parent.iterdir())

    def full(handle: int) -> None:
        raise OSError(errno.ENOSPC, os.strerror(errno.ENOSPC))

    with monkeypatch.context() as patched:
        patched.setattr(os, 'fsync', full)
        page.drag(page.piece('S2', '240'), page.piece('S4', '135'))
        page.until(lambda: 'No space left on device' in page.text('#toast'))
        assert 'Nothing was changed' in page.text('#toast') and page.text('.saved').startswith('not saved')
        cell = page.one('#streams input[aria-label="supply of S1"]')
        cell.send_keys(Keys.CONTROL + 'a' + Keys.NULL, '160', Keys.ENTER)
        page.until(lambda: 'No space left' in page.text('#streams .fault'))
        assert page.exchangers() == ['E1'] and len(page.all('#steps li')) == 2
    assert (desk.case.read_bytes(), desk.network.read_bytes()) == (case, network)
    assert sorted(path.name for path in desk.case.parent.iterdir()) == names
    page.place(('S2', '240'), ('S4', '135'))
    assert page.text('.saved') == 'saved'


@pytest.mark.long
def test_a_table_is_kept_where_the_page_asks(opens: Opens, tmp_path: Path) -> None:
    """The first drag asks for a name; without one nothing is written, and with it the drag is done."""
    shutil.copy(EXAMPLES / 'table.csv', tmp_path / 'plant.csv')
    page, _ = opens(tmp_path / 'plant.csv', None, '-d', '10')
    assert 'plant.csv (a table)' in page.text('#files') and page.text('.saved') == 'not kept yet'
    source, target = page.piece('H2', '240'), page.piece('C3', '240')
    page.drag(source, target)
    page.until(lambda: page.text('#keeping-title') == 'Where is the case kept?')
    page.press(Keys.ESCAPE)
    page.until(lambda: 'Nothing was changed' in page.text('#toast'))
    assert page.exchangers() == [] and [path.name for path in tmp_path.iterdir()] == ['plant.csv']
    page.drag(page.piece('H2', '240'), page.piece('C3', '240'))
    page.until(lambda: page.focused() == 'name of the case')
    page.press('plant.csv', Keys.ENTER)
    page.until(lambda: 'is there already' in page.text('#keeping [role=alert]'))
    page.click(lambda: page.button('plant-case.csv', '#keeping'))
    page.press(Keys.ENTER)
    page.until(lambda: len(page.exchangers()) == 1)
    names = sorted(path.name for path in tmp_path.iterdir())
    assert names == ['plant-case-network.txt', 'plant-case.csv', 'plant.csv']
    assert page.text('.saved') == 'saved' and not page.all('[data-key=keep]')
    assert not page.errors()
