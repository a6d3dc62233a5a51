"""The live page in Firefox, led by WebDriver BiDi over its WebSocket: Debian has no geckodriver."""
from __future__ import annotations

import asyncio
import json
import os
import shutil
import subprocess
import time
from collections.abc import AsyncIterator
from contextlib import asynccontextmanager, contextmanager
from dataclasses import dataclass, field
from itertools import count
from pathlib import Path
from typing import Any, Iterator

import pytest

pytest.importorskip('uvicorn', reason='no uvicorn to serve the page')
websockets = pytest.importorskip('websockets')

from live_desk import bench_of, served  # noqa: E402

FIREFOX = os.environ.get('FIREFOX') or shutil.which('firefox-esr') or shutil.which('firefox')
pytestmark = [pytest.mark.skipif(not FIREFOX, reason='no Firefox to show the page'), pytest.mark.long]
WAIT = 60.0
ENTER, ESCAPE, DOWN = '\ue007', '\ue00c', '\ue015'
SLIDER = '#curves input[type=range]'
# Firefox asks nobody else for anything.
PREFERENCES = '''user_pref("app.normandy.enabled", false);
user_pref("datareporting.policy.dataSubmissionEnabled", false);
user_pref("network.captive-portal-service.enabled", false);
user_pref("network.connectivity-service.enabled", false);
user_pref("services.settings.server", "data:,");
'''
PIECE = '[data-piece][aria-label*="of {0},"][aria-label*=", {1} "]'
MIDDLE = '''(() => { const box = document.querySelector(%s).getBoundingClientRect();
return JSON.stringify([Math.round(box.x + box.width / 2), Math.round(box.y + box.height / 2)]); })()'''


@contextmanager
def listening(profile: Path) -> Iterator[str]:
    """A Firefox without a window, and where it listens: it writes that into its profile."""
    words = [str(FIREFOX), '--headless', '--no-remote', '--profile', str(profile), '--remote-debugging-port=0',
             '--width=1500', '--height=960']
    (profile / 'user.js').write_text(PREFERENCES, encoding='utf-8')
    told, until = profile / 'WebDriverBiDiServer.json', time.monotonic() + WAIT
    with subprocess.Popen(words, stdout=subprocess.DEVNULL, stderr=subprocess.DEVNULL,
                          env={**os.environ, 'HOME': str(profile)}) as process:
        try:
            while not told.exists() or not told.read_text(encoding='utf-8').strip():
                assert process.poll() is None and time.monotonic() < until, 'Firefox does not listen'
                time.sleep(0.05)
            place = json.loads(told.read_text(encoding='utf-8'))
            yield f'ws://{place["ws_host"]}:{place["ws_port"]}'
        finally:
            process.kill()


@dataclass
class Leader:
    """Asks one window of a browser, one question after the other; `faults` are what went wrong in scripts."""

    line: Any
    window: str = ''
    faults: list[str] = field(default_factory=list)
    numbers: Iterator[int] = field(default_factory=lambda: count(1))

    async def ask(self, method: str, **fields: object) -> Any:
        number = next(self.numbers)
        await self.line.send(json.dumps({'id': number, 'method': method, 'params': fields}))
        while True:
            heard = json.loads(await asyncio.wait_for(self.line.recv(), WAIT))
            if heard.get('method') == 'log.entryAdded' and heard['params']['level'] == 'error':
                self.faults.append(str(heard['params']['text']))
            if heard.get('id') == number:
                assert heard['type'] == 'success', heard
                return heard['result']

    async def script(self, text: str) -> Any:
        found = await self.ask('script.evaluate', expression=text, target={'context': self.window}, awaitPromise=True)
        assert found['type'] == 'success', found
        return found['result'].get('value')

    async def until(self, script: str) -> None:
        for _ in range(int(WAIT * 20)):
            if await self.script(f'Boolean({script})'):
                return
            await asyncio.sleep(0.05)
        raise AssertionError(f'waited in vain for {script}')

    async def keys(self, *keys: str) -> None:
        actions = [{'type': kind, 'value': key} for key in keys for kind in ('keyDown', 'keyUp')]
        await self.ask('input.performActions', context=self.window,
                       actions=[{'type': 'key', 'id': 'keys', 'actions': actions}])

    async def drag(self, source: str, target: str) -> None:
        """By the mouse; where both are the same, a click."""
        (x, y), (u, v) = [json.loads(await self.script(MIDDLE % json.dumps(place))) for place in (source, target)]
        way = [] if source == target else [(x + 9, y + 9), (u, v)]
        moves = [{'type': 'pointerMove', 'x': x, 'y': y}, {'type': 'pointerDown', 'button': 0},
                 *({'type': 'pointerMove', 'x': left, 'y': top, 'duration': 20} for left, top in way),
                 {'type': 'pointerUp', 'button': 0}]
        await self.ask('input.performActions', context=self.window, actions=[
            {'type': 'pointer', 'id': 'mouse', 'parameters': {'pointerType': 'mouse'}, 'actions': moves}])


@asynccontextmanager
async def led(address: str) -> AsyncIterator[Leader]:
    async with websockets.connect(f'{address}/session', max_size=None) as line:
        leader = Leader(line)
        await leader.ask('session.new', capabilities={})
        await leader.ask('session.subscribe', events=['log.entryAdded'])
        leader.window = (await leader.ask('browsingContext.getTree'))['contexts'][0]['context']
        yield leader


def exchangers(number: int) -> str:
    return f'document.querySelectorAll("[data-exchanger]").length === {number}'


async def worked(leader: Leader, address: str) -> None:
    """A drag makes an exchanger, and so does an offer; the slider shows, and keeps nothing; the rest is served. Where
    nobody sees the window it has no focus in Firefox: the page's own keys work then, those of its buttons do not."""
    await leader.ask('browsingContext.navigate', context=leader.window, url=address, wait='complete')
    await leader.until('document.querySelector("body.ready")')
    await leader.drag(PIECE.format('S1', '120'), PIECE.format('S3', '137.5'))
    await leader.until(exchangers(1))
    await leader.until('document.querySelector("#verdict").textContent.includes("Unfinished")')
    await leader.script(f'document.querySelector({json.dumps(PIECE.format("S2", "240"))}).focus()')
    await leader.keys(ENTER)
    await leader.until('document.activeElement.dataset.key === "offer 0"')
    await leader.keys(DOWN)
    await leader.until('document.activeElement.dataset.key === "offer 1"')
    await leader.drag('[data-key="offer 0"]', '[data-key="offer 0"]')
    await leader.until(exchangers(2))
    told = json.dumps(await leader.script('document.querySelector(".told").textContent'))
    await leader.drag(SLIDER, SLIDER)
    await leader.until(f'document.querySelector(".told").textContent !== {told}')
    await leader.keys(ESCAPE)
    await leader.until(f'document.querySelector(".told").textContent === {told}')
    await leader.script('[...document.querySelectorAll("#score button")].find('
                        'found => found.textContent.startsWith("Serve the rest")).click()')
    await leader.until('document.querySelector("#verdict").textContent.includes("Accepted")')
    assert not await leader.script('document.documentElement.scrollWidth > document.documentElement.clientWidth')
    assert leader.faults == []


def test_a_network_is_made_in_firefox(tmp_path: Path) -> None:
    async def made() -> None:
        async with led(address) as leader:
            await worked(leader, desk.address)

    (tmp_path / 'profile').mkdir()
    with served(bench_of(tmp_path, 'tc3')) as desk, listening(tmp_path / 'profile') as address:
        asyncio.run(made())
        assert 'exchanger E1 S1 S3 120000' in (tmp_path / 'network.txt').read_text(encoding='utf-8')
