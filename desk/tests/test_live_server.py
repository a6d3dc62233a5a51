"""The server of the live desk: it answers its own page, and nobody else."""
from __future__ import annotations

import asyncio
import json
from collections.abc import Iterator
from pathlib import Path

import pytest
from live_desk import Heard, asked, at, bench_of, served

pytest.importorskip('starlette')
pytest.importorskip('uvicorn')
websockets = pytest.importorskip('websockets')

from pinchdesk.live.server import NOT_FOUND, Served  # noqa: E402


@pytest.fixture(scope='module')
def server(tmp_path_factory: pytest.TempPathFactory) -> Iterator[Served]:
    with served(bench_of(tmp_path_factory.mktemp('live'), 'tc3')) as running:
        yield running


def test_the_page_gets_the_view_and_a_gesture_gives_the_next_one(tmp_path: Path) -> None:
    with served(bench_of(tmp_path, 'tc3')) as running:
        view = asked(running, 'GET', at(running, 'view')).json
        assert (view['verdict']['kind'], view['score']['target_hot'], view['score']['units']) == (
            'nothing-placed', '107.5', '0 + 7 = 7; the rule: 7')
        gesture = {'version': view['version'], 'gesture': {'kind': 'finish'}}
        heard = asked(running, 'POST', at(running, 'gesture'), gesture)
        assert heard.status == 200 and heard.json['view']['verdict']['kind'] == 'accepted'
        stale = asked(running, 'POST', at(running, 'gesture'), gesture)
        assert stale.status == 409 and stale.json['view']['version'] == heard.json['view']['version']
        again = {'version': stale.json['view']['version'], 'gesture': {'kind': 'finish'}}
        refused = asked(running, 'POST', at(running, 'gesture'), again)
        assert refused.status == 200 and refused.json['refused']['text'] == 'Nothing is open.'


def test_offers_ways_and_the_slider_are_answered(server: Served) -> None:
    view = asked(server, 'GET', at(server, 'view')).json
    piece = next(pill['id'] for pill in view['grid']['pieces'] if pill['stream'] == 'S1')
    version = view['version']
    offers = asked(server, 'POST', at(server, 'offers'), {'version': version, 'piece': piece}).json['offers']
    assert offers[0]['words'] == '120 kW, ticks off S1 above the pinch'
    assert offers[0]['cost'] == 'costs nothing (S3 at its cold end)'
    for exchanger in ('E1', 1, None):
        content = {'version': version, 'exchanger': exchanger}
        assert asked(server, 'POST', at(server, 'ways'), content).json == {'ways': [], 'more': ''}
    slider = asked(server, 'POST', at(server, 'slider'), {'version': version, 'difference': '25'}).json
    assert (slider['target_hot'], slider['target_cold']) == ('135', '67.5')
    refused = asked(server, 'POST', at(server, 'slider'), {'version': version, 'difference': 'wide'}).json
    assert 'is not a number' in refused['refused']['text']


def is_nothing(heard: Heard) -> bool:
    return heard.status == 404 and heard.body == NOT_FOUND.encode()


def test_whatever_is_wrong_with_the_address_has_one_answer(server: Served) -> None:
    token = server.guard.token
    for path in ('/', '/view', f'/{token}', f'/{token[:-1]}/view', f'/{token}x/view', f'/{token}/nothing',
                 f'/{token}/page/../server.py', f'/{token}/page/%2e%2e/server.py', f'/x/{token}/view',
                 f'//{token}/view', f'/{token}/view/', f'/{token}/page/'):
        assert is_nothing(asked(server, 'GET', path)), path


def test_only_its_own_host_is_answered(server: Served) -> None:
    for host in ('localhost', f'localhost:{server.guard.port}', 'evil.example', f'127.0.0.1:{server.guard.port + 1}',
                 f'127.0.0.1.evil.example:{server.guard.port}'):
        assert is_nothing(asked(server, 'GET', at(server, 'view'), host=host)), host


@pytest.mark.parametrize('wrong', [
    {'origin': None}, {'origin': 'null'}, {'origin': 'http://evil.example'}, {'origin': 'http://127.0.0.1:1'},
    {'content_type': None}, {'content_type': 'text/plain'}, {'content_type': 'application/x-www-form-urlencoded'},
    {'sec_fetch_site': 'cross-site'}, {'sec_fetch_site': 'same-site'}, {'sec_fetch_site': 'none'}],
    ids=lambda wrong: ' '.join(f'{name}={value}' for name, value in wrong.items()))
def test_a_post_of_another_page_is_not_answered(server: Served, wrong: dict[str, str | None]) -> None:
    before = asked(server, 'GET', at(server, 'view')).json['texts']
    version = asked(server, 'GET', at(server, 'view')).json['version']
    heard = asked(server, 'POST', at(server, 'gesture'), {'version': version, 'gesture': {'kind': 'finish'}}, **wrong)
    assert is_nothing(heard)
    assert asked(server, 'GET', at(server, 'view')).json['texts'] == before


def test_another_page_can_only_go_to_the_page(server: Served) -> None:
    going: dict[str, str | None] = {'sec_fetch_mode': 'navigate', 'sec_fetch_dest': 'document'}
    script: dict[str, str | None] = {'sec_fetch_mode': 'no-cors', 'sec_fetch_dest': 'script'}
    framed: dict[str, str | None] = {**going, 'sec_fetch_dest': 'iframe'}
    asks: list[tuple[str, dict[str, str | None]]] = [('view', {}), ('view', going), ('', framed), ('', script)]
    for path, fetch in asks:
        assert is_nothing(asked(server, 'GET', at(server, path), sec_fetch_site='cross-site', **fetch)), fetch


@pytest.mark.parametrize('content', [b'', b'{', b'[]', b'3', b'null', b'{"gesture": 3}', b'{"version": 1}',
                                     b'[' * 100_000, b'\xff\xfe'])
def test_what_is_no_question_is_not_answered(server: Served, content: bytes) -> None:
    assert is_nothing(asked(server, 'POST', at(server, 'gesture'), content))


def test_other_methods_are_not_answered(server: Served) -> None:
    for method in ('PUT', 'DELETE', 'OPTIONS', 'PATCH', 'TRACE', 'HEAD'):
        heard = asked(server, method, at(server, 'view'))
        assert heard.status == 404 and heard.body in (NOT_FOUND.encode(), b''), method


def test_each_answer_keeps_other_pages_out(server: Served) -> None:
    for path in (at(server, 'view'), '/nothing'):
        headers = asked(server, 'GET', path).headers
        assert headers['content-security-policy'].startswith("default-src 'none'")
        assert "frame-ancestors 'none'" in headers['content-security-policy']
        assert 'unsafe' not in headers['content-security-policy']
        assert (headers['cross-origin-resource-policy'], headers['referrer-policy'], headers['cache-control']) == (
            'same-origin', 'no-referrer', 'no-store')
        assert 'server' not in headers and 'set-cookie' not in headers and 'access-control-allow-origin' not in headers


def test_a_window_hears_of_each_change(tmp_path: Path) -> None:
    async def heard() -> list[str]:
        said: list[str] = []
        address = f'ws://{running.guard.host}/{running.guard.token}/changes'
        async with websockets.connect(address, origin=running.guard.origin) as window:
            said.append(await asyncio.wait_for(window.recv(), 10))
            content = {'version': int(said[0]), 'gesture': {'kind': 'finish'}}
            await asyncio.to_thread(asked, running, 'POST', at(running, 'gesture'), content)
            said.append(await asyncio.wait_for(window.recv(), 10))
            (tmp_path / 'network.txt').write_text('', encoding='utf-8')
            said.append(await asyncio.wait_for(window.recv(), 10))
        return said

    with served(bench_of(tmp_path, 'tc3')) as running:
        versions = [json.loads(text) for text in asyncio.run(heard())]
        assert versions == sorted(set(versions)) and len(versions) == 3
        view = asked(running, 'GET', at(running, 'view')).json
        assert [step['text'] for step in view['steps']] == ['opened', 'the rest by utilities', 'changed outside']


@pytest.mark.parametrize('origin', [None, 'null', 'http://evil.example', 'http://127.0.0.1:1'])
def test_a_window_of_another_page_hears_nothing(server: Served, origin: str | None) -> None:
    async def connected(address: str) -> None:
        async with websockets.connect(address, origin=origin):
            pass

    for path in (at(server, 'changes'),):
        with pytest.raises(websockets.exceptions.InvalidStatusCode):
            asyncio.run(connected(f'ws://{server.guard.host}{path}'))


def test_a_window_needs_the_token(server: Served) -> None:
    async def connected(address: str) -> None:
        async with websockets.connect(address, origin=server.guard.origin):
            pass

    for path in ('/changes', f'/{server.guard.token}x/changes', at(server, 'view')):
        with pytest.raises(websockets.exceptions.InvalidStatusCode):
            asyncio.run(connected(f'ws://{server.guard.host}{path}'))


def test_it_can_be_closed_with_a_window_open(tmp_path: Path) -> None:
    async def closed() -> None:
        address = f'ws://{running.guard.host}/{running.guard.token}/changes'
        async with websockets.connect(address, origin=running.guard.origin) as window:
            await asyncio.wait_for(window.recv(), 10)
            assert (await asyncio.to_thread(asked, running, 'POST', at(running, 'close'), {})).status == 200
            with pytest.raises(websockets.exceptions.ConnectionClosed):
                await asyncio.wait_for(window.recv(), 10)

    with served(bench_of(tmp_path, 'tc3')) as running:
        asyncio.run(closed())


@pytest.mark.long
def test_the_page_for_the_reviewer_has_no_script(tmp_path: Path) -> None:
    with served(bench_of(tmp_path, 'tc3', 'tc3-network.txt')) as running:
        heard = asked(running, 'GET', at(running, 'report'))
        assert heard.status == 200 and b'<h1>' in heard.body and b'<script' not in heard.body
        assert heard.headers['content-security-policy'].startswith("default-src 'none'; style-src 'unsafe-inline'")


@pytest.mark.long
def test_a_network_is_searched_from_here_and_drawn(tmp_path: Path) -> None:
    with served(bench_of(tmp_path, 'tc3')) as running:
        version = asked(running, 'GET', at(running, 'view')).json['version']
        heard = asked(running, 'POST', at(running, 'search'), {'version': version, 'seconds': '3', 'above': '10'})
        assert heard.status == 200 and 'refused' not in heard.json
        view = heard.json['view']
        assert view['verdict']['kind'] == 'accepted' and view['score']['placed'] > 3
        assert view['steps'][-1]['text'].startswith('searched')
        wrong = asked(running, 'POST', at(running, 'search'), {'version': view['version'], 'seconds': 'long'})
        assert 'number of seconds' in wrong.json['refused']['text']
        assert asked(running, 'POST', at(running, 'search'), {'version': version}).status == 409
        for name in ('grid', 'curves'):
            picture = asked(running, 'GET', at(running, f'picture/{name}.svg'))
            assert picture.status == 200 and picture.headers['content-type'].startswith('image/svg+xml')
            assert b'<svg' in picture.body and b'<script' not in picture.body


@pytest.mark.long
def test_exchangers_against_cost_are_told_and_nothing_is_changed(tmp_path: Path) -> None:
    with served(bench_of(tmp_path, 'tc3', 'tc3-network.txt')) as running:
        before = asked(running, 'GET', at(running, 'view')).json
        version = before['version']
        table = asked(running, 'POST', at(running, 'tradeoff'), {'version': version, 'seconds': '2'}).json
        assert table['headings'][:2] == ['exchangers', 'cost price times W'] and table['lines'][0]['gesture'] == {}
        assert asked(running, 'GET', at(running, 'view')).json == before
        for line in table['lines'][1:]:
            gesture = {'version': version, 'gesture': line['gesture']}
            heard = asked(running, 'POST', at(running, 'gesture'), gesture).json
            assert heard['view']['verdict']['kind'] == 'accepted', line['cells']
            version = heard['view']['version']
        wrong = asked(running, 'POST', at(running, 'tradeoff'), {'version': version, 'seconds': '301'}).json
        assert 'at most 300 seconds' in wrong['refused']['text']
        assert asked(running, 'POST', at(running, 'tradeoff'), {'version': 1}).status == 409


@pytest.mark.long
def test_of_a_case_with_costs_there_are_pictures_of_areas(tmp_path: Path) -> None:
    with served(bench_of(tmp_path, 'reactors-cost', 'reactors-cost-network.txt')) as running:
        links = [link['name'] for link in asked(running, 'GET', at(running, 'view')).json['links']]
        assert links == ['report', 'picture/grid.svg', 'picture/curves.svg', 'picture/area.svg', 'picture/driving.svg']
        for name in links[1:]:
            assert b'<svg' in asked(running, 'GET', at(running, name)).body, name
