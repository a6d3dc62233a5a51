"""The server of the live desk: one page on this machine alone (`guard`), its questions in JSON, and a WebSocket that
says that something has changed."""
from __future__ import annotations

import asyncio
import hashlib
import json
import os
import socket
from collections.abc import Awaitable, Callable, Mapping
from contextlib import suppress
from functools import partial
from pathlib import Path
from typing import Any

import uvicorn
from starlette.concurrency import run_in_threadpool
from starlette.requests import Request
from starlette.responses import Response
from starlette.websockets import WebSocket, WebSocketDisconnect

from ..errors import DeskError, ProgramError
from ..failures import failure_of
from ..program.causes import lines_of
from .asked import LONGEST_STEP, Made
from .bench import Bench, GestureDone
from .guard import HEADERS, HOST, OF_REPORT, Guard, Scope, fresh_token
from .known import Snapshot
from .view import Refusal, Slider, TradeoffTable, View, WaysFound

PAGE = Path(__file__).resolve().parent / 'page'
KINDS = {'.html': 'text/html', '.css': 'text/css',
         '.js': 'text/javascript', '.svg': 'image/svg+xml'}
# How often it is looked whether somebody else has written a file, in seconds.
LOOKS = 0.5
# The pictures by their addresses, and what a search may be told.
PICTURES = {f'picture/{name}.svg': name for name in ('grid', 'curves', 'area', 'driving')}
SEARCHED = ('seconds', 'above')
FIRST_PORT, PORTS = 20_000, 12_000
NOT_FOUND = 'Not found. A live desk that was opened anew has a new address, which it told where it was called.'
Receive = Callable[[], Awaitable[Any]]
Send = Callable[[Any], Awaitable[None]]


def page_files(folder: Path = PAGE) -> dict[str, tuple[bytes, str]]:
    """The files of the page with their kinds; they are read once."""
    return {path.name: (path.read_bytes(), KINDS[path.suffix]) for path in sorted(folder.glob('*'))
            if path.suffix in KINDS}


def answer(content: object, status: int = 200) -> Response:
    """A dataclass, or what has some in it, as JSON: an object with its fields."""
    text = json.dumps(content, ensure_ascii=True, separators=(',', ':'), default=vars)
    return Response(text, status, media_type='application/json')


def nothing() -> Response:
    """The one answer to all that is wrong."""
    return Response(NOT_FOUND, 404, media_type='text/plain')


class LiveDesk:
    """The application: each request passes the guard first."""

    def __init__(self, bench: Bench, guard: Guard, close: Callable[[], None]) -> None:
        self.bench, self.guard, self.close = bench, guard, close
        self.files = page_files()
        self.waiting: set[asyncio.Event] = set()
        self.watching: asyncio.Task[None] | None = None

    async def __call__(self, scope: Scope, receive: Receive, send: Send) -> None:
        if scope['type'] == 'lifespan':
            await self.lifespan(receive, send)
            return
        path = self.guard.path(scope)
        if scope['type'] == 'websocket':
            await self.changes(WebSocket(scope, receive, send), path)
            return
        response = nothing() if path is None else await self.tried(Request(scope, receive), path)
        for name, value in HEADERS.items():
            response.headers.setdefault(name, value)
        await response(scope, receive, send)

    async def lifespan(self, receive: Receive, send: Send) -> None:
        while True:
            message = await receive()
            if message['type'] == 'lifespan.startup':
                self.watching = asyncio.create_task(self.watch())
                await send({'type': 'lifespan.startup.complete'})
            else:
                if self.watching:
                    self.watching.cancel()
                await send({'type': 'lifespan.shutdown.complete'})
                return

    async def watch(self) -> None:
        """Looks whether somebody else has written a file."""
        while True:
            await asyncio.sleep(LOOKS)
            with suppress(Exception):
                if await run_in_threadpool(self.bench.look):
                    self.tell()

    def tell(self) -> None:
        """All windows ask anew."""
        for event in self.waiting:
            event.set()

    async def tried(self, request: Request, path: str) -> Response:
        """The answer; where the desk itself fails, the line that is to be reported, and the desk goes on."""
        try:
            return await self.responded(request, path)
        except Exception as fault:  # Whatever it is, the next gesture is answered.
            return Response(failure_of(fault)[1], 500, media_type='text/plain')

    async def responded(self, request: Request, path: str) -> Response:
        if request.method == 'GET':
            return await self.got(path)
        try:
            asked = json.loads(await request.body())
        except (ValueError, RecursionError):
            return nothing()
        if not isinstance(asked, dict):
            return nothing()
        return await self.posted(path, asked)

    async def got(self, path: str) -> Response:
        if path == 'view':
            return answer(await run_in_threadpool(self.bench.view))
        if path == 'history':
            return answer(await run_in_threadpool(self.bench.history))
        if path == 'report':
            return await self.worded(self.bench.report, 'text/html')
        if path in PICTURES:
            return await self.worded(partial(self.bench.picture, PICTURES[path]), 'image/svg+xml')
        name = 'index.html' if path == '' else path.removeprefix('page/') if path.startswith('page/') else ''
        if name not in self.files:
            return nothing()
        content, kind = self.files[name]
        return Response(content, media_type=kind)

    async def worded(self, asks: Callable[[], str], kind: str) -> Response:
        """What a word of the command says: the page for the reviewer or a picture. Its styles are inside of it, and it
        has no script."""
        try:
            content = await run_in_threadpool(asks)
        except DeskError as fault:
            return Response(' '.join(lines_of(fault)), media_type='text/plain')
        response = Response(content, media_type=kind)
        response.headers['Content-Security-Policy'] = OF_REPORT
        return response

    async def posted(self, path: str, asked: Mapping[str, Any]) -> Response:
        version = asked.get('version')
        if path == 'gesture' and isinstance(asked.get('gesture'), dict):
            done = await run_in_threadpool(self.bench.gesture, version, asked['gesture'])
            self.tell()
            return told(done)
        if path == 'offers' and isinstance(asked.get('piece'), str):
            most = asked.get('most')
            limit = most if isinstance(most, str) else ''
            return listed('offers', await run_in_threadpool(self.bench.offers, version, asked['piece'], limit))
        if path == 'moves' and isinstance(asked.get('exchanger'), str):
            return listed('offers', await run_in_threadpool(self.bench.moves, version, asked['exchanger']))
        if path == 'ways':
            exchanger = asked.get('exchanger')
            through = exchanger if isinstance(exchanger, str) else None
            ways = await run_in_threadpool(self.bench.ways, version, through)
            return answer(ways) if isinstance(ways, WaysFound) else told(ways)
        if path == 'slider' and isinstance(asked.get('difference'), str):
            found = await run_in_threadpool(self.bench.slider, version, asked['difference'])
            return answer(found) if isinstance(found, Slider) else told(found)
        if path == 'history':
            return await self.gone_on(asked)
        if path in ('search', 'tradeoff'):
            return await self.searched(path, asked)
        if path == 'close':
            self.close()
            return answer({})
        return nothing()

    async def gone_on(self, asked: Mapping[str, Any]) -> Response:
        """The answer to the steps that a page has kept of a desk that ended."""
        at, steps = asked.get('at'), kept_steps(asked.get('steps'))
        if not isinstance(at, int) or steps is None:
            return nothing()
        done = await run_in_threadpool(self.bench.go_on, asked.get('version'), steps, at)
        self.tell()
        return told(done)

    async def searched(self, path: str, asked: Mapping[str, Any]) -> Response:
        """The answer to a search, which takes its time: of a network, or of exchangers against cost."""
        options = {name: value for name, value in asked.items() if name in SEARCHED and isinstance(value, str)}
        if path == 'tradeoff':
            options.pop('above', None)
            found = await run_in_threadpool(self.bench.tradeoff, asked.get('version'), options)
            return answer(found) if isinstance(found, TradeoffTable) else told(found)
        done = await run_in_threadpool(self.bench.search, asked.get('version'), options)
        self.tell()
        return told(done)

    async def changes(self, window: WebSocket, path: str | None) -> None:
        """Says the version whenever it has changed, until the window is closed."""
        if path != 'changes':
            await window.close(1008)
            return
        await window.accept()
        event = asyncio.Event()
        event.set()
        self.waiting.add(event)
        closed = asyncio.create_task(ended(window))
        try:
            while not closed.done():
                changed = asyncio.create_task(event.wait())
                await asyncio.wait({changed, closed}, return_when=asyncio.FIRST_COMPLETED)
                changed.cancel()
                if not closed.done():
                    event.clear()
                    await window.send_text(str(self.bench.version))
        except (WebSocketDisconnect, RuntimeError):
            pass
        finally:
            closed.cancel()
            self.waiting.discard(event)


def kept_steps(content: object) -> list[Made] | None:
    """The steps that a page has kept; None where they are none."""
    made: list[Made] = []
    for step in content if isinstance(content, list) else [None]:
        texts = [step.get(name) for name in ('text', 'case', 'network')] if isinstance(step, dict) else []
        words = [text for text in texts if isinstance(text, str)]
        if len(words) != 3:
            return None
        made.append(Made(Snapshot(words[1], words[2]), words[0][:LONGEST_STEP]))
    return made


async def ended(window: WebSocket) -> None:
    """Waits until a window is closed; what it says is not heard."""
    while (await window.receive())['type'] != 'websocket.disconnect':
        pass


def told(done: GestureDone) -> Response:
    content: dict[str, View | Refusal] = {'view': done.view}
    if done.refused:
        content['refused'] = done.refused
    return answer(content, 409 if done.stale else 200)


def listed(name: str, found: object) -> Response:
    if isinstance(found, GestureDone):
        return told(found)
    assert isinstance(found, tuple)
    return answer({name: found})


def port_of(path: str) -> int:
    """The port of a case, by its place; below those that systems give away by themselves."""
    digest = hashlib.sha256(os.path.realpath(path).encode('utf-8', 'surrogateescape')).digest()
    return FIRST_PORT + int.from_bytes(digest[:4], 'big') % PORTS


def listening(port: int) -> socket.socket:
    """A socket that listens on this port, or on a free one."""
    for wanted in (port, 0):
        line = socket.socket(socket.AF_INET, socket.SOCK_STREAM)
        # Connections of a desk that was killed are still in the way otherwise.
        line.setsockopt(socket.SOL_SOCKET, socket.SO_REUSEADDR, 1)
        try:
            line.bind((HOST, wanted))
            line.listen(100)
            return line
        except OSError:
            line.close()
    raise ProgramError('no port of this machine is free')


class Served:
    """A live desk on a port of its own, which begins to listen at once: its address can be told then. The same case has
    the same port where that is free, so that a page which was left open can give its steps to the next one."""

    def __init__(self, bench: Bench) -> None:
        self.socket = listening(port_of(bench.case_file.path))
        self.guard = Guard(fresh_token(), self.socket.getsockname()[1])
        self.desk = LiveDesk(bench, self.guard, self.close)
        config = uvicorn.Config(self.desk, log_level='critical', access_log=False, server_header=False,
                                date_header=False, lifespan='on', ws='websockets')
        self.server = uvicorn.Server(config)

    @property
    def address(self) -> str:
        return self.guard.address

    def close(self) -> None:
        self.server.should_exit = True

    def run(self) -> None:
        """Serves until it is closed."""
        self.server.run(sockets=[self.socket])
