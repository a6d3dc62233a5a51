"""What the tests of the live desk share: a bench over files of its own, a server in a thread, and how it is asked."""
from __future__ import annotations

import http.client
import json
import threading
import time
from collections.abc import Iterator
from contextlib import contextmanager
from dataclasses import dataclass
from pathlib import Path
from typing import Any

from conftest import EXAMPLES
from pinchdesk.live.bench import Bench
from pinchdesk.live.own_files import OwnFile
from pinchdesk.live.server import Served
from pinchdesk.live.view import Offer, View, WayOffer, WaysFound
from pinchdesk.program.run import Pinch


def bench_of(folder: Path, case: str, network: str | None = None) -> Bench:
    """A bench over copies of an example, in a folder."""
    (folder / 'case.csv').write_bytes((EXAMPLES / f'{case}.csv').read_bytes())
    if network is not None:
        (folder / 'network.txt').write_bytes((EXAMPLES / network).read_bytes())
    return opened(folder)


def opened(folder: Path) -> Bench:
    return Bench(Pinch(), OwnFile(str(folder / 'case.csv')), OwnFile(str(folder / 'network.txt')))


@dataclass
class Hand:
    """Somebody who works at a bench."""

    bench: Bench

    @property
    def view(self) -> View:
        return self.bench.view()

    def does(self, kind: str, **fields: Any) -> View:
        """A gesture that is done."""
        done = self.bench.gesture(self.view.version, {'kind': kind, **fields})
        assert done.refused is None and not done.stale, done.refused
        return done.view

    def may_not(self, kind: str, **fields: object) -> str:
        """A gesture that is refused and changes nothing: why."""
        before = self.view
        done = self.bench.gesture(before.version, {'kind': kind, **fields})
        assert done.refused is not None and done.view.texts == before.texts
        return done.refused.text

    def piece(self, stream: str, where: str) -> str:
        """The open piece of a stream on a side of the pinch."""
        grid = self.view.grid
        assert grid is not None
        return next(pill.id for pill in grid.pieces if (pill.stream, pill.where) == (stream, where))

    def offers(self, piece: str) -> tuple[Offer, ...]:
        found = self.bench.offers(self.view.version, piece)
        assert isinstance(found, tuple)
        return found

    def ways(self, exchanger: str | None = None) -> tuple[WayOffer, ...]:
        """Loops and paths, those through an exchanger where there are too many."""
        found = self.bench.ways(self.view.version, exchanger)
        assert isinstance(found, WaysFound)
        return found.ways

    def drops(self, piece: str, partner: str) -> View:
        """Drags a piece to another one, or to a utility: the best offer there."""
        offer = next(offer for offer in self.offers(piece) if offer.partner == partner)
        fields: dict[str, Any] = dict(offer.gesture)
        return self.does(**fields)


@contextmanager
def served(bench: Bench) -> Iterator[Served]:
    """A server in a thread, which has begun to answer."""
    server = Served(bench)
    thread = threading.Thread(target=server.run, daemon=True)
    thread.start()
    until = time.monotonic() + 20
    while not server.server.started:
        assert time.monotonic() < until and thread.is_alive()
        time.sleep(0.01)
    try:
        yield server
    finally:
        server.close()
        thread.join(20)
        assert not thread.is_alive()


@dataclass(frozen=True)
class Heard:
    """What a server answered."""

    status: int
    headers: dict[str, str]
    body: bytes

    @property
    def json(self) -> Any:
        return json.loads(self.body)


def asked(server: Served, method: str, path: str, content: object = None, **headers: str | None) -> Heard:
    """Asks as the page does, but for headers that are told otherwise (`sec_fetch_site`; None leaves one out)."""
    own: dict[str, str | None] = {'Host': server.guard.host}
    body = None
    if method == 'POST':
        body = content if isinstance(content, bytes) else json.dumps(content).encode()
        own |= {'Origin': server.guard.origin, 'Content-Type': 'application/json', 'Content-Length': str(len(body))}
    own |= {name.replace('_', '-').title(): value for name, value in headers.items()}
    connection = http.client.HTTPConnection('127.0.0.1', server.guard.port, timeout=20)
    try:
        connection.putrequest(method, path, skip_host=True, skip_accept_encoding=True)
        for name, value in own.items():
            if value is not None:
                connection.putheader(name, value)
        connection.endheaders(body)
        heard = connection.getresponse()
        return Heard(heard.status, {name.lower(): value for name, value in heard.getheaders()}, heard.read())
    finally:
        connection.close()


def at(server: Served, name: str) -> str:
    return f'/{server.guard.token}/{name}'
