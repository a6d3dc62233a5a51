"""A sign of life on long work, where standard error is a terminal."""
from __future__ import annotations

import sys
import threading
import time
from collections.abc import Iterator
from contextlib import contextmanager, suppress

PATIENCE = 2.0
# How far the work is, where it says so.
FAR = ['']


@contextmanager
def progress(what: str) -> Iterator[None]:
    """Shows what is at work, and for how long, from the third second on."""
    if sys.stderr is None or not sys.stderr.isatty():
        yield
        return
    tell('')
    ended = threading.Event()
    shower = threading.Thread(target=show, args=(what, ended), daemon=True)
    shower.start()
    try:
        yield
    finally:
        ended.set()
        shower.join()


def tell(text: str) -> None:
    """Says how far the work is: it stands behind the seconds."""
    FAR[0] = text


def show(what: str, ended: threading.Event) -> None:
    # A terminal may go away.
    with suppress(OSError):
        show_on(what, ended)


def show_on(what: str, ended: threading.Event) -> None:
    begun = time.monotonic()
    if ended.wait(PATIENCE):
        return
    while not ended.wait(0.5):
        far = f', {FAR[0]}' if FAR[0] else ''
        print(f'\r{what}: {time.monotonic() - begun:.0f} s{far} \033[K', end='', file=sys.stderr, flush=True)
    print('\r\033[K', end='', file=sys.stderr, flush=True)
