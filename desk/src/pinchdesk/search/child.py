"""A Python in a process of its own, which is asked and tells in pickles over two pipes, and is ended when its time is
over, whatever it is at. So a time is kept in every thread, and while the solver or a long sum is at work.

It is started anew and not forked: the solver has threads, and they would not be there. The child of a user's process
leads a group of processes: an interruption from the keyboard is then for the user's process alone, and whatever the
child started ends with it. It ends with its parent too."""
from __future__ import annotations

import os
import pickle
import select
import signal
import subprocess
import sys
import tempfile
import threading
import time
from collections.abc import Iterator
from contextlib import suppress
from dataclasses import dataclass
from pathlib import Path

SOURCE = Path(__file__).resolve().parents[2]
# A message is its length in so many bytes, and then a pickle.
LENGTH = 8
# What is written or read at once.
PIECE = 1 << 16


class Silent(Exception):
    """The child said nothing in time."""


class Gone(Exception):
    """The child has ended."""


@dataclass(frozen=True)
class Failed:
    """What was asked came to no end, and why."""

    fault: BaseException


class Child:
    """A process that imports a module and runs its function `serve`. A `leader` has a group of its own, and a folder
    for what is left where it is ended on the way."""

    def __init__(self, module: str, leader: bool) -> None:
        begin = f'import sys; sys.path.insert(0, {str(SOURCE)!r}); from {module} import serve; serve()'
        self.folder = tempfile.TemporaryDirectory(prefix='pinchdesk-', ignore_cleanup_errors=True) if leader else None
        where = {'TMPDIR': self.folder.name} if self.folder else {}
        self.process = subprocess.Popen([sys.executable, '-c', begin], stdin=subprocess.PIPE, stdout=subprocess.PIPE,
                                        stderr=subprocess.DEVNULL, start_new_session=leader, bufsize=0,
                                        env={**os.environ, **where})
        assert self.process.stdin is not None and self.process.stdout is not None
        self.inlet, self.outlet = self.process.stdin.fileno(), self.process.stdout.fileno()
        os.set_blocking(self.inlet, False)
        self.read = bytearray()

    def ask(self, message: object, until: float) -> None:
        """Hands a message over; `Silent` where it is not taken until then by `time.monotonic`."""
        left = memoryview(packed(message))
        while left:
            if not select.select([], [self.inlet], [], max(0.0, until - time.monotonic()))[1]:
                raise Silent
            try:
                left = left[os.write(self.inlet, left[:PIECE]):]
            except BrokenPipeError as fault:
                raise Gone from fault

    def told(self, until: float) -> object:
        """The next message; `Silent` where there is none until then, `Gone` where there will be none."""
        while True:
            size = int.from_bytes(self.read[:LENGTH], 'big')
            if len(self.read) >= LENGTH + size > LENGTH:
                message: object = pickle.loads(self.read[LENGTH:LENGTH + size])
                del self.read[:LENGTH + size]
                return message
            if not select.select([self.outlet], [], [], max(0.0, until - time.monotonic()))[0]:
                raise Silent
            piece = os.read(self.outlet, PIECE)
            if not piece:
                raise Gone
            self.read += piece

    def end(self) -> None:
        """Ends the process and, of a leader, whatever it started."""
        with suppress(ProcessLookupError):
            if self.folder:
                os.killpg(self.process.pid, signal.SIGKILL)
            else:
                self.process.kill()
        with self.process:
            pass
        if self.folder:
            self.folder.cleanup()


def portable(fault: Exception) -> Exception:
    """An exception that goes over a pipe."""
    try:
        pickle.loads(pickle.dumps(fault))
    except (pickle.PicklingError, TypeError, AttributeError):
        return RuntimeError(f'{type(fault).__name__}: {fault}')
    return fault


def packed(message: object) -> bytes:
    content = pickle.dumps(message)
    return len(content).to_bytes(LENGTH, 'big') + content


class Parent:
    """Whom a child serves: the other ends of its pipes. What a library writes to standard output goes nowhere."""

    def __init__(self) -> None:
        self.outlet = os.dup(1)
        nowhere = os.open(os.devnull, os.O_WRONLY)
        os.dup2(nowhere, 1)
        os.close(nowhere)
        self.lock = threading.Lock()

    def tell(self, message: object) -> None:
        """Tells a message, whole, whichever thread it is of."""
        left = memoryview(packed(message))
        with self.lock:
            while left:
                left = left[os.write(self.outlet, left):]

    def asked(self) -> Iterator[object]:
        """What is asked, until nobody asks."""
        while size := int.from_bytes(sys.stdin.buffer.read(LENGTH), 'big'):
            yield pickle.loads(sys.stdin.buffer.read(size))

    def ends_with_me(self) -> None:
        """Behind the last question: where the parent ends on the way, the child and all of its group do."""
        threading.Thread(target=self.wait_and_end, daemon=True).start()

    def wait_and_end(self) -> None:
        # Past the buffer, whose lock would be held when the child ends by itself.
        if not os.read(0, 1):
            os.killpg(0, signal.SIGKILL)
