"""How long a process may take. On a busy machine the clock says little: too long is a process that, with all that it
started, has used too much of the processor, or stands still."""
from __future__ import annotations
from collections.abc import Iterator
import os
import signal
import subprocess
import time

# In seconds of the processor, what a run of the program may take; in seconds by the clock, how long nothing may move,
# and how often is looked.
MOST, STILL, LOOK = 600, 300, 5
TICKS = os.sysconf('SC_CLK_TCK')
# Where the times of a process and of its ended children stand behind its name in /proc.
STATE, TIMES = 0, slice(11, 15)


def fields_of(path: str) -> list[str]:
    """What a `stat` tells behind the name, which may hold anything; nothing where the process is over."""
    try:
        with open(path, encoding='latin-1') as handle:
            return handle.read().rpartition(')')[2].split()
    except OSError:
        return []


def threads_of(process: int) -> list[str]:
    try:
        return ['/proc/%d/task/%s' % (process, thread) for thread in os.listdir('/proc/%d/task' % process)]
    except OSError:
        return []


def tree_of(process: int) -> Iterator[int]:
    """A process and all that come from it."""
    yield process
    for thread in threads_of(process):
        try:
            with open(thread + '/children', encoding='ascii') as handle:
                children = [int(word) for word in handle.read().split()]
        except OSError:
            children = []
        for child in children:
            yield from tree_of(child)


class Patience:
    """With a process that may use so many seconds of the processor."""

    def __init__(self, process: int, most: float = MOST) -> None:
        self.process, self.most, self.used, self.moved = process, most, -1.0, time.monotonic()

    def over(self) -> str:
        """Why a process takes too long, or nothing."""
        used, wants = 0, False
        for pid in tree_of(self.process):
            used += sum(map(int, fields_of('/proc/%d/stat' % pid)[TIMES]))
            wants |= any(fields_of(thread + '/stat')[STATE:STATE + 1] in (['R'], ['D']) for thread in threads_of(pid))
        if wants or used / TICKS != self.used:
            self.used, self.moved = used / TICKS, time.monotonic()
        if self.used > self.most:
            return 'more than %d s of the processor' % self.most
        return 'it stood still for %d s' % STILL if time.monotonic() - self.moved > STILL else ''


def end(process: subprocess.Popen[bytes]) -> None:
    """Ends a process and all that come from it."""
    for pid in list(tree_of(process.pid)):
        try:
            os.kill(pid, signal.SIGKILL)
        except ProcessLookupError:
            pass


def waited(process: subprocess.Popen[bytes], most: float = MOST) -> str:
    """Waits for the end of a process. Where it takes too long it is ended, and this says why."""
    patience, why = Patience(process.pid, most), ''
    while True:
        try:
            process.wait(timeout=LOOK)
            return why
        except subprocess.TimeoutExpired:
            why = why or patience.over()
        if why:
            end(process)


def written(process: subprocess.Popen[bytes], most: float = MOST) -> tuple[bytes, bytes, str]:
    """What a process writes to its output and to standard error. Where it takes too long it is ended, and the last text
    says why."""
    patience = Patience(process.pid, most)
    while True:
        try:
            output, error = process.communicate(timeout=LOOK)
            return output, error or b'', ''
        except subprocess.TimeoutExpired:
            why = patience.over()
        if why:
            end(process)
            process.wait()
            return b'', b'', why
