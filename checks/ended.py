"""Runs checks, each to its end, and reads the line with which each check ends. A check and the programs that it runs
are a group of processes with a folder of their own for temporary files; nothing of either is left behind its end."""
from __future__ import annotations
import os
import re
import signal
import subprocess
import tempfile
import threading
from typing import IO, NamedTuple

from common import HERE
from patience import waited

END = re.compile(r'(\d+) runs, (\d+) wrong\Z')


class Ended(NamedTuple):
    """How many runs a check made, how many of them were wrong, or None for both where it ended without its report; and
    what it printed."""
    runs: int | None
    wrong: int | None
    printed: str


class Checks:
    """The checks that run now, side by side, until they are stopped."""

    def __init__(self) -> None:
        self.lock, self.running, self.stopped = threading.Lock(), set[int](), False

    def ended(self, check: str, words: list[str], longest: float, told: dict[str, str]) -> Ended:
        """The end of a check that may use so many seconds of the processor, and is told this by its environment."""
        with tempfile.TemporaryDirectory(prefix='checks-', ignore_cleanup_errors=True) as folder:
            environment = dict(os.environ, TMPDIR=folder, **told)
            with tempfile.TemporaryFile() as output, tempfile.TemporaryFile() as error:
                try:
                    status, late = self.run([os.path.join(HERE, check), *words], longest, environment, output, error)
                except OSError as fault:
                    return Ended(None, None, repr(fault))
                output.seek(0)
                error.seek(0)
                printed, complaints = [file.read().decode('latin-1') for file in (output, error)]
        end = END.search(printed.rstrip('\n'))
        is_whole = end and not complaints and int(end.group(1)) > 0 and (status == 0) == (end.group(2) == '0')
        if not end or not is_whole or late:
            return Ended(None, None, '%s%sstatus %d %s' % (printed, complaints, status, late))
        return Ended(int(end.group(1)), int(end.group(2)), printed)

    def run(self, words: list[str], longest: float, environment: dict[str, str], output: IO[bytes],
            error: IO[bytes]) -> tuple[int, str]:
        """The status of a group of processes, and why it took too long. All of the group end with its first."""
        with self.lock:
            if self.stopped:
                raise OSError('stopped')
            process = subprocess.Popen(words, stdin=subprocess.DEVNULL, stdout=output, stderr=error, env=environment,
                                       process_group=0)
            self.running.add(process.pid)
        late = waited(process, longest)
        with self.lock:
            self.running.remove(process.pid)
            kill(process.pid)
        return process.wait(), late

    def stop(self) -> None:
        """Ends all that run, and lets none begin."""
        with self.lock:
            self.stopped = True
            for group in self.running:
                kill(group)

    def stop_by_signals(self) -> None:
        """A signal that asks this process to end stops all."""
        for signal_number in (signal.SIGTERM, signal.SIGINT, signal.SIGHUP):
            signal.signal(signal_number, lambda *_: self.stop())


def kill(group: int) -> None:
    try:
        os.killpg(group, signal.SIGKILL)
    except ProcessLookupError:
        pass
