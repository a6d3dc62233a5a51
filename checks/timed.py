"""Time and memory of a run, as the system tells them."""
from __future__ import annotations
import os
import resource
import time

from common import ENVIRONMENT

# In seconds of a processor: a run that takes more is ended.
LONGEST = 900
# Where the address space of a run is asked for, it is asked this often, in seconds.
PAUSE = 0.02


class Run:
    """A run in a folder, which gets its text as the file `out`: seconds by the clock and of the processor, the most
    resident memory in MB; with `spaces` the most address space too."""

    def __init__(self, program: str, words: list[str], folder: str, spaces: bool = False) -> None:
        begun = time.monotonic()
        child = os.fork()
        if child == 0:
            self.become(program, words, folder)
        self.space = 0.0
        while spaces and os.waitid(os.P_PID, child, os.WEXITED | os.WNOWAIT | os.WNOHANG) is None:
            self.space = max(self.space, space_of(child))
            time.sleep(PAUSE)
        _, status, used = os.wait4(child, 0)
        self.clock, self.processor = time.monotonic() - begun, used.ru_utime + used.ru_stime
        self.memory, self.status = used.ru_maxrss / 1024, os.waitstatus_to_exitcode(status)
        with open(os.path.join(folder, 'out'), 'rb') as handle:
            self.written = handle.read()

    @staticmethod
    def become(program: str, words: list[str], folder: str) -> None:
        try:
            os.chdir(folder)
            resource.setrlimit(resource.RLIMIT_CPU, (LONGEST, LONGEST))
            os.dup2(os.open('out', os.O_WRONLY | os.O_CREAT | os.O_TRUNC, 0o600), 1)
            os.dup2(os.open(os.devnull, os.O_WRONLY), 2)
            os.execve(program, [program] + words, ENVIRONMENT)
        finally:
            os._exit(127)


def space_of(process: int) -> float:
    """The most address space that a process has had, in MB, or 0 where it is over."""
    try:
        with open('/proc/%d/status' % process, encoding='ascii') as handle:
            return max((int(line.split()[1]) / 1024 for line in handle if line.startswith('VmPeak:')), default=0.0)
    except OSError:
        return 0.0


def best(program: str, words: list[str], folder: str, rounds: int) -> list[Run]:
    """Some runs of the same words: one where it takes more than a second."""
    runs = [Run(program, words, folder)]
    while len(runs) < rounds and runs[0].clock < 1:
        runs.append(Run(program, words, folder))
    return runs
