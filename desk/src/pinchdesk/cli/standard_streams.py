"""Standard input, output and error, which may be closed or full."""
from __future__ import annotations

import os
import sys
from contextlib import suppress

from ..errors import OutputError
from ..text import printable


def fill() -> None:
    """Opens what is closed of them towards nowhere: a file that is opened later would get its number, and with it what
    a library writes there. Python itself goes on to have no such output."""
    for number in range(3):
        try:
            os.fstat(number)
        except OSError:
            os.set_inheritable(os.open(os.devnull, os.O_RDWR), True)


def nowhere(number: int) -> None:
    """Leads an output that takes no more to nowhere, where what is left in its buffer does not fail once more."""
    with suppress(OSError):
        opened = os.open(os.devnull, os.O_WRONLY)
        os.dup2(opened, number)
        os.close(opened)


def put(content: str | bytes) -> None:
    """Writes to standard output; `OutputError` where that is closed, or takes no more."""
    if sys.stdout is None:
        raise OutputError('standard output: cannot be written: it is closed')
    try:
        left = memoryview(content.encode() if isinstance(content, str) else content)
        while left:
            # Without a buffer (`python -u`) a write may take a part.
            left = left[sys.stdout.buffer.write(left):]
        sys.stdout.buffer.flush()
    except OSError as fault:
        nowhere(sys.stdout.fileno())
        raise OutputError(f'standard output: cannot be written: {fault.strerror or fault}') from fault


def say(line: str) -> None:
    """Says a line on standard error; `OutputError` where that is closed, or takes no more."""
    if sys.stderr is None:
        raise OutputError('standard error: cannot be written: it is closed')
    try:
        print(f'pinchdesk: {printable(line)}', file=sys.stderr, flush=True)
    except OSError as fault:
        nowhere(sys.stderr.fileno())
        raise OutputError(f'standard error: cannot be written: {fault.strerror or fault}') from fault
