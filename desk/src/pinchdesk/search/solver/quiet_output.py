"""Standard output kept clean: HiGHS writes remarks of its own there, whatever it is asked for."""
from __future__ import annotations

import ctypes
import errno
import os
from collections.abc import Iterator
from contextlib import contextmanager

LIBC = ctypes.CDLL(None)


@contextmanager
def silent() -> Iterator[None]:
    """What a library writes to standard output inside goes nowhere."""
    try:
        kept = os.dup(1)
    except OSError as fault:
        if fault.errno != errno.EBADF:
            raise
        # There is no standard output.
        yield
        return
    LIBC.fflush(None)
    nowhere = os.open(os.devnull, os.O_WRONLY)
    os.dup2(nowhere, 1)
    try:
        yield
    finally:
        LIBC.fflush(None)
        os.dup2(kept, 1)
        os.close(kept)
        os.close(nowhere)
