"""Files that are read: plain ones, of a bounded length."""
from __future__ import annotations

import os
import stat

from ..errors import Refused

LONGEST = 8_388_608


def read_bytes(path: str) -> bytes:
    """What a file holds; `Refused` where it cannot be read, is not a plain file, or is longer than any file may be."""
    try:
        with open(path, 'rb', opener=at_once) as handle:
            if not stat.S_ISREG(os.fstat(handle.fileno()).st_mode):
                cause = 'is not a plain file, but a pipe or a device: write it to a file'
                raise Refused(6, '', 'no plain file', cause, path)
            content = handle.read(LONGEST + 1)
    except (OSError, ValueError) as fault:
        cause = fault.strerror if isinstance(fault, OSError) and fault.strerror else str(fault)
        raise Refused(6, '', cause, f'cannot be read: {cause}', path) from fault
    if len(content) > LONGEST:
        raise Refused(5, '', 'too long', f'too long: a file has at most {LONGEST} bytes', path)
    return content


def at_once(path: str, flags: int) -> int:
    """Opens a file; for a pipe it does not wait until somebody writes to it."""
    return os.open(path, flags | os.O_NONBLOCK | os.O_NOCTTY)
