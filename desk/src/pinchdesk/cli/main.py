"""The command `pinchdesk`: what it is asked, its errors and its statuses."""
from __future__ import annotations

import sys
import time
from argparse import Namespace
from collections.abc import Sequence
from contextlib import suppress
from typing import NoReturn

from ..errors import DeskError, OutputError, Status
from ..failures import failure_of
from ..program.causes import lines_of
from .answering import answered, done_over_many
from .lean_units import load_units_alone
from .parsing import parser
from .standard_streams import fill, say
from .start_time import started


def main(arguments: Sequence[str] | None = None) -> int:
    """Runs the command; the status is what it gives back, whatever happens. Without arguments of a call it is that of
    this process."""
    fill()
    if hasattr(sys.stderr, 'reconfigure'):
        sys.stderr.reconfigure(errors='backslashreplace')
    try:
        begun, words = time.monotonic(), arguments
        if words is None:
            begun, words = started(), sys.argv[1:]
            load_units_alone()
        parsed = parser(answered, done_over_many, words).parse_args(words, Namespace(begun=begun))
        return int(parsed.doing(parsed))
    except SystemExit as ended:
        return int(ended.code or 0)
    except DeskError as fault:
        return told(lines_of(fault), fault.status)
    except KeyboardInterrupt:
        return Status.STOPPED
    except Exception as fault:  # Whatever it is, it has a status of its own.
        status, line = failure_of(fault)
        return told([line], status)


def told(lines: Sequence[str], status: int) -> int:
    """Says the lines of an error where they can be said, and gives its status."""
    with suppress(OutputError):
        for line in lines:
            say(line)
    return status


def run() -> NoReturn:
    """The command as it is installed."""
    sys.exit(main())
