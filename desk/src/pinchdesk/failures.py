"""What is no answer and no error of the engineer's: of the machine, or of the desk itself. Each has a status and one
line; the trace is shown where the environment has PINCHDESK_TRACE."""
from __future__ import annotations

import os
import traceback
from pathlib import Path

from .errors import Status

TRACE = 'PINCHDESK_TRACE'
PACKAGE = Path(__file__).resolve().parent
LONGEST = 300
# How Python says that there is no thread more, and the writer of workbooks that the temporary folder is full.
MACHINE = ("RuntimeError: can't start new thread", 'SerialisationError: ')


def failure_of(fault: BaseException) -> tuple[Status, str]:
    """The status and the line of an exception that no word expects."""
    if os.environ.get(TRACE):
        traceback.print_exception(fault)
    if isinstance(fault, MemoryError):
        return Status.FAILED, 'there is not enough memory'
    if isinstance(fault, ImportError):
        named = f'the package {fault.name}' if fault.name else 'a package'
        return Status.FAILED, f'{named} is needed, and cannot be loaded: {" ".join(str(fault).split())[:LONGEST]}'
    if isinstance(fault, OSError):
        where = f'{fault.filename}: ' if fault.filename is not None else ''
        return Status.FAILED, f'{where}{fault.strerror or fault or type(fault).__name__}'
    told = f'{type(fault).__name__}: {" ".join(str(fault).split())}'[:LONGEST]
    if told.startswith(MACHINE):
        return Status.FAILED, f'this machine has no room left: {told}'
    return Status.BROKEN, f'the desk failed, please report this line: {told} ({place_of(fault)}; {TRACE}=1 shows more)'


def place_of(fault: BaseException) -> str:
    """The last line of the desk that the exception went through."""
    frames = traceback.extract_tb(fault.__traceback__)
    own = [frame for frame in frames if Path(frame.filename).is_relative_to(PACKAGE)] or frames
    return f'{Path(own[-1].filename).name} line {own[-1].lineno}' if own else 'nowhere'
