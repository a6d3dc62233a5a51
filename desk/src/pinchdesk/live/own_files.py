"""The two files that the live desk writes, and no others: whole, down to the disk, and only where they still are what
was last read or written. Whoever opens them a second time is refused; the lock leaves nothing behind."""
from __future__ import annotations

import fcntl
import hashlib
import os
import socket
from collections.abc import Iterator
from contextlib import contextmanager, suppress
from dataclasses import dataclass
from pathlib import Path

from ..errors import DeskError, OutputError
from ..formats.plain_files import read_bytes
from ..formats.written_files import check_place, key_of, write_whole


class ChangedOutside(DeskError):
    """A file is not what it was when it was last read: somebody else has written it."""


@dataclass
class OwnFile:
    """A file that the desk keeps. `content` is what it last was there; None where there was none."""

    path: str
    content: bytes | None = None

    @property
    def name(self) -> str:
        return os.path.basename(self.path)

    def read(self) -> bytes | None:
        """What the file holds now; None where there is none."""
        return read_bytes(self.path) if os.path.lexists(self.path) else None

    def taken(self) -> bytes | None:
        """What the file holds now, from which on it is written."""
        self.content = self.read()
        return self.content

    def is_changed(self) -> bool:
        return self.read() != self.content

    def save(self, content: bytes) -> None:
        """Writes the file where it still is what it was; `ChangedOutside` where it is not, `OutputError` where it
        cannot be written: then it is as it was."""
        if content == self.content:
            return
        check_place(self.path, ())
        with folder_locked(self.path):
            if self.is_changed():
                raise ChangedOutside(f'{self.path}: was changed by somebody else')
            write_whole(self.path, content, lasting=True)
        self.content = content

    def take_back(self, content: bytes | None) -> None:
        """The file as it was before it was saved: not there where there was none."""
        if content is not None:
            self.save(content)
        elif self.content is not None:
            with folder_locked(self.path):
                if not self.is_changed():
                    os.unlink(self.path)
            self.content = None


@contextmanager
def folder_locked(path: str) -> Iterator[None]:
    """Nobody else of the desk writes into the folder of a file meanwhile."""
    try:
        folder = os.open(Path(os.path.realpath(path)).parent, os.O_RDONLY | os.O_DIRECTORY)
    except OSError as fault:
        raise OutputError(f'{path}: cannot be written: {fault.strerror}') from fault
    try:
        with suppress(OSError):
            fcntl.flock(folder, fcntl.LOCK_EX)
        yield
    finally:
        os.close(folder)


class OpenedTwice(DeskError):
    """Another live desk has this file open."""


def claimed(path: str) -> socket.socket:
    """A claim on a file of this machine, which ends with the process: a name of the system that no file has.
    `OpenedTwice` where somebody has it."""
    device, inode, name = key_of(str(Path(os.path.realpath(path)).parent))
    digest = hashlib.sha256(f'{device} {inode} {name} {os.path.basename(os.path.realpath(path))}'.encode()).hexdigest()
    claim = socket.socket(socket.AF_UNIX, socket.SOCK_STREAM)
    try:
        claim.bind(f'\0pinchdesk-open-{os.getuid()}-{digest}')
    except OSError as fault:
        claim.close()
        raise OpenedTwice(f'{path}: is open in another live desk already') from fault
    return claim
