"""Files that are written. An output is written whole or not at all: into a temporary file beside the place, which is
then given its name."""
from __future__ import annotations

import os
import stat
import tempfile
from collections.abc import Iterable
from contextlib import suppress
from pathlib import Path

from ..errors import OutputError

# What tells a file from every other: device and inode; of one that is not there those of its folder, and its name.
FileKey = tuple[int, int, str]


def write_whole(path: str, content: str | bytes, inputs: Iterable[str] = (), lasting: bool = False) -> None:
    """Writes a file, or leaves what was there; where it is to be `lasting` it is on the disk then. `OutputError` where
    the place is an input, a folder, no plain file, or cannot be written. A link is followed."""
    check_place(path, inputs)
    place = Path(os.path.realpath(path))
    try:
        handle, name = tempfile.mkstemp(prefix='.pinchdesk-', dir=place.parent)
    except (OSError, ValueError) as fault:
        raise OutputError(f'{path}: cannot be written: {reason(fault)}') from fault
    try:
        with os.fdopen(handle, 'wb') as opened:
            opened.write(content.encode() if isinstance(content, str) else content)
            if lasting:
                opened.flush()
                os.fsync(opened.fileno())
        os.chmod(name, mode_of(place))
        os.replace(name, place)
        if lasting:
            sync_folder(place.parent)
    except OSError as fault:
        raise OutputError(f'{path}: cannot be written: {reason(fault)}') from fault
    finally:
        with suppress(OSError):
            os.unlink(name)


def sync_folder(folder: Path) -> None:
    """The names in a folder are on the disk then."""
    handle = os.open(folder, os.O_RDONLY | os.O_DIRECTORY)
    try:
        os.fsync(handle)
    finally:
        os.close(handle)


def check_place(path: str, inputs: Iterable[str]) -> None:
    """`OutputError` where a file may not be written to this place."""
    if not path or path.endswith(os.sep) or os.path.isdir(path):
        raise OutputError(f'{path or "(no name)"}: is a folder, not a file')
    if os.path.lexists(path) and not os.path.isfile(path):
        raise OutputError(f'{path}: is not a plain file, and is not overwritten')
    key = key_of(path)
    if any(key_of(read) == key for read in inputs):
        raise OutputError(f'{path}: is an input, and is not overwritten')
    if not os.path.isdir(Path(path).parent):
        raise OutputError(f'{path}: cannot be written: there is no folder {Path(path).parent}')


def check_apart(outputs: Iterable[str], inputs: Iterable[str]) -> None:
    """`OutputError` where one of many outputs is an input, or two of them are one file."""
    read = {key_of(path) for path in inputs}
    taken: dict[FileKey, str] = {}
    for path in outputs:
        key = key_of(path)
        if key in read:
            raise OutputError(f'{path}: is an input, and is not overwritten')
        if key in taken:
            raise OutputError(f'{path}: two answers would go there, since it is {taken[key]} too')
        taken[key] = path


def key_of(path: str) -> FileKey:
    place = os.path.realpath(path)
    for path_of_file, name in ((place, ''), (os.path.dirname(place), os.path.basename(place))):
        with suppress(OSError, ValueError):
            found = os.stat(path_of_file)
            return found.st_dev, found.st_ino, name
    return 0, 0, place


def made_folder(folder: str, parents: bool = False) -> None:
    """Makes a folder where there is none; `OutputError` where nothing can be written there."""
    try:
        Path(folder).mkdir(parents=parents, exist_ok=True)
    except (OSError, ValueError) as fault:
        raise OutputError(f'{folder}: cannot be made a folder: {reason(fault)}') from fault
    if not os.access(folder, os.W_OK | os.X_OK):
        raise OutputError(f'{folder}: nothing can be written there')


def mode_of(place: Path) -> int:
    """The mode of the file that is there, or that of a new one."""
    try:
        return stat.S_IMODE(place.stat().st_mode)
    except OSError:
        mask = os.umask(0)
        os.umask(mask)
        return 0o666 & ~mask


def reason(fault: Exception) -> str:
    return (fault.strerror if isinstance(fault, OSError) else None) or str(fault)
