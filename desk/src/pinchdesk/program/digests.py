"""Which desk and which program stand here: a digest of each, so that machines that work together can be compared."""
from __future__ import annotations

import hashlib
from dataclasses import dataclass
from pathlib import Path

from ..errors import ProgramError
from .run import found

PACKAGE = Path(__file__).resolve().parents[1]


@dataclass(frozen=True)
class Digests:
    """SHA-256 of the files of the package, and of the program that it runs."""

    desk: str
    program: str


def desk_digest() -> str:
    """The digest of all modules and templates with their places in the package."""
    files = sorted(path for pattern in ('*.py', 'report/templates/*') for path in PACKAGE.rglob(pattern)
                   if path.is_file())
    digest = hashlib.sha256()
    for path in files:
        content = path.read_bytes()
        digest.update(f'{path.relative_to(PACKAGE).as_posix()}\0{len(content)}\0'.encode())
        digest.update(content)
    return digest.hexdigest()


def digests(program: str | None = None) -> Digests:
    """Those of this machine, or with another program; `ProgramError` where there is none, or it cannot be read."""
    path = program or found()
    try:
        return Digests(desk_digest(), hashlib.sha256(Path(path).read_bytes()).hexdigest())
    except OSError as fault:
        raise ProgramError(f'{path} cannot be read: {fault.strerror}') from fault
