"""What lies in a release: files of the commit, with fixed rights, in a fixed order, so that the same commit, program
and words give the same bytes."""
from __future__ import annotations

import io
import re
import subprocess
import tarfile
import time
from dataclasses import dataclass, replace
from pathlib import Path

from checked import Commit

# What of the commit is packed as it stands: with each document those to which it links. A licence is packed where there
# is one.
PACKED = re.compile(r'(README|CHANGELOG|CONTRIBUTING)\.md|(LICEN[CS]E|COPYING)[^/]*|examples/.+|docs/.+\.(md|png|svg)|'
                    r'(desk|checks|release|crates/[a-z_]+)/README\.md')
LICENCE = re.compile(r'(LICEN[CS]E|COPYING)[^/]*')
NAME = re.compile(r'[A-Za-z0-9._/-]+')
DOCUMENTS, PAGES = 'share/doc/pinch', 'share/man/man1'


@dataclass(frozen=True)
class Member:
    """A file of a release: its path, its bytes, and whether it is run."""

    path: str
    content: bytes
    is_run: bool = False

    @property
    def mode(self) -> int:
        return 0o755 if self.is_run else 0o644

    def below(self, folder: str) -> Member:
        return replace(self, path=f'{folder}/{self.path}')


def committed(root: Path, commit: Commit, *paths: str) -> list[Member]:
    """The files of the commit below these paths."""
    archive = subprocess.run(['git', 'archive', '--format=tar', commit.name, *paths], cwd=root, capture_output=True,
                             check=True).stdout
    with tarfile.open(fileobj=io.BytesIO(archive)) as tar:
        files = [entry for entry in tar.getmembers() if entry.isfile()]
        return [Member(entry.name, content_of(tar, entry), bool(entry.mode & 0o100)) for entry in files]


def content_of(tar: tarfile.TarFile, entry: tarfile.TarInfo) -> bytes:
    handle = tar.extractfile(entry)
    assert handle is not None
    return handle.read()


def shared(root: Path, commit: Commit, version: str, release: str) -> list[Member]:
    """What both files of a release put below the folder in which they are installed: documents, examples, the file
    RELEASE, and a page of the manual for each command."""
    files = committed(root, commit)
    documents = [file for file in files if PACKED.fullmatch(file.path)]
    documents += [Member('RELEASE', release.encode()), Member('copyright', copyright_of(root, commit))]
    filled = [Member(Path(file.path).name, fill(file.content, version, commit)) for file in
              committed(root, commit, 'release/man')]
    return ordered([*(file.below(DOCUMENTS) for file in documents), *(page.below(PAGES) for page in filled)])


def fill(page: bytes, version: str, commit: Commit) -> bytes:
    """A page of the manual with the version and the day of the commit."""
    day = time.strftime('%Y-%m-%d', time.gmtime(commit.seconds))
    return page.replace(b'@VERSION@', version.encode()).replace(b'@DAY@', day.encode())


def copyright_of(root: Path, commit: Commit) -> bytes:
    """What the file `copyright` says: the licences of the commit, or that there is none yet."""
    licences = [file.content for file in committed(root, commit) if LICENCE.fullmatch(file.path)]
    head, none = (file.content for file in committed(root, commit, 'release/copyright', 'release/no-licence'))
    return b'\n'.join([head, *(licences or [none])])


def ordered(members: list[Member]) -> list[Member]:
    """The members by their paths; two of one path, or one with a name that a shell would take apart, are an error."""
    paths = [member.path for member in members]
    odd = [path for path in paths if not NAME.fullmatch(path) or paths.count(path) > 1]
    if odd:
        raise OSError(f'these names cannot stand in a release: {", ".join(sorted(set(odd)))}')
    return sorted(members, key=lambda member: member.path)
