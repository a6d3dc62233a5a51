"""Makes the wheel of a release: the desk, as setuptools builds it, and with it the program, the documents and the
examples."""
from __future__ import annotations

import base64
import hashlib
import io
import os
import re
import stat
import subprocess
import sys
import tempfile
import time
import zipfile
from pathlib import Path

from checked import C_LIBRARY, Commit
from members import Member, committed, ordered

TAG = f'py3-none-manylinux_{C_LIBRARY.replace(".", "_")}_x86_64'
# A wheel has no version of its own for a trial; its number of a build is part of the name.
TRIAL = '0trial'
# The first time that a zip file can have.
FIRST = 315532800


def desk_files(root: Path, commit: Commit) -> list[Member]:
    """The desk as it is installed, made of the commit's files by Debian's setuptools, without an index."""
    with tempfile.TemporaryDirectory(prefix='pinch-wheel-') as folder:
        for file in committed(root, commit, 'desk'):
            write(Path(folder), file)
        environment = dict(os.environ, SOURCE_DATE_EPOCH=str(commit.seconds), PYTHONHASHSEED='0',
                           PIP_CONFIG_FILE=os.devnull)
        words = [sys.executable, '-m', 'pip', 'wheel', '--quiet', '--no-deps', '--no-index', '--no-build-isolation',
                 '--no-cache-dir', '--disable-pip-version-check', '-w', 'made', './desk']
        done = subprocess.run(words, cwd=folder, env=environment, stdin=subprocess.DEVNULL, capture_output=True,
                              text=True, check=False, umask=0o022)
        if done.returncode:
            raise OSError('the wheel could not be made (it wants python3-pip, python3-setuptools and python3-wheel of '
                          f'Debian): {done.stderr.strip()}')
        pure, = (Path(folder) / 'made').glob('*.whl')
        return files_of(pure.read_bytes())


def write(folder: Path, member: Member) -> None:
    """Writes a member below a folder, with its rights."""
    path = folder / member.path
    path.parent.mkdir(mode=0o755, parents=True, exist_ok=True)
    path.write_bytes(member.content)
    path.chmod(member.mode)


def files_of(wheel: bytes) -> list[Member]:
    """The files of a wheel, without the list of them."""
    with zipfile.ZipFile(io.BytesIO(wheel)) as archive:
        names = [name for name in archive.namelist()
                 if not name.endswith('/') and not name.endswith('.dist-info/RECORD')]
        return [Member(name, archive.read(name)) for name in names]


def name_of(version: str, is_trial: bool) -> str:
    return f'pinchdesk-{version}{f"-{TRIAL}" if is_trial else ""}-{TAG}.whl'


def wheel(version: str, desk: list[Member], shared: list[Member], program: bytes, commit: Commit,
          is_trial: bool) -> bytes:
    """The wheel: the desk's files, the program as a script, and what is shared, below the folder of the environment."""
    data, about = f'pinchdesk-{version}.data', f'pinchdesk-{version}.dist-info/'
    kept = [file for file in desk if file.path != f'{about}WHEEL']
    made = [Member(f'{about}WHEEL', about_wheel(desk, is_trial)), Member(f'{data}/scripts/pinch', program, True)]
    members = ordered([*kept, *made, *(file.below(f'{data}/data') for file in shared)])
    # As the format asks, what is told of the wheel comes last.
    members.sort(key=lambda member: member.path.startswith(about))
    return zipped([*members, Member(f'{about}RECORD', record(members, f'{about}RECORD'))], commit)


def about_wheel(desk: list[Member], is_trial: bool) -> bytes:
    """The file WHEEL: that of the pure wheel, for a package with a program for this kind of machine."""
    pure, = (file.content.decode() for file in desk if file.path.endswith('.dist-info/WHEEL'))
    own = re.sub(r'^Tag: .*$', f'Tag: {TAG}', pure, flags=re.M)
    own = own.replace('Root-Is-Purelib: true', 'Root-Is-Purelib: false')
    return (own.rstrip('\n') + (f'\nBuild: {TRIAL}' if is_trial else '') + '\n').encode()


def record(members: list[Member], own: str) -> bytes:
    """The file RECORD: each file with its sum and its size, and itself without."""
    lines = (f'{member.path},sha256={sum_of(member)},{len(member.content)}\n' for member in members)
    return ''.join([*lines, f'{own},,\n']).encode()


def sum_of(member: Member) -> str:
    return base64.urlsafe_b64encode(hashlib.sha256(member.content).digest()).decode().rstrip('=')


def zipped(members: list[Member], commit: Commit) -> bytes:
    """The members as a zip file, with the time of the commit."""
    when = time.gmtime(max(commit.seconds, FIRST))
    content = io.BytesIO()
    with zipfile.ZipFile(content, 'w', zipfile.ZIP_DEFLATED, compresslevel=9) as made:
        for member in members:
            entry = zipfile.ZipInfo(member.path, (when.tm_year, when.tm_mon, when.tm_mday, when.tm_hour, when.tm_min,
                                                  when.tm_sec))
            entry.create_system, entry.external_attr = 3, (stat.S_IFREG | member.mode) << 16
            made.writestr(entry, member.content, zipfile.ZIP_DEFLATED, 9)
    return content.getvalue()
