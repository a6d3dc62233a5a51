"""Makes the package of a release for Debian: the program, the desk for Debian's own Python, the documents, the examples
and the manual, by dpkg-deb."""
from __future__ import annotations

import gzip
import hashlib
import os
import re
import subprocess
import tempfile
import tomllib
from pathlib import Path

from checked import C_LIBRARY, Commit
from members import Member, committed, ordered
from wheel_file import write

LIBRARY = re.compile(r'([A-Za-z0-9_-]+) *(?:>= *([0-9.]+))?')
# The extras of the desk that Debian installs too, unless it is told not to; those that it only names.
RECOMMENDED, SUGGESTED = ('networks', 'costs', 'cluster', 'live'), ('frames',)
PACKAGES = 'usr/lib/python3/dist-packages'
# What matplotlib's fonts want one of: without a word for the small one, Debian brings scipy with a compiler.
SMALL = 'python3-munkres | python3-scipy'
ENTRY = re.compile(r'^pinchdesk *= *([\w.]+):(\w+)$', re.M)
COMMAND = """#!/usr/bin/python3
import sys

from {module} import {call}

if __name__ == '__main__':
    sys.exit({call}())
"""
CONTROL = """Package: pinch
Version: {version}
Section: science
Priority: optional
Architecture: amd64
Maintainer: {maintainer}
Installed-Size: {size}
Depends: {depends}
Recommends: {recommends}
Suggests: {suggests}
Description: energy targets and networks of heat exchangers, proved
 From a table of streams and utilities pinch prints the least hot and cold
 utility, the pinches, the composite curves and a heat flow of least cost, with
 prices by which anybody can check that none costs less. It audits networks of
 heat exchangers without a tolerance. All is exact, and proved.
 .
 Its desk, pinchdesk, reads the tables that a plant has, shows the answers in
 degrees Celsius and kW, draws, searches for networks of few exchangers and
 writes a page for the reviewer. It is a library of Python too.
"""


def version_of(version: str, is_trial: bool) -> str:
    """The version that Debian has of it: one for a trial is below that of the release."""
    return f'{version}~trial' if is_trial else version


def name_of(version: str, is_trial: bool) -> str:
    return f'pinch_{version_of(version, is_trial)}_amd64.deb'


def package(root: Path, commit: Commit, version: str, members: list[Member]) -> bytes:
    """The package that installs these members below `/`; `version` is Debian's."""
    control = [Member('control', control_of(root, version, members).encode()), Member('md5sums', sums_of(members)),
               *(Member(Path(file.path).name, file.content, True) for file in
                 committed(root, commit, 'release/debian'))]
    with tempfile.TemporaryDirectory(prefix='pinch-deb-') as folder:
        tree, made = Path(folder) / 'tree', Path(folder) / 'made.deb'
        for file in [*members, *(member.below('DEBIAN') for member in control)]:
            write(tree, file)
        for place in [tree, *tree.rglob('*')]:
            if place.is_dir():
                place.chmod(0o755)
            os.utime(place, (commit.seconds, commit.seconds))
        words = ['dpkg-deb', '--root-owner-group', '-Zxz', '--threads-max=1', '--build', str(tree), str(made)]
        done = subprocess.run(words, env=dict(os.environ, SOURCE_DATE_EPOCH=str(commit.seconds)), capture_output=True,
                              stdin=subprocess.DEVNULL, text=True, check=False)
        if done.returncode:
            raise OSError(f'dpkg-deb: {done.stderr.strip()}')
        return made.read_bytes()


def installed(desk: list[Member], shared: list[Member], program: bytes) -> list[Member]:
    """What the package has below `/`. The desk has no list of its files there, so that `pip` leaves them to Debian."""
    entry, = (ENTRY.search(file.content.decode()) for file in desk if file.path.endswith('/entry_points.txt'))
    if not entry:
        raise OSError('the wheel has no command pinchdesk')
    about, = (Path(file.path).parent for file in desk if file.path.endswith('.dist-info/METADATA'))
    kept = [file for file in desk if not file.path.endswith('.dist-info/WHEEL')]
    command = COMMAND.format(module=entry[1], call=entry[2])
    return ordered([*(file.below(PACKAGES) for file in kept), *(debian_form(file).below('usr') for file in shared),
                    Member(f'{PACKAGES}/{about}/INSTALLER', b'debian\n'), Member('usr/bin/pinch', program, True),
                    Member('usr/bin/pinchdesk', command.encode(), True)])


def debian_form(file: Member) -> Member:
    """A page of the manual packed, as Debian has them; else the file as it is."""
    if not file.path.startswith('share/man/'):
        return file
    return Member(f'{file.path}.gz', gzip.compress(file.content, 9, mtime=0))


def control_of(root: Path, version: str, members: list[Member]) -> str:
    """The file `control`: what the package is, and which packages of Debian it asks for."""
    with open(root / 'desk' / 'pyproject.toml', 'rb') as handle:
        project = tomllib.load(handle)['project']
    author = project['authors'][0]
    extras = project['optional-dependencies']
    depends = [f'libc6 (>= {C_LIBRARY})', f'python3 ({project["requires-python"].replace(">=", ">= ")})',
               *map(library, project['dependencies']), SMALL]
    size = sum(-(-len(member.content) // 1024) for member in members)
    return CONTROL.format(version=version, maintainer=f'{author["name"]} <{author["email"]}>', size=size,
                          depends=', '.join(depends), recommends=', '.join(libraries(extras, RECOMMENDED)),
                          suggests=', '.join(libraries(extras, SUGGESTED)))


def libraries(extras: dict[str, list[str]], names: tuple[str, ...]) -> list[str]:
    return [library(wanted) for name in names for wanted in extras[name]]


def library(wanted: str) -> str:
    """A library that the desk wants, as Debian's package of it."""
    found = LIBRARY.fullmatch(wanted)
    if not found:
        raise OSError(f'desk/pyproject.toml: `{wanted}` is not of the form NAME>=VERSION')
    return f'python3-{found[1].lower()}' + (f' (>= {found[2]})' if found[2] else '')


def sums_of(members: list[Member]) -> bytes:
    """The sums of all files, by which `dpkg -V pinch` tells what was changed."""
    lines = (f'{hashlib.md5(member.content).hexdigest()}  {member.path}\n' for member in members)
    return ''.join(lines).encode()
