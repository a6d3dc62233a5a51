"""A release: what is refused, the bytes of both files, one version, and what is installed and taken away again."""
from __future__ import annotations

import csv
import io
import os
import shutil
import subprocess
import sys
import tomllib
import zipfile
from importlib.util import find_spec
from pathlib import Path

import checked
import debian_package
import members
import pytest
import wheel_file
from checked import Commit, State
from conftest import DESK, tried
from hypothesis import given
from hypothesis import strategies as st
from members import Member

import pinchdesk
from pinchdesk import Pinch
from pinchdesk.program.run import found, own_program

ROOT = DESK.parent
COMMIT = Commit('0' * 40, 1_700_000_000)
PATHS = st.text('abcAB01._-', min_size=1, max_size=6).filter(lambda path: path.strip('.'))
SHARED = st.lists(st.builds(Member, PATHS, st.binary(max_size=30)), unique_by=lambda member: member.path)


def wrong(findings: list[checked.Finding]) -> list[str]:
    return [finding.text for finding in findings if finding.state is State.WRONG]


def test_the_version_stands_in_one_place_and_both_files_and_the_change_log_have_it() -> None:
    version = checked.version_of(ROOT)
    entries = checked.ENTRY.findall((ROOT / 'CHANGELOG.md').read_text(encoding='utf-8'))
    assert [entry for entry in entries if entry != 'Unreleased'][0] == version == pinchdesk.__version__
    assert wrong(checked.on_version(ROOT)) == [] or entries[0] == 'Unreleased'
    assert wheel_file.name_of(version, False) == f'pinchdesk-{version}-py3-none-manylinux_2_34_x86_64.whl'
    assert debian_package.name_of(version, False) == f'pinch_{version}_amd64.deb'
    assert [path.name for path in ROOT.glob('desk/src/**/*.py') if version in path.read_text()] == ['version.py']
    assert version not in (DESK / 'pyproject.toml').read_text()
    readme = (ROOT / 'README.md').read_text(encoding='utf-8')
    assert wheel_file.name_of(version, False) in readme and debian_package.name_of(version, False) in readme


def test_files_for_a_trial_say_so_in_their_names() -> None:
    assert wheel_file.name_of('1.2.3', True) == 'pinchdesk-1.2.3-0trial-py3-none-manylinux_2_34_x86_64.whl'
    assert debian_package.name_of('1.2.3', True) == 'pinch_1.2.3~trial_amd64.deb'


def test_the_gate_of_this_commit_is_taken() -> None:
    line = f'{checked.proofs_of(ROOT)} passed, 0 failed'
    assert checked.on_gate(ROOT, line)[0] == line
    assert not wrong(checked.on_gate(ROOT, line)[1])


@pytest.mark.parametrize('line', [
    '', '7 passed, 0 failed', '343 passed, 1 failed', '0 passed, 1 failed', '213 passed in 40.10s', 'rt: ok',
    '9 passed, 0 failed (sums and the crates below alone: not the gate)'])
def test_another_last_line_is_refused(line: str, tmp_path: Path) -> None:
    log = tmp_path / 'log'
    log.write_text(f'rt: sums proved\n{line}\n')
    assert wrong(checked.on_gate(ROOT, str(log))[1])
    assert wrong(checked.on_gate(ROOT, line)[1])


def checkout(folder: Path) -> Path:
    """A checkout with a program and what it was built from."""
    for name, text in (('crates/pinch/src/main.rt', 'fn'), ('crates/pinch/args', 'hot 1'), ('HANDLES', ''),
                       ('crates/pinch/stdout', 'hot 1\n'), ('crates/pinch/data/x', ''), ('crates.txt', 'pinch: sums\n'),
                       ('.gitignore', 'out/\n')):
        (folder / name).parent.mkdir(parents=True, exist_ok=True)
        (folder / name).write_text(text)
    git(folder, 'init', '-q')
    git(folder, 'add', '-A')
    git(folder, 'commit', '-q', '-m', 'all')
    program = folder / 'crates/pinch/out/pinch'
    program.parent.mkdir()
    shutil.copy(shutil.which('echo') or '/bin/echo', program)
    return program


def git(folder: Path, *words: str) -> None:
    own = ['-c', 'user.name=n', '-c', 'user.email=e', '-c', 'commit.gpgsign=false']
    subprocess.run(['git', *own, *words], cwd=folder, check=True, capture_output=True)


def test_a_program_that_is_older_or_of_other_sources_is_refused(tmp_path: Path) -> None:
    program = checkout(tmp_path)
    assert not wrong(checked.on_place(tmp_path, program)) and not wrong(checked.on_answer(tmp_path, program))
    log = tmp_path / 'crates/pinch/out/log'
    log.write_text('1 passed, 0 failed\n')
    assert not wrong(checked.on_gate(tmp_path, str(log))[1])
    os.utime(log, (1, 1))
    assert 'older' in wrong(checked.on_gate(tmp_path, str(log))[1])[0]
    (tmp_path / 'crates/pinch/src/main.rt').write_text('fn f')
    assert wrong(checked.on_checkout(tmp_path)) and 'other crates' in wrong(checked.on_place(tmp_path, program))[0]
    git(tmp_path, 'commit', '-q', '-a', '-m', 'more')
    os.utime(program, (1, 1))
    assert 'older' in wrong(checked.on_place(tmp_path, program))[0]


def test_a_stamp_of_another_program_is_refused(tmp_path: Path) -> None:
    program = tmp_path / 'pinch'
    program.write_bytes(b'program')
    stamp = tmp_path / 'pinch.stamp'
    stamp.write_text('0' * 64 + checked.sum_of(program))
    assert not wrong(checked.on_stamp(program))
    stamp.write_text('0' * 128)
    assert wrong(checked.on_stamp(program))


@pytest.mark.parametrize('symbols, least', [
    ('(GLIBC_2.2.5) free\n(GLIBC_2.14) memcpy\n', '2.14'), ('(GLIBC_2.34) __libc_start_main\n', '2.34'),
    ('(GLIBC_2.35) x\n(GLIBC_2.4) y\n', ''), ('(GLIBC_PRIVATE) x\n(GLIBC_2.4) y\n', ''), ('(GLIBC_ABI_DT_RELR)', ''),
    ('', '')])
def test_a_program_for_a_newer_c_library_is_refused(symbols: str, least: str) -> None:
    if least:
        assert checked.least_library(symbols) == least
    else:
        with pytest.raises(OSError, match='C library'):
            checked.least_library(symbols)


@pytest.mark.skipif(not shutil.which('objdump'), reason='there is no objdump, of Debian\'s binutils')
def test_the_program_wants_no_newer_c_library_than_the_name_says(pinch: Pinch) -> None:
    assert checked.library_of(Path(pinch.path)) <= checked.C_LIBRARY == '2.34'


def desk() -> list[Member]:
    """The desk as a pure wheel has it, made without setuptools."""
    source = DESK / 'src'
    files = [Member(str(path.relative_to(source)), path.read_bytes()) for path in (source / 'pinchdesk').rglob('*')
             if path.is_file() and '__pycache__' not in path.parts]
    with open(DESK / 'pyproject.toml', 'rb') as handle:
        command = tomllib.load(handle)['project']['scripts']['pinchdesk']
    about = {'METADATA': 'Metadata-Version: 2.1\nName: pinchdesk\nVersion: 9.9.9\n',
             'WHEEL': 'Wheel-Version: 1.0\nGenerator: test\nRoot-Is-Purelib: true\nTag: py3-none-any\n',
             'entry_points.txt': f'[console_scripts]\npinchdesk = {command}\n'}
    return files + [Member(f'pinchdesk-9.9.9.dist-info/{name}', text.encode()) for name, text in about.items()]


@given(SHARED, st.binary(max_size=30))
@tried(5, 15)
def test_a_wheel_is_the_same_bytes_each_time_and_its_record_has_each_file(shared: list[Member], program: bytes) -> None:
    few = [file for file in desk() if file.path.startswith('pinchdesk-')]
    first = wheel_file.wheel('9.9.9', few, shared, program, COMMIT, False)
    assert first == wheel_file.wheel('9.9.9', few[::-1], shared[::-1], program, COMMIT, False)
    with zipfile.ZipFile(io.BytesIO(first)) as archive:
        names = archive.namelist()
        rows = list(csv.reader(io.StringIO(archive.read('pinchdesk-9.9.9.dist-info/RECORD').decode())))
        assert [row[0] for row in rows] == names and rows[-1][1:] == ['', '']
        for name, total, size in rows[:-1]:
            content = archive.read(name)
            assert (total, size) == (f'sha256={wheel_file.sum_of(Member(name, content))}', str(len(content)))
        modes = {name: archive.getinfo(name).external_attr >> 16 for name in names}
        about = archive.read('pinchdesk-9.9.9.dist-info/WHEEL').decode().splitlines()
    assert {name for name, mode in modes.items() if mode & 0o111} == {'pinchdesk-9.9.9.data/scripts/pinch'}
    assert about[2:] == ['Root-Is-Purelib: false', 'Tag: py3-none-manylinux_2_34_x86_64']


@pytest.mark.parametrize('paths', [['a b'], ['a', 'a'], ['a\nb'], ["a'b"]])
def test_names_that_a_shell_takes_apart_are_refused(paths: list[str]) -> None:
    with pytest.raises(OSError, match='cannot stand in a release'):
        members.ordered([Member(path, b'') for path in paths])


def test_debian_is_asked_for_the_libraries_of_the_desk() -> None:
    assert debian_package.library('jinja2>=3.0') == 'python3-jinja2 (>= 3.0)'
    assert debian_package.library('pandas') == 'python3-pandas'
    with pytest.raises(OSError, match='not of the form'):
        debian_package.library('pint~=0.19')
    told = dict(line.split(': ', 1) for line in debian_package.control_of(ROOT, '9.9.9', []).splitlines()[:10])
    assert told['Depends'].startswith('libc6 (>= 2.34), python3 (>= 3.11), python3-openpyxl (>= 3.0), ')
    assert told['Recommends'] == ('python3-scipy (>= 1.10), python3-mpmath (>= 1.2), python3-distributed (>= 2022.12), '
                                  'python3-starlette (>= 0.26), python3-uvicorn (>= 0.17), '
                                  'python3-websockets (>= 10.4)')


def ran(*words: str, **environment: str) -> tuple[int, str]:
    own = {name: value for name, value in os.environ.items() if name not in ('PINCH', 'PYTHONPATH')}
    done = subprocess.run(words, capture_output=True, text=True, check=False, stdin=subprocess.DEVNULL,
                          env={**own, **environment})
    return done.returncode, done.stdout + done.stderr


@pytest.mark.long
@pytest.mark.skipif(not shutil.which('dpkg-deb'), reason='there is no dpkg-deb')
def test_a_package_of_debian_is_the_same_bytes_each_time_and_runs_where_it_is_unpacked(
        pinch: Pinch, tmp_path: Path) -> None:
    shared = [Member('share/man/man1/pinch.1', b'.TH'), Member('share/doc/pinch/RELEASE', b'version  9.9.9\n')]
    files = debian_package.installed(desk(), shared, Path(pinch.path).read_bytes())
    commit = checked.commit_of(ROOT)
    package = tmp_path / 'pinch.deb'
    package.write_bytes(debian_package.package(ROOT, commit, '9.9.9', files))
    assert package.read_bytes() == debian_package.package(ROOT, commit, '9.9.9', files)
    assert {'root/root'} == {line.split()[1] for line in ran('dpkg-deb', '-c', str(package))[1].splitlines()}
    assert ran('dpkg-deb', '-x', str(package), str(tmp_path / 'root'))[0] == 0
    usr = tmp_path / 'root' / 'usr'
    assert {path.name for path in usr.glob('bin/*') if os.access(path, os.X_OK)} == {'pinch', 'pinchdesk'}
    assert (usr / 'share/man/man1/pinch.1.gz').exists() and not list(usr.rglob('RECORD'))
    place = str(usr / 'lib/python3/dist-packages')
    asked = 'import pinchdesk; print(pinchdesk.Pinch().path)'
    assert ran(sys.executable, '-B', '-c', asked, PYTHONPATH=place) == (0, f'{usr}/bin/pinch\n')
    status, told = ran(sys.executable, '-B', str(usr / 'bin/pinchdesk'), '--version', PYTHONPATH=place)
    assert (status, told) == (0, f'pinchdesk {pinchdesk.__version__}\n')


@pytest.mark.long
@pytest.mark.skipif(find_spec('pip') is None, reason='this Python has no pip')
def test_a_wheel_brings_the_program_which_its_desk_asks_before_another_one(pinch: Pinch, tmp_path: Path) -> None:
    name = wheel_file.name_of('9.9.9', False)
    program = Path(pinch.path).read_bytes()
    shared = [Member('share/doc/pinch/RELEASE', b'version  9.9.9\n')]
    (tmp_path / name).write_bytes(wheel_file.wheel('9.9.9', desk(), shared, program, COMMIT, False))
    place, path = tmp_path / 'environment', f'{tmp_path}:{os.environ["PATH"]}'
    assert ran(sys.executable, '-m', 'venv', '--without-pip', '--system-site-packages', str(place))[0] == 0
    pip = [sys.executable, '-m', 'pip', '--python', str(place), '--disable-pip-version-check']
    status, told = ran(*pip, 'install', '--no-index', '--no-compile', str(tmp_path / name))
    assert status == 0, told
    shutil.copy(shutil.which('true') or '/bin/true', tmp_path / 'pinch')
    case = str(ROOT / 'examples' / 'tc3.csv')
    assert '107.5' in ran(str(place / 'bin/pinchdesk'), 'targets', case, PATH=path)[1]
    assert ran(str(place / 'bin/pinch'), 'targets', case)[1] == 'hot 107500\ncold 40000\npinch 800\n'
    assert 'is not a program' in ran(str(place / 'bin/pinchdesk'), 'targets', case, PINCH='/nowhere')[1]
    assert (place / 'share/doc/pinch/RELEASE').is_file()
    assert ran(*pip, 'uninstall', '-y', 'pinchdesk')[0] == 0
    assert not [path for path in place.rglob('*pinch*')]


@pytest.mark.parametrize('package, program', [
    ('/home/a/checkout/desk/src', '/home/a/checkout/crates/pinch/out/pinch'),
    ('/opt/venv/lib/python3.11/site-packages', '/opt/venv/bin/pinch'),
    ('/home/a/.local/lib/python3.12/site-packages', '/home/a/.local/bin/pinch'),
    ('/usr/lib/python3/dist-packages', '/usr/bin/pinch'), ('/srv/modules', '/srv/modules/bin/pinch')])
def test_where_the_program_of_an_installation_lies(package: str, program: str) -> None:
    assert own_program(Path(package) / 'pinchdesk') == Path(program)


def test_the_program_is_that_of_pinch_then_its_own_then_that_on_the_path(
        tmp_path: Path, monkeypatch: pytest.MonkeyPatch) -> None:
    places = [tmp_path / name / 'bin' / 'pinch' for name in ('told', 'own', 'path')]
    for place in places:
        place.parent.mkdir(parents=True)
        shutil.copy(shutil.which('true') or '/bin/true', place)
    monkeypatch.setattr('pinchdesk.program.run.PACKAGE', tmp_path / 'own/lib/python3.11/site-packages/pinchdesk')
    monkeypatch.setenv('PATH', str(places[2].parent))
    monkeypatch.setenv('PINCH', str(places[0]))
    assert found() == str(places[0])
    monkeypatch.delenv('PINCH')
    assert found() == str(places[1])
    places[1].unlink()
    assert found() == str(places[2])
    places[2].unlink()
    with pytest.raises(pinchdesk.ProgramError, match=f'no {places[1]}, none on the path'):
        found()
