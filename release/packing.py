"""Packs a release: the command of `release/pack`, and the file RELEASE."""
from __future__ import annotations

import argparse
import os
import shutil
import subprocess
import sys
import time
from pathlib import Path

import checked
import debian_package
import members
import wheel_file
from checked import Commit, Finding, State

ROOT = Path(__file__).resolve().parents[1]


def options_of(words: list[str] | None) -> argparse.Namespace:
    made = argparse.ArgumentParser(prog='release/pack',
                                   description='Packs a release of pinch: a wheel and a package of Debian.')
    made.add_argument('--gate', metavar='LOG', required=True, help='the log of `rt ci`, or its last line')
    made.add_argument('--program', metavar='FILE', type=Path, default=ROOT / 'crates' / 'pinch' / 'out' / 'pinch',
                      help='the proved program; crates/pinch/out/pinch unless it is given')
    made.add_argument('--kit', metavar='LINE', help='the line of `rt version`; asked of rt unless it is given')
    made.add_argument('-o', '--output', metavar='FOLDER', type=Path, default=Path(),
                      help='where both files are written; here unless it is given')
    made.add_argument('--trial', action='store_true', help='pack what is not in order, under a name that says so')
    return made.parse_args(words)


def kit_line(told: str | None) -> str:
    """The kit's line: as it was told, or as `rt` prints it."""
    if told:
        return told
    if not shutil.which('rt'):
        raise OSError('there is no `rt` on the path to ask for the kit\'s line: give it with --kit')
    return checked.output_of(['rt', 'version'], ROOT).strip()


def release_text(version: str, commit: Commit, gate: str, kit: str, program: Path,
                 findings: list[Finding]) -> str:
    """What stands in the file RELEASE."""
    when = time.strftime('%Y-%m-%d %H:%M:%S UTC', time.gmtime(commit.seconds))
    licences = [path.name for path in ROOT.iterdir() if members.LICENCE.fullmatch(path.name)]
    rows = [('version', version), ('commit', f'{commit.name}, {when}'), ('gate', gate), ('kit', kit),
            ('program', f'bin/pinch, SHA-256 {checked.sum_of(program)}'),
            ('wants', f'Linux on x86-64 with the C library (glibc) {checked.library_of(program)} or later'),
            ('licence', ', '.join(sorted(licences)) or 'none is given yet')]
    text = ''.join(f'{name:<9}{value}\n' for name, value in rows)
    heads = {State.WRONG: 'NO RELEASE, FOR A TRIAL ALONE, since', State.CHECKED: 'Checked when it was packed',
             State.OPEN: 'Not checked'}
    for state, head in heads.items():
        held_by = [finding.text for finding in findings if finding.state is state]
        text += f'\n{head}:\n' + ''.join(f'- {sentence}\n' for sentence in held_by) if held_by else ''
    return text


def pack(options: argparse.Namespace) -> list[Path]:
    """Packs, and gives both files. `OSError` with all causes where the release is not in order."""
    program: Path = options.program.absolute()
    if not checked.is_program(program):
        raise OSError(f'there is no program at {program}: build it first, or give it with --program')
    commit, version, kit = checked.commit_of(ROOT), checked.version_of(ROOT), kit_line(options.kit)
    gate, of_gate = checked.on_gate(ROOT, options.gate)
    findings = [*checked.on_checkout(ROOT), *checked.on_version(ROOT), *of_gate,
                *checked.on_kit(ROOT, kit, options.gate), *checked.on_program(ROOT, program)]
    wrong = [finding.text for finding in findings if finding.state is State.WRONG]
    if wrong and not options.trial:
        raise OSError('no release:\n' + '\n'.join(f'- {text}' for text in wrong))
    if options.trial and not wrong:
        raise OSError('all is in order: pack it without --trial')
    shared = members.shared(ROOT, commit, version, release_text(version, commit, gate, kit, program, findings))
    desk, content, is_trial = wheel_file.desk_files(ROOT, commit), program.read_bytes(), bool(wrong)
    of_debian = debian_package.version_of(version, is_trial)
    files = {wheel_file.name_of(version, is_trial): wheel_file.wheel(version, desk, shared, content, commit, is_trial),
             debian_package.name_of(version, is_trial): debian_package.package(
                 ROOT, commit, of_debian, debian_package.installed(desk, shared, content))}
    return [written(options.output / name, packed) for name, packed in files.items()]


def written(path: Path, content: bytes) -> Path:
    """Writes a file whole or not at all; never over one with other bytes."""
    if path.exists() and path.read_bytes() != content:
        raise OSError(f'{path} is there with other bytes: move it away')
    part = path.with_name(f'{path.name}.part')
    part.write_bytes(content)
    os.replace(part, path)
    return path


def main(words: list[str] | None = None) -> int:
    try:
        paths = pack(options_of(words))
    except (OSError, subprocess.CalledProcessError) as fault:
        print(f'release/pack: {fault}', file=sys.stderr)
        return 1
    for path in paths:
        print(f'{checked.sum_of(path)}  {path.name}')
    return 0
