"""Further files of an answer, where they are asked for: the case of a rest, the networks of a trade-off."""
from __future__ import annotations

import os
import re
from collections.abc import Sequence
from pathlib import Path

from ..errors import OutputError
from ..formats.written_files import check_apart, check_place, key_of, made_folder, write_whole
from ..words.word import FurtherFiles, FurtherOutput


def check_further(output: FurtherOutput, place: str, stem: str, others: Sequence[str]) -> None:
    """`OutputError` where further files cannot be written to a place, or one of them may be a file that is read, or
    written besides."""
    if output.folder:
        check_folder(place, stem, others)
    else:
        check_place(place, others)


def check_folder(folder: str, stem: str, others: Sequence[str]) -> None:
    """The same of files `STEM-7.txt` and `STEM-annual.txt` in a folder, which is made."""
    made_folder(folder)
    networks = re.compile(re.escape(stem) + '-([0-9]+|annual)[.]txt')
    there = {key_of(entry.path) for entry in os.scandir(folder) if networks.fullmatch(entry.name)}
    where = key_of(folder)[:2]
    for path in others:
        real = os.path.realpath(path)
        if key_of(path) in there or key_of(os.path.dirname(real))[:2] == where \
                and networks.fullmatch(os.path.basename(real)):
            raise OutputError(f'{path}: one of the networks may be written there: give another folder')


def write_further(output: FurtherOutput, files: FurtherFiles, place: str, stem: str,
                  others: Sequence[str]) -> list[str]:
    """Writes further files, and gives what is told of them; `OutputError` where there is none."""
    if files.missing:
        raise OutputError(files.missing)
    if not output.folder:
        write_whole(place, files.texts[''], others)
        return list(files.notes)
    texts = {str(Path(place, f'{stem}-{name}.txt')): text for name, text in files.texts.items()}
    check_apart(texts, others)
    for path, text in texts.items():
        write_whole(path, text, others)
    return [f'written: {", ".join(texts)}', *files.notes]
