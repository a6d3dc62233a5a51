"""The files in which the answers of many cases are kept, each of its own."""
from __future__ import annotations

import os
from collections import Counter
from collections.abc import Sequence
from pathlib import Path

from .inputs import Listed
from .scenarios import SCENARIO

# What a name of a case ends with that is no part of it.
ENDINGS = ('.csv', '.tsv', '.txt', '.xlsx', '.xlsm')
# A file's name has 255 bytes at most; an ending, a number and a scenario go behind.
LONGEST = 100


def names_of(rows: Sequence[Listed], ending: str) -> list[str]:
    """The names of the files of rows. Of two with one name their folders tell them apart, and else a number."""
    short = [stem(Path(row.name).name, row) for row in rows]
    counts = Counter(short)
    stems = [last if counts[last] == 1 else stem(row.name, row) for last, row in zip(short, rows)]
    counts = Counter(stems)
    taken = {name for name, count in counts.items() if count == 1}
    names = []
    for name in stems:
        names.append(name if counts[name] == 1 else numbered(name, taken))
        taken.add(names[-1])
    return [f'{name}.{ending}' for name in names]


def stem(name: str, row: Listed) -> str:
    """A name without its ending, and with the scenario of its row, as a file may have it."""
    root, end = os.path.splitext(name)
    parts = [(root if end.lower() in ENDINGS else name).strip('/.')]
    parts += [row.names[SCENARIO]] if SCENARIO in row.names else []
    return '-'.join(cut(part.replace(os.sep, '_').replace('\0', '_')) for part in parts) or '_'


def cut(text: str) -> str:
    return os.fsdecode(os.fsencode(text)[:LONGEST]) if len(os.fsencode(text)) > LONGEST else text


def numbered(name: str, taken: set[str]) -> str:
    """A name that is not taken: with `-2`, `-3` and so on behind it where it is."""
    free, number = name, 1
    while free in taken:
        number += 1
        free = f'{name}-{number}'
    return free
