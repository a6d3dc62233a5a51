"""The files of many cases, each read once, when the first row wants it, and kept as long as another one will."""
from __future__ import annotations

from collections import Counter
from collections.abc import Iterable, Mapping
from typing import TYPE_CHECKING

from ..formats.plain_files import read_bytes
from ..words.word import Files, TextFile

if TYPE_CHECKING:
    from .inputs import Listed


def read_files(paths: Mapping[str, tuple[str, ...]]) -> Files:
    """Files by their roles, with what they hold; `Refused` where one cannot be read."""
    return Files({role: tuple(TextFile(path, read_bytes(path)) for path in told) for role, told in paths.items()})


class FilesOfRows:
    """The files of rows that are asked for in order."""

    def __init__(self, rows: Iterable[Listed]) -> None:
        self.wanted = Counter(path for row in rows for told in row.paths.values() for path in told)
        self.kept: dict[str, TextFile] = {}

    def of_row(self, row: Listed) -> Files:
        """The files of a row; `Refused` where one cannot be read."""
        return Files({role: tuple(self.file(path) for path in paths) for role, paths in row.paths.items()})

    def file(self, path: str) -> TextFile:
        file = self.kept.get(path) or TextFile(path, read_bytes(path))
        self.wanted[path] -= 1
        if self.wanted[path] > 0:
            self.kept[path] = file
        else:
            self.kept.pop(path, None)
        return file
