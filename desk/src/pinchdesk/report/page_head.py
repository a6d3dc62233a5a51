"""The head of a page: what its maker says of it, the least difference, and what a reviewer needs to make it again."""
from __future__ import annotations

import shlex
from collections.abc import Sequence
from dataclasses import dataclass, fields
from datetime import date as day
from hashlib import sha256

from ..formats.case import Case, Source
from ..formats.shown import Shown
from ..program.digests import Digests
from ..text import printable
from ..version import __version__
from .sheet import Cell, Sheet

# Of more sources with contributions of their own than these only how many there are is said.
MOST_NAMED = 6


@dataclass(frozen=True)
class PageHead:
    """What its maker says of a page, None where nothing is said; then the date is today's."""

    title: str | None = None
    plant: str | None = None
    author: str | None = None
    revision: str | None = None
    date: str | None = None

    def titled(self, case: str) -> str:
        """The title of the page, of a case of this name."""
        return printable(self.title) if self.title else f'Pinch analysis of {case}'

    @property
    def dated(self) -> str:
        return printable(self.date) if self.date else day.today().isoformat()

    def words(self) -> list[str]:
        """The options of the command that say the same, the date too."""
        said = {field.name: getattr(self, field.name) for field in fields(self)} | {'date': self.dated}
        return [word for name, text in said.items() if text
                for word in (f'--{name.replace("_", "-")}', printable(text))]


def head_sheet(head: PageHead, case: Case) -> Sheet:
    """What its maker says of a page, and the least difference of the case."""
    said = (('plant', head.plant), ('author', head.author), ('revision', head.revision), ('date', head.dated),
            ('ΔTmin', difference_told(case)))
    return Sheet('', (), tuple((name, printable(text)) for name, text in said if text))


def difference_told(case: Case) -> str:
    """The least difference of a case, where it comes from, and which sources have a contribution of their own."""
    shown = Shown(case.basis)
    whole, part = shown.least_difference(case.contribution), shown.with_degrees(case.contribution)
    # What the case says of another difference was right before somebody changed its row.
    said = case.basis.difference.removeprefix(f'{whole}, ')
    origin = 'by the contribution row of the case' if said == case.basis.difference else said
    own = [source for source in case.sources if source.contribution != case.contribution]
    told = f'{whole}, {origin}: each stream and utility contributes {part}'
    return f'{told}, but {own_told(own, len(case.sources), shown)}' if own else told


def own_told(own: Sequence[Source], count: int, shown: Shown) -> str:
    """The sources that have a contribution of their own, of so many in all."""
    if len(own) <= MOST_NAMED:
        return ', '.join(f'{source.name} {shown.with_degrees(source.contribution)}' for source in own)
    low, high = (bound(source.contribution for source in own) for bound in (min, max))
    return f'{len(own)} of {count} have one of their own, {shown.difference(low)} to {shown.with_degrees(high)}'


def digests_sheet(own: Digests, inputs: Sequence[tuple[str, str, bytes]]) -> Sheet:
    """The digests of the desk, of the program, and of the files, as (what it is, its name, its content)."""
    rows: list[tuple[Cell, ...]] = [('desk', f'pinchdesk {__version__}', own.desk), ('program', 'pinch', own.program)]
    rows += [(what, name, sha256(content).hexdigest()) for what, name, content in inputs]
    return Sheet('Digests', ('', '', 'SHA-256'), tuple(rows))


def made_again(head: PageHead, files: Sequence[tuple[str, str]]) -> str:
    """The command that makes the page of these files again, each as (what it is, its name)."""
    words = [word for what, name in files for word in (['--table', name] if what == 'table' else [name])]
    return shlex.join(['pinchdesk', 'page', *words, *head.words(), '-o', 'page.html'])
