"""Where the case that is made of a table is kept: asked for by the page before the first change. The page picks a name
that is offered, or says a bare one; the files are then beside the table, and nowhere else."""
from __future__ import annotations

import os
from contextlib import ExitStack
from dataclasses import dataclass, field
from pathlib import Path

from ..errors import DeskError
from ..formats.written_files import check_apart
from .gestures import NotDone
from .own_files import OwnFile, claimed

ENDING, NETWORK_ENDING = '.csv', '-network.txt'
LONGEST, MOST_OFFERED = 100, 3


class Unkept(OwnFile):
    """A file that has no place yet: nothing is read of it, and nothing written."""

    def read(self) -> bytes | None:
        return None

    def save(self, content: bytes) -> None:
        raise NotDone('It is not said yet where the case is kept.')


def beside(case: str) -> str:
    """Where the network of a case is kept unless somebody says it."""
    return str(Path(case).with_name(f'{Path(case).stem}{NETWORK_ENDING}'))


@dataclass
class Keeper:
    """The table, and the network where that was named. `claims` are those on the files that were chosen."""

    table: str
    network: OwnFile | None = None
    claims: ExitStack = field(default_factory=ExitStack)

    def names(self) -> tuple[str, ...]:
        """Names that a case may have beside the table."""
        stem = f'{Path(self.table).stem}-case'
        numbered = [f'{stem}{ending}{ENDING}' for ending in ('', *(f'-{number}' for number in range(2, 100)))]
        return tuple(name for name in numbered if not any(map(os.path.lexists, self.made(name))))[:MOST_OFFERED]

    def made(self, name: str) -> tuple[str, ...]:
        """The files that are made where the case has this name."""
        case = str(Path(self.table).with_name(name))
        return (case,) if self.network else (case, beside(case))

    def files(self, name: str) -> tuple[OwnFile, OwnFile]:
        """Both files where the case has this name, which nobody else may open then; `NotDone` where it cannot be."""
        made = self.made(checked(name))
        for path in filter(os.path.lexists, made):
            raise NotDone(f'{os.path.basename(path)} is there already: choose another name.')
        try:
            check_apart([*made, *([self.network.path] if self.network else [])], [self.table])
            with ExitStack() as claims:
                for path in made:
                    claims.enter_context(claimed(path))
                self.claims = claims.pop_all()
        except DeskError as fault:
            raise NotDone(str(fault)) from fault
        return OwnFile(made[0]), self.network or OwnFile(made[1])

    def let_go(self) -> None:
        """Others may open the files that were chosen."""
        self.claims.close()


def checked(name: str) -> str:
    """A name that a file beside the table may have; `NotDone` where it is none, or would lead elsewhere."""
    bare = name.strip()
    if not bare or len(bare) > LONGEST or bare.startswith('.') or not bare.isprintable() or {'/', '\\'} & set(bare):
        raise NotDone(f'Give a name alone, of at most {LONGEST} letters: the case is kept beside the table.')
    if not bare.lower().endswith(ENDING):
        raise NotDone(f'The name of a case ends with {ENDING}.')
    return bare
