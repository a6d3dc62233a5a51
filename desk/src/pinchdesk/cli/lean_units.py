"""For a command pint is loaded without the packages whose classes it would know: these take longer than all else."""
from __future__ import annotations

import sys
from collections.abc import Sequence
from importlib.abc import MetaPathFinder
from importlib.machinery import ModuleSpec
from types import ModuleType

PACKAGES = ('pandas', 'xarray', 'dask')


class NotForUnits(MetaPathFinder):
    """Finds none of these packages as long as pint is being loaded; afterwards, whoever asks for one has it."""

    def find_spec(self, fullname: str, path: Sequence[str] | None,
                  target: ModuleType | None = None) -> ModuleSpec | None:
        if fullname in PACKAGES and 'pint' in sys.modules and 'pint.registry' not in sys.modules:
            raise ModuleNotFoundError(f'{fullname} is not for units', name=fullname)
        return None


def load_units_alone() -> None:
    """From now on, in this process."""
    sys.meta_path.insert(0, NotForUnits())
