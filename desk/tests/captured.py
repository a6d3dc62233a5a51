"""The command, run in the process of the tests."""
from __future__ import annotations

import pytest
from conftest import Done

from pinchdesk.cli.main import main


class Captured:
    """Runs words in this process."""

    def __init__(self, capfd: pytest.CaptureFixture[str]) -> None:
        self.capfd = capfd

    def __call__(self, *words: str) -> Done:
        status = main(list(words))
        printed = self.capfd.readouterr()
        return Done(status, printed.out, printed.err)
