"""Scenarios of cases: each case as it is, and as each scenario of a table of changes has it, as `whatif` reads them."""
from __future__ import annotations

from collections.abc import Iterable
from dataclasses import replace

from ..analysis.change_table import CaseScenario, CaseScenarios, read_changes
from ..analysis.what_if import changed
from ..errors import of_file
from ..formats.case import print_case, read_case
from ..formats.comments import Basis
from ..words.word import TextFile
from .inputs import Listed

SCENARIO, BASE = 'scenario', 'base'


class ScenarioTable:
    """A table of changes, which is read once for all cases of one scale and one unit of prices."""

    def __init__(self, file: TextFile) -> None:
        """`Refused` where it cannot be read; whether its prices are in the unit of a case is for each case to say."""
        self.file = file
        self.read: dict[tuple[object, ...], CaseScenarios] = {}
        self.first = self.scenarios(None)

    @property
    def notes(self) -> tuple[str, ...]:
        return tuple(f'{self.file.name}: {note}' for note in self.first.notes)

    def scenarios(self, basis: Basis | None) -> CaseScenarios:
        key = (basis.scale, basis.price_unit) if basis else ()
        if key not in self.read:
            with of_file(self.file.name):
                self.read[key] = read_changes(self.file.content, self.file.name, basis)
        return self.read[key]

    def rows(self, rows: Iterable[Listed]) -> tuple[Listed, ...]:
        """Each case as it is and in each scenario, as rows."""
        names = (BASE, *(scenario.name for scenario in self.first.variants))
        return tuple(replace(row, names={**row.names, SCENARIO: name}) for row in rows for name in names)

    def varied(self, case: TextFile, name: str) -> TextFile:
        """A case in a scenario. `Refused` where a change names what it has not."""
        if name == BASE:
            return case
        with of_file(case.name):
            read = read_case(case.content)
        with of_file(self.file.name):
            outcome = changed(read, self.scenario(read.basis, name))
        return TextFile(case.name, print_case(outcome.case).encode())

    def scenario(self, basis: Basis, name: str) -> CaseScenario:
        return next(scenario for scenario in self.scenarios(basis).variants if scenario.name == name)
