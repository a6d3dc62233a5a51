"""The word `whatif`."""
from __future__ import annotations

from dataclasses import dataclass

from ..analysis.change_table import CaseScenarios, read_changes
from ..analysis.sweep_request import check_workers
from ..analysis.what_if import asked_case, compared
from ..errors import Status, about, of_file
from ..program.run import Pinch
from ..report.facts import rows_of_tables
from ..report.what_if_sheets import rounding_notes, what_if_tables
from ..search.budget import Telling, nobody
from .shared import (CASE, DECIMAL, SHEET, SHOWN_IN, USUAL_WORKERS, WORKERS, CaseShown, rounding_told, sizes_told,
                     told_of)
from .word import Answer, Files, Role, Word, feasibility

CHANGES = Role('changes', 'scenarios: .xlsx, or text with separators; without them the plus-minus numbers alone',
               needed=False)


@dataclass(frozen=True)
class WhatIfOptions(CaseShown):
    """How the table of changes is read, and by how many workers its scenarios are asked."""

    sheet: str | None = None
    decimal: str | None = None
    workers: int = USUAL_WORKERS


def whatif(files: Files, options: WhatIfOptions = WhatIfOptions(), tell: Telling = nobody) -> Answer:
    case, changes = files.one('case'), files.get('changes')
    check_workers(options.workers)
    with about(case=case.name):
        pinch = Pinch()
        base = asked_case(pinch, case.content)
        with of_file(changes.name if changes else case.name):
            scenarios = read_changes(changes.content, changes.name, base.case.basis, options.sheet, options.decimal) \
                if changes else CaseScenarios(())
            answered = compared(base, scenarios.variants, pinch, options.workers)
    tables = what_if_tables(answered)
    return Answer(tuple(table.sheet() for table in tables), facts=rows_of_tables(tables),
                  notes=(*rounding_told(case, base.case), *sizes_told(case, base.case),
                         *told_of(changes, (*scenarios.notes, *rounding_notes(answered)))),
                  status=Status.REFUSED if answered.refused else feasibility(not answered.infeasible))


WHATIF = Word('whatif', 'targets, pinch and cost of scenarios beside those of the case, and what more of a stream '
              'would do', 'pinchdesk whatif examples/two-steam-levels.csv examples/changes.csv', (CASE, CHANGES),
              WhatIfOptions, whatif, (SHEET, DECIMAL, WORKERS, SHOWN_IN))
