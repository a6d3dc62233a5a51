"""The word `targets`."""
from __future__ import annotations

from ..analysis.range_checks import checked_ranges, without_ranges
from ..errors import about
from ..program.run import Pinch
from ..report.answer_sheets import targets_facts, targets_sheets
from ..report.range_sheets import heat_facts, plant_sheets, range_sheets
from ..search.budget import Telling, nobody
from .shared import CASE, SHOWN_IN, CaseShown, completed_case, rounding_told
from .word import Answer, Files, Word


def targets(files: Files, _: CaseShown = CaseShown(), tell: Telling = nobody) -> Answer:
    file = files.one('case')
    with about(case=file.name):
        pinch = Pinch()
        printed, case = pinch.targets(file.content), completed_case(file.content)
        ranges = range_sheets(case, checked_ranges(pinch, case))
        alone = without_ranges(case) if case.basis.ranges else None
        ranges += plant_sheets(alone, pinch.targets(alone)) if alone else []
    facts = (*targets_facts(case, printed), *heat_facts(case))
    return Answer((*targets_sheets(case, printed), *ranges), facts=(facts,), notes=rounding_told(file, case))


TARGETS = Word('targets', 'the least hot and cold utility, and the pinches',
               'pinchdesk targets examples/four-stream.csv', (CASE,), CaseShown, targets, (SHOWN_IN,))
