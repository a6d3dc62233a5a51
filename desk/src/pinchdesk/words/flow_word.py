"""The word `flow`."""
from __future__ import annotations

from ..analysis.range_checks import checked_ranges
from ..errors import about
from ..formats.shown import Shown
from ..program.answers import Cut
from ..program.run import Pinch
from ..report.answer_sheets import cut_told, flow_facts, flow_sheets
from ..report.range_sheets import heat_facts, range_sheets
from ..search.budget import Telling, nobody
from .shared import CASE, SHOWN_IN, CaseShown, completed_case
from .word import Answer, Files, Word, feasibility


def flow(files: Files, _: CaseShown = CaseShown(), tell: Telling = nobody) -> Answer:
    file = files.one('case')
    with about(case=file.name):
        pinch = Pinch()
        printed, case = pinch.flow(file.content), completed_case(file.content)
        cut = printed if isinstance(printed, Cut) else None
        least = None if isinstance(printed, Cut) else printed.cost
        ranges = range_sheets(case, checked_ranges(pinch, case), least)
    facts = (*flow_facts(case, printed), *heat_facts(case, least))
    return Answer((*flow_sheets(case, printed), *ranges), facts=(facts,),
                  headline=cut_told(cut, Shown(case.basis)) if cut else '', status=feasibility(cut is None))


FLOW = Word('flow', 'a heat flow of least cost with its proof, or the proof that there is none',
            'pinchdesk flow examples/two-steam-levels.csv', (CASE,), CaseShown, flow, (SHOWN_IN,))
