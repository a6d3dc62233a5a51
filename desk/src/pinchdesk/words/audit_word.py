"""The word `audit`."""
from __future__ import annotations

from ..analysis.audited import audited
from ..errors import about
from ..formats.shown import Shown
from ..program.run import Pinch
from ..program.verdicts import Accepted
from ..report.answer_sheets import audit_sheets, audit_told, balance_facts
from ..report.range_sheets import heat_facts, ranges_sheet
from ..search.budget import Telling, nobody
from .shared import CASE, NETWORK, SHOWN_IN, CaseShown, areas_beside, ended, open_notes, with_areas
from .word import Answer, Files, Word


def audit(files: Files, _: CaseShown = CaseShown(), tell: Telling = nobody) -> Answer:
    case, network = files.one('case'), files.one('network')
    with about(case=case.name, network=network.name):
        pinch = Pinch()
        followed, verdict = audited(pinch, case.content, network.content)
        beside = areas_beside(pinch, followed, verdict)
    of_case = followed.case
    ranges = [ranges_sheet(of_case, verdict.cost)] if isinstance(verdict, Accepted) and of_case.basis.ranges else []
    facts = (*balance_facts(verdict, Shown(of_case.basis)), *heat_facts(of_case, verdict.cost)) \
        if isinstance(verdict, Accepted) else ()
    answer = Answer((*audit_sheets(followed, verdict), *ranges), facts=(facts,), headline=audit_told(followed, verdict),
                    notes=open_notes(network, followed))
    return ended(with_areas(answer, beside), [verdict])


AUDIT = Word('audit', 'whether a network is valid, what it costs, and where it loses heat',
             'pinchdesk audit examples/preheater.csv examples/preheater-network.txt', (CASE, NETWORK), CaseShown, audit,
             (SHOWN_IN,))
