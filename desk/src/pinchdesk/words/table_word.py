"""The word `table`."""
from __future__ import annotations

from ..analysis.audited import asked_pinches, audited
from ..analysis.findings import headline
from ..errors import about
from ..program.run import Pinch
from ..report.exchangers import (exchangers_sheet, mixes_sheets, streams_sheets, sums_facts, sums_sheet, verdict_sheet)
from ..search.budget import Telling, nobody
from .shared import CASE, NETWORK, SHOWN_IN, CaseShown, areas_beside, ended, open_notes, with_areas
from .word import Answer, Files, Word


def table(files: Files, _: CaseShown = CaseShown(), tell: Telling = nobody) -> Answer:
    case, network = files.one('case'), files.one('network')
    with about(case=case.name, network=network.name):
        pinch = Pinch()
        followed, verdict = audited(pinch, case.content, network.content)
        pinches, beside = asked_pinches(pinch, case.content), areas_beside(pinch, followed, verdict)
    sheets = (verdict_sheet(followed, verdict), exchangers_sheet(followed, pinches, verdict),
              *mixes_sheets(followed, verdict), *streams_sheets(followed, verdict), sums_sheet(followed))
    answer = Answer(sheets, facts=(sums_facts(followed),), headline=headline(followed, verdict),
                    notes=open_notes(network, followed))
    return ended(with_areas(answer, beside, all_exchangers=True), [verdict])


TABLE_OF_EXCHANGERS = Word('table', 'the exchangers of a network: temperatures, differences, duties, side of the '
                           'pinch, penalties', 'pinchdesk table examples/tc3.csv examples/tc3-network.txt',
                           (CASE, NETWORK), CaseShown, table, (SHOWN_IN,))
