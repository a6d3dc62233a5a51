"""The word `units`."""
from __future__ import annotations

from dataclasses import replace

from ..analysis.audited import audited
from ..analysis.findings import headline
from ..analysis.follow import Followed
from ..analysis.least_units import Units, least_units
from ..analysis.unfinished import unfinished_told
from ..errors import about
from ..formats.shown import Shown
from ..program.answers import Cut
from ..program.run import Pinch
from ..program.verdicts import Accepted
from ..report.answer_sheets import cut_table
from ..report.facts import rows_of_tables
from ..report.unit_sheets import units_notes, units_sheets, units_tables
from ..search.budget import Telling, nobody
from .shared import CASE, NETWORK, SHOWN_IN, CaseShown, completed_case, ended, told_of
from .word import Answer, Files, Role, Word, feasibility

BESIDE = Role(NETWORK.name, 'a network, whose exchangers are counted too', needed=False)


def units(files: Files, _: CaseShown = CaseShown(), tell: Telling = nobody) -> Answer:
    case, network = files.one('case'), files.get('network')
    with about(case=case.name, network=network.name if network else ''):
        pinch = Pinch()
        counted = least_units(case.content, pinch)
        if isinstance(counted, Cut):
            table = cut_table(counted, Shown(completed_case(case.content).basis))
            return Answer((table.sheet(),), facts=table.rows, status=feasibility(False))
        if network is None:
            return counted_units(counted)
        followed, verdict = audited(pinch, case.content, network.content)
    right = isinstance(verdict, Accepted) and not unfinished_told(followed)
    told = () if right else told_of(network, [headline(followed, verdict)])
    return ended(replace(counted_units(counted, followed), notes=told), [verdict])


def counted_units(counted: Units, followed: Followed | None = None) -> Answer:
    """The numbers, beside those of a network where there is one."""
    return Answer(tuple(units_sheets(counted, followed)), facts=rows_of_tables(units_tables(counted, followed)),
                  headline='; '.join(units_notes(counted, followed)))


UNITS = Word('units', 'the least number of exchangers by the books\' rule, on each side of the pinch',
             'pinchdesk units examples/four-stream.csv examples/four-stream-network.txt', (CASE, BESIDE), CaseShown,
             units, (SHOWN_IN,))
