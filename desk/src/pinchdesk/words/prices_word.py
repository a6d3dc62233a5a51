"""The word `prices`."""
from __future__ import annotations

from dataclasses import dataclass

from ..analysis.price_study import StudyAnswer, study_answer
from ..errors import about
from ..formats.case import read_case
from ..program.run import Pinch
from ..report.answer_sheets import prices_tables
from ..report.facts import rows_of_tables
from ..search.budget import Telling, nobody
from .shared import CASE, SHOWN_IN, USUAL_WORKERS, WORKERS, CaseShown, sizes_told, told_of
from .word import Answer, Files, Role, Word, feasibility

STUDY = Role('study', 'a price study (docs/FORMATS.md), in the unit of the prices of the case')


@dataclass(frozen=True)
class PricesOptions(CaseShown):
    """By how many workers a study is answered."""

    workers: int = USUAL_WORKERS


def answered_study(files: Files, workers: int) -> StudyAnswer:
    """The study of the files, of their case, answered."""
    case, study, pinch = files.one('case'), files.one('study'), Pinch()
    with about(case=case.name):
        pinch.targets(case.content)
    with about(study=study.name):
        return study_answer(pinch, read_case(case.content), study.content, workers)


def prices(files: Files, options: PricesOptions = PricesOptions(), tell: Telling = nobody) -> Answer:
    answered = answered_study(files, options.workers)
    tables = prices_tables(answered.case, answered.prices)
    return Answer(tuple(table.sheet() for table in tables), facts=rows_of_tables(tables),
                  notes=(*told_of(files.one('study'), answered.notes), *sizes_told(files.one('case'), answered.case)),
                  status=feasibility(answered.prices.feasible))


PRICES = Word('prices', 'the least cost at other prices',
              'pinchdesk prices examples/two-steam-levels.csv examples/steam-prices.csv', (CASE, STUDY), PricesOptions,
              prices, (WORKERS, SHOWN_IN))
