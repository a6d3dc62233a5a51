"""The word `sweep`."""
from __future__ import annotations

from ..analysis.sweep_request import as_it_is, asked_range
from ..errors import about
from ..formats.case import units_of
from ..program.run import Pinch
from ..report.answer_sheets import sweep_table
from ..search.budget import Telling, nobody
from .shared import CASE, RANGE, SHOWN_IN, WORKERS, SweepOptions, completed_case, rounding_told, sizes_told
from .word import Answer, Files, Word, feasibility


def sweep(files: Files, options: SweepOptions, tell: Telling = nobody) -> Answer:
    file = files.one('case')
    asked = asked_range(options.first, options.last, options.step, options.workers, units_of(file.content))
    with about(case=file.name):
        pinch = Pinch()
        printed, case = pinch.sweep(file.content, *asked, options.workers), completed_case(file.content)
        table = sweep_table(case, printed, as_it_is(pinch, file.content, case))
    return Answer((table.sheet(),), facts=table.rows, notes=(*rounding_told(file, case), *sizes_told(file, case)),
                  status=feasibility(printed.feasible))


SWEEP = Word('sweep', 'targets and least cost over the least difference',
             'pinchdesk sweep examples/four-stream.csv 0 20 2', (CASE,), SweepOptions, sweep,
             (*RANGE, WORKERS, SHOWN_IN))
