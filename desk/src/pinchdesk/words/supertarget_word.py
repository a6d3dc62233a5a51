"""The word `supertarget`."""
from __future__ import annotations

from dataclasses import dataclass
from typing import TYPE_CHECKING

from ..analysis.sweep_request import asked_range
from ..errors import about
from ..formats.case import units_of
from ..program.run import Pinch
from ..search.budget import Telling, nobody
from .shared import CASE, FILM, RANGE, SHOWN_IN, WORKERS, SweepOptions, case_with_film
from .word import Answer, Files, Word

if TYPE_CHECKING:
    from ..costs.supertarget import Supertarget


@dataclass(frozen=True)
class SupertargetOptions(SweepOptions):
    """The range of a sweep, and a film coefficient for the sources that have none."""

    film: str | None = None


def found_over_difference(files: Files, options: SweepOptions) -> tuple[Supertarget, tuple[str, ...]]:
    """The supertarget, and what is reported about its case."""
    from ..costs.supertarget import supertarget
    file = files.one('case')
    asked = asked_range(options.first, options.last, options.step, options.workers, units_of(file.content))
    film = options.film if isinstance(options, SupertargetOptions) else None
    with about(case=file.name):
        case, told = case_with_film(file, film)
        return supertarget(case, *asked, Pinch(), options.workers), told


def over_difference(files: Files, options: SweepOptions, tell: Telling = nobody) -> Answer:
    from ..report.cost_sheets import least_table, notes_sheets, supertarget_notes, supertarget_table
    found, told = found_over_difference(files, options)
    table, notes = supertarget_table(found), supertarget_notes(found)
    sheets = (least_table(found).sheet(), table.sheet(), *notes_sheets(notes))
    return Answer(sheets, facts=table.rows, headline='; '.join(notes), notes=told)


SUPERTARGET = Word('supertarget', 'energy, area, capital and annual cost over the least difference',
                   'pinchdesk supertarget examples/reactors-cost.csv 4 20 4', (CASE,), SupertargetOptions,
                   over_difference, (*RANGE, WORKERS, FILM, SHOWN_IN))
