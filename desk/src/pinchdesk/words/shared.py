"""What several words take and answer."""
from __future__ import annotations

import os
from collections.abc import Iterable
from dataclasses import dataclass, replace
from typing import TYPE_CHECKING

from ..analysis.follow import Followed
from ..analysis.unfinished import unfinished_told
from ..formats.amounts import whole
from ..formats.case import Case, completed, read_case
from ..program.run import Pinch
from ..program.verdicts import Accepted, Verdict, ending
from .word import Answer, Option, Role, TextFile

if TYPE_CHECKING:
    from ..costs.areas_beside import AreasBeside
    from ..search.annual_choice import AnnualChooser

CASE = Role('case', 'a case file, as `pinchdesk case` writes it')
NETWORK = Role('network', 'a network text')
SITE = Role('site', 'a site file (docs/FORMATS.md), in tenths of °C and 10 W/K, times its #scale')
USUAL_WORKERS = min(16, os.cpu_count() or 1)
WORKERS = Option('workers', 'how many workers make it (1 to 16); the answer is the same', ('--workers',), whole,
                 USUAL_WORKERS, metavar='N', in_many=1)
RANGE = tuple(Option(name, 'a least difference in K, of a fifth of a K at least; of a case in units of its own with '
                     'its unit', metavar=name.upper()) for name in ('first', 'last', 'step'))
SHOWN_IN = Option('units', 'SI: a case in units of its own is shown in °C and kW', ('--units',), default='table',
                  choices=('SI', 'table'))
FILM = Option('film', 'a film coefficient for each source that has none, which is reported: 500 in W/m2K, or '
              '"0.5 kW/m2K"', ('--film',), metavar='H')
SHEET = Option('sheet', 'the sheet of a workbook; otherwise the first one', ('--sheet',), metavar='NAME')
SEPARATOR = Option('separator', 'what separates the fields of a text; `tab` is a tab', ('--separator',),
                   metavar='SIGN')
DECIMAL = Option('decimal', 'the decimal mark, where the table leaves it open', ('--decimal',),
                 choices=('.', ','))


@dataclass(frozen=True, kw_only=True)
class CaseShown:
    """In which units a case is shown that has units of its own: its `table`'s, or SI."""

    units: str = 'table'


@dataclass(frozen=True)
class SweepOptions(CaseShown):
    """The first and the last least difference of a sweep and its step, in K or with their units."""

    first: str
    last: str
    step: str
    workers: int = USUAL_WORKERS


def completed_case(content: bytes) -> Case:
    """A case that the program has read, with the utilities that stand in."""
    return completed(read_case(content))


def case_with_film(file: TextFile, film: str | None) -> tuple[Case, tuple[str, ...]]:
    """A completed case, with this film coefficient for the sources that have none, which is reported."""
    case = completed_case(file.content)
    if film is None:
        return case, ()
    from ..costs.one_film import film_of, with_film
    case, told = with_film(case, film_of(film))
    return case, told_of(file, [told] if told else [])


def told_of(file: TextFile | None, notes: Iterable[str]) -> tuple[str, ...]:
    """Notes with the name of the file that they are about."""
    return tuple(f'{file.name}: {note}' for note in notes) if file else ()


def open_notes(network: TextFile, followed: Followed) -> tuple[str, ...]:
    """That a network is unfinished, where it is."""
    unfinished = unfinished_told(followed)
    return told_of(network, [f'{unfinished}: what is open counts as served by utilities'] if unfinished else [])


def rounding_told(file: TextFile, case: Case) -> tuple[str, ...]:
    """How far what its table rounded takes the targets of a case."""
    return told_of(file, [case.basis.rounding] if case.basis.rounding else [])


def sizes_told(file: TextFile, case: Case) -> tuple[str, ...]:
    """That utilities with a range keep their sizes where a word changes the case."""
    names = ', '.join(utility.name for utility in case.basis.ranges)
    return told_of(file, [f'utilities with a range ({names}) keep the sizes of the case in all rows; the others give '
                          'and take the rest'] if names else [])


def areas_beside(pinch: Pinch, followed: Followed, verdict: Verdict) -> AreasBeside | None:
    """The areas and costs beside an accepted network, all of it placed, whose case says something of them."""
    if not isinstance(verdict, Accepted) or not followed.case.basis.cost_rows or unfinished_told(followed):
        return None
    # It is slow to load, and few cases have areas.
    from ..costs.areas_beside import asked_beside
    return asked_beside(pinch, followed, verdict)


def annual_chooser(case: Case) -> AnnualChooser:
    """What chooses by annual cost; `Refused` before the search where the case does not say what that needs."""
    from ..search.annual_choice import AnnualChooser
    return AnnualChooser(completed(case))


def with_areas(answer: Answer, beside: AreasBeside | None, all_exchangers: bool = False) -> Answer:
    """An answer about one network with its areas and costs behind it; an approach that is not there is in its
    headline."""
    if beside is None:
        return answer
    from ..report.area_sheets import audit_areas, facts_beside, table_areas
    sheets = table_areas(beside) if all_exchangers else audit_areas(beside)
    told = '; '.join(word for word in (answer.headline, *map(str, beside.faults)) if word)
    return replace(answer, sheets=(*answer.sheets, *sheets), headline=told,
                   facts=((*answer.facts[0], *facts_beside(beside)),))


def ended(answer: Answer, verdicts: Iterable[Verdict], flows: Iterable[object] = ()) -> Answer:
    """An answer that is a verdict ends as that says."""
    status, no = ending(verdicts, flows)
    return replace(answer, status=status, no=no)
