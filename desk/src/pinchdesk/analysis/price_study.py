"""A price study asked of `pinch`, in the prices of its case."""
from __future__ import annotations

from dataclasses import dataclass

from ..formats.case import Case, completed
from ..program.answers import Prices
from ..program.run import Pinch
from ..tables.study_prices import studied
from .sweep_request import check_workers


@dataclass(frozen=True)
class StudyAnswer:
    """What a study asks, answered: `case` is completed, in prices that are fine enough for the study, and `notes` is
    told of the study."""

    case: Case
    prices: Prices
    notes: tuple[str, ...]


def study_answer(pinch: Pinch, case: Case, study: bytes, workers: int) -> StudyAnswer:
    """The answers to a study; `Refused` where it cannot be read, or its unit is not that of the case."""
    check_workers(workers)
    asked = studied(study, case)
    prices = pinch.prices(asked.case, asked.content, workers)
    return StudyAnswer(completed(asked.case), prices, asked.notes)
