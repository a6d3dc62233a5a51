"""The areas and annual costs of networks that stand in rows, as far as their case says enough for them."""
from __future__ import annotations

from collections.abc import Sequence
from typing import TYPE_CHECKING

from ..analysis.follow import follow
from ..costs.areas_beside import NO_TARGET, AreasBeside, areas_beside
from ..formats.case import Case
from .cost_sheets import currency_of, metres, money
from .facts import Fact, FactRow

if TYPE_CHECKING:
    from ..search.accepted import AcceptedNetwork


def facts_of_rows(case: Case, networks: Sequence[AcceptedNetwork | None]) -> list[FactRow]:
    """The facts of each row of a completed case, alike in all rows; None is a row without a network."""
    besides = [None if found is None else areas_beside(follow(case, found.network), found.verdict, NO_TARGET)
               for found in networks]
    costed = next((beside.costs for beside in besides if beside and beside.costs), None)
    unit = f'{currency_of(costed.data)}/a' if costed else ''
    has_areas = any(beside and beside.areas for beside in besides)
    return [facts_of_row(beside, has_areas, unit) for beside in besides]


def facts_of_row(beside: AreasBeside | None, has_areas: bool, unit: str) -> FactRow:
    areas, costs = (beside.areas, beside.costs) if beside else (None, None)
    area = (Fact('area', metres(areas.area) if areas else None, 'm²'),) if has_areas else ()
    return *area, *((Fact('annual cost', money(costs.cost.whole) if costs else None, unit),) if unit else ())
