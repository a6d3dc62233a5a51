"""Duties of a structure whose fractions are short: not at a vertex, where tight approaches in a chain make them long,
but with room on all sides, and as coarse as they may be."""
from __future__ import annotations

from dataclasses import replace
from fractions import Fraction

from ...formats.case import Case
from ..reduce.balances import DutyModel
from ..reduce.network_structure import Costed
from ..reduce.structure import Structure, reduced
from ..solver.interior_point import roomy


def with_room(case: Case, structure: Structure, most_cost: Fraction) -> Costed | None:
    """A structure with such duties, at most at this cost; None where none were found."""
    model = DutyModel(case, structure)
    program = model.cheapest()
    program = replace(program, rows=(*program.rows, model.cost.row(None, most_cost)))
    watt = 1 / model.unit
    point = roomy(program, (), {at: watt for at in range(len(model.names))})
    if point is None:
        return None
    duties = {name: point[at] * model.unit for name, at in model.at.items() if point[at]}
    gone = frozenset(name for name in model.names if name not in duties)
    return Costed(reduced(structure, gone), duties, model.cost.at(point))
