"""The least cost of a structure, the fewest of its exchangers at a cost, the cheapest with so many: each exact, or not
at all."""
from __future__ import annotations

import math
from fractions import Fraction

from ...formats.case import Case
from ..solver.linear import OutOfTime, Program, exact, solve
from .balances import DutyModel
from .network_structure import Costed
from .structure import Structure, reduced

# Two costs that differ by less than this part of the greatest are one to the solver.
FINE = 10 ** 6


def cheapest(case: Case, structure: Structure) -> Costed | None:
    """The least cost of a structure, without the exchangers that it leaves without a duty; None where it cannot do
    what the case wants."""
    model = DutyModel(case, structure)
    point = exact(model.cheapest(), ())
    if point is None:
        return None
    duties = {name: point[at] * model.unit for name, at in model.at.items() if point[at]}
    gone = frozenset(name for name in model.names if name not in duties)
    return Costed(reduced(structure, gone), duties, model.cost.at(point))


def least_cost(case: Case, structure: Structure) -> float:
    """The least cost of a structure in floats, for a comparison of many; infinite where there is none."""
    found = solve(DutyModel(case, structure).cheapest())
    return found.aim if found else math.inf


def fewest(case: Case, structure: Structure, cost: Fraction, most: int, seconds: float) -> Costed | None:
    """The fewest of the exchangers of a structure, and at most so many, with which it costs no more than this."""
    model = DutyModel(case, structure)
    # A little more for the solver, whose rows hold as far as floats do; what it chooses is costed exactly.
    made = settled(case, structure, model.fewest(cost + model.scale / FINE, most), seconds)
    return made if made and made.cost <= cost else None


def cheapest_of(case: Case, structure: Structure, most: int, seconds: float, below: Fraction | None = None,
                fresh: frozenset[str] = frozenset()) -> Costed | None:
    """The least cost with at most so many of the exchangers of a structure, or nearly so with few of the fresh ones;
    None where it is not below a cost."""
    model = DutyModel(case, structure)
    most_cost = None if below is None else below - model.scale / FINE
    return settled(case, structure, model.cheapest_of(most, most_cost, fresh), seconds)


def settled(case: Case, structure: Structure, program: Program, seconds: float) -> Costed | None:
    """What a program with a choice of exchangers chooses, and then its least cost."""
    try:
        found = solve(program, max(seconds, 0.05))
    except OutOfTime:
        return None
    if found is None:
        return None
    count = len(structure.pairs)
    gone = frozenset(name for at, name in enumerate(structure.pairs) if found.values[count + at] < 0.5)
    return cheapest(case, reduced(structure, gone))
