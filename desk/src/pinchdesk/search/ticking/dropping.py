"""The exchangers of a structure that can go together: a mixed-integer program in floats, limited by nodes."""
from __future__ import annotations

from fractions import Fraction

import numpy
from scipy.optimize import Bounds, LinearConstraint, milp

from ...formats.case import Case, Side, Stream
from ..reduce.balances import beginning, given, has_shares
from ..reduce.float_duties import FloatDuties, Floats, FloatRows
from ..reduce.structure import Structure, reduced
from ..solver.quiet_output import silent
from .thinning import Thinned, thinned_once


def most_duties(case: Case, structure: Structure, unit: float) -> Floats:
    """The most that each exchanger can have by its temperatures."""
    mosts: list[float] = []
    for hot_name, cold_name in structure.pairs.values():
        hot, cold = case.source(hot_name), case.source(cold_name)
        reach = Fraction(beginning(hot) - beginning(cold) - hot.contribution - cold.contribution)
        mosts.append(float(min(given(hot, reach), given(cold, reach))) / unit if reach >= 0 else 0.0)
    return numpy.array(mosts)


def slacks(case: Case, structure: Structure) -> Floats:
    """How far the approach of an exchanger that is not there may be missed at most."""
    beginnings = [beginning(source) for source in case.sources]
    found: list[float] = []
    for hot_name, cold_name in structure.pairs.values():
        hot, cold = case.source(hot_name), case.source(cold_name)
        coldest = far_end(structure, hot_name, hot, beginnings)
        warmest = far_end(structure, cold_name, cold, beginnings)
        found.append(max(0.0, float(hot.contribution + cold.contribution - (coldest - warmest))))
    return numpy.array(found)


def far_end(structure: Structure, name: str, source: object, beginnings: list[int]) -> int:
    """The temperature that a source does not go beyond: in a lane with a share of its own it may pass its target."""
    if not isinstance(source, Stream):
        return int(getattr(source, 'level'))
    ends = [source.target, *(beginnings if has_shares(structure.courses[name]) else [])]
    return min(ends) if source.side is Side.HOT else max(ends)


def constraints_of(rows: FloatRows, count: int, loose: Floats, mosts: Floats, most: int) -> list[LinearConstraint]:
    """The rows of the duties, with a choice behind them of those exchangers that are there."""
    below, limits = numpy.hstack([rows.below, numpy.zeros_like(rows.below)]), rows.limits.copy()
    for at, slack in enumerate(loose):
        for line in (rows.approaches + 2 * at, rows.approaches + 2 * at + 1):
            below[line, count + at] = slack
            limits[line] += slack
    there = numpy.hstack([numpy.eye(count), -numpy.diag(mosts)])
    number = numpy.append(numpy.zeros(count), numpy.ones(count))
    return [LinearConstraint(numpy.hstack([rows.equal, numpy.zeros_like(rows.equal)]), rows.equals, rows.equals),
            LinearConstraint(below, -numpy.inf, limits), LinearConstraint(there, -numpy.inf, 0),
            LinearConstraint(number, 0, most)]


def dropped(case: Case, structure: Structure, most_cost: Fraction, most: int, nodes: int, seconds: float,
            ) -> Thinned | None:
    """A structure of at most so many of the exchangers; None where none was found in so many nodes."""
    model = FloatDuties(case, structure)
    rows = model.rows(most_cost)
    count, mosts = model.count, most_duties(case, structure, model.unit)
    number = numpy.append(numpy.zeros(count), numpy.ones(count))
    with silent():
        found = milp(number, integrality=number, bounds=Bounds(0, numpy.append(mosts, numpy.ones(count))),
                     constraints=constraints_of(rows, count, slacks(case, structure), mosts, most),
                     options={'node_limit': nodes, 'time_limit': seconds})
    if found.x is None:
        return None
    gone = frozenset(name for at, name in enumerate(model.names) if found.x[count + at] < 0.5)
    return thinned_once(case, reduced(structure, gone), most_cost, None)
