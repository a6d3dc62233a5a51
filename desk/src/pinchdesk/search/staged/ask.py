"""Models asked of the solver, in slices of the time that a search has."""
from __future__ import annotations

from collections.abc import Sequence
from dataclasses import dataclass, replace
from fractions import Fraction

from ..budget import Effort, rounded_up
from ..solver.interior_point import roomy
from ..solver.linear import OutOfTime, Program, exact
from ..solver.process import Apart
from .model import StagedModel
from .slots import Asked, Slot
from .stages import model_of

# How near the best a point has to be whose bound is asked for.
GAP = 1e-6
# A denominator above this makes sizes of branches that are too fine for `pinch audit`.
LONG = 10 ** 9


@dataclass(frozen=True)
class SolverAnswer:
    """An exact point of a model, with the slots that are used in it, and its number of exchangers."""

    model: StagedModel
    point: tuple[Fraction, ...]

    @property
    def asked(self) -> Asked:
        return self.model.asked

    @property
    def used(self) -> frozenset[Slot]:
        return frozenset(slot for slot, at in self.model.duties.items() if self.point[at] > 0)

    @property
    def count(self) -> int:
        joined = {(joint.upper, joint.lower) for joint, at in self.model.joints.items() if self.point[at] == 1}
        return len(self.used) - len(joined)


@dataclass(frozen=True)
class SolverOutcome:
    """What came of a question: an answer, or none; what the solver says that no answer goes below; whether it is
    settled, so that there is no better one, or none at all."""

    answer: SolverAnswer | None
    bound: int
    settled: bool


class Solver:
    """Asks the solver; each question has a slice of the time. `TimeOver` is raised where none is left."""

    def __init__(self, effort: Effort) -> None:
        self.effort = effort
        self.apart = Apart()

    def ask(self, asked: Asked, seconds: float, least: int | None = None, most: int | None = None) -> SolverOutcome:
        """As few exchangers as there may be, between two numbers."""
        slice = self.effort.slice(seconds)
        model = model_of(asked)
        none = SolverOutcome(None, 0 if most is None else most + 1, True)
        if least is not None and most is not None and least > most:
            return none
        try:
            solved = self.apart.solve(model.program(least, most), slice)
        except OutOfTime as fault:
            return SolverOutcome(None, rounded_up(fault.bound), False)
        if solved is None:
            return none
        point = point_at(model, solved.values)
        answer = None if point is None else SolverAnswer(model, point)
        return SolverOutcome(answer, rounded_up(solved.bound), solved.optimal and answer is not None)


def least_of(solver: Solver, program: Program, seconds: float) -> int:
    """What the solver says that no point of a program has fewer exchangers than, after so long."""
    try:
        solved = solver.apart.solve(program, solver.effort.slice(seconds), GAP)
    except OutOfTime as fault:
        return rounded_up(fault.bound)
    return 0 if solved is None else rounded_up(solved.bound)


def point_at(model: StagedModel, values: Sequence[float]) -> tuple[Fraction, ...] | None:
    """An exact point with the exchangers of these values: a vertex, or one with room where the vertex has long
    fractions."""
    program = replace(model.program(), aim=())
    point = exact(program, values)
    if point is None or max((coordinate.denominator for coordinate in point), default=1) > LONG:
        grains = {at: 1 / model.unit for at in model.duties.values()}
        return roomy(program, values, grains) or point
    return point


def answer_with(asked: Asked) -> SolverAnswer | None:
    """An answer in which each slot that is asked for has its exchanger, and none is joined."""
    model = model_of(asked)
    used = set(model.uses.values())
    point = point_at(model, [1.0 if at in used else 0.0 for at in range(len(model.lows))])
    return None if point is None else SolverAnswer(model, point)
