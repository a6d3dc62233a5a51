"""Sets of few pairs that could do for a window, by the transshipment model: one with as few pairs as there may be, then
others of the same number by chance. A staged model with these pairs alone is small."""
from __future__ import annotations

import random
from dataclasses import replace
from fractions import Fraction

from ..budget import rounded_up
from ..solver.linear import OutOfTime, Program, LinearRow
from .ask import Solver
from .transshipment import Pair, transshipment
from .windows import Window

# How far from the best by its weights a set by chance may be.
GAP = 0.3


class PairSets:
    """The sets of a window. `least` is a bound on the exchangers of every network of it."""

    def __init__(self, solver: Solver, window: Window, most_cost: Fraction | None = None) -> None:
        self.solver = solver
        self.program, self.used = transshipment(window, most_cost)
        self.random = random.Random(1)
        self.least, self.count = 0, 0

    def first(self, seconds: float) -> frozenset[Pair] | None:
        """As few pairs as there may be, or as were found in the time; None where none were."""
        return self.ask(self.program, seconds, 1e-6, True)

    def other(self, seconds: float) -> frozenset[Pair] | None:
        """As many other pairs, by chance."""
        weights = tuple((at, Fraction(self.random.randrange(100, 200), 100)) for at in self.used.values())
        limit = LinearRow(self.program.aim, None, Fraction(self.count))
        return self.ask(replace(self.program, rows=(*self.program.rows, limit), aim=weights), seconds, GAP, False)

    def ask(self, program: Program, seconds: float, gap: float, is_first: bool) -> frozenset[Pair] | None:
        try:
            solved = self.solver.apart.solve(program, self.solver.effort.slice(seconds), gap)
        except OutOfTime as fault:
            self.least = rounded_up(fault.bound) if is_first else self.least
            return None
        if solved is None:
            return None
        found = frozenset(pair for pair, at in self.used.items() if solved.values[at] > 0.5)
        if is_first:
            self.least, self.count = rounded_up(solved.bound), len(found)
        return found
