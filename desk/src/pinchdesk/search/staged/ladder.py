"""One window: more stages from time to time until there is an answer, and one more to see whether it gets fewer.

Where there are many places for exchangers, the pairs are few at first: as many as the transshipment model needs."""
from __future__ import annotations

import math
import random
from collections.abc import Sequence
from dataclasses import replace
from fractions import Fraction

from .ask import SolverAnswer, Solver, answer_with
from .one_window import as_one
from .pair_sets import PairSets
from .slots import Asked, slots_of
from .transshipment import Pair
from .vertical import upright
from .windows import Window

# The most stages of a window at first; how many places are many; how many sets of few pairs, and how
# many answers by the composite curves, are tried.
STAGES, MANY, SETS, STARTS = 8, 50, 12, 10
# With more places than that a model is not looked at as a whole where there is an answer already.
LARGE = 150


class Ladder:
    """The search in one window; with a limit of cost where the uses of its utilities are open, and then `begins` is
    the window with some uses that do. With an answer already, it looks for better ones alone."""

    def __init__(self, solver: Solver, window: Window, most_cost: Fraction | None = None,
                 best: SolverAnswer | None = None, begins: Sequence[Window] = ()) -> None:
        self.solver, self.window, self.most_cost = solver, window, most_cost
        self.until = math.inf
        self.sets = PairSets(solver, window, most_cost)
        self.best, self.begins = best, begins or (window,)
        self.most_stages, self.chance = STAGES, random.Random(1)

    @property
    def left(self) -> float:
        return self.until - self.solver.effort.spent

    @property
    def is_done(self) -> bool:
        """Whether there is an answer that cannot be better, or no time for a better one."""
        return self.best is not None and (self.best.count <= self.sets.least or self.left <= 0)

    def run(self, seconds: float) -> SolverAnswer:
        """An answer, in so many seconds, or in more where none was found; `TimeOver` where none was at all."""
        self.until = self.solver.effort.spent + seconds
        few = self.sets.first(seconds / 4)
        if len(slots_of(self.asked(2))) > MANY:
            self.upright(STARTS)
            if self.best is not None:
                self.attempt(replace(self.best.asked, slots=self.best.used), max(1.0, self.left / 8))
            self.with_few(few)
        while not self.is_done:
            best_before = self.best
            self.climb(None, max(1.0, self.left / 4))
            if self.best is not None and self.best is best_before:
                break
            if self.best is None:
                self.until, self.most_stages = self.solver.effort.spent + seconds, self.most_stages + 2
        assert self.best is not None
        return self.best

    def with_few(self, few: frozenset[Pair] | None) -> None:
        """One set of few pairs after the other, with half of the time."""
        tried: set[frozenset[Pair]] = set()
        last: frozenset[Pair] = frozenset()
        until = self.solver.effort.spent + self.left / 2
        for _ in range(SETS):
            if few is not None and few not in tried:
                tried.add(few)
                self.climb(few, max(1.0, self.left / 8))
                if self.best is None and len(tried) > 1:
                    self.climb(last | few, max(1.0, self.left / 8))
                last = few
            if self.is_done or self.solver.effort.spent > until or not self.sets.count:
                return
            few = self.sets.other(max(1.0, self.left / 8))

    def begin(self) -> None:
        """An answer by the composite curves, where there is one."""
        for _ in range(STARTS):
            if self.best is None:
                self.upright(1)

    def upright(self, starts: int) -> None:
        """Answers by the composite curves, the best of so many."""
        for _ in range(starts):
            if self.best is not None and self.solver.effort.left <= 0:
                return
            begun = upright(self.asked(0), self.chance.choice(self.begins), self.chance)
            if begun is None:
                continue
            asked, used = as_one(self.window, begun.slots or frozenset())
            if self.best is None or len(used) < self.best.count:
                self.best = answer_with(replace(asked, slots=used, most_cost=self.most_cost)) or self.best

    def asked(self, stages: int) -> Asked:
        return Asked((self.window,), (stages,), None, self.most_cost)

    def climb(self, pairs: frozenset[Pair] | None, seconds: float) -> None:
        """More stages, until there is a better answer, and one more did not better it."""
        found = 0
        for stages in range(self.most_stages + 1):
            if self.is_done or found and stages > found:
                return
            slots = slots_of(self.asked(stages))
            if pairs is not None:
                slots = frozenset(slot for slot in slots if slot.pair in pairs)
            if not slots or self.best is not None and len(slots) > LARGE:
                continue
            if self.attempt(replace(self.asked(stages), slots=slots), seconds):
                found = stages + 1

    def attempt(self, asked: Asked, seconds: float) -> bool:
        """One model; whether it bettered the answer."""
        most = None if self.best is None else self.best.count - 1
        outcome = self.solver.ask(asked, seconds, self.sets.least, most)
        if outcome.answer is not None:
            self.best = outcome.answer
        return outcome.answer is not None
