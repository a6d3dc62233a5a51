"""Structures that are no better than the best so far, made exact and judged: they come into a choice by something that
the search does not look at, as the cost of a year."""
from __future__ import annotations

import time
from collections.abc import Sequence
from fractions import Fraction

from ..accepted import Judge
from .jobs import exact_kinds
from .thinning import NEAR_BEST, Aim, Thinned
from .window_courses import shape_of

# What of the time of a search goes to them at most, where it has a time.
SHARE = 0.2


class Visitor:
    """Judges what jobs found, each structure once. `by_steps` where a search has no time: then each is judged."""

    def __init__(self, judge: Judge, most_cost: Fraction, by_steps: bool) -> None:
        self.judge, self.most_cost, self.by_steps = judge, most_cost, by_steps
        self.known: set[str] = set()
        self.begun, self.spent = time.monotonic(), 0.0

    def look(self, found: Sequence[Thinned], aim: Aim) -> None:
        """Judges those of at most a few exchangers more than the best, as long as there is time."""
        for thin in found:
            shape = shape_of(thin.structure.pairs, thin.structure.courses)
            began = time.monotonic()
            is_late = not self.by_steps and self.spent > SHARE * (began - self.begun)
            if is_late or shape in self.known or thin.count > aim.exchangers + NEAR_BEST:
                continue
            self.known.add(shape)
            self.judge_kinds(thin)
            self.spent += time.monotonic() - began

    def judge_kinds(self, thin: Thinned) -> None:
        for costed in exact_kinds(self.judge.case, thin, self.most_cost):
            self.judge.of(costed)
