"""An answer made better part by part: some streams are matched anew, while the others may only lose exchangers."""
from __future__ import annotations

import random
from collections.abc import Callable
from dataclasses import replace

from .ask import SolverAnswer, Solver
from .slots import Slot, slots_of

# How many slots are free at first, and for how long the solver may think of them.
FREE = 40
SECONDS = 10.0


class Parts:
    """The search around an answer. Each better one is handed to `taking`."""

    def __init__(self, solver: Solver, answer: SolverAnswer, taking: Callable[[SolverAnswer], None]) -> None:
        self.solver, self.answer, self.taking = solver, answer, taking
        self.slots = slots_of(answer.asked)
        self.random = random.Random(1)

    def run(self, enough: Callable[[], bool]) -> bool:
        """Searches until it is enough, or the whole was looked through: whether it was. `TimeOver` where there is no
        time."""
        free = FREE
        while not enough():
            part = self.part(free)
            settled = self.attempt(part | self.answer.used)
            if part == self.slots and settled:
                return True
            free = free + free // 8 + 1 if settled else max(FREE // 2, free * 3 // 4)
        return False

    def attempt(self, slots: frozenset[Slot]) -> bool:
        """One part; whether it was looked through."""
        asked = replace(self.answer.asked, slots=slots)
        outcome = self.solver.ask(asked, SECONDS, None, self.answer.count - 1)
        if outcome.answer is not None:
            self.answer = outcome.answer
            self.taking(outcome.answer)
        return outcome.settled

    def part(self, free: int) -> frozenset[Slot]:
        """The slots of some streams with each other, as many as there are asked for, or all."""
        if free >= len(self.slots):
            return self.slots
        names = sorted({name for slot in self.slots for name in slot.pair})
        self.random.shuffle(names)
        chosen: set[str] = set()
        part: set[Slot] = set()
        for name in names:
            chosen.add(name)
            more = {slot for slot in self.slots if slot.hot in chosen and slot.cold in chosen}
            if part and len(more) > free:
                chosen.discard(name)
                continue
            part = more
        return frozenset(part)
