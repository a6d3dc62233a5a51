"""What no network of a case has fewer exchangers than: at its cost, and with the uses of the utilities at the least
cost. The solver says both by its floats; as much of them as there is time for is proved in fractions."""
from __future__ import annotations

from collections.abc import Callable
from contextlib import suppress
from dataclasses import dataclass

from ..formats.case import Case
from ..formats.whole_streams import whole_names
from .budget import Effort, TimeOver
from .search_state import SearchState
from .solver.linear import Program
from .staged.ask import Solver, least_of
from .staged.transshipment import transshipment
from .staged.window_bound import window_bound_program
from .staged.windows import whole, windows
from .tasks import NetworkTask


@dataclass(frozen=True)
class Bounding:
    """The bounds of a task, of which each may take so much of its time, and as much again for its proof. `tell` gets
    what is known so far."""

    task: NetworkTask
    share: float
    tell: Callable[[SearchState], None]

    def run(self) -> None:
        task, solver = self.task, Solver(Effort(self.task.seconds, self.task.begun))
        at_least_cost = task.most_cost == task.floor
        # A pair of streams that meets across kinks or cuts may be one exchanger, so that pairs are counted alone.
        streams = whole_names(task.case)
        settled = at_least_cost and has_one_use(task.case) and not streams
        with suppress(TimeOver):
            if at_least_cost and not streams:
                program = window_bound_program(windows(task.case, task.uses))
                self.ask(solver, program, lambda least, proved: SearchState(
                    None, least if settled else 0, of_uses=least, proved=proved if settled else 0,
                    proved_of_uses=proved))
            if not settled:
                program, _ = transshipment(whole(task.case, None), task.most_cost, streams)
                self.ask(solver, program, lambda least, proved: SearchState(None, least, proved=proved))
        solver.apart.end()

    def ask(self, solver: Solver, program: Program, told: Callable[[int, int], SearchState]) -> None:
        """Tells what the solver says, and then what is proved of it."""
        seconds = self.task.seconds * self.share
        least = least_of(solver, program, seconds)
        self.tell(told(least, 0))
        self.tell(told(least, solver.apart.prove(program, least, solver.effort.slice(seconds))))


def has_one_use(case: Case) -> bool:
    """Whether the utilities of a completed case have the same heats in each network of least cost, as far as that is
    seen at once: at most two of them are open, so that one follows from the other, and the cost changes with both."""
    prices = [utility.price for utility in case.utilities if utility.least != utility.most]
    sides = {utility.side for utility in case.utilities if utility.least != utility.most}
    if len(prices) == 2:
        return sum(prices) != 0 if len(sides) == 2 else prices[0] != prices[1]
    return len(prices) < 2
