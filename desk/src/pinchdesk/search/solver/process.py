"""The solver in a process of its own, so that its time limit always holds. The process is kept for the next question,
and is ended where it takes too long."""
from __future__ import annotations

import math
import time
from dataclasses import dataclass

from ...errors import ProgramError
from ..child import Child, Gone, Parent, Silent
from .linear import OutOfTime, Program, Solved, solve
from .proved_bound import proved_least

# What the solver may take after its time limit before it is ended.
GRACE = 5.0
# What its process may take to begin, on a busy machine.
BEGIN_IN = 60.0
# Up to so many whole variables a program is solved here, in less time than a process takes to begin.
SMALL = 30


@dataclass(frozen=True)
class Question:
    """What the solver is asked."""

    program: Program
    seconds: float
    gap: float


@dataclass(frozen=True)
class ToProve:
    """A bound that is to be proved."""

    program: Program
    wanted: int
    seconds: float


class Apart:
    """The solver's process, begun when it is first asked."""

    def __init__(self) -> None:
        self.child: Child | None = None

    def solve(self, program: Program, seconds: float, gap: float = 1e-6) -> Solved | None:
        """As `linear.solve`."""
        if len(program.wholes) <= SMALL:
            return solve(program, seconds, gap)
        found = self.answered(Question(program, seconds, gap))
        if isinstance(found, OutOfTime):
            raise found
        assert found is None or isinstance(found, Solved)
        return found

    def prove(self, program: Program, wanted: int, seconds: float) -> int:
        """As `proved_bound.proved_least`."""
        if len(program.wholes) <= SMALL:
            return proved_least(program, wanted, seconds)
        try:
            proved = self.answered(ToProve(program, wanted, seconds))
        except OutOfTime:
            return 0
        assert isinstance(proved, int)
        return proved

    def answered(self, question: Question | ToProve) -> object:
        """The answer of the process, which is ended where it gives none."""
        is_there = False
        try:
            answer = self.ask(question)
            is_there = True
        finally:
            if not is_there:
                self.end()
        return answer

    def ask(self, question: Question | ToProve) -> object:
        child = self.begun()
        until = time.monotonic() + question.seconds + GRACE
        try:
            child.ask(question, until)
            return child.told(until)
        except (Silent, Gone) as fault:
            raise OutOfTime(-math.inf) from fault

    def begun(self) -> Child:
        """The process; `ProgramError` where there can be none."""
        if self.child is None:
            self.child = Child(__name__, False)
            try:
                self.child.told(time.monotonic() + BEGIN_IN)
            except Gone as fault:
                raise ProgramError('the process of the solver ends as soon as it is started') from fault
            except Silent as fault:
                raise OutOfTime(-math.inf) from fault
        return self.child

    def end(self) -> None:
        """Ends the process, whatever it does."""
        if self.child is not None:
            self.child.end()
            self.child = None

    def __enter__(self) -> Apart:
        return self

    def __exit__(self, *_: object) -> None:
        self.end()


def serve() -> None:
    """What the process does: it says that it is there, and answers until nobody asks."""
    parent = Parent()
    parent.tell(None)
    for question in parent.asked():
        assert isinstance(question, Question | ToProve)
        parent.tell(answer_of(question))


def answer_of(question: Question | ToProve) -> object:
    if isinstance(question, ToProve):
        return proved_least(question.program, question.wanted, question.seconds)
    try:
        return solve(question.program, question.seconds, question.gap)
    except OutOfTime as fault:
        return fault
