"""The search for a network of few exchangers. Nothing that it gives has not been accepted by `pinch audit`.

At the least cost the case is cut into windows where no heat crosses. Each is solved by itself; then all of them
together, so that exchangers may be joined across the cuts; then parts of them anew, as long as there is time. With a
higher cost there is one window, and the answer at the least cost is where it begins."""
from __future__ import annotations

from collections.abc import Callable, Iterator, Mapping, Sequence
from contextlib import contextmanager
from dataclasses import replace
from fractions import Fraction

from ...errors import Refused
from ...formats.case import Case, Side, shifted
from ...formats.network import Network
from ...program.run import Pinch
from ...program.verdicts import Accepted
from ..accepted import AcceptedNetwork, joints_in
from ..budget import Effort, TimeOver
from ..reduce.simplify import simpler
from ..search_state import TIME_OVER, TO_THE_END, SearchState
from .ask import SolverAnswer, Solver, answer_with
from .ladder import Ladder
from .merge import joined
from .one_window import as_one
from .parts import Parts
from .plan import plan_of
from .slots import Asked, slots_of
from .windows import Window, whole, windows
from .write import written

# With so many places for exchangers a model is looked at part by part.
LARGE = 120
# What of the time is kept for a search around the best network, where the models take all of it.
LAST = 0.3


class Search:
    """A search in a completed case, for a network that costs at most so much, from one that does on. `bound` and
    `staged` are those of `SearchState`, which is told to `tell` with each change."""

    def __init__(self, pinch: Pinch, case: Case, floor: int, most_cost: Fraction, effort: Effort,
                 best: AcceptedNetwork | None, bound: int, tell: Callable[[SearchState], None]) -> None:
        self.pinch, self.case, self.effort, self.tell = pinch, case, effort, tell
        self.floor, self.most_cost = floor, most_cost
        self.best = best
        self.staged: tuple[int, tuple[int, ...]] | None = None
        self.solver = Solver(effort)
        self.bound = bound

    def told(self, ended: str | None = None) -> None:
        """Tells how far the search is, and why it ended."""
        self.tell(SearchState(self.best, self.bound, self.staged, ended))

    def run(self, uses: Mapping[str, int]) -> None:
        """Searches until the best is known to be so, or the time is over."""
        seconds = self.effort.seconds
        self.effort.seconds *= 1 - LAST
        try:
            self.search(uses)
        except TimeOver:
            self.effort.seconds = seconds
            self.better()
        finally:
            self.effort.seconds = seconds
            self.solver.apart.end()
        self.told(TIME_OVER if self.effort.left <= 0 else TO_THE_END)

    def better(self) -> None:
        """What of the time is left: other pairs, places and splits around the best network."""
        if self.best is not None and not self.enough() and self.effort.left > 0:
            self.simplify(self.best.network, self.effort.left)

    def search(self, uses: Mapping[str, int]) -> None:
        every = whole(self.case, None)
        ladders = [Ladder(self.solver, window) for window in windows(self.case, uses)]
        for ladder in ladders:
            ladder.begin()
        self.of_windows(ladders)
        if self.enough():
            return
        answer = self.at_least_cost(ladders)
        if self.most_cost > self.floor and not self.enough():
            self.at_higher_cost(every, answer, uses)

    def enough(self) -> bool:
        return self.best is not None and self.best.in_plant <= self.bound

    def offer(self, network: Network) -> None:
        """Takes a network where it is accepted, and is better than the best one. One whose fractions have too many
        digits is refused, and not taken."""
        try:
            verdict = self.pinch.audit(self.case, network)
        except Refused:
            return
        if isinstance(verdict, Accepted):
            self.take_accepted(AcceptedNetwork(network, verdict, joints=joints_in(self.case, network)))

    def take_accepted(self, found: AcceptedNetwork) -> None:
        """Takes an accepted network where it costs no more than it may, and is better than the best one."""
        if found.cost <= self.most_cost and (self.best is None or found.rank < self.best.rank):
            self.best = found
            self.told()

    def take(self, answer: SolverAnswer | None) -> None:
        """Writes an answer, where there is one, and offers it as it is and made simpler."""
        if answer is None:
            return
        network = written(self.case, joined(self.case, plan_of(self.case, answer.model, answer.point)))
        self.offer(network)
        self.simplify(network, 0.0)

    def simplify(self, network: Network, seconds: float) -> None:
        """Takes a network made simpler. What is found on the way counts where the time ends there."""
        before = self.best
        less = simpler(self.case, network, self.pinch, seconds, self.most_cost, self.take_accepted)
        self.best = before
        if less != network:
            self.offer(less)

    def at_least_cost(self, ladders: Sequence[Ladder]) -> SolverAnswer | None:
        """The windows one by one, then together."""
        only = self.most_cost == self.floor
        share = self.effort.left / (3 if only else 6) / len(ladders)
        answer = None
        for ladder in ladders:
            with ended(lambda: self.of_windows(ladders)):
                ladder.run(share)
            answer = self.of_windows(ladders) or answer
        return None if answer is None else self.together(answer, self.effort.left / (1 if only else 6))

    def of_windows(self, ladders: Sequence[Ladder]) -> SolverAnswer | None:
        """What was found for the windows, as one answer; None where there is none for one of them."""
        answers = [ladder.best for ladder in ladders if ladder.best is not None]
        if len(answers) < len(ladders):
            return None
        asked = Asked(tuple(ladder.window for ladder in ladders),
                      tuple(window_answer.asked.stages[0] for window_answer in answers))
        used = frozenset(replace(slot, window=at) for at, window_answer in enumerate(answers)
                         for slot in window_answer.used)
        answer = answer_with(replace(asked, slots=used))
        self.take(answer)
        return answer

    def together(self, answer: SolverAnswer, seconds: float) -> SolverAnswer:
        """All windows of an answer together: the whole at once where it is not large, then part by part."""
        until = self.effort.spent + seconds
        asked = replace(answer.asked, slots=None)
        if len(slots_of(asked)) <= LARGE:
            least = answer.count if self.best is None else min(answer.count, self.best.count)
            outcome = self.solver.ask(asked, seconds / 2, None, least - 1)
            if outcome.answer is not None:
                answer = outcome.answer
                self.take(answer)
            if outcome.settled:
                self.staged = (outcome.bound, answer.asked.stages)
                return answer
        parts = Parts(self.solver, answer, self.take)
        if parts.run(lambda: self.enough() or self.effort.spent > until):
            self.staged = (parts.answer.count, parts.answer.asked.stages)
        return parts.answer

    def at_higher_cost(self, every: Window, answer: SolverAnswer | None, uses: Mapping[str, int]) -> None:
        """The whole case with open utilities, from an answer at the least cost on."""
        self.staged = None
        begun = None
        if answer is not None:
            asked, used = as_one(every, answer.used)
            begun = self.solver.ask(replace(asked, slots=used, most_cost=self.most_cost), self.effort.left / 12).answer
        begins = [whole(self.case, dearer_uses) for dearer_uses in dearer(self.case, uses, self.most_cost - self.floor)]
        ladder = Ladder(self.solver, every, self.most_cost, begun, begins)
        with ended(lambda: self.take(ladder.best)):
            begun = ladder.run(self.effort.left / 3)
        self.take(begun)
        self.together(begun, self.effort.left)


@contextmanager
def ended(last: Callable[[], object]) -> Iterator[None]:
    """Where the time is over inside, or the search is interrupted, what was found so far is still taken."""
    try:
        yield
    except (TimeOver, KeyboardInterrupt):
        last()
        raise


def dearer(case: Case, uses: Mapping[str, int], slack: Fraction) -> list[dict[str, int]]:
    """Uses that cost more than these, by at most so much: a heater and a cooler more, each as far as it may be."""
    made = [dict(uses)]
    for heater in case.utilities:
        for cooler in case.utilities:
            price = heater.price + cooler.price
            if heater.side is not Side.HOT or cooler.side is not Side.COLD or price <= 0:
                continue
            if shifted(heater, heater.level) < shifted(cooler, cooler.level):
                continue
            more = min(int(slack / price), heater.most - uses[heater.name], cooler.most - uses[cooler.name])
            made += [{**uses, heater.name: uses[heater.name] + part, cooler.name: uses[cooler.name] + part}
                     for part in (more, more // 2) if part > 0]
    return made
