"""All starts of a search for few exchangers: the staged model where windows are small, and windows ticked off, side by
side on all processors."""
from __future__ import annotations

import time
from collections.abc import Callable
from contextlib import suppress
from dataclasses import replace
from math import inf
from threading import Event, Lock, Thread

from ..errors import Refused
from .accepted import AcceptedNetwork, Judge, Judged
from .bounding import Bounding
from .budget import FOREVER, Effort
from .finishing import finished
from .reduce.network_structure import structure_of
from .reduce.structure import Structure
from .search_state import ALL_STEPS, NO_BETTER, TIME_OVER, TO_THE_END, SearchState, first_state
from .staged.staged_search import Search
from .staged.windows import windows
from .tasks import NetworkTask
from .ticking.crew import JobCrew, processors
from .ticking.plant_search import JobRow, Pace, PlantSearch
from .wishes import NO_WISHES

# In windows of so many sources the staged model is done in a moment, and does well at all.
TINY, SMALL = 8, 13
# What of the time it has in tiny windows; what a bound has in these, and in others; what is left for the last steps;
# how long the solver waits for a first network.
STAGED, TINY_BOUND, BOUND, LAST, WAITING = 0.5, 0.02, 0.15, 0.05, 0.1
# What one job of a tiny case does, and after how many of them without a gain it is done. Its windows are soon known,
# and what is gained then is gained by combining their networks.
SHORT_JOBS, IDLE = Pace(steps=100, tries=20, chains=1, grows=False), 26
# The same where a network may cost more than the least: then there are far more networks of each window.
ABOVE_JOBS = Pace(steps=200, growths=100)
# A network to begin with that has so many times as many exchangers as there are sources is left aside.
LONG_START = 6.0


class AllStarts:
    """A search by all starts. `tell` gets what it is at."""

    def __init__(self, task: NetworkTask, judge: Judge, tell: Callable[[SearchState], None]) -> None:
        self.task, self.judge, self.tell = task, judge, tell
        self.state = first_state(task.case, task.best)
        self.largest = max((len(window.pieces) for window in windows(task.case, task.uses)), default=0)
        self.bettered = time.monotonic()
        self.lock, self.found = Lock(), Event()

    def run(self) -> AcceptedNetwork | None:
        """The best that is found; None where there is none."""
        is_tiny = self.largest <= TINY
        if self.task.way.steps is None:
            if is_tiny and self.task.wishes == NO_WISHES:
                Bounding(self.task, TINY_BOUND, self.hear).run()
                patience = inf if self.task.way.no_better is None else self.task.way.no_better
                self.stage(min(self.task.seconds * STAGED, time.monotonic() - self.task.begun + patience))
            else:
                Thread(target=self.beside, daemon=True).start()
        ended = TO_THE_END if self.enough() else self.tick(is_tiny)
        self.finish()
        with self.lock:
            self.state = replace(self.state, ended=ended)
            self.tell(self.state)
        return self.state.best

    @property
    def is_above(self) -> bool:
        """Whether a network may cost more than the least."""
        return self.task.most_cost > self.task.floor

    def enough(self) -> bool:
        return self.state.best is not None and self.state.best.in_plant <= self.state.bound

    def hear(self, state: SearchState) -> None:
        """Takes what one of the starts is at; two may be at work, one of them still when the search has ended."""
        with self.lock:
            if self.state.ended:
                return
            best = self.state.best
            if state.best is not None and (best is None or state.best.rank < best.rank):
                best, self.bettered = state.best, time.monotonic()
                self.found.set()
            self.state = replace(self.state.joined(state), best=best)
            self.tell(self.state)

    def take(self, found: AcceptedNetwork) -> None:
        self.hear(SearchState(found))

    def stage(self, until: float) -> None:
        """The staged model, for so many seconds from the beginning."""
        task = self.task
        effort = Effort(until, task.begun)
        Search(self.judge.pinch, task.case, task.floor, task.most_cost, effort, task.best, self.state.bound,
               self.hear).run(task.uses)

    def beside(self) -> None:
        """What is asked of the solver while windows are ticked off, once there is a first network, or some time is
        over."""
        self.found.wait(self.task.seconds * WAITING)
        Bounding(self.task, BOUND, self.hear).run()
        if self.largest <= SMALL and self.task.wishes == NO_WISHES and not self.enough():
            self.stage(self.task.seconds)

    def tick(self, is_tiny: bool) -> str:
        """Windows ticked off, for the rest of the time or for so many steps; why that ended."""
        task = self.task
        pace = Pace() if not is_tiny else ABOVE_JOBS if self.is_above else SHORT_JOBS
        if task.way.steps is not None:
            pace = replace(pace, seconds=inf)
        search = PlantSearch(self.judge, task.uses, task.most_cost, self.take, self.begin(), task.way.seed, pace)
        row, crew = JobRow(search), JobCrew(1 if is_tiny else task.way.workers or processors())
        self.bettered = time.monotonic()
        until = task.begun + (task.seconds * (1 - LAST) if task.way.steps is None else FOREVER)
        patience = task.way.no_better

        def why() -> str | None:
            """Why the search ends; None where it goes on."""
            if self.enough():
                return TO_THE_END
            if task.way.steps is not None:
                return ALL_STEPS if search.taken >= task.way.steps else None
            if time.monotonic() >= until:
                return TIME_OVER
            if patience is None:
                return NO_BETTER if is_tiny and search.taken - search.bettered >= IDLE else None
            return NO_BETTER if time.monotonic() - self.bettered > patience else None
        try:
            crew.run(row, lambda: why() is not None, until)
        finally:
            crew.end()
        return why() or TIME_OVER

    def begin(self) -> Structure | None:
        """The structure of the best network so far, where it has one, with what has to stay; where it may cost more,
        that of the network of the task, since one of few exchangers has little that can go together."""
        best, wishes = self.task.best if self.is_above else self.state.best, self.task.wishes
        if best is None or not wishes.may_cross:
            return None
        if best.count > LONG_START * len(self.task.case.sources) and not wishes.kept:
            return None
        with suppress(Refused):
            kept = {exchanger.name: exchanger.duty for exchanger in wishes.kept}
            return replace(structure_of(self.task.case, best.network), kept=kept)
        return None

    def finish(self) -> None:
        """Takes out what costs nothing, as splits that can go."""
        best = self.state.best
        if best is None or not isinstance(best, Judged) and not self.task.wishes.may_cross:
            return
        with suppress(Refused):
            judged = best if isinstance(best, Judged) else self.judge.given(best.network)
            kept = {exchanger.name: exchanger.duty for exchanger in self.task.wishes.kept}
            judged = replace(judged, structure=replace(judged.structure, kept=kept))
            finished(self.judge, judged, self.task.most_cost, self.task.begun + self.task.seconds, self.take,
                     self.task.way.steps is not None, self.state.bound)
