"""What is searched in a process of its own, and that process. What a task is at is told on the way, so that it stands
where the process is ended."""
from __future__ import annotations

from collections.abc import Iterator, Mapping
from dataclasses import dataclass, replace
from fractions import Fraction

from ..errors import ProgramError
from ..formats.case import Case
from ..formats.network import Network
from ..program.run import Pinch
from .accepted import AcceptedNetwork, CutJudge, Judge, Judged
from .budget import SearchWay
from .child import Child, Failed, Gone, Parent, Silent, portable
from .search_state import SearchState
from .staged.windows import cuts_between, windows
from .visited import Tell, program_of
from .wishes import NO_WISHES, Wishes, cut_case


@dataclass(frozen=True)
class NetworkTask:
    """A search for a network of few exchangers that costs at most so much, from the best one so far, with the heat of
    each utility at the least cost. It has so many seconds from a time by `time.monotonic`. `SearchState`s are told,
    and where it is `watched` each accepted network on the way."""

    program: str
    case: Case
    floor: int
    uses: Mapping[str, int]
    most_cost: Fraction
    best: AcceptedNetwork | None
    begun: float
    seconds: float
    way: SearchWay = SearchWay()
    wishes: Wishes = NO_WISHES
    watched: bool = False

    @property
    def cuts(self) -> tuple[int, ...]:
        """The shifted temperatures at which no heat crosses."""
        return tuple(sorted({place for place, _ in cuts_between(self.case, self.uses)}, reverse=True))

    def is_within(self, found: AcceptedNetwork) -> bool:
        """Whether an accepted network costs no more than it may, and is as it is wished."""
        return found.cost <= self.most_cost and self.wishes.are_met(self.case, self.cuts, found.network)

    def pinch(self, tell: Tell) -> Pinch:
        return program_of(self.program, self.case, tell, self.watched)

    def judge(self, tell: Tell) -> Judge:
        """Who judges what is searched; where nothing may work through a cut, in the case that is cut there."""
        pinch = self.pinch(tell)
        if self.wishes.may_cross:
            return Judge(pinch, self.case, self.wishes, self.cuts, sees_all=self.watched)
        cut = cut_case(self.case, windows(self.case, self.uses))
        return CutJudge(pinch, cut.case, self.wishes, self.cuts, sees_all=self.watched, cut=cut, audited=self.case)

    def run(self, tell: Tell) -> AcceptedNetwork | None:
        from .all_starts import AllStarts
        return AllStarts(self, self.judge(tell), tell).run()


@dataclass(frozen=True)
class Begun:
    """The network from which a trade-off goes out."""

    judged: Judged


@dataclass(frozen=True)
class TradeoffTask:
    """Exchangers against cost, from a network, or from one that is searched first in a third of the time. It is told
    from which; then each network that is the cheapest of its number so far; and at the end all rows."""

    search: NetworkTask
    network: Network | None

    def run(self, tell: Tell) -> None:
        from .reduce.fewer import Fewer
        from .reduce.tradeoff import rows_of
        task = self.search
        judge = Judge(task.pinch(tell), task.case, sees_all=task.watched)
        begun = judge.given(self.network or self.searched(tell))
        tell(Begun(begun))
        fewer = Fewer(judge, begun, task.seconds, tell, task.begun)
        fewer.run()
        tell(tuple(rows_of(judge, begun, fewer.near())))

    def searched(self, tell: Tell) -> Network:
        """The network to begin with, at the least cost."""
        from .reduce.simplify import simpler
        task = replace(self.search, seconds=self.search.seconds / 3)
        found = task.run(tell)
        if found is None:
            raise ProgramError('no network was found in time')
        return simpler(task.case, found.network, task.pinch(tell), tell=lambda less: tell(SearchState(less)))


Task = NetworkTask | TradeoffTask


class SearchProcess:
    """A process for one task. It loads the solver while the task is still made. `is_gone` where it ended by itself
    before its task did."""

    def __init__(self) -> None:
        self.child = Child(__name__, True)
        self.is_gone = False

    def told(self, task: Task, until: float) -> Iterator[object]:
        """What a task tells, until it has come to its end, or until a time by `time.monotonic`."""
        try:
            self.message(until)
        except Silent:
            return
        except Gone as fault:
            raise ProgramError('the process of the search ends as soon as it is started') from fault
        try:
            self.child.ask(task, until)
            while (message := self.message(until)) is not None:
                yield message
        except Silent:
            # What was told so far stands.
            return
        except Gone:
            self.is_gone = True

    def message(self, until: float) -> object:
        """The next message; what failed there fails here."""
        message = self.child.told(until)
        if isinstance(message, Failed):
            raise message.fault
        return message

    def __enter__(self) -> SearchProcess:
        return self

    def __exit__(self, *_: object) -> None:
        self.child.end()


def serve() -> None:
    """What the process does: it loads the solver, says that it is there, and does its task."""
    parent = Parent()
    try:
        from .reduce import tradeoff  # noqa: F401
        from . import all_starts  # noqa: F401
        parent.tell(True)
        for task in parent.asked():
            parent.ends_with_me()
            assert isinstance(task, NetworkTask | TradeoffTask)
            task.run(parent.tell)
            parent.tell(None)
            return
    except Exception as fault:  # Whatever it is, the parent raises it.
        parent.tell(Failed(portable(fault)))
