"""Exchangers against cost: a network for each number of exchangers, what went from one to the next, and the loops and
paths that pay for it."""
from __future__ import annotations

import time
from collections.abc import Callable, Iterator, Mapping
from concurrent.futures import ThreadPoolExecutor
from dataclasses import dataclass, field, replace
from fractions import Fraction

from ...errors import Status
from ...formats.case import Case, Stream
from ...formats.network import Exchanger, Network
from ...program.run import CaseText, NetworkText, Pinch
from ..accepted import AcceptedNetwork, Judge, Judged, case_of
from ..budget import GRACE
from ..find import NoNetwork, designed, flow_of, task_of, unseen
from ..search_state import SearchState
from ..tasks import Begun, SearchProcess, TradeoffTask
from ..visited import Visited
from .moves import letter_of, next_name, taken_names
from .network_structure import Costed
from .paths import Shift, shifts
from .structure import Course, Lane, Parting, Structure, Through

# How many audits are asked side by side.
AUDITS = 4
Telling = Callable[[Judged], None]


def nobody(judged: Judged) -> None:
    del judged


@dataclass(frozen=True)
class TradeOffRow:
    """A network of a trade-off, and how it differs from the one before it: the exchangers that went, those that came,
    and the loops and paths along which heat was moved. Of the first row nothing is said."""

    judged: AcceptedNetwork
    gone: tuple[Exchanger, ...] = ()
    come: tuple[Exchanger, ...] = ()
    shifts: tuple[Shift, ...] = ()

    @property
    def exchangers(self) -> int:
        return self.judged.count

    @property
    def network(self) -> Network:
        return self.judged.network

    @property
    def cost(self) -> Fraction:
        """In price times W, as `pinch audit` printed it."""
        return self.judged.cost

    @property
    def excess(self) -> Fraction:
        """In W, as `pinch audit` printed it."""
        return self.judged.verdict.excess


@dataclass(frozen=True)
class TradeOff:
    """The rows of a case, the most exchangers first, each dearer than the one before. `begun` is the network from which
    the search went out, in no row where another has no more exchangers at no higher cost. `stopped` where it was ended
    on the way."""

    case: Case
    floor: int
    begun: AcceptedNetwork
    rows: tuple[TradeOffRow, ...]
    stopped: bool = False

    @property
    def left_begun(self) -> bool:
        """Whether the network from which the search went out is in no row."""
        return all(row.judged != self.begun for row in self.rows)


def tradeoff(case: CaseText, network: NetworkText | None = None, pinch: Pinch | None = None, seconds: float = 30.0,
             tell: Telling = nobody, begun: float | None = None,
             seen: Callable[[AcceptedNetwork], None] = unseen) -> TradeOff:
    """The trade-off of a case, from a network or from one that is searched. `NotAccepted` where the network is not,
    `NoNetwork` where the case has none.

    The time counts from the call, or from `begun` by `time.monotonic`. When it is over, or at an interruption from the
    keyboard, what was found is given: at least the network to begin with, or that of `pinch design`. Each accepted
    network on the way is `seen`, also one that comes into no row."""
    judge, begun = Judge(pinch or Pinch(), case_of(case)), time.monotonic() if begun is None else begun
    with SearchProcess() as process, ThreadPoolExecutor(1) as beside:
        beginning = beside.submit(designed, judge.pinch, judge.case) if network is None else \
            beside.submit(judge.accepted, network)
        flow = flow_of(judge.pinch, judge.case)
        first = beginning.result()
        search = task_of(judge.pinch, judge.case, flow, Fraction(flow.cost), first, begun, seconds)
        task = TradeoffTask(replace(search, watched=seen is not unseen),
                            first.network if first and network is not None else None)
        found = FoundSoFar(first, seen)
        try:
            for message in process.told(task, begun + seconds + GRACE):
                found.take(message, tell)
            found.stopped = process.is_gone
        except KeyboardInterrupt:
            found.stopped = True
    return found.traded(judge, flow.cost)


@dataclass
class FoundSoFar:
    """What a search told: with which network it begins, the cheapest of each number, and at its end the rows."""

    first: AcceptedNetwork | None
    seen: Callable[[AcceptedNetwork], None] = unseen
    begun: Judged | None = None
    best: dict[int, Judged] = field(default_factory=dict)
    rows: tuple[TradeOffRow, ...] = ()
    stopped: bool = False

    def take(self, message: object, tell: Telling) -> None:
        match message:
            case Visited(visited):
                self.seen(visited)
            case SearchState(best):
                self.first = best
            case Begun(judged):
                self.begun, self.best = judged, {judged.count: judged}
            case Judged():
                self.best[message.count] = message
                tell(message)
            case _:
                assert isinstance(message, tuple)
                self.rows = message

    def traded(self, judge: Judge, floor: int) -> TradeOff:
        """The trade-off of what was found; of a search that was ended on its way to a network to begin with, the best
        so far."""
        if self.begun is None:
            first = self.first
            if first is None:
                raise NoNetwork('no network was found in time, and `pinch design` has none', Status.FAILED)
            return TradeOff(judge.case, floor, first, (TradeOffRow(first),), self.stopped)
        rows = self.rows or tuple(rows_of(judge, self.begun, on_the_front(self.best)))
        return TradeOff(judge.case, floor, self.begun, rows, self.stopped)


def on_the_front(best: Mapping[int, Judged]) -> list[Judged]:
    """The networks of which none has both fewer exchangers and no higher cost, the most exchangers first."""
    front: list[Judged] = []
    for count in sorted(best):
        if not front or best[count].cost < front[-1].cost:
            front.append(best[count])
    return front[::-1]


def rows_of(judge: Judge, begun: Judged, found: list[Judged]) -> Iterator[TradeOffRow]:
    """The rows with the names of the network from which the search went out: an exchanger of one pair keeps its name
    from row to row."""
    taken, structure = taken_names(judge.case, begun.structure), begun.structure
    named: list[Costed] = []
    for judged in found:
        named.append(named_like(judge.case, judged, structure, taken))
        structure = named[-1].structure
    with ThreadPoolExecutor(AUDITS) as pool:
        audited = list(pool.map(judge.of, named))
    before = begun
    for at, judged in enumerate(found):
        after = judged if judged is begun else audited[at] or judged
        yield difference(judge.case, before, after) if at or judged is not begun else TradeOffRow(after)
        before = after


def named_like(case: Case, judged: Judged, before: Structure, taken: set[str]) -> Costed:
    """A network with the names of an earlier one: first where a name has the same pair, then for each pair in order.
    What is left has names that were never taken."""
    pairs = judged.structure.pairs
    names = {name: name for name, pair in pairs.items() if before.pairs.get(name) == pair}
    free = [name for name in before.pairs if name not in names]
    for name, pair in pairs.items():
        if name in names:
            continue
        like = next((free_name for free_name in free if before.pairs[free_name] == pair), None)
        if like is not None:
            free.remove(like)
        names[name] = like or next_name(taken, letter_of(case, pair))
    structure = Structure({names[name]: pair for name, pair in pairs.items()},
                          {stream: named(course, names) for stream, course in judged.structure.courses.items()})
    return Costed(structure, {names[name]: duty for name, duty in judged.duties.items()}, judged.cost)


def named(course: Course, names: Mapping[str, str]) -> Course:
    made: list[Through | Parting] = []
    for step in course:
        if isinstance(step, Through):
            made.append(Through(names[step.exchanger]))
        else:
            lanes = tuple(Lane(named(lane.course, names), lane.share) for lane in step.lanes)
            made.append(Parting(lanes, step.level))
    return tuple(made)


def difference(case: Case, before: Judged, after: Judged) -> TradeOffRow:
    """What changed from one network to the next."""
    pairs = {**before.structure.pairs, **after.structure.pairs}
    gone = tuple(exchanger for exchanger in before.network.exchangers if exchanger.name not in after.duties)
    come = tuple(exchanger for exchanger in after.network.exchangers if exchanger.name not in before.duties)
    utilities = frozenset(source.name for source in case.sources if not isinstance(source, Stream))
    return TradeOffRow(after, gone, come, shifts(pairs, before.duties, after.duties, utilities))
