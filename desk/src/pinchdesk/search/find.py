"""A network of few exchangers for a case: the call behind the word `network`."""
from __future__ import annotations

import time
from collections.abc import Callable
from concurrent.futures import ThreadPoolExecutor
from dataclasses import dataclass, replace
from fractions import Fraction
from importlib.metadata import version

from ..analysis.findings import headline
from ..analysis.follow import follow
from ..analysis.joined import joined, network_count
from ..errors import INFEASIBLE, DeskError, Status, WordsError
from ..formats.case import Basis, Case, completed, read_case
from ..formats.network import Network, print_network, read_network
from ..formats.range_parts import cost_of_ranges, cost_told, range_costs
from ..formats.shown import Shown, decimal_up
from ..formats.whole_streams import whole_names
from ..program.answers import Cut, Design, HeatFlow
from ..program.run import CaseText, NetworkText, Pinch
from ..program.verdicts import Accepted, ending
from .accepted import AcceptedNetwork, accepted_network, case_of
from .budget import FOREVER, GRACE, SearchWay, for_search, nobody
from .search_state import BROKEN_OFF, INTERRUPTED, TIME_OVER, SearchState, first_state
from .staged.windows import windows
from .tasks import NetworkTask, SearchProcess
from .visited import Visited
from .wishes import NO_WISHES, Wishes

SECONDS = 60.0


class NoNetwork(DeskError):
    """There is no network of the kind that is asked for: no heat flow, unless another status is given."""

    def __init__(self, told: str, status: Status = Status.NO, no: str = INFEASIBLE) -> None:
        super().__init__(told)
        self.status, self.no = status, no


@dataclass(frozen=True)
class FewExchangers:
    """A network that `pinch audit` accepted, with what it said. `bound` is what the solver says that no network at
    this cost has fewer exchangers than; `staged` the same for networks of so many stages, in each of the windows, with
    isothermal mixing, None where that was not settled; `ended` is why the search ended. `rule` is what the books' rule
    counts, one less than the sources of the plant in each window: no bound. `tight` are the exchangers that work at the
    least approach from end to end, and `libraries` those by which the same search finds the same again, where it does.
    `of_uses` is the same as `bound` for networks with the uses of the utilities that the heat flow of least cost has,
    and `proved` and `proved_of_uses` are as much of both as is proved in fractions. `basis` is that of the case;
    `exchangers` are those of the plant, of which one that goes on across the kink of a stream is one; `annual` is what
    is said of the cost of a year where the network was chosen by it; `range_costs` are what its utilities with a range
    cost, which are in no cost of the program; `left_aside` is why the network to begin with could not be one, where it
    could not."""

    network: Network
    verdict: Accepted
    bound: int
    staged: tuple[int, tuple[int, ...]] | None
    ended: str
    exchangers: int
    basis: Basis = Basis()
    rule: int = 0
    tight: tuple[str, ...] = ()
    libraries: str = ''
    of_uses: int = 0
    annual: str = ''
    proved: int = 0
    proved_of_uses: int = 0
    range_costs: tuple[tuple[str, int], ...] = ()
    left_aside: str = ''

    @property
    def text(self) -> str:
        """The network as a text, with what it is as comments at its head."""
        return ''.join(f'# {comment}\n' for comment in self.comments()) + print_network(self.network)

    def comments(self) -> list[str]:
        shown, verdict = Shown(self.basis), self.verdict
        return [self.counted, self.bounds, f'rule of the books, which is no bound: {self.rule}',
                f'search: {self.ended}', f'cost {cost_told(self.range_costs, verdict.cost, shown)}',
                f'floor {cost_told(self.range_costs, verdict.floor, shown)}',
                f'excess {shown.heat(verdict.excess)} {shown.heat_unit}',
                *([self.annual] if self.annual else []), *shown.scale_remarks(), *self.remarks()]

    @property
    def counted(self) -> str:
        """How many exchangers there are, in words."""
        parts = len(self.network.exchangers)
        beside = f', {parts} in the program, which has segments as streams' if self.basis.segments else ''
        return f'{self.exchangers} exchangers{beside}'

    def remarks(self) -> list[str]:
        """What is said beside the network: which exchangers are large by their approach, and what a search by steps
        used."""
        told = [f'the network to begin with was left aside: {self.left_aside}'] if self.left_aside else []
        if self.tight:
            names, works = ', '.join(self.tight), 'works' if len(self.tight) == 1 else 'work'
            told.append(f'{names} {works} at the least approach from end to end, which needs a large area')
        if self.libraries:
            told.append(f'the same again with the same seed and steps by {self.libraries}')
        return told

    @property
    def bounds(self) -> str:
        """What no network has fewer exchangers than, and which networks, in words."""
        told = [f'bound: at least {self.bound} in any network at this cost{how(self.bound, self.proved)}']
        if self.of_uses > self.bound:
            proof = how(self.of_uses, self.proved_of_uses)
            told.append(f'{self.of_uses} in any with the uses of the utilities of the heat flow{proof}')
        if self.staged is not None:
            stages = '+'.join(map(str, self.staged[1]))
            told.append(f'{self.staged[0]} in {stages} stages with isothermal mixing{how(self.staged[0], 0)}')
        return ', '.join(told)

    @property
    def told(self) -> str:
        """The bounds, and why the search ended."""
        return f'{self.bounds} ({self.ended})'


def how(bound: int, proved: int) -> str:
    """How a bound is known, of which so much is proved."""
    if proved >= bound:
        return ' (in fractions)'
    return f' (by the solver\'s floats{f"; {proved} in fractions" if proved else ""})'


def unseen(found: AcceptedNetwork) -> None:
    del found


def find_network(case: CaseText, most_cost: Fraction | int | None = None, above: Fraction | int | None = None,
                 seconds: Fraction | float = SECONDS, start: NetworkText | None = None,
                 tell: Callable[[str], None] = nobody, pinch: Pinch | None = None,
                 begun: float | None = None, way: SearchWay = SearchWay(), wishes: Wishes = NO_WISHES,
                 seen: Callable[[AcceptedNetwork], None] = unseen) -> FewExchangers:
    """A network with as few exchangers as were found in the time, at the least cost; or at most at this cost (price
    times W), or so many percent above the least. `start` is a network to be bettered. `NoNetwork` where there is none.

    The time counts from the call, or from `begun` by `time.monotonic`. When it is over, or at an interruption from the
    keyboard, the best so far is given: at least that of `pinch design` where it is as wished. `way` says in which way
    is searched, and may have a number of steps in place of a time; `wishes` what the network has to be beside. Each
    network that may be given is `seen`, also one that is no better than the best so far."""
    pinch, begun = pinch or Pinch(), time.monotonic() if begun is None else begun
    with SearchProcess() as process, ThreadPoolExecutor(1) as beside:
        designing = beside.submit(designed, pinch, case)
        flow = flow_of(pinch, case)
        asked = completed(case if isinstance(case, Case) else read_case(case))
        limit = limit_of(flow.cost, most_cost, above, Shown(asked.basis), cost_of_ranges(asked))
        begins = bettered(pinch, asked, start)
        lasts = float(seconds) if way.steps is None else FOREVER
        task = task_of(pinch, asked, flow, limit, None, begun, lasts, way, staying(wishes, begins, limit))
        best = best_of(task, seen, begins, designing.result())
        task = replace(task, best=best, watched=seen is not unseen)
        state, ended = first_state(asked, task.best), TIME_OVER
        try:
            for message in process.told(task, begun + lasts + GRACE):
                if isinstance(message, Visited):
                    if task.is_within(message.found):
                        seen(message.found)
                    continue
                assert isinstance(message, SearchState)
                state = message
                if state.best:
                    seen(state.best)
                tell(str(state))
            if process.is_gone:
                ended = BROKEN_OFF
        except KeyboardInterrupt:
            ended = INTERRUPTED
    found = found_in(task, state, state.ended or ended)
    return replace(found, left_aside=left_aside(task, begins))


def left_aside(task: NetworkTask, begins: AcceptedNetwork | None) -> str:
    """Why a network to begin with is none that may be given; empty where it may be."""
    if begins is None or task.is_within(begins):
        return ''
    return 'it costs more than the network may cost' if begins.cost > task.most_cost else \
        f'it is no network with {task.wishes.told}'


def flow_of(pinch: Pinch, case: CaseText) -> HeatFlow:
    """The heat flow of a case; `NoNetwork` where there is none."""
    flow = pinch.flow(case)
    if isinstance(flow, Cut):
        raise NoNetwork('there is no heat flow, so there is no network (`pinchdesk flow` says why)')
    return flow


def task_of(pinch: Pinch, case: Case, flow: HeatFlow, limit: Fraction, best: AcceptedNetwork | None, begun: float,
            seconds: float, way: SearchWay = SearchWay(), wishes: Wishes = NO_WISHES) -> NetworkTask:
    """The search in a completed case with a heat flow of least cost."""
    uses = {use.name: use.heat for use in flow.uses}
    return NetworkTask(pinch.path, case, flow.cost, uses, limit, best, begun, for_search(seconds), way, wishes)


def staying(wishes: Wishes, begins: AcceptedNetwork | None, limit: Fraction) -> Wishes:
    """The wishes with the exchangers that stay. `WordsError` where the network to begin with has not all of them, or
    where what stays cannot be searched; `NoNetwork` where that network costs more than it may."""
    if not wishes.keep:
        return wishes
    if begins is None:
        raise WordsError(f'--keep {",".join(wishes.keep)}: they are exchangers of a network, which --start names')
    if not wishes.may_cross:
        raise WordsError('--keep and --forbid-crossing cannot be asked together')
    by_name = {exchanger.name: exchanger for exchanger in begins.network.exchangers}
    for name in wishes.keep:
        if name not in by_name:
            raise WordsError(f'--keep {name}: the network to begin with has no exchanger of this name')
    if begins.cost > limit:
        raise NoNetwork('the network whose exchangers stay costs more than the network may cost', Status.FAILED)
    return replace(wishes, kept=tuple(by_name[name] for name in wishes.keep))


def found_in(task: NetworkTask, state: SearchState, ended: str) -> FewExchangers:
    """What a search found until it ended; `NoNetwork` where that is nothing."""
    best = state.best
    if best is None and ended == INTERRUPTED:
        raise NoNetwork('interrupted before there was a network', Status.STOPPED)
    if best is None and task.wishes != NO_WISHES:
        raise NoNetwork(f'no network with {task.wishes.told} was found: allow more, or give it more time',
                        Status.FAILED)
    if best is None:
        raise NoNetwork('no network was found in time, and `pinch design` has none', Status.FAILED)
    names = whole_names(task.case)
    # Of the staged model each segment is a stream, so that it says nothing of the plant.
    staged = state.staged if state.staged is not None and state.staged[0] <= best.count and not names else None
    rule = sum(len({names.get(piece.name, piece.name) for piece in window.pieces}) - 1
               for window in windows(task.case, task.uses))
    is_whole = task.way.steps is not None and state.ended is not None
    libraries = f'numpy {version("numpy")} and scipy {version("scipy")}' if is_whole else ''
    return FewExchangers(best.network, best.verdict, min(state.bound, best.in_plant), staged, ended, best.in_plant,
                         task.case.basis, rule, tight_of(task.case, best.network), libraries,
                         min(state.of_uses, best.in_plant), '', state.proved, state.proved_of_uses,
                         range_costs(task.case))


def in_place_of(found: FewExchangers, case: Case, chosen: AcceptedNetwork, annual: str) -> FewExchangers:
    """Another network of the same search in a completed case, chosen by its annual cost."""
    return replace(found, network=chosen.network, verdict=chosen.verdict, annual=annual,
                   exchangers=network_count(case, chosen.network), tight=tight_of(case, chosen.network))


def tight_of(case: Case, network: Network) -> tuple[str, ...]:
    """The exchangers that work at the least approach from end to end."""
    return tuple(passage.exchanger.name for passage in joined(follow(case, network)).followed.passages
                 if all(part.hot_end == part.cold_end == part.approach for part in passage.parts))


def limit_of(floor: int, most_cost: Fraction | int | None, above: Fraction | int | None, shown: Shown,
             beside: int = 0) -> Fraction:
    """The most that the network may cost to the program, which does not know what utilities with a range cost beside;
    `NoNetwork` where that is below the least cost of all."""
    if most_cost is not None:
        limit = Fraction(most_cost) - beside
    else:
        limit = floor + abs(Fraction(floor + beside)) * Fraction(above or 0) / 100
    if limit < floor:
        least = f'{decimal_up(shown.in_cost(floor + beside), 6)} {shown.cost_unit}'
        raise NoNetwork(f'no network costs less than {least}, the least cost of a heat flow'
                        f'{" and that of the utilities with a range" if beside else ""}', Status.FAILED)
    return limit


def designed(pinch: Pinch, case: CaseText) -> AcceptedNetwork | None:
    """The network of `pinch design`; None where there is none."""
    design = pinch.design(case)
    verdict = pinch.audit(case, design.text) if isinstance(design, Design) else None
    if not isinstance(verdict, Accepted):
        return None
    return accepted_network(case_of(case), read_network(design.text), verdict)


def bettered(pinch: Pinch, case: Case, start: NetworkText | None) -> AcceptedNetwork | None:
    """The network that is to be bettered, if any; `NoNetwork` where it is not accepted."""
    if start is None:
        return None
    network, verdict = start if isinstance(start, Network) else read_network(start), pinch.audit(case, start)
    if not isinstance(verdict, Accepted):
        raise NoNetwork(f'the network to begin with is {headline(follow(case, network), verdict)}', *ending([verdict]))
    return accepted_network(case, network, verdict)


def best_of(task: NetworkTask, seen: Callable[[AcceptedNetwork], None],
            *found: AcceptedNetwork | None) -> AcceptedNetwork | None:
    """The best of some networks that costs no more than it may and is as it is wished."""
    within = [network for network in found if network and task.is_within(network)]
    for network in within:
        seen(network)
    return min(within, key=lambda network: network.rank) if within else None
