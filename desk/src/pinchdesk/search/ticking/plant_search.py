"""The search at plant size: windows ticked off by many chains, and their networks combined over the whole case.

It is a row of jobs. What a job is asked follows from the seed and from the ends of all jobs but the last few before it,
so that a number of jobs finds the same networks by one process or by many."""
from __future__ import annotations

from collections.abc import Callable, Mapping, Sequence
from dataclasses import dataclass, field, replace
from fractions import Fraction
from math import inf

from ..accepted import Judge, Judged
from ..reduce.going_on import kinks_of
from ..reduce.structure import Structure
from ..reduce.widen import pairs_of
from ..staged.windows import Window, windows
from .window_courses import Chain, ChainEnd, WindowNetwork, shape_of
from .growing import Growing
from .jobs import ChainJob, CombineJob, DropJob, GrowJob, Job, StartJob, ThinJob, WholeEnd
from .thinning import Aim, Combination, Mixing, Thinned
from .visiting import Visitor

# A job is asked when so many before it are still at work: as many processes are busy.
LAG = 8
# With how many times the sources a descent takes so much longer, as an exponent; the fewest descents of a job.
SLOWER, FEWEST_STEPS = 1.5, 5
# The sources up to which a job of the whole case does as much as it may, and the fewest combinations of one; of more
# exchangers than this it is not asked which can go together, since that takes long and gives little.
FULL_SOURCES, FEWEST_TRIES, MOST_DROPPED = 40, 4, 60
# From this turn of the cycle on jobs are as long as they become; in each one before half as long as in the next.
FULL_TURN = 3
# Networks of a window that are kept; structures that wait to be made less.
KEPT, CANDIDATES = 150, 20
# In a window of more sources than this the search begins with a few descents in each.
LARGE = 20
# Networks of the whole that are changed at a few places: so many of the latest best ones.
GROUNDS = 6
# A seed is a number below this.
SEEDS = 2 ** 31 - 1


@dataclass(frozen=True)
class Pace:
    """How much one job does: descents in a window of ten sources, combinations, changes at a few places, how often the
    first network is thinned out; the limits of a program that drops exchangers: nodes, and seconds, which there are
    only where the search has a time; after how many chains there is a job of the whole case; and whether jobs of the
    whole change networks where they need not."""

    steps: int = 600
    tries: int = 60
    growths: int = 40
    thinnings: int = 3
    nodes: int = 200
    seconds: float = 60.0
    chains: int = 3
    grows: bool = True

    def steps_of(self, window: Window, turn: int) -> int:
        """The descents of a job in a window; fewer at first, so that there is soon something to combine."""
        share = float(2.0 ** min(0, turn - FULL_TURN) * (10 / max(10, len(window.pieces))) ** SLOWER)
        return max(FEWEST_STEPS, round(self.steps * share))

    def of_whole(self, number: int, sources: int, turn: int) -> int:
        """So many combinations or changes as a job of the whole does, of which one takes longer where there are many
        sources; fewer at first too."""
        share = float(2.0 ** min(0, turn - FULL_TURN) * (FULL_SOURCES / max(FULL_SOURCES, sources)) ** SLOWER)
        return max(FEWEST_TRIES, round(number * share))


@dataclass
class WindowPool:
    """The chains of a window, and its different networks with the fewest exchangers, and with one more."""

    window: Window
    chains: list[Chain]
    networks: dict[str, WindowNetwork] = field(default_factory=dict)

    @property
    def least(self) -> int | None:
        return min((network.count for network in self.networks.values()), default=None)

    def take(self, number: int, end: ChainEnd) -> None:
        """Takes what a chain found; one that is far behind goes on from the best."""
        self.chains[number] = end.chain
        for network in end.networks:
            self.networks.setdefault(network.shape, network)
        least = self.least
        if least is None:
            return
        near = {key: network for key, network in self.networks.items() if network.count <= least + 1}
        # The latest stay: those that the search is at now.
        self.networks = dict(list(near.items())[-KEPT:])
        ahead = min((chain for chain in self.chains if chain.ticks), key=lambda chain: chain.count, default=Chain())
        self.chains = [chain if chain.ticks and chain.count <= least + 2 else ahead for chain in self.chains]


def chains_of(parts: Sequence[Window]) -> list[int]:
    """How many chains each window has: by the square of its sources."""
    squares = [len(window.pieces) ** 2 for window in parts]
    return [max(1, round((LAG - 2) * square / sum(squares))) for square in squares]


def cycle_of(pools: Sequence[WindowPool], chains: int) -> list[tuple[int, int] | None]:
    """A chain of a window, or None for a job of the whole case after so many of them, one after the other."""
    cycle: list[tuple[int, int] | None] = []
    for at, pool in enumerate(pools):
        for number in range(len(pool.chains)):
            cycle.append((at, number))
            cycle += [None] * (len(cycle) % (chains + 1) == chains)
    return cycle + [None] * (None not in cycle)


class PlantSearch:
    """A search in a completed case, with the heats of its utilities at the least cost. Networks cost at most
    `most_cost`, and have fewer exchangers than the `begin` one, or as many and fewer splits; `tell` gets those that
    were accepted. What it begins with, such as the network of the composite curves, is thinned out first."""

    def __init__(self, judge: Judge, uses: Mapping[str, int], most_cost: Fraction, tell: Callable[[Judged], None],
                 begin: Structure | None = None, seed: int = 1, pace: Pace = Pace()) -> None:
        self.judge, self.most_cost, self.tell = judge, most_cost, tell
        self.begin, self.seed, self.pace = begin, seed, pace
        self.aim = Aim(most_splits=judge.wishes.most_splits, kinks=kinks_of(judge.case))
        if begin is not None:
            self.aim = replace(self.aim, least=self.aim.rank(begin))
        self.pays = most_cost > sum(utility.price * uses[utility.name] for utility in judge.case.utilities)
        self.parts = windows(judge.case, uses)
        self.is_large = max(len(part.pieces) for part in self.parts) > LARGE
        self.growing = Growing(judge.case, pairs_of(judge.case), most_cost, judge.wishes.most_splits, self.aim.kinks)
        self.pools = [WindowPool(part, [Chain()] * count) for part, count in zip(self.parts, chains_of(self.parts))]
        # Structures whose exchangers may go together, the latest last, and those that were looked at.
        self.candidates: list[Structure] = []
        self.known: set[str] = set()
        # The combination of the best network so far, for every other job that combines.
        self.favourite: Combination = ()
        # The latest of the networks of the fewest exchangers, in floats.
        self.grounds: list[Structure] = []
        self.visitor = Visitor(judge, most_cost, pace.seconds == inf) if judge.sees_all else None
        # How many jobs were taken, and when the last of them found something better.
        self.taken, self.bettered = 0, 0
        # What stays may stand in several windows, so that these are not searched by themselves then.
        self.cycle: list[tuple[int, int] | None] = [None] if judge.wishes.kept else \
            cycle_of(self.pools, pace.chains)

    def job(self, number: int) -> Job:
        """The job of this number."""
        if number == 0 and self.is_large and not self.judge.wishes.kept:
            mixing = Mixing(self.judge.case, (), self.most_cost, self.pays)
            return StartJob(mixing, self.parts, self.seed_of(0), FEWEST_STEPS, self.aim, self.aim.most_splits != 0)
        place = self.cycle[number % len(self.cycle)]
        return self.whole_job(number) if place is None else self.chain_job(number, *place)

    def whole_job(self, number: int) -> Job:
        """A job of the whole case: what the search begins with, then networks that are changed at a few places, whose
        exchangers go together, and that are combined, in turn."""
        case, cost, seed, aim = self.judge.case, self.most_cost, self.seed_of(number), self.aim
        order, keeps = self.order_of(number), bool(self.judge.wishes.kept)
        sources, turn = sum(len(part.pieces) for part in self.parts), number // len(self.cycle)
        if self.begin is not None and (order == 0 or keeps and not self.grounds):
            return ThinJob(case, self.begin, cost, seed, self.pace.thinnings, aim)
        if self.candidates and order % 3 == 2:
            return DropJob(case, self.candidates.pop(), cost, self.pace.nodes, self.pace.seconds, aim)
        if self.grounds and (order % 3 == 1 and self.pace.grows or keeps):
            ground = self.grounds[order // 3 % len(self.grounds)]
            return GrowJob(self.growing, ground, seed, self.pace.of_whole(self.pace.growths, sources, turn), aim)
        empty = [at for at, pool in enumerate(self.pools) if not pool.networks]
        if empty:
            return self.chain_job(number, empty[0], 0)
        pools = [tuple(pool.networks.values()) for pool in self.pools]
        mixing = Mixing(case, pools, cost, self.pays, self.favourite if order % 2 else ())
        return CombineJob(mixing, seed, self.pace.of_whole(self.pace.tries, sources, turn), aim)

    def order_of(self, number: int) -> int:
        """Which of the jobs of the whole case a job is, from 0."""
        turns, at = divmod(number, len(self.cycle))
        return turns * self.cycle.count(None) + self.cycle[:at].count(None)

    def chain_job(self, number: int, at: int, chain: int) -> ChainJob:
        pool, most_splits = self.pools[at], self.aim.most_splits
        may_split = most_splits is None or most_splits > 0 and number % 2 == 0
        return ChainJob(pool.window, at, chain, self.seed_of(number),
                        self.pace.steps_of(pool.window, number // len(self.cycle)), pool.chains[chain], pool.least,
                        may_split)

    def seed_of(self, number: int) -> int:
        """The seed of a job."""
        return (self.seed * 1_000_003 + number * 8_191 + 7) % SEEDS

    def take(self, job: Job, end: object) -> None:
        """Takes the end of a job."""
        self.taken += 1
        if isinstance(job, ChainJob):
            assert isinstance(end, ChainEnd)
            self.pools[job.at].take(job.chain, end)
            return
        assert isinstance(end, WholeEnd)
        for thin in end.found:
            self.note(thin)
        if end.found and end.found[0].combination and end.found[0].count <= self.aim.exchangers:
            self.favourite = end.found[0].combination
        for costed in end.exact:
            rank = self.aim.rank(costed.structure)
            if rank < self.aim.least:
                judged = self.judge.of(costed)
                if judged is not None:
                    self.aim, self.bettered = replace(self.aim, least=rank), self.taken
                    self.tell(judged)
        if self.visitor:
            self.visitor.look(end.found, self.aim)

    def note(self, thin: Thinned) -> None:
        """Keeps a structure that is near the best, which may be made less later."""
        shape = shape_of(thin.structure.pairs, thin.structure.courses)
        if shape in self.known:
            return
        rank = self.aim.rank(thin.structure)[:2]
        best = self.aim.rank(self.grounds[-1])[:2] if self.grounds else rank
        if rank <= best:
            self.known.add(shape)
            self.grounds = [*(self.grounds[1 - GROUNDS:] if rank == best else ()), thin.structure]
        if thin.count <= min(self.aim.exchangers + 1, MOST_DROPPED):
            self.known.add(shape)
            self.candidates = [*self.candidates[-CANDIDATES:], thin.structure]


class JobRow:
    """The jobs of a search that are asked and not yet taken, in their order."""

    def __init__(self, search: PlantSearch) -> None:
        self.search = search
        self.asked: list[Job] = []
        self.ends: dict[int, object] = {}
        self.fill()

    def fill(self) -> None:
        while len(self.asked) < LAG:
            self.asked.append(self.search.job(self.search.taken + len(self.asked)))

    def end(self, number: int, end: object, stops: Callable[[], bool] = lambda: False) -> None:
        """Notes the end of a job, and takes what may be taken: each in its turn, and none once the search stops, though
        more have ended by then."""
        self.ends[number] = end
        while self.search.taken in self.ends and not stops():
            end = self.ends.pop(self.search.taken)
            self.search.take(self.asked.pop(0), end)
            self.fill()

    def job(self, number: int) -> Job | None:
        """A job that is asked, None where it is not yet."""
        at = number - self.search.taken
        return self.asked[at] if 0 <= at < len(self.asked) else None
