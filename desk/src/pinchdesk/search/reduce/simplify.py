"""A network made simpler at no higher cost: exchangers that a loop lets go (Linnhoff and Hindmarsh 1983), pairs that
meet twice in a row, and splits whose lanes can stand one behind the other.

A mixed-integer program says which exchangers of a structure can go together; the others take their duties. Every step
is judged by `pinch audit`: accepted, and not dearer."""
from __future__ import annotations

import time
from collections.abc import Callable, Iterator
from fractions import Fraction
from random import Random

from ...formats.case import Case
from ...formats.network import Network
from ...program.run import CaseText, NetworkText, Pinch
from ..accepted import AcceptedNetwork, Judge, Judged, NotAccepted, case_of, held_network
from .float_duties import is_dearer
from .least_cost import cheapest, fewest
from .moves import later, misplaced, structures, unsplit
from .network_structure import Costed
from .structure import OddCourse, Structure, levelled
from .widen import pairs_of, widened

# How many wider structures are tried without a gain, how many exchangers each has more, and how long one may take.
TRIES, MORE, SLICE = 12, 6, 4.0
Telling = Callable[[AcceptedNetwork], None]


def nobody(found: AcceptedNetwork) -> None:
    del found


def simpler(case: CaseText, network: NetworkText, pinch: Pinch | None = None, seconds: float = 0.0,
            most_cost: Fraction | None = None, tell: Telling = nobody) -> Network:
    """An accepted network of no more exchangers, and as many with no more splits, that costs no more than the network,
    or than is allowed (price times W). It is the network itself where nothing was found, where it is not accepted, or
    where its branches are joined across one another. For so many seconds other pairs and places are tried too. Each
    simpler network is told on the way."""
    judge, given_network = Judge(pinch or Pinch(), case_of(case)), held_network(network)
    try:
        begun = judge.given(given_network)
    except (NotAccepted, OddCourse):
        return given_network
    cost = begun.cost if most_cost is None else max(begun.cost, most_cost)
    return simplified(judge, begun, cost, time.monotonic() + seconds, tell).network


def simplified(judge: Judge, begun: Judged, cost: Fraction, end: float, tell: Telling = nobody) -> Judged:
    """The same of a network that was judged, at a cost, until a time by `time.monotonic`."""
    plain = without_spare(judge, begun, cost, end, tell)
    best = without_splits(judge, plain, cost, max(end, time.monotonic() + SLICE), tell)
    chance, pairs, tries = Random(1), pairs_of(judge.case), 0
    while pairs and tries < TRIES and time.monotonic() < end:
        wide = widened(judge.case, best.structure, pairs, MORE, chance)
        made = fewest(judge.case, wide, cost, best.count - 1, min(SLICE, end - time.monotonic()))
        found = simplest(judge, best, made, cost, tell)
        tries += 1
        if found is not best:
            best, tries = without_splits(judge, found, cost, max(end, time.monotonic() + SLICE), tell), 0
    return best


def kinds(structure: Structure) -> Iterator[Structure]:
    """A structure with its shares as they are, and with isothermal mixing."""
    yield structure
    level = levelled(structure)
    if level != structure:
        yield level


def without_spare(judge: Judge, begun: Judged, cost: Fraction, end: float, tell: Telling = nobody) -> Judged:
    """Without the exchangers that can go at a cost. A vertex of the linear program leaves many without a duty; which
    others can go together is chosen."""
    best = begun
    for structure in kinds(begun.structure):
        best = simplest(judge, best, cheapest(judge.case, structure), cost, tell)
        seconds = max(SLICE, (end - time.monotonic()) / 4)
        best = simplest(judge, best, fewest(judge.case, structure, cost, best.count, seconds), cost, tell)
    return simplest(judge, best, fewest(judge.case, best.structure, cost, best.count - 1, SLICE), cost, tell)


def simplest(judge: Judge, best: Judged, costed: Costed | None, cost: Fraction, tell: Telling = nobody) -> Judged:
    """What was found, where it is accepted at a cost and simpler than the best; it is then told."""
    if costed is None or costed.cost > cost or len(costed.duties) > best.count:
        return best
    found = judge.of(costed)
    if found is None or rank(judge.case, found) >= rank(judge.case, best):
        return best
    tell(found)
    return found


def without_splits(judge: Judge, begun: Judged, cost: Fraction, end: float, tell: Telling = nobody) -> Judged:
    """Without the splits that can go at a cost and with no exchanger more, and with heaters and coolers at the
    ends of their streams where that costs nothing."""
    best, gained = begun, True
    while gained:
        gained = False
        for structure in (*structures(best.structure, unsplit), *later(judge.case, best.structure)):
            if time.monotonic() > end:
                return best
            if is_dearer(judge.case, structure, cost):
                continue
            found = simplest(judge, best, cheapest(judge.case, structure), cost, tell)
            if found is not best:
                best, gained = found, True
                break
    return best


def rank(case: Case, judged: Judged) -> tuple[int, int, int, int, Fraction]:
    """The smaller the simpler: exchangers of the plant, and of the program, splits, utilities that are not at the ends
    of their streams, cost."""
    return judged.in_plant, judged.count, judged.splits, misplaced(case, judged.structure), judged.cost
