"""Structures of few exchangers from those of the windows: a linear program over the whole leaves many without a duty.

At a vertex few duties are above 0, and loops go through the cuts between the windows, so fewer are left than in the
windows alone. Small duties have large weights, so that they go (Candès, Wakin and Boyd 2008); what is gone gives its
flow to the others, and the next program has more room."""
from __future__ import annotations

from collections.abc import Mapping, Sequence
from dataclasses import dataclass, replace
from fractions import Fraction
from random import Random

import numpy

from ...formats.case import Case
from ..reduce.float_duties import NONE, FloatDuties, Floats, least_point
from ..reduce.going_on import NO_KINKS, Kinks, kinks_of
from ..reduce.moves import with_ends
from ..reduce.structure import Course, Parting, Structure, Through, is_flat, reduced, splits, throughs
from .window_courses import WindowNetwork
from .joining import joined_windows

# A duty of so many thousandths of the greatest heat has half the weight of none; how often weights are made anew.
HALF, ROUNDS = 2.0, 6
# Combinations that are at most so many exchangers above the best are thinned out; so many of the best are given; how
# often a combination of one exchanger more is taken; more exchangers than any network has that is looked at.
NEAR_BEST, MOST, WORSE, MANY = 2, 6, 0.1, 10 ** 6
# How often weights of a long structure are made anew before it is compared.
LONG = 1
# Lanes end at one temperature where they miss it by no more than this part of what the parting exchanges.
EVEN = 1e-5


# How many splits are too many, a number of exchangers, and one of splits.
Rank = tuple[int, int, int]


@dataclass(frozen=True)
class Aim:
    """What is searched: fewer exchangers than the best so far, or as many and fewer splits. Where there may be at most
    so many splits, no more of them come first. Exchangers that go on across kinks are counted as one."""

    least: Rank = (0, MANY, 0)
    most_splits: int | None = None
    kinks: Kinks = NO_KINKS

    @property
    def exchangers(self) -> int:
        return self.least[1]

    def rank(self, structure: Structure) -> Rank:
        """What is less is better."""
        number = splits(structure)
        excess = 0 if self.most_splits is None else max(0, number - self.most_splits)
        return (excess, self.kinks.count(structure), number)


@dataclass(frozen=True)
class Thinned:
    """A structure whose every exchanger has a duty, in floats. Where some go on across kinks, `chains` has the number
    of the exchanger of the plant that each one is a part of."""

    structure: Structure
    duties: tuple[float, ...]
    # The networks of the windows of which it was made.
    combination: Combination = ()
    chains: tuple[int, ...] = ()

    @property
    def count(self) -> int:
        """How many exchangers the plant has."""
        return len(set(self.chains)) if self.chains else len(self.duties)

    @property
    def whole_duties(self) -> Sequence[float]:
        """Of each exchanger the duty of the whole that it is a part of."""
        if not self.chains:
            return self.duties
        wholes = dict.fromkeys(self.chains, 0.0)
        for chain, duty in zip(self.chains, self.duties):
            wholes[chain] += duty
        return [wholes[chain] for chain in self.chains]


def thinned_once(case: Case, structure: Structure, most_cost: Fraction, weights: Floats | None) -> Thinned | None:
    """A structure without the exchangers that a vertex leaves without a duty; None where it has no duties."""
    model = FloatDuties(case, structure)
    point = least_point(model.rows(most_cost), numpy.ones(model.count) if weights is None else weights)
    if point is None:
        return None
    gone = frozenset(name for name, duty in zip(model.names, point) if duty <= NONE)
    kept = tuple(float(duty) for name, duty in zip(model.names, point) if name not in gone)
    left = reduced(structure, gone) if gone else structure
    return Thinned(left, kept, chains=kinks_of(case).chains(left))


def weights_of(duties: Sequence[float], random: Random) -> Floats:
    """Large for small duties, with a little chance."""
    return numpy.array([(0.5 + random.random()) / (HALF + duty) for duty in duties])


def thinned(case: Case, structure: Structure, most_cost: Fraction, random: Random, rounds: int = ROUNDS,
            ) -> Thinned | None:
    """A structure made less by several programs."""
    weights = numpy.array([random.random() for _ in structure.pairs])
    best = thinned_once(case, structure, most_cost, weights)
    idle = 0
    while best is not None and idle < rounds:
        less = thinned_once(case, best.structure, most_cost, weights_of(best.whole_duties, random))
        if less is None:
            break
        idle = 0 if less.count < best.count else idle + 1
        best = less
    return best


def evened(thin: Thinned) -> Structure:
    """A structure whose partings are level where their lanes have one exchanger each and end at one temperature: their
    shares then follow from the duties, and need not be what floats made of them."""
    duties = dict(zip(thin.structure.pairs, thin.duties))

    def made(course: Course) -> Course:
        return tuple(step if isinstance(step, Through) else replace(
            step, lanes=tuple(replace(lane, course=made(lane.course)) for lane in step.lanes),
            level=step.level or is_even(step, duties)) for step in course)
    return replace(thin.structure, courses={name: made(course) for name, course in thin.structure.courses.items()})


def is_even(parting: Parting, duties: Mapping[str, float]) -> bool:
    """Whether the lanes have one exchanger each, and end at one temperature."""
    if not is_flat(parting.lanes):
        return False
    whole = sum(duties[name] for name in throughs((parting,)))
    parts = [(duties[name], whole * float(lane.share)) for lane in parting.lanes for name in throughs(lane.course)]
    return all(abs(duty - even) <= EVEN * whole for duty, even in parts)


Pool = Sequence[WindowNetwork]
Combination = tuple[WindowNetwork, ...]


@dataclass(frozen=True)
class Mixing:
    """What is combined: a network of each window, from its pool. `begin` is the combination to begin with, of the best
    network so far; none for one by chance. Where networks may cost more than the least, each stream may end at each
    utility (`pays`)."""

    case: Case
    pools: Sequence[Pool]
    most_cost: Fraction
    pays: bool
    begin: Combination = ()

    def structure(self, combination: Combination) -> Structure:
        structure = joined_windows(self.case, combination)
        return with_ends(self.case, structure) if self.pays else structure

    def first(self, random: Random) -> Combination:
        return self.begin or tuple(random.choice(pool) for pool in self.pools)

    def changed(self, combination: Combination, random: Random) -> Combination:
        """Another network for one of the windows."""
        at = random.randrange(len(self.pools))
        return (*combination[:at], random.choice(self.pools[at]), *combination[at + 1:])


def combined(mixing: Mixing, seed: int, tries: int, aim: Aim) -> list[Thinned]:
    """The best of so many combinations, the best first: each differs from the one before in one window."""
    random, count, least = Random(seed), MANY, aim.exchangers
    found: list[Thinned] = []
    now = mixing.first(random)
    for turn in range(tries):
        tried = mixing.changed(now, random) if turn else now
        structure = mixing.structure(tried)
        # Pairs that go straight down have many exchangers, most of which go.
        is_long = len(structure.pairs) > sum(network.count for network in tried)
        less = thinned(mixing.case, structure, mixing.most_cost, random, LONG * is_long)
        if less is None:
            now = now if count < MANY else mixing.changed(now, random)
            continue
        if less.count <= least + NEAR_BEST:
            less = thinned(mixing.case, less.structure, mixing.most_cost, random) or less
            least = min(least, less.count)
            found.append(replace(less, combination=tried))
        if less.count <= count + (random.random() < WORSE):
            now, count = tried, less.count
    found.sort(key=lambda thin: aim.rank(thin.structure))
    return found[:MOST]
