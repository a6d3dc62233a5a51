"""A network of the whole case bettered at a few places: it gets exchangers more, and is thinned out again (a large
neighbourhood search, after Shaw 1998).

What is put in changes nothing with the duty 0, so there is always a point. An exchanger of a small duty is to go: what
is put in lies around it, at its two sources, so that others can take its duty."""
from __future__ import annotations

from collections.abc import Iterator, Sequence
from dataclasses import dataclass
from fractions import Fraction
from random import Random

import numpy

from ...formats.case import Case
from ..reduce.float_duties import Floats
from ..reduce.going_on import NO_KINKS, Kinks
from ..reduce.moves import structures, unsplit
from ..reduce.structure import Structure, splits
from ..reduce.widen import Pair, with_more
from .prolonging import prolonged
from .thinning import HALF, Aim, Thinned, thinned_once, weights_of

# How many exchangers are put in, at least and at most; how many of them around one that is to go; what its weight is
# taken times; how often weights are made anew.
MORE, AROUND, HEAVY, AGAIN = (3, 16), 0.7, 8.0, 2


@dataclass(frozen=True)
class Growing:
    """What is bettered, with the pairs that may be put in, how many splits there may be, and the kinks at which
    exchangers may go on."""

    case: Case
    pairs: Sequence[Pair]
    most_cost: Fraction
    most_splits: int | None = None
    kinks: Kinks = NO_KINKS

    def start(self, structure: Structure, random: Random) -> Thinned | None:
        return thinned_once(self.case, structure, self.most_cost,
                            numpy.array([0.5 + random.random() for _ in structure.pairs]))

    def bettered(self, now: Thinned, random: Random) -> Thinned | None:
        """With exchangers more, and with a split less where there are too many; and then without all that are left
        without a duty."""
        names = list(now.structure.pairs)
        leaving = random.choices(range(len(names)), [1 / (HALF + duty) for duty in now.whole_duties])[0]
        picked = list(self.picked(now.structure.pairs[names[leaving]], random.randint(*MORE), random))
        wide = with_more(self.case, self.less_split(now.structure, random), picked, random,
                         self.most_splits is None or splits(now.structure) < self.most_splits)
        wide, wholes = prolonged(self.case, self.kinks, wide, self.pairs, random)
        weights = weights_with(now, leaving, len(picked), random)
        places = {name: at for at, name in enumerate(wide.pairs)}
        # A part of an exchanger has its weight.
        parts = weights[[places[name] for name in wholes]] * random.random()
        found = thinned_once(self.case, wide, self.most_cost, numpy.concatenate([weights, parts]))
        for _ in range(AGAIN):
            if found is None or found.count < now.count:
                break
            found = thinned_once(self.case, found.structure, self.most_cost, weights_of(found.whole_duties, random))
        return found

    def less_split(self, structure: Structure, random: Random) -> Structure:
        """A structure without one of its splits, where there are too many."""
        if self.most_splits is None or splits(structure) <= self.most_splits:
            return structure
        return random.choice(list(structures(structure, unsplit)))

    def picked(self, leaving: Pair, count: int, random: Random) -> Iterator[Pair]:
        """The pairs that are put in."""
        around = [pair for pair in self.pairs if pair[0] == leaving[0] or pair[1] == leaving[1]]
        for _ in range(count):
            yield random.choice(around if around and random.random() < AROUND else self.pairs)


def weights_with(now: Thinned, leaving: int, more: int, random: Random) -> Floats:
    """The weights of a network and of what is put in: small for large duties, large for what is to go."""
    weights = weights_of(now.whole_duties, random)
    chains = now.chains or range(len(weights))
    weights[[at for at, chain in enumerate(chains) if chain == chains[leaving]]] *= HEAVY
    middle = float(numpy.median(weights))
    fresh = numpy.array([middle * random.random() for _ in range(more)])
    return numpy.concatenate([weights, fresh])


def grown(growing: Growing, structure: Structure, seed: int, tries: int, aim: Aim) -> list[Thinned]:
    """What is found by so many changes, one after the other; what is as good stays too."""
    random = Random(seed)
    now = growing.start(structure, random)
    found: list[Thinned] = [] if now is None else [now]
    for _ in range(tries):
        if now is None:
            break
        changed = growing.bettered(now, random)
        if changed is not None and aim.rank(changed.structure)[:2] <= aim.rank(now.structure)[:2]:
            now = changed
            found.append(changed)
    return found
