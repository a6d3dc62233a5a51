"""What the processes of a search are asked, each of it the same wherever it is done."""
from __future__ import annotations

from collections.abc import Iterator, Sequence
from dataclasses import dataclass, replace
from fractions import Fraction
from random import Random

from ...formats.case import Case
from ..reduce.least_cost import cheapest
from ..reduce.network_structure import Costed
from ..reduce.simplify import kinds
from ..reduce.structure import Structure
from ..staged.windows import Window
from .window_courses import Chain, ChainEnd
from .dropping import dropped
from .growing import Growing, grown
from .ruin import run_chain
from .short_fractions import with_room
from .thinning import MOST, Aim, Mixing, Thinned, combined, evened, thinned


# A duty with a smaller denominator is short enough for a text whose fractions `pinch audit` follows.
SHORT = 2 ** 24
# How often the first network of a large case is thinned out without a gain.
START_ROUNDS = 2


@dataclass(frozen=True)
class WholeEnd:
    """What a job of the whole case found, and the best of it in fractions, as one network or in two ways."""

    found: tuple[Thinned, ...]
    exact: tuple[Costed, ...]


@dataclass(frozen=True)
class ChainJob:
    """So many descents more of a chain in the window `at`. `least` is the fewest exchangers of a network of it so far,
    None before the first."""

    window: Window
    at: int
    chain: int
    seed: int
    steps: int
    begin: Chain
    least: int | None
    may_split: bool = True

    def run(self) -> ChainEnd:
        return run_chain(self.window, self.seed, self.steps, self.begin, self.least, self.may_split)


@dataclass(frozen=True)
class CombineJob:
    """So many combinations of a network of each window."""

    mixing: Mixing
    seed: int
    tries: int
    aim: Aim

    def run(self) -> WholeEnd:
        found = combined(self.mixing, self.seed, self.tries, self.aim)
        return whole_end(self.mixing.case, found, self.mixing.most_cost, self.aim)


@dataclass(frozen=True)
class ThinJob:
    """A structure thinned out so many times."""

    case: Case
    structure: Structure
    most_cost: Fraction
    seed: int
    times: int
    aim: Aim

    def run(self) -> WholeEnd:
        random = Random(self.seed)
        found = (thinned(self.case, self.structure, self.most_cost, random) for _ in range(self.times))
        return whole_end(self.case, [thin for thin in found if thin], self.most_cost, self.aim)


@dataclass(frozen=True)
class StartJob:
    """A first network of a large case, in the first seconds: a few descents in each window, and the best of them
    combined."""

    mixing: Mixing
    parts: tuple[Window, ...]
    seed: int
    steps: int
    aim: Aim
    may_split: bool = True

    def run(self) -> WholeEnd:
        ends = [run_chain(part, self.seed, self.steps, Chain(), None, self.may_split) for part in self.parts]
        if not all(end.networks for end in ends):
            return WholeEnd((), ())
        first = tuple(min(end.networks, key=lambda network: (network.count, len(network.pairs))) for end in ends)
        mixing, random = self.mixing, Random(self.seed)
        thin = thinned(mixing.case, mixing.structure(first), mixing.most_cost, random, START_ROUNDS)
        found = [] if thin is None else [replace(thin, combination=first)]
        return whole_end(mixing.case, found, mixing.most_cost, self.aim)


@dataclass(frozen=True)
class GrowJob:
    """A structure of the whole case changed so many times at a few places."""

    growing: Growing
    structure: Structure
    seed: int
    tries: int
    aim: Aim

    def run(self) -> WholeEnd:
        found = grown(self.growing, self.structure, self.seed, self.tries, self.aim)
        return whole_end(self.growing.case, found, self.growing.most_cost, self.aim)


@dataclass(frozen=True)
class DropJob:
    """The exchangers of a structure that can go together, so that fewer than the least are left."""

    case: Case
    structure: Structure
    most_cost: Fraction
    nodes: int
    seconds: float
    aim: Aim

    def run(self) -> WholeEnd:
        fewest = len(self.structure.pairs)
        # What goes on across kinks is one exchanger in the plant, and so may have more parts than the best has.
        most = fewest - 1 if self.aim.kinks.kinks else min(self.aim.exchangers, fewest) - 1
        found = dropped(self.case, self.structure, self.most_cost, most, self.nodes, self.seconds)
        return whole_end(self.case, [found] if found else [], self.most_cost, self.aim)


def whole_end(case: Case, thins: Sequence[Thinned], most_cost: Fraction, aim: Aim) -> WholeEnd:
    """What a job of the whole case gives: what it found, the best first, and the best of it that is better than the
    best so far and does in fractions too."""
    found = tuple(sorted(thins, key=lambda thin: aim.rank(thin.structure)))[:MOST]
    for thin in found:
        if aim.rank(thin.structure) >= aim.least:
            break
        exact = tuple(exact_kinds(case, thin, most_cost))
        if exact:
            return WholeEnd(found, exact)
    return WholeEnd(found, ())


def exact_kinds(case: Case, thin: Thinned, most_cost: Fraction) -> Iterator[Costed]:
    """A structure in fractions, in ways that are likely to have short ones, until one has: at a vertex, with room for
    the duties, and both with isothermal mixing, first of all where it is so in floats."""
    even = evened(thin)
    for kind in (*([] if even == thin.structure else [even]), *kinds(thin.structure)):
        for way in (cheapest_at, with_room):
            costed = way(case, kind, most_cost)
            if costed is not None:
                yield costed
                if all(duty.denominator < SHORT for duty in costed.duties.values()):
                    return


def cheapest_at(case: Case, structure: Structure, most_cost: Fraction) -> Costed | None:
    costed = cheapest(case, structure)
    return costed if costed is not None and costed.cost <= most_cost else None


def end_of(job: Job) -> ChainEnd | WholeEnd:
    """What a job comes to: nothing where its floats break."""
    try:
        return job.run()
    except ArithmeticError:
        return ChainEnd(job.begin, ()) if isinstance(job, ChainJob) else WholeEnd((), ())


Job = ChainJob | CombineJob | ThinJob | StartJob | GrowJob | DropJob
