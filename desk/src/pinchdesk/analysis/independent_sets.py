"""Independent sets: sources parted into as many sets as may be, each of which balances exactly.

The books' rule for the least number of exchangers is sources less independent sets (Hohmann 1971; Linnhoff, Mason and
Wardle 1979): a set of n sources whose heats balance wants n - 1 exchangers, and no heat from outside. Heats are whole
W, above 0 where a source gives. The partition is exact: every subset that balances is listed by its bits (the sums of
two halves meet in the middle), and the most of them that part the whole come by dynamic programming over these bits.
Where there are too many sources or subsets for that, bounds are given in its place, and `exact` says so."""
from __future__ import annotations

from collections.abc import Callable, Iterator, Sequence
from dataclasses import dataclass
from itertools import combinations
from typing import TYPE_CHECKING, Any

if TYPE_CHECKING:
    import numpy
    from numpy.typing import NDArray
    Masks = NDArray[numpy.int64]

# More than these would take longer than a user waits.
MOST_SOURCES, MOST_SUBSETS, MOST_JOINED, SMALL = 40, 12_000, 4_000, 6
# What makes a chain of sets worth less than none.
NEVER = -1_000


@dataclass(frozen=True)
class Member:
    """A source with its heat in W, above 0 where it gives; utilities alone make no set."""

    name: str
    heat: int
    utility: bool = False


@dataclass(frozen=True)
class Partition:
    """Sets that balance, of all members. `most_sets` is how many there can be at most; it is the number of `sets` where
    the partition is exact."""

    sets: tuple[tuple[Member, ...], ...]
    most_sets: int

    @property
    def exact(self) -> bool:
        return self.most_sets == len(self.sets)

    @property
    def members(self) -> int:
        return sum(len(independent_set) for independent_set in self.sets)

    @property
    def least_exchangers(self) -> int:
        """Sources less independent sets: no number below it fits the rule."""
        return self.members - self.most_sets

    @property
    def found_exchangers(self) -> int:
        """Sources less the sets that were found; the least number where the partition is exact."""
        return self.members - len(self.sets)


def partition(members: Sequence[Member]) -> Partition:
    """The partition of members whose heats are 0 together into the most sets; `ValueError` where they do not balance.
    A member without heat counts for nothing."""
    with_heat = [member for member in members if member.heat]
    if sum(member.heat for member in with_heat):
        raise ValueError('the heats do not balance')
    pairs, rest = paired(with_heat)
    if all(member.utility for member in rest):
        return whole(pairs, rest)
    most = len(pairs) + bound(rest)
    masks = balancing(rest) if most > len(pairs) + 1 else None
    if masks is None:
        return Partition((*pairs, *peeled(rest)), most)
    sets = [tuple(rest[at] for at in range(len(rest)) if mask >> at & 1) for mask in parted(rest, masks)]
    return Partition((*pairs, *sets), len(pairs) + len(sets))


def whole(pairs: Sequence[tuple[Member, ...]], rest: Sequence[Member]) -> Partition:
    """The partition where utilities alone are left beside the pairs: they join one of them."""
    if not pairs:
        return Partition((tuple(rest),) if rest else (), min(1, len(rest)))
    return Partition(((*pairs[0], *rest), *pairs[1:]), len(pairs))


def paired(members: Sequence[Member]) -> tuple[list[tuple[Member, ...]], list[Member]]:
    """Pairs of equal heat that are never a loss, and the rest. Two sets that the members of a pair stand in become the
    pair and one set of what else they have, unless that is of utilities alone: so two streams are a pair only where no
    two hot or no two cold utilities are left."""
    pairs, rest = taken_out(members, utilities=1)
    if few_utilities(rest):
        more, rest = taken_out(rest, utilities=0)
        pairs += more
    return pairs, rest


def few_utilities(members: Sequence[Member]) -> bool:
    hot = sum(member.utility and member.heat > 0 for member in members)
    cold = sum(member.utility and member.heat < 0 for member in members)
    return hot < 2 or cold < 2


def taken_out(members: Sequence[Member], utilities: int) -> tuple[list[tuple[Member, ...]], list[Member]]:
    """Pairs of equal heat with so many utilities in each, and the rest."""
    pairs: list[tuple[Member, ...]] = []
    rest = list(members)
    for giver in [member for member in members if member.heat > 0]:
        taker = next((member for member in rest
                      if member.heat == -giver.heat and member.utility + giver.utility == utilities), None)
        if taker is not None:
            pairs.append((giver, taker))
            rest.remove(giver)
            rest.remove(taker)
    return pairs, rest


def bound(members: Sequence[Member]) -> int:
    """How many sets there can be behind the pairs: each has one member that gives and one that takes, a stream, and a
    third one where no two streams balance."""
    gives = sum(member.heat > 0 for member in members)
    streams = sum(not member.utility for member in members)
    smallest = 3 if few_utilities(members) else 2
    return max(1, min(len(members) // smallest, gives, len(members) - gives, streams))


def peeled(members: Sequence[Member]) -> tuple[tuple[Member, ...], ...]:
    """Some sets, where the most are not known: a small one is taken off, and what is left is parted in turn."""
    small = small_set(members)
    if small is None:
        return (tuple(members),)
    return (small, *partition([member for member in members if member not in small]).sets)


def small_set(members: Sequence[Member]) -> tuple[Member, ...] | None:
    """A balancing set of at most six members, of the fewest there are, that leaves some members with a stream; None
    where there is none."""
    places = range(len(members))
    streams = sum(not member.utility for member in members)
    for size in range(2, SMALL + 1):
        sums: dict[int, list[tuple[int, ...]]] = {}
        for part in combinations(places, size // 2):
            sums.setdefault(sum(members[at].heat for at in part), []).append(part)
        for part in combinations(places, size - size // 2):
            for other in sums.get(-sum(members[at].heat for at in part), []):
                found = [members[at] for at in {*part, *other}]
                if len(found) == size and 0 < sum(not member.utility for member in found) < streams:
                    return tuple(found)
    return None


def balancing(members: Sequence[Member]) -> Masks | None:
    """The bits of each subset that balances, the empty one and the whole among them; None where they are too many."""
    import numpy
    if len(members) > MOST_SOURCES:
        return None
    half = len(members) // 2
    first, second = (sums([member.heat for member in part]) for part in (members[:half], members[half:]))
    order = numpy.argsort(second, kind='stable')
    rising = second[order]
    begin, end = numpy.searchsorted(rising, -first, 'left'), numpy.searchsorted(rising, -first, 'right')
    if int((end - begin).sum()) > MOST_SUBSETS:
        return None
    found = [mask | int(other) << half for mask in numpy.flatnonzero(end > begin).tolist()
             for other in order[begin[mask]:end[mask]]]
    return numpy.array(sorted(found, key=lambda mask: (mask.bit_count(), mask)), dtype=numpy.int64)


def sums(heats: Sequence[int]) -> Masks:
    """The sum of each subset, by its bits."""
    import numpy
    subset_sums = numpy.zeros(1, dtype=numpy.int64)
    for heat in heats:
        subset_sums = numpy.concatenate((subset_sums, subset_sums + heat))
    return subset_sums


def parted(members: Sequence[Member], masks: Masks) -> list[int]:
    """The most sets into which the whole is parted, as bits. The masks go by rising size: the most sets of each come
    from those of a smaller one inside it, whose rest is one set more where it has a stream."""
    import numpy
    streams = numpy.int64(sum(1 << at for at, member in enumerate(members) if not member.utility))
    most, before = chained(masks, lambda differences: numpy.not_equal(differences & streams, 0))
    return merged(list(steps(masks, before)), int(streams))


def joinable_partition(members: Sequence[Member], near: Sequence[int]) -> Partition | None:
    """The partition into the most sets of which each can be joined; `near` has for each member the bits of those with
    which it may exchange heat. None where there is no such partition, or there are too many sums to know it."""
    import numpy
    masks = balancing(members)
    if masks is None or len(masks) > MOST_JOINED:
        return None
    rising = numpy.sort(masks)
    can = numpy.array([is_joined(int(rising_mask), near) for rising_mask in rising])
    worth = numpy.where(can, 1, NEVER)
    most, before = chained(masks, lambda differences: numpy.take(worth, numpy.searchsorted(rising, differences)))
    if most[-1] < 0:
        return None
    sets = tuple(tuple(members[at] for at in range(len(members)) if mask >> at & 1) for mask in steps(masks, before))
    return Partition(sets, len(sets))


def is_joined(mask: int, near: Sequence[int]) -> bool:
    """Whether those of these bits that may exchange heat make one group."""
    reached = fresh = mask & -mask
    while fresh:
        at = fresh.bit_length() - 1
        fresh = (fresh & ~(1 << at)) | (near[at] & mask & ~reached)
        reached |= near[at] & mask
    return reached == mask


def chained(masks: Masks, worth: Callable[[Masks], NDArray[Any]]) -> tuple[Masks, Masks]:
    """For each mask the most that a chain of masks from the empty one up to it is worth, step by step by its
    differences, and the place of the mask before it."""
    import numpy
    most = numpy.zeros(len(masks), dtype=numpy.int64)
    before = numpy.zeros(len(masks), dtype=numpy.int64)
    for at in range(1, len(masks)):
        inside = numpy.flatnonzero(masks[:at] & masks[at] == masks[:at])
        counted = most[inside] + worth(masks[at] & ~masks[inside])
        best = int(counted.argmax())
        most[at], before[at] = counted[best], inside[best]
    return most, before


def steps(masks: Masks, before: Masks) -> Iterator[int]:
    """What is added at each step on the way to the whole."""
    at = len(masks) - 1
    while at:
        yield int(masks[at]) & ~int(masks[before[at]])
        at = int(before[at])


def merged(found: list[int], streams: int) -> list[int]:
    """The sets, with utilities that balance among themselves joined to the first of them."""
    sets = [mask for mask in found if mask & streams]
    for mask in found:
        if not mask & streams:
            sets[0] |= mask
    return sets
