"""A structure with more exchangers than are wanted, of which a mixed-integer program then chooses: pairs that do not
meet yet, and pairs that meet at other places.

What is put in changes nothing with the duty 0, so the choice is never worse than what it began with (a large
neighbourhood search, after Shaw 1998); but for a lane with a share of its own, which leaves less for the others."""
from __future__ import annotations

from collections.abc import Iterable, Sequence
from dataclasses import replace
from fractions import Fraction
from random import Random

from ...formats.case import Case, Side, Source, Stream
from .balances import beginning
from .moves import letter_of, next_name, put_around, put_in, taken_names, with_ends
from .structure import Structure, partings

Pair = tuple[str, str]


def pairs_of(case: Case) -> tuple[Pair, ...]:
    """The pairs of two streams, or of a stream and a utility, that may exchange heat, and can by their temperatures."""
    forbidden = {(forbid.hot, forbid.cold) for forbid in case.forbids}
    return tuple((hot.name, cold.name) for hot in case.sources if hot.side is Side.HOT
                 for cold in case.sources if cold.side is Side.COLD
                 if (hot.name, cold.name) not in forbidden and can_exchange(hot, cold))


def can_exchange(hot: Source, cold: Source) -> bool:
    """Whether the warmest of one and the coldest of the other are far enough apart, and one of them is a stream."""
    streams = isinstance(hot, Stream) or isinstance(cold, Stream)
    return streams and beginning(hot) - beginning(cold) >= hot.contribution + cold.contribution


# Shares that are tried where the sizes of two streams say none.
SHARES = tuple(Fraction(*ratio) for ratio in ((1, 4), (1, 3), (1, 2), (2, 3), (3, 4)))


def split_off(case: Case, structure: Structure, pairs: Sequence[Pair], chance: Random) -> Structure:
    """A structure with one exchanger more, which on one of its streams has a lane of its own."""
    pair = chance.choice(pairs)
    parted = [source_name for source_name in pair if structure.courses.get(source_name)]
    if not parted:
        return structure
    name, stream = next_name(taken_names(case, structure), letter_of(case, pair)), chance.choice(parted)
    courses = dict(structure.courses)
    for source_name in pair:
        if source_name == stream:
            share = share_of(case.source(source_name), case.source(pair[source_name == pair[0]]), chance)
            courses[source_name] = chance.choice(list(put_around(courses[source_name], name, share)))
        elif source_name in courses:
            courses[source_name] = chance.choice(list(put_in(courses[source_name], name)))
    return replace(structure, pairs={**structure.pairs, name: pair}, courses=courses)


def share_of(stream: Source, partner: Source, chance: Random) -> Fraction:
    """The share of a lane that has the CP of its partner, or one by chance."""
    sizes = [source.cp if isinstance(source, Stream) else 0 for source in (stream, partner)]
    if 0 < sizes[1] < sizes[0] and chance.random() < 0.7:
        return Fraction(sizes[1], sizes[0])
    return chance.choice(SHARES)


def widened(case: Case, structure: Structure, pairs: Sequence[Pair], count: int, chance: Random) -> Structure:
    """A structure with so many more exchangers, of pairs and at places that chance picks, and with utilities at the
    ends of its streams; of every two one has a lane more."""
    if chance.random() < 0.5:
        structure = split_off(case, structure, pairs, chance)
    return with_ends(case, with_more(case, structure, chance.choices(pairs, k=count), chance))


def with_more(case: Case, structure: Structure, pairs: Iterable[Pair], chance: Random, may_split: bool = True,
              ) -> Structure:
    """A structure with one more exchanger for each of these pairs, at places that chance picks, with no split more
    where none may come."""
    wider_pairs, courses, taken = dict(structure.pairs), dict(structure.courses), taken_names(case, structure)
    for pair in pairs:
        name = next_name(taken, letter_of(case, pair))
        wider_pairs[name] = pair
        for source_name in pair:
            if source_name in courses:
                ways = list(put_in(courses[source_name], name))
                if not may_split:
                    ways = [way for way in ways if partings(way) == partings(courses[source_name])]
                courses[source_name] = chance.choice(ways)
    return replace(structure, pairs=wider_pairs, courses=courses)
