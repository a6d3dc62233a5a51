"""Open branches as streams: what is left of each, and the case that they make.

A branch is open where it is never passed, mixed, split or ended. A case has whole numbers, so sizes are taken times a
common whole number, and temperatures too where some are fractions: targets only know differences of shifted
temperatures, so that these may be moved as well. What is then no whole number is rounded, to the side that is harder
for the hot target or to the easier one. Sizes are in 10 W/K or W, temperatures in tenths of °C, heats in W."""
from __future__ import annotations

import enum
from collections.abc import Iterable, Mapping, Sequence
from dataclasses import dataclass, replace
from fractions import Fraction
from math import ceil, floor, lcm

from ..formats.case import ANY_HEAT, Basis, Case, Forbid, Side, Source, Stream, Utility, shifted
from ..formats.kept_rows import kept_cost_rows, kept_ranges
from ..formats.network import End, Mix, Network, Pass, Split
from ..formats.range_parts import range_parts
from ..formats.segments import SegmentedStream, kept_segments, segment_fault
from ..tables.names import apart, fitted
from .follow import Branch, Followed

# The limits of a case (docs/FORMATS.md, Limits).
LARGEST_CP, LARGEST_LOAD, COLDEST, WARMEST = 100_000, 10 ** 10, -2731, 30_000


class Rounding(enum.Enum):
    """To which side numbers are rounded: so that the rest needs more hot utility, or less."""

    HARDER = 'harder'
    EASIER = 'easier'


@dataclass(frozen=True)
class Left:
    """An open branch, with the name that its stream has in the rest. Its state is known. It is led to the target of its
    stream, or where `until` says to another state."""

    name: str
    branch: Branch
    until: Fraction | None = None

    @property
    def stream(self) -> Stream:
        return self.branch.stream

    @property
    def state(self) -> Fraction:
        assert self.branch.state is not None
        return self.branch.state

    @property
    def end(self) -> Fraction:
        """The state to which it is led."""
        if self.until is not None:
            return self.until
        return Fraction(self.stream.side is Side.COLD) if self.stream.latent else Fraction(self.stream.target)

    @property
    def share(self) -> Fraction:
        """Of a latent stream the part of its load that is left, from 1 down to 0; of another one 1."""
        return self.step if self.stream.latent else Fraction(1)

    @property
    def size(self) -> Fraction:
        """The CP of what is left, or the load of it."""
        return self.branch.size * self.share

    @property
    def step(self) -> Fraction:
        """How far it is to its end, above 0 in the direction of the stream; of a latent stream the part of its load."""
        way = self.state - self.end
        return way if self.stream.side is Side.HOT else -way

    @property
    def heat(self) -> Fraction:
        """What it has still to give or to take."""
        return self.branch.size * self.step


def open_branches(followed: Followed) -> tuple[Branch, ...]:
    """The branches that no statement uses, by the order of the streams and then of the statements."""
    used = {branch_name for statement in followed.network.statements for branch_name in used_by(statement)}
    branches = [branch for name, branch in followed.branches.items() if name not in used]
    order = {stream.name: at for at, stream in enumerate(followed.case.streams)}
    return tuple(sorted(branches, key=lambda branch: (order[branch.stream.name], branch.statement)))


def used_by(statement: object) -> tuple[str, ...]:
    match statement:
        case Split(branch) | Pass(branch) | End(branch):
            return (branch,)
        case Mix(first, second):
            return (first, second)
    return ()


def left_of(case: Case, branches: Sequence[Branch]) -> tuple[Left, ...]:
    """The branches with their names in the rest: that of the stream where it has one open branch, else their own."""
    taken = {source.name for source in case.sources} | {'HOT', 'COLD'}
    made: list[Left] = []
    for branch in branches:
        alone = sum(other.stream.name == branch.stream.name for other in branches) == 1
        name = branch.stream.name if alone else apart(fitted(branch.name.lstrip('.')) or 'B', taken)
        taken.add(name)
        made.append(Left(name, branch))
    return tuple(made)


@dataclass(frozen=True)
class Scale:
    """How a case holds the rest: CPs are taken `sizes` times; temperatures `degrees` times and then with the offset, on
    the shifted scale with no contributions, or as they are where `degrees` is 1."""

    sizes: int
    degrees: int = 1
    offset: int = 0

    @property
    def factor(self) -> int:
        """What heats are taken times."""
        return self.sizes * self.degrees

    def place(self, source: Source, temperature: Fraction) -> Fraction:
        """A temperature of a source as the case has it."""
        if self.degrees == 1:
            return temperature
        return (temperature + shifted(source, 0)) * self.degrees + self.offset

    def back(self, place: int) -> Fraction:
        """A shifted temperature of the case on the scale of the whole."""
        return Fraction(place - self.offset, self.degrees)


def scale_of(lefts: Iterable[Left], case: Case, used: Mapping[str, Fraction]) -> Scale:
    """The numbers by which sizes and temperatures are taken: they make all of them whole, and the heats that utilities
    have given, as far as the limits of a case allow; else they are as large as these do, and sizes a power of ten."""
    all_left = list(lefts)
    sensible, latent = ([left for left in all_left if left.stream.latent is kind] for kind in (False, True))
    most = min((int(LARGEST_LOAD / left.size) for left in latent), default=LARGEST_LOAD)
    degrees, offset = degrees_of(sensible, [*(left.stream for left in all_left), *case.utilities], most)
    limit = min((int(LARGEST_CP / left.size) for left in sensible), default=LARGEST_CP)
    limit = max(1, min(limit, most // degrees))
    sizes = lcm(*(left.size.denominator for left in all_left))
    for factor in (lcm(sizes, *(heat.denominator for heat in used.values())), sizes):
        if factor <= limit:
            return Scale(factor, degrees, offset)
    return Scale(int('1'.ljust(len(str(limit)), '0')), degrees, offset)


def degrees_of(lefts: Sequence[Left], sources: Iterable[Source], most: int) -> tuple[int, int]:
    """What temperatures are taken times, so that they are whole, or as large as the limits allow, and the offset that
    keeps them within these."""
    wanted = lcm(*(state.denominator for left in lefts for state in (left.state, left.end)))
    if wanted == 1:
        return 1, 0
    ends = [end for source in sources for end in
            ((source.low, source.high) if isinstance(source, Stream) else (shifted(source, source.level),) * 2)]
    width = max(1, max(ends) - min(ends))
    degrees = min(wanted, (WARMEST - COLDEST) // width, most)
    return (degrees, COLDEST - degrees * min(ends)) if degrees > 1 else (1, 0)


def rounded(value: Fraction, up: bool) -> int:
    return ceil(value) if up else floor(value)


def rest_stream(left: Left, scale: Scale, rounding: Rounding) -> Stream | None:
    """What is left of a branch as a stream; None where nothing is, or nothing that a case can hold. It is harder where
    a hot stream is smaller and a cold one larger, where both begin at a lower temperature, and end at a higher one."""
    stream, harder = left.stream, rounding is Rounding.HARDER
    up = (stream.side is Side.HOT) is not harder
    share = stream.contribution if scale.degrees == 1 else 0
    if stream.latent:
        target = rounded(scale.place(stream, Fraction(stream.target)), False)
        load = rounded(left.size * scale.factor, up)
        return Stream(left.name, stream.side, target, target, 0, load, share) if load else None
    size, supply = rounded(left.size * scale.sizes, up), rounded(scale.place(stream, left.state), not harder)
    target = rounded(scale.place(stream, left.end), harder)
    if size == 0 or supply == target or (supply < target) is (stream.side is Side.HOT):
        return None
    return Stream(left.name, stream.side, supply, target, size, 0, share)


def rest_utility(utility: Utility, used: Fraction, scale: Scale, rounding: Rounding) -> Utility:
    """A utility with its range less what it gives or takes already; a range is harder where it is narrower."""
    harder = rounding is Rounding.HARDER
    least, most = (max(Fraction(0), bound - used) * scale.factor for bound in (utility.least, utility.most))
    high = ANY_HEAT if utility.most == ANY_HEAT else min(ANY_HEAT, rounded(most, not harder))
    level = rounded(scale.place(utility, Fraction(utility.level)), False)
    return replace(utility, level=level, least=min(high, rounded(least, harder)), most=high,
                   contribution=utility.contribution if scale.degrees == 1 else 0)


def rest_case(case: Case, lefts: Sequence[Left], used: Mapping[str, Fraction], scale: Scale,
              rounding: Rounding) -> Case:
    """The case of what is left of a completed case: its streams, its utilities with what is left of their ranges, and
    its forbidden matches. All its heats are the scale's `factor` times those of the case."""
    made = {open_branch.name: rest_stream(open_branch, scale, rounding) for open_branch in lefts}
    streams = tuple(stream for stream in made.values() if stream)
    names: dict[str, list[str]] = {utility.name: [utility.name] for utility in case.utilities}
    for left in lefts:
        if made[left.name]:
            names.setdefault(left.stream.name, []).append(left.name)
    forbids = tuple(Forbid(hot, cold) for forbid in case.forbids
                    for hot in names.get(forbid.hot, []) for cold in names.get(forbid.cold, []))
    utilities = tuple(rest_utility(utility, used[utility.name], scale, rounding)
                      for utility in case.utilities if not utility.invented)
    segments = rest_segments(case, streams)
    sources: tuple[Source, ...] = (*streams, *utilities)
    kept = {*(source.name for source in sources), *(segmented.name for segmented in segments)}
    basis = replace(rest_rows(case, streams, segments, names), scale=case.basis.scale * scale.factor,
                    names=tuple(renamed for renamed in case.basis.names if renamed[1] in kept))
    return Case(case.contribution if scale.degrees == 1 else 0, streams, utilities, forbids, basis)


def rest_rows(case: Case, streams: Sequence[Stream], segments: tuple[SegmentedStream, ...],
              names: Mapping[str, Sequence[str]]) -> Basis:
    """The basis of a case with the rows that speak of what is left of it; `names` has what is left of each source."""
    named, whole = {stream.name: stream for stream in streams}, {one.name: one.segments for one in segments}

    def left_of_parts(name: str, parts: Iterable[str]) -> dict[str, list[Stream]]:
        """What is left of a stream in segments: as one where they follow one another, and what is beside that."""
        as_one = whole.get(name, ())
        alone = [made for part in parts for made in names.get(part, []) if made not in as_one]
        return {**({name: [named[part] for part in as_one]} if as_one else {}),
                **{made: [named[made]] for made in alone}}
    wholes = {one.name: list(left_of_parts(one.name, one.segments)) for one in case.basis.segments}
    left = {utility.name: left_of_parts(utility.name, [part.name for part in range_parts(case, utility)])
            for utility in case.basis.ranges}
    return replace(case.basis, segments=segments, ranges=kept_ranges(case.basis.ranges, left),
                   cost_rows=kept_cost_rows(case.basis.cost_rows, names, wholes))


def rest_segments(case: Case, streams: Sequence[Stream]) -> tuple[SegmentedStream, ...]:
    """The streams of which several segments are left that still follow one another."""
    named = {stream.name: stream for stream in streams}
    return tuple(segmented for segmented in kept_segments(case.basis.segments, named)
                 if segment_fault(segmented, named, named) is None)


def is_exact(lefts: Iterable[Left], case: Case, used: Mapping[str, Fraction], scale: Scale) -> bool:
    """Whether nothing is rounded at this scale."""
    numbers = [number for left in lefts for number in ([left.size * scale.factor] if left.stream.latent else
                                                       [left.size * scale.sizes, left.state * scale.degrees,
                                                        left.end * scale.degrees])]
    ranged = [used[utility.name] * scale.factor for utility in case.utilities
              if (utility.least, utility.most) != (0, ANY_HEAT)]
    return all(scaled.denominator == 1 for scaled in (*numbers, *ranged))


def used_heats(case: Case, network: Network) -> dict[str, Fraction]:
    """What each utility gives or takes already."""
    heats = {utility.name: Fraction(0) for utility in case.utilities}
    for one in network.exchangers:
        for name in {one.hot, one.cold} & set(heats):
            heats[name] += one.duty
    return heats
