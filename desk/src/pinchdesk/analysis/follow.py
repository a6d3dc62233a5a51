"""What a network does, step by step: each branch's size and state as fractions, both sides of each exchanger, its side
of each pinch.

It is worked out for a network that the audit rejects too, as far as it can be followed; what the audit says is not
worked out here. Temperatures are in tenths of °C, sizes in 10 W/K or W, heats in W, as in the program."""
from __future__ import annotations

import enum
from collections.abc import Mapping
from dataclasses import dataclass
from fractions import Fraction
from functools import cached_property

from ..formats.case import Case, Side, Source, Stream, shifted
from ..formats.network import End, Exchanger, Mix, Network, Pass, Split
from ..program.answers import Curves, Targets


@dataclass(frozen=True)
class Branch:
    """A branch where it is made. Its state is its temperature, or of a latent stream the part of its load that is
    still to be given, from 1 down to 0, or was taken already, from 0 up to 1. The state is None where the network
    cannot be followed: behind a branch whose size is not above 0."""

    name: str
    stream: Stream
    size: Fraction
    state: Fraction | None
    statement: int

    @property
    def temperature(self) -> Fraction | None:
        return Fraction(self.stream.supply) if self.stream.latent else self.state


@dataclass(frozen=True)
class SideState:
    """One side of an exchanger. A utility has no branches, and its level at both ends."""

    source: Source
    before: Branch | None
    behind: Branch | None

    @property
    def inlet(self) -> Fraction | None:
        return self.temperature(self.before)

    @property
    def outlet(self) -> Fraction | None:
        return self.temperature(self.behind)

    def temperature(self, branch: Branch | None) -> Fraction | None:
        if not isinstance(self.source, Stream):
            return Fraction(self.source.level)
        return branch.temperature if branch else None


@dataclass(frozen=True)
class PinchPoint:
    """A pinch: a shifted temperature, and whether a latent stream that stands just there lies above it."""

    temperature: int
    takes_level: bool

    def is_below(self, level: int | Fraction) -> bool:
        """Whether the pinch is below what stands at one shifted temperature."""
        return level > self.temperature or level == self.temperature and self.takes_level


class PinchSide(enum.Enum):
    """On which side of a pinch an exchanger works; `ACROSS` where one of its sides is on both, or the two are on
    different ones."""

    ABOVE = 'above'
    BELOW = 'below'
    ACROSS = 'across'


@dataclass(frozen=True)
class Passage:
    """An exchanger with what its two sides do. `approach` is the least difference that it has to keep, the sum of both
    contributions."""

    exchanger: Exchanger
    hot: SideState
    cold: SideState
    approach: int

    @property
    def parts(self) -> tuple[Passage, ...]:
        """The exchangers of the program that it is, from its hot end on."""
        return (self,)

    @property
    def hot_end(self) -> Fraction | None:
        """The difference where the hot side enters and the cold side leaves."""
        return difference(self.hot.inlet, self.cold.outlet)

    @property
    def cold_end(self) -> Fraction | None:
        """The difference where the hot side leaves and the cold side enters."""
        return difference(self.hot.outlet, self.cold.inlet)

    @property
    def least_difference(self) -> Fraction | None:
        ends = (self.hot_end, self.cold_end)
        return None if None in ends else min(end for end in ends if end is not None)

    def above(self, side: SideState, pinch: PinchPoint) -> Fraction | None:
        """How much of the duty this side gives or takes above a pinch."""
        return heat_above(side, self.exchanger.duty, pinch)

    def side_of(self, pinch: PinchPoint) -> PinchSide | None:
        """The side of a pinch; None where the network cannot be followed."""
        parts = {self.above(self.hot, pinch), self.above(self.cold, pinch)}
        if None in parts:
            return None
        if parts == {self.exchanger.duty}:
            return PinchSide.ABOVE
        return PinchSide.BELOW if parts == {Fraction(0)} else PinchSide.ACROSS

    def crossing(self, pinch: PinchPoint) -> Fraction | None:
        """The heat that it carries down across a pinch: what is given above it less what is taken there."""
        return difference(self.above(self.hot, pinch), self.above(self.cold, pinch))


@dataclass(frozen=True)
class StreamEnd:
    """Where a stream ends: the statement and the branch that is there."""

    statement: int
    branch: Branch


@dataclass(frozen=True)
class Followed:
    """A network that was followed: branches by name, exchangers in their order, and the ends of each stream by its
    name."""

    case: Case
    network: Network
    branches: Mapping[str, Branch]
    passages: tuple[Passage, ...]
    ends: Mapping[str, tuple[StreamEnd, ...]]

    @cached_property
    def by_name(self) -> Mapping[str, Passage]:
        return {passage.exchanger.name: passage for passage in self.passages}

    def passage(self, exchanger: str) -> Passage:
        """The exchanger of this name; `KeyError` where there is none."""
        return self.by_name[exchanger]


def difference(upper: Fraction | None, lower: Fraction | None) -> Fraction | None:
    return None if upper is None or lower is None else upper - lower


def heat_above(side: SideState, duty: Fraction, pinch: PinchPoint) -> Fraction | None:
    """How much of a duty a side gives or takes above a pinch: all or nothing at one temperature, else in proportion to
    the range."""
    if side.inlet is None or side.outlet is None:
        return None
    shift = Fraction(shifted(side.source, 0))
    high, low = max(side.inlet, side.outlet) + shift, min(side.inlet, side.outlet) + shift
    if not isinstance(side.source, Stream):
        warm = side.source.side is Side.HOT and high == pinch.temperature
        return duty if warm or high > pinch.temperature else Fraction(0)
    if high == low:
        return duty if pinch.is_below(low) else Fraction(0)
    if low >= pinch.temperature:
        return duty
    return duty * (high - pinch.temperature) / (high - low) if high > pinch.temperature else Fraction(0)


def pinches_of(targets: Targets, curves: Curves) -> tuple[PinchPoint, ...]:
    """The pinches with what stands at each: on the grand composite curve the first point of a temperature is without
    the loads that stand there, and where it is not 0 the pinch lies below them."""
    first = {point.temperature: point.heat for point in reversed(curves.net)}
    return tuple(PinchPoint(temperature, first[temperature] != 0) for temperature in targets.pinches)


class Follower:
    """Follows the statements one by one."""

    def __init__(self, case: Case, network: Network) -> None:
        self.case, self.network = case, network
        self.branches = {stream.name: beginning(stream) for stream in case.streams}
        self.exchangers = {exchanger.name: exchanger for exchanger in network.exchangers}
        self.sides: dict[tuple[str, Side], tuple[Branch, Branch]] = {}
        self.ends: dict[str, list[StreamEnd]] = {stream.name: [] for stream in case.streams}

    def take(self, at: int, statement: object) -> None:
        match statement:
            case Split(branch, first, size, second):
                divided = self.branches[branch]
                self.make(first, divided, size, divided.state, at)
                self.make(second, divided, divided.size - size, divided.state, at)
            case Pass(branch, exchanger, to):
                before = self.branches[branch]
                behind = self.make(to, before, before.size, passed(before, self.exchangers[exchanger].duty), at)
                self.sides[exchanger, before.stream.side] = (before, behind)
            case Mix(first, second, to):
                one, other = self.branches[first], self.branches[second]
                self.make(to, one, one.size + other.size, mixed(one, other), at)
            case End(branch):
                last = self.branches[branch]
                self.ends[last.stream.name].append(StreamEnd(at, last))

    def make(self, name: str, like: Branch, size: Fraction, state: Fraction | None, at: int) -> Branch:
        made = Branch(name, like.stream, size, state, at)
        self.branches[name] = made
        return made

    def side(self, exchanger: Exchanger, name: str) -> SideState:
        source = self.case.source(name)
        before, behind = self.sides.get((exchanger.name, source.side), (None, None))
        return SideState(source, before, behind)

    def passage(self, exchanger: Exchanger) -> Passage:
        hot, cold = self.side(exchanger, exchanger.hot), self.side(exchanger, exchanger.cold)
        return Passage(exchanger, hot, cold, hot.source.contribution + cold.source.contribution)


def beginning(stream: Stream) -> Branch:
    state = Fraction(stream.side is Side.HOT) if stream.latent else Fraction(stream.supply)
    return Branch(stream.name, stream, Fraction(stream.size), state, 0)


def passed(branch: Branch, duty: Fraction) -> Fraction | None:
    """The state of a branch behind an exchanger."""
    if branch.state is None or branch.size <= 0:
        return None
    step = duty / branch.size
    return branch.state - step if branch.stream.side is Side.HOT else branch.state + step


def mixed(one: Branch, other: Branch) -> Fraction | None:
    """The state of two branches that are joined."""
    size = one.size + other.size
    if one.state is None or other.state is None or size <= 0:
        return None
    return (one.size * one.state + other.size * other.state) / size


def follow(case: Case, network: Network) -> Followed:
    """Follows a network that the program has read for this case, which is completed (`case.completed`)."""
    follower = Follower(case, network)
    for at, statement in enumerate(network.statements, 1):
        follower.take(at, statement)
    passages = tuple(follower.passage(exchanger) for exchanger in network.exchangers)
    ends = {name: tuple(stream_ends) for name, stream_ends in follower.ends.items()}
    return Followed(case, network, follower.branches, passages, ends)
