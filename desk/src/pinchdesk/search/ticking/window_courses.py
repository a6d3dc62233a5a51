"""From the exchangers of a descent to the courses of a window's streams, with shares in fractions."""
from __future__ import annotations

from collections.abc import Iterator, Mapping, Sequence
from dataclasses import dataclass, field, replace
from fractions import Fraction
from typing import NamedTuple

from ..reduce.structure import Course, Lane, Parting, Through, parted
from ..staged.windows import Window, WindowPiece

# Where an exchanger stands on a source: it takes all that is left, its hot end, its cold end, a branch along the whole
# range, or a branch with the CP of its partner at the hot or the cold end of the range.
WHOLE, TOP, BOTTOM, BESIDE, CORNER_TOP, CORNER_BOTTOM = range(6)
# The exchanger goes straight down between two kinks of the composite curves; the other place is then the number of the
# stretch, from -1 down.
STRETCH = -1
# In place of a cold source: the hot slot is cut in two at a temperature, by no exchanger.
CUT = -1
# A heat that is nearer than this to a whole number of W is that number; else it has a small denominator.
WATT, FINEST = 1e-3, 10 ** 6
# Shares of shares become fine: a finer one than this is none that can be written.
FINEST_SHARE = 2 ** 24


class Tick(NamedTuple):
    """An exchanger of a descent, or a cut of the source `hot` where `cold` is `CUT`. Sources are slots."""

    hot: int
    cold: int
    hot_place: int
    cold_place: int
    duty: float


@dataclass(frozen=True)
class WindowNetwork:
    """The pairs of a window's exchangers, and the course of each of its streams from its hot end; exchangers have
    their numbers as names. `count` counts them, but those of a pair that goes straight down as one."""

    pairs: tuple[tuple[str, str], ...]
    courses: Mapping[str, Course]
    count: int

    @property
    def shape(self) -> str:
        return shape_of({str(number): pair for number, pair in enumerate(self.pairs)}, self.courses)


@dataclass(frozen=True)
class Chain:
    """Where a chain of descents is: the exchangers of its last one, none before the first."""

    ticks: tuple[Tick, ...] = ()

    @property
    def count(self) -> int:
        """How many exchangers it has; those of a pair that goes straight down are one."""
        straight = {(tick.hot, tick.cold) for tick in self.ticks if tick.hot_place == STRETCH}
        return len(straight) + sum(tick.cold != CUT and tick.hot_place != STRETCH for tick in self.ticks)


@dataclass(frozen=True)
class ChainEnd:
    """Where a chain is after some descents, and the different networks on the way."""

    chain: Chain
    networks: tuple[WindowNetwork, ...]


def renamed(course: Course, names: Mapping[str, str]) -> Course:
    """A course whose exchangers have other names."""
    return tuple(Through(names[step.exchanger]) if isinstance(step, Through) else
                 Parting(tuple(replace(lane, course=renamed(lane.course, names)) for lane in step.lanes), step.level)
                 for step in course)


def shape_of(pairs: Mapping[str, tuple[str, str]], courses: Mapping[str, Course]) -> str:
    """What two networks that are the same have in common, whatever their exchangers are called."""
    names = {name: '/'.join(pair) for name, pair in pairs.items()}
    return repr([(name, renamed(course, names)) for name, course in courses.items()])


class Untrue(Exception):
    """What the floats said is not so in fractions."""


@dataclass
class Opening:
    """A rectangle of a source that is left, at its place in the course; `steps` is what takes its place."""

    size: Fraction
    load: Fraction
    is_level: bool = False
    steps: list[str | Opening | Fork] = field(default_factory=list)


@dataclass
class Fork:
    """Lanes side by side, each with its share, or with one exchanger where it is level."""

    lanes: list[tuple[Fraction, list[str | Opening | Fork]]]
    level: bool = False


def in_fraction(heat: float) -> Fraction:
    near = round(heat)
    return Fraction(near) if abs(heat - near) < WATT else Fraction(heat).limit_denominator(FINEST)


def gap_of(piece: WindowPiece) -> Opening:
    return Opening(Fraction(piece.cp), Fraction(piece.most), piece.is_level)


class CourseWriter:
    """Puts the exchangers of a descent into the courses, one after the other."""

    def __init__(self, window: Window) -> None:
        self.window = window
        self.names = [piece.name for piece in window.pieces]
        self.roots = [gap_of(piece) for piece in window.pieces]
        self.slots = list(self.roots)
        self.origins = list(range(len(self.roots)))
        self.pairs: list[tuple[str, str]] = []
        # The exchangers of a slot by their stretches.
        self.straight: dict[int, dict[int, list[str]]] = {}

    def take(self, tick: Tick) -> None:
        hot = self.slots[tick.hot]
        if tick.cold == CUT:
            self.cut(tick.hot, hot, in_fraction(tick.duty))
            return
        cold = self.slots[tick.cold]
        name = str(len(self.pairs))
        self.pairs.append((self.names[self.origins[tick.hot]], self.names[self.origins[tick.cold]]))
        if tick.hot_place == STRETCH:
            for slot in (tick.hot, tick.cold):
                self.straight.setdefault(slot, {}).setdefault(-tick.cold_place, []).append(name)
            return
        loads = [gap.load for gap, place in ((hot, tick.hot_place), (cold, tick.cold_place)) if place == WHOLE]
        duty = min(loads) if loads else in_fraction(tick.duty)
        sizes = hot.size, cold.size
        self.put(tick.hot, hot, tick.hot_place, duty, sizes[1], name)
        self.put(tick.cold, cold, tick.cold_place, duty, sizes[0], name)

    def add(self, slot: int, gap: Opening) -> None:
        self.slots.append(gap)
        self.origins.append(self.origins[slot])

    def cut(self, slot: int, gap: Opening, above: Fraction) -> None:
        if not 0 < above < gap.load:
            raise Untrue
        upper, lower = Opening(gap.size, above), Opening(gap.size, gap.load - above)
        gap.steps = [upper, lower]
        self.slots[slot] = upper
        self.add(slot, lower)

    def put(self, slot: int, gap: Opening, place: int, duty: Fraction, partner: Fraction, name: str) -> None:
        """Puts an exchanger into a gap, and what is left of it where it is then."""
        if place == WHOLE:
            gap.steps = [name]
            return
        if not 0 < duty < gap.load:
            raise Untrue
        if gap.is_level or place in (TOP, BOTTOM):
            rest = Opening(gap.size, gap.load - duty, gap.is_level)
            gap.steps = [rest, name] if place == BOTTOM else [name, rest]
        elif place == BESIDE:
            share = duty / gap.load
            rest = Opening(gap.size * (1 - share), gap.load - duty)
            gap.steps = [Fork([(share, [name]), (1 - share, [rest])])]
        else:
            rest = self.put_in_corner(slot, gap, place, duty, partner, name)
        self.slots[slot] = rest

    def put_in_corner(self, slot: int, gap: Opening, place: int, duty: Fraction, partner: Fraction, name: str,
                      ) -> Opening:
        share = partner / gap.size
        span = duty / partner
        rest = Opening(gap.size - partner, (gap.size - partner) * span)
        beyond = Opening(gap.size, gap.load - gap.size * span)
        if not 0 < share < 1 or beyond.load <= 0:
            raise Untrue
        fork = Fork([(share, [name]), (1 - share, [rest])])
        gap.steps = [fork, beyond] if place == CORNER_TOP else [beyond, fork]
        self.add(slot, beyond)
        return rest

    def network(self, count: int) -> WindowNetwork:
        for slot, by_stretch in self.straight.items():
            gap = self.slots[slot]
            for number in sorted(by_stretch):
                names = by_stretch[number]
                if len(names) == 1 or gap.is_level:
                    gap.steps += names
                else:
                    gap.steps.append(Fork([(Fraction(1, len(names)), [name]) for name in names], True))
        courses = {piece.name: course_of_steps([root]) for piece, root in zip(self.window.pieces, self.roots)}
        return WindowNetwork(tuple(self.pairs), courses, count)


def course_of_steps(steps: Sequence[str | Opening | Fork]) -> Course:
    """Steps as a course; a gap that nothing has filled is nothing."""
    course: list[Through | Parting] = []
    for step in steps:
        if isinstance(step, str):
            course.append(Through(step))
        elif isinstance(step, Opening):
            course.extend(course_of_steps(step.steps))
        else:
            lanes = tuple(Lane(course_of_steps(inner), share) for share, inner in step.lanes)
            course.extend(parted(lanes, step.level))
    return tuple(course)


def shares_of_course(course: Course) -> Iterator[Fraction]:
    """The shares that are fixed, of lanes in lanes too."""
    for step in course:
        if isinstance(step, Parting):
            for lane in step.lanes:
                if not step.level:
                    yield lane.share
                yield from shares_of_course(lane.course)


def window_network(window: Window, ticks: Sequence[Tick]) -> WindowNetwork | None:
    """The courses of a descent; None where its floats said what is not so, or where its shares are so fine that no text
    of them is followed by `pinch audit`."""
    writer = CourseWriter(window)
    try:
        for tick in ticks:
            writer.take(tick)
    except Untrue:
        return None
    network = writer.network(Chain(tuple(ticks)).count)
    shares = (share for course in network.courses.values() for share in shares_of_course(course))
    return network if all(share.denominator <= FINEST_SHARE for share in shares) else None
