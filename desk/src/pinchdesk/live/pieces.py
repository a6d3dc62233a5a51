"""A network that is made by hand, as a plan: for each stream what serves it from its supply to its target, in which
lanes, and what is still open. Plans are exact, and are never changed: a gesture makes another one.

Temperatures are in tenths of °C, sizes in 10 W/K or W, heats in W, as in the program. Of a latent stream the state is
the part of its load that is still to be given, or was taken already (`analysis.follow`)."""
from __future__ import annotations

from collections.abc import Callable, Iterable, Iterator, Mapping
from dataclasses import dataclass, replace
from fractions import Fraction
from functools import cached_property

from ..analysis.follow import PinchPoint, PinchSide
from ..analysis.unfinished import OPEN, is_open
from ..formats.case import Case, Side, Source, Stream, Utility, shifted
from ..search.reduce.structure import Course, Lane, Parting, Structure, Through, throughs

End = tuple[str, Side]


@dataclass(frozen=True)
class Reach:
    """What an exchanger passes of a stream: how much of it (a CP or a load), and the states before and behind."""

    stream: Stream
    size: Fraction
    before: Fraction
    behind: Fraction

    @property
    def inlet(self) -> Fraction:
        return self.temperature(self.before)

    @property
    def outlet(self) -> Fraction:
        return self.temperature(self.behind)

    @property
    def ends(self) -> tuple[Fraction, Fraction]:
        """The temperatures before and behind."""
        return self.inlet, self.outlet

    @property
    def heat(self) -> Fraction:
        return self.size * abs(self.behind - self.before)

    def temperature(self, state: Fraction) -> Fraction:
        return Fraction(self.stream.supply) if self.stream.latent else state

    def behind_of(self, heat: Fraction) -> Fraction:
        """The state behind so much heat."""
        return self.before + self.way * heat / self.size

    @property
    def way(self) -> int:
        """Which way the state goes: down on hot streams."""
        return -1 if self.stream.side is Side.HOT else 1


@dataclass(frozen=True)
class HandPlan:
    """The structure and the duties of a network of a completed case. Each stream ends at its target: what nobody serves
    yet is an open piece, an exchanger with a utility whose name begins with `open-`."""

    case: Case
    structure: Structure
    duties: Mapping[str, Fraction]

    @cached_property
    def reaches(self) -> Mapping[End, Reach]:
        """Each end of each exchanger on a stream, by the name of the exchanger and the side."""
        return self.reaches_on(self.case.streams)

    def reaches_on(self, streams: Iterable[Stream]) -> dict[End, Reach]:
        found: dict[End, Reach] = {}
        for stream in streams:
            state = Fraction(stream.side is Side.HOT) if stream.latent else Fraction(stream.supply)
            led(self, stream, self.structure.courses[stream.name], Fraction(stream.size), state, found)
        return found

    def with_duties(self, duties: Mapping[str, Fraction]) -> HandPlan:
        """A plan with other duties of some exchangers. What it has of streams that they do not touch is not worked out
        anew."""
        made = HandPlan(self.case, self.structure, {**self.duties, **duties})
        touched = {stream.name: stream for name in duties for stream in self.streams_of(name)}
        # Where a cached property keeps what it found.
        made.__dict__['reaches'] = {**self.reaches, **made.reaches_on(touched.values())}
        made.__dict__['open'], made.__dict__['placed'] = self.open, self.placed
        return made

    def with_contributions(self, case: Case) -> HandPlan:
        """The plan in a case that differs from its own by contributions alone: no temperature is another one."""
        made, streams = replace(self, case=case), {stream.name: stream for stream in case.streams}
        made.__dict__['reaches'] = {end: replace(reach, stream=streams[reach.stream.name])
                                    for end, reach in self.reaches.items()}
        made.__dict__['all_differences'] = self.all_differences
        return made

    @cached_property
    def sources(self) -> Mapping[str, Source]:
        return {source.name: source for source in self.case.sources}

    @cached_property
    def utilities(self) -> frozenset[str]:
        return frozenset(utility.name for utility in self.case.utilities)

    @property
    def pairs(self) -> Mapping[str, tuple[str, str]]:
        return self.structure.pairs

    def is_open(self, name: str) -> bool:
        return is_open(name, self.pairs[name], self.utilities)

    @cached_property
    def open(self) -> list[str]:
        """The open pieces, by their names."""
        return [name for name in self.pairs if self.is_open(name)]

    @cached_property
    def placed(self) -> list[str]:
        """The exchangers that stand, by their names."""
        return [name for name in self.pairs if not self.is_open(name)]

    def streams_of(self, name: str) -> list[Stream]:
        """The streams of an exchanger, the hot one first."""
        sources = (self.sources[source] for source in self.pairs[name])
        return [source for source in sources if isinstance(source, Stream)]

    def utility_of(self, name: str) -> Utility | None:
        """The utility of a heater, a cooler or an open piece; None of an exchanger between two streams."""
        sources = (self.sources[source] for source in self.pairs[name])
        return next((source for source in sources if isinstance(source, Utility)), None)

    def piece(self, name: str) -> Reach:
        """The reach of what has one stream alone."""
        return self.reaches[name, self.streams_of(name)[0].side]

    def ends(self, name: str, side: Side) -> tuple[Fraction, Fraction]:
        """The temperatures at which a side of an exchanger enters and leaves."""
        source = self.sources[self.pairs[name][side is Side.COLD]]
        if isinstance(source, Utility):
            return Fraction(source.level), Fraction(source.level)
        reach = self.reaches[name, side]
        return reach.inlet, reach.outlet

    def approach(self, name: str) -> int:
        """The least difference that an exchanger has to keep."""
        return sum(self.sources[source].contribution for source in self.pairs[name])

    @cached_property
    def all_differences(self) -> Mapping[str, tuple[Fraction, Fraction]]:
        """The differences of all that stands."""
        return {name: self.differences(name) for name in self.placed}

    @cached_property
    def forbidden(self) -> frozenset[tuple[str, str]]:
        """The pairs that may not meet."""
        return frozenset((pair.hot, pair.cold) for pair in self.case.forbids)

    @cached_property
    def too_close(self) -> list[str]:
        """What stands and does not keep its least difference."""
        return [name for name, ends in self.all_differences.items() if min(ends) < self.approach(name)]

    def differences(self, name: str) -> tuple[Fraction, Fraction]:
        """The differences at the hot and at the cold end."""
        hot_in, hot_out = self.ends(name, Side.HOT)
        cold_in, cold_out = self.ends(name, Side.COLD)
        return hot_in - cold_out, hot_out - cold_in

    def used(self, placed: bool = False) -> dict[str, Fraction]:
        """What each utility gives or takes, in all or at what is placed."""
        heats = {utility.name: Fraction(0) for utility in self.case.utilities}
        for name in self.placed if placed else self.pairs:
            for source in self.utilities.intersection(self.pairs[name]):
                heats[source] += self.duties[name]
        return heats


def led(plan: HandPlan, stream: Stream, course: Course, size: Fraction, state: Fraction,
        found: dict[End, Reach]) -> Fraction:
    """The state behind a course; the reaches of its exchangers are added to those found."""
    for step in course:
        if isinstance(step, Through):
            way = -1 if stream.side is Side.HOT else 1
            behind = state + way * plan.duties[step.exchanger] / size
            found[step.exchanger, stream.side] = Reach(stream, size, state, behind)
            state = behind
        else:
            state = sum((lane.share * led(plan, stream, lane.course, size * lane.share, state, found)
                         for lane in step.lanes), Fraction(0))
    return state


def side_at(plan: HandPlan, name: str, pinches: Iterable[PinchPoint]) -> PinchSide | None:
    """On which side of the pinches an exchanger works, judged by its streams; `ACROSS` where one of the pinches is
    inside of it; None where there is no pinch, or none is touched by both sides alike."""
    sides = set()
    for pinch in pinches:
        parts = {part_above(reach, pinch) for reach in
                 (plan.reaches[name, stream.side] for stream in plan.streams_of(name))}
        utility = plan.utility_of(name)
        if utility and not plan.is_open(name):
            level = shifted(utility, utility.level)
            above = level > pinch.temperature or level == pinch.temperature and utility.side is Side.HOT
            parts.add(Fraction(above))
        sides.add(PinchSide.ABOVE if parts == {Fraction(1)} else
                  PinchSide.BELOW if parts == {Fraction(0)} else PinchSide.ACROSS)
    if PinchSide.ACROSS in sides:
        return PinchSide.ACROSS
    return (PinchSide.ABOVE if PinchSide.ABOVE in sides else PinchSide.BELOW) if sides else None


def part_above(reach: Reach, pinch: PinchPoint) -> Fraction:
    """Which part of a reach lies above a pinch."""
    shift = shifted(reach.stream, 0)
    high, low = max(reach.inlet, reach.outlet) + shift, min(reach.inlet, reach.outlet) + shift
    if high == low:
        return Fraction(pinch.is_below(low))
    return (high - max(low, min(high, Fraction(pinch.temperature)))) / (high - low)


def replaced(course: Course, name: str, made: Course) -> Course:
    """A course with other steps in the place of an exchanger."""
    steps: list[Through | Parting] = []
    for step in course:
        if isinstance(step, Parting):
            steps.append(Parting(tuple(replace(lane, course=replaced(lane.course, name, made)) for lane in step.lanes)))
        elif step.exchanger == name:
            steps.extend(made)
        else:
            steps.append(step)
    return tuple(steps)


def opened_lanes(course: Course) -> Course:
    """A course in which a parting that is all of a lane of another one is a part of that."""
    steps: list[Through | Parting] = []
    for step in course:
        if isinstance(step, Through):
            steps.append(step)
            continue
        lanes: list[Lane] = []
        for lane in step.lanes:
            inner = opened_lanes(lane.course)
            if len(inner) == 1 and isinstance(inner[0], Parting):
                lanes.extend(Lane(part.course, part.share * lane.share) for part in inner[0].lanes)
            else:
                lanes.append(Lane(inner, lane.share))
        past = sum((lane.share for lane in lanes if not lane.course), Fraction(0))
        filled = [lane for lane in lanes if lane.course]
        steps.extend(filled[0].course if len(filled) == 1 and not past else
                     [Parting((*filled, *([Lane((), past)] if past else [])))] if filled else [])
    return tuple(steps)


def changed(plan: HandPlan, courses: Mapping[str, Course] | None = None,
            pairs: Mapping[str, tuple[str, str]] | None = None,
            duties: Mapping[str, Fraction] | None = None) -> HandPlan:
    """A plan with other courses, pairs or duties; exchangers that no course passes are gone."""
    all_courses = {**plan.structure.courses, **(courses or {})}
    all_courses = {name: opened_lanes(course) for name, course in all_courses.items()}
    passed = {name for course in all_courses.values() for name in throughs(course)}
    kept = {name: pair for name, pair in {**plan.pairs, **(pairs or {})}.items() if name in passed}
    kept_duties = {name: duty for name, duty in {**plan.duties, **(duties or {})}.items() if name in passed}
    return HandPlan(plan.case, Structure(kept, all_courses), kept_duties)


def fresh_open(names: Iterable[str]) -> str:
    """A name for an open piece that none of these has."""
    taken, number = set(names), 1
    while f'{OPEN}{number}' in taken:
        number += 1
    return f'{OPEN}{number}'


def pair_with(stream: Stream, utility: str) -> tuple[str, str]:
    """A stream and a utility, the hot one first."""
    return (stream.name, utility) if stream.side is Side.HOT else (utility, stream.name)


def merged(plan: HandPlan) -> HandPlan:
    """A plan in which open pieces that follow one another are one, with the name of the first, and in which each has
    the cheapest utility that reaches its end."""
    duties = dict(plan.duties)
    courses = {name: merged_course(plan, course, duties) for name, course in plan.structure.courses.items()}
    joined = changed(plan, courses, duties=duties)
    pairs = {name: pair_with(joined.streams_of(name)[0], standing_in(joined, name).name) for name in joined.open}
    return changed(joined, pairs=pairs)


def merged_course(plan: HandPlan, course: Course, duties: dict[str, Fraction]) -> Course:
    steps: list[Through | Parting] = []
    for step in course:
        last = steps[-1] if steps else None
        if isinstance(step, Parting):
            steps.append(Parting(tuple(replace(lane, course=merged_course(plan, lane.course, duties))
                                       for lane in step.lanes)))
        elif isinstance(last, Through) and plan.is_open(last.exchanger) and plan.is_open(step.exchanger):
            duties[last.exchanger] += duties[step.exchanger]
        else:
            steps.append(step)
    return tuple(steps)


def without_idle_partings(plan: HandPlan, course: Course, names: frozenset[str], duties: dict[str, Fraction]) -> Course:
    """A course in which a parting with one of these pieces, all lanes of which are open or empty, is one open piece."""
    steps: list[Through | Parting] = []
    for step in course:
        if isinstance(step, Parting):
            lanes = tuple(replace(lane, course=without_idle_partings(plan, lane.course, names, duties))
                          for lane in step.lanes)
            inside = [name for lane in lanes for name in throughs(lane.course)]
            flat = all(isinstance(inner, Through) for lane in lanes for inner in lane.course)
            if flat and names.intersection(inside) and all(map(plan.is_open, inside)):
                kept = next(name for name in inside if name in names)
                duties[kept] = sum((duties[name] for name in inside), Fraction(0))
                steps.append(Through(kept))
                continue
            step = Parting(lanes)
        steps.append(step)
    return tuple(steps)


def standing_in(plan: HandPlan, name: str) -> Utility:
    """The utility of an open piece: the cheapest that reaches its end, else the one that comes nearest."""
    reach = plan.piece(name)
    others = utilities_for(plan.case, reach.stream)
    reaching = [utility for utility in others if reaches(utility, reach.stream, reach.outlet)]
    if reaching:
        return min(reaching, key=lambda utility: utility.price)
    allowed = others or [utility for utility in plan.case.utilities if utility.side is not reach.stream.side]
    return max(allowed, key=lambda utility: shifted(utility, utility.level) * (1 if utility.side is Side.HOT else -1))


def utilities_for(case: Case, stream: Stream) -> list[Utility]:
    """The utilities that may serve a stream."""
    forbidden = {(pair.hot, pair.cold) for pair in case.forbids}
    return [utility for utility in case.utilities if utility.side is not stream.side and utility.most > 0
            and pair_with(stream, utility.name) not in forbidden]


def reaches(utility: Utility, stream: Stream, temperature: Fraction) -> bool:
    """Whether a utility leads a stream to a temperature."""
    gap = Fraction(utility.level) - temperature
    return (gap if utility.side is Side.HOT else -gap) >= utility.contribution + stream.contribution


def cut(plan: HandPlan, pinches: Iterable[PinchPoint]) -> HandPlan:
    """A plan whose open pieces are cut at each pinch: the parts of `open-3` are `open-3`, `open-3/2` and so on, in the
    direction of the stream."""
    places = tuple(pinches)
    courses, duties, pairs = dict(plan.structure.courses), dict(plan.duties), dict(plan.pairs)
    for name in plan.open:
        reach = plan.piece(name)
        heats = list(heats_between(reach, places))
        if len(heats) < 2:
            continue
        parts = [name, *(f'{name}/{number}' for number in range(2, len(heats) + 1))]
        stream = reach.stream.name
        courses[stream] = replaced(courses[stream], name, tuple(Through(part) for part in parts))
        pairs |= {part: plan.pairs[name] for part in parts}
        duties |= dict(zip(parts, heats))
    return changed(plan, courses, pairs, duties)


def heats_between(reach: Reach, pinches: Iterable[PinchPoint]) -> Iterator[Fraction]:
    """The heats of a reach between the pinches that are inside of it, in the direction of the stream."""
    above = sorted({part_above(reach, pinch) for pinch in pinches} | {Fraction(0), Fraction(1)})
    parts = [last - first for first, last in zip(above, above[1:])]
    yield from (reach.heat * part for part in (parts if reach.stream.side is Side.HOT else reversed(parts)))


def named(plan: HandPlan, name_of: Callable[[str], str]) -> HandPlan:
    """A plan with other names of its exchangers."""
    def course_named(course: Course) -> Course:
        return tuple(Through(name_of(step.exchanger)) if isinstance(step, Through) else
                     Parting(tuple(replace(lane, course=course_named(lane.course)) for lane in step.lanes))
                     for step in course)

    courses = {stream: course_named(course) for stream, course in plan.structure.courses.items()}
    pairs = {name_of(name): pair for name, pair in plan.pairs.items()}
    return HandPlan(plan.case, Structure(pairs, courses), {name_of(name): duty for name, duty in plan.duties.items()})


def neighbours(plan: HandPlan, course: Course, exchanger: str) -> tuple[str | None, str | None]:
    """The open pieces just before and just behind an exchanger, in its own lane."""
    for at, step in enumerate(course):
        if isinstance(step, Through) and step.exchanger == exchanger:
            around = [course[place] if 0 <= place < len(course) else None for place in (at - 1, at + 1)]
            names = [beside.exchanger if isinstance(beside, Through) and plan.is_open(beside.exchanger) else None
                     for beside in around]
            return names[0], names[1]
        if isinstance(step, Parting):
            for lane in step.lanes:
                if exchanger in throughs(lane.course):
                    return neighbours(plan, lane.course, exchanger)
    return None, None
