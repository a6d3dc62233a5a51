"""A plan whose case was changed: exchangers keep their duties, and what a stream has more or less is open."""
from __future__ import annotations

from dataclasses import replace
from fractions import Fraction

from ..formats.case import Case, Side, Stream
from ..search.reduce.structure import Course, Structure, Through, throughs
from .gestures import NotDone, opened
from .pieces import HandPlan, fresh_open, merged, pair_with


def adapted(plan: HandPlan, case: Case) -> HandPlan:
    """A plan for a changed case. `NotDone` where the exchangers of a stream have more than it has now."""
    for name in plan.placed:
        if not fits(plan, name, case):
            plan = opened(plan, name)
    courses: dict[str, Course] = {}
    pairs, duties = dict(plan.pairs), dict(plan.duties)
    taken = set(pairs)
    before = {stream.name: stream for stream in plan.case.streams}
    for stream in case.streams:
        old = before.get(stream.name)
        course = plan.structure.courses.get(stream.name, ())
        if old is None or old.side is not stream.side or old.latent is not stream.latent:
            course = ()
        at_begin = moved_begin(old, stream) if old else Fraction(0)
        at_end = stream.heat - sum((duties[name] for name in throughs(course)), Fraction(0)) - at_begin
        for heat, first in ((at_begin, True), (at_end, False)):
            if heat > 0:
                piece = fresh_open(taken)
                taken.add(piece)
                pairs[piece], duties[piece] = pair_with(stream, any_of(case, stream)), heat
                course = (Through(piece), *course) if first else (*course, Through(piece))
            elif heat < 0:
                course = with_less(plan, course, -heat, first, duties, stream)
        courses[stream.name] = course
    passed = {name for course in courses.values() for name in throughs(course)}
    structure = Structure({name: pair for name, pair in pairs.items() if name in passed}, courses)
    made = HandPlan(case, structure, {name: duty for name, duty in duties.items() if name in passed})
    return merged(with_utilities(made))


def with_utilities(plan: HandPlan) -> HandPlan:
    """A plan whose open pieces have utilities that there are."""
    pairs = dict(plan.pairs)
    for name in list(pairs):
        known = [source for source in pairs[name] if source in plan.sources]
        if len(known) < 2:
            stream = plan.sources[known[0]]
            assert isinstance(stream, Stream)
            pairs[name] = pair_with(stream, any_of(plan.case, stream))
    return HandPlan(plan.case, replace(plan.structure, pairs=pairs), plan.duties)


def fits(plan: HandPlan, name: str, case: Case) -> bool:
    """Whether both sources of an exchanger are still there, on their sides."""
    sources = {source.name: source for source in case.sources}
    for source_name, side in zip(plan.pairs[name], Side):
        source, old = sources.get(source_name), plan.sources[source_name]
        if source is None or source.side is not side or isinstance(source, Stream) is not isinstance(old, Stream):
            return False
        if isinstance(source, Stream) and isinstance(old, Stream) and source.latent is not old.latent:
            return False
    return True


def any_of(case: Case, stream: Stream) -> str:
    return next(utility.name for utility in case.utilities if utility.side is not stream.side)


def moved_begin(old: Stream, new: Stream) -> Fraction:
    """The heat by which a stream begins earlier than it did, where its CP is the same: below 0 where it begins
    later."""
    if new.latent or old.cp != new.cp or old.side is not new.side:
        return Fraction(0)
    way = new.supply - old.supply
    return Fraction(new.cp * (way if new.side is Side.HOT else -way))


def with_less(plan: HandPlan, course: Course, heat: Fraction, first: bool, duties: dict[str, Fraction],
              stream: Stream) -> Course:
    """A course whose open pieces have so much less, from its beginning or from its end on."""
    steps = list(course)
    places = [at for at, step in enumerate(steps) if isinstance(step, Through) and plan.is_open(step.exchanger)]
    gone: set[int] = set()
    for at in places if first else reversed(places):
        step = steps[at]
        assert isinstance(step, Through)
        part = min(heat, duties[step.exchanger])
        duties[step.exchanger] -= part
        heat -= part
        if not duties[step.exchanger]:
            gone.add(at)
    if heat:
        raise NotDone(f'The exchangers of {stream.name} have more heat than it would have: take one away first, or '
                      'make one smaller.', ('stream', stream.name))
    return tuple(step for at, step in enumerate(steps) if at not in gone)
