"""Networks that are made by hand, as plans: walks of random gestures over the examples, and the books' way through
tc3."""
from __future__ import annotations

from fractions import Fraction
from functools import lru_cache

import pytest
from conftest import EXAMPLES, NETWORKS, few_of
from hypothesis import given
from hypothesis import strategies as some

from pinchdesk.formats.case import Side, completed, read_case
from pinchdesk.formats.network import read_network
from pinchdesk.live import gestures, serving
from pinchdesk.live.gestures import NotDone
from pinchdesk.live.judgement import Whole, asked_whole, judged_stand, reachable
from pinchdesk.live.moving import move_end, own_pairs
from pinchdesk.live.network_lines import TextLayout, begun_plan, read_plan, write_plan
from pinchdesk.live.pieces import HandPlan, cut
from pinchdesk.live.seats import seated
from pinchdesk.live.offers import ways_to_place
from pinchdesk.live.ways import shift, ways_of
from pinchdesk.program.run import Pinch
from pinchdesk.program.verdicts import Accepted, TooFine
from pinchdesk.search.reduce.structure import throughs

KINDS = ('place', 'place', 'take', 'grow', 'duty', 'finish', 'split', 'shift', 'move')
WALKED = ('tc3', 'four-stream', 'own-contributions', 'two-reactors-steam', 'preheater', 'column')


@lru_cache(maxsize=None)
def whole_of(name: str) -> tuple[Whole, bytes]:
    content = (EXAMPLES / f'{name}.csv').read_bytes()
    return asked_whole(Pinch(), completed(read_case(content)), content), content


@lru_cache(maxsize=None)
def network_of(name: str) -> tuple[HandPlan, TextLayout]:
    text = (EXAMPLES / f'{name}-network.txt').read_text(encoding='utf-8')
    return read_plan(whole_of(name)[0].case, text)


def balanced(plan: HandPlan) -> bool:
    """Whether each stream ends at its target."""
    return all(sum((plan.duties[name] for name in throughs(plan.structure.courses[stream.name])), Fraction(0))
               == stream.heat for stream in plan.case.streams)


def placed_is_right(plan: HandPlan, content: bytes) -> bool:
    """Whether the audit takes what is placed; a plan whose numbers are too fine is not asked about."""
    verdict = Pinch().audit(content, write_plan(plan, TextLayout()))
    return isinstance(judged_stand(Pinch(), plan, verdict).placed, (Accepted, TooFine))


def unmoved(before: HandPlan, after: HandPlan, *named: str) -> bool:
    """Whether every exchanger that is not named has its temperatures as before."""
    return all(before.ends(name, side) == after.ends(name, side) for name in before.placed
               if name in after.placed and name not in named for side in Side)


@pytest.mark.parametrize('name', few_of(NETWORKS, ('tc3', 'four-stream', 'preheater')))
def test_a_network_read_and_written_is_the_same_plan(name: str) -> None:
    plan, layout = network_of(name)
    text = write_plan(plan, layout)
    again, second = read_plan(plan.case, text)
    assert again == plan and write_plan(again, second) == text and balanced(plan)
    written = {line.strip() for line in (EXAMPLES / f'{name}-network.txt').read_text().split('\n') if '#' in line}
    assert written <= set(text.split('\n'))
    assert {branch for statement in read_network(text).statements for branch in str(statement).split()} \
        == {branch for statement in read_network((EXAMPLES / f'{name}-network.txt').read_text()).statements
            for branch in str(statement).split()}


@pytest.mark.parametrize('name', few_of(NETWORKS, ('tc3', 'four-stream', 'preheater')))
def test_a_network_taken_apart_is_all_open(name: str) -> None:
    plan, layout = network_of(name)
    whole, content = whole_of(name)
    for exchanger in plan.placed:
        if exchanger not in plan.placed:
            # It went with the one of which it is a part, across a kink.
            continue
        after = gestures.take_away(plan, exchanger)
        assert unmoved(plan, after) and balanced(after)
        assert read_plan(plan.case, write_plan(after, layout))[0] == after
        plan = after
    assert not plan.placed and len(plan.open) == len(plan.case.streams)
    reach = reachable(Pinch(), plan)
    assert reach is not None and reach.least == reach.most == whole.targets.hot


@pytest.mark.long
@given(some.sampled_from(WALKED), some.data())
def test_a_walk_of_gestures_keeps_what_holds(name: str, data: some.DataObject) -> None:
    whole, content = whole_of(name)
    plan, layout = network_of(name) if data.draw(some.booleans(), 'from the network') else \
        (begun_plan(whole.case), TextLayout())
    for _ in range(data.draw(some.integers(1, 6), 'steps')):
        kind = data.draw(some.sampled_from(KINDS))
        try:
            after, named, shifted = done(plan, kind, whole, data)
        except NotDone:
            continue
        assert shifted or unmoved(plan, after, *named), kind
        assert balanced(after) and all(duty > 0 for duty in after.duties.values())
        read, layout = read_plan(whole.case, write_plan(after, layout))
        assert read == after
        if placed_is_right(plan, content):
            assert placed_is_right(after, content), kind
        plan = after


def done(plan: HandPlan, kind: str, whole: Whole, data: some.DataObject) -> tuple[HandPlan, tuple[str, ...], bool]:
    """One gesture, whom it names, and whether it is a shift."""
    if kind == 'shift':
        ways = [ranged for ranged in ways_of(plan).ways if ranged.most]
        if not ways:
            raise NotDone('no way')
        ranged = data.draw(some.sampled_from(ways))
        assert ranged.least is not None and ranged.most is not None
        part = data.draw(some.sampled_from([Fraction(0), Fraction(1, 3), Fraction(1)]))
        heat = ranged.least + part * (ranged.most - ranged.least)
        return shift(plan, ranged.identity, heat), (), True
    if kind in ('place', 'split'):
        pieces = cut(plan, whole.pinches)
        if not pieces.open:
            raise NotDone('nothing open')
        piece = data.draw(some.sampled_from(pieces.open))
        if kind == 'split':
            return gestures.split(pieces, piece, Fraction(data.draw(some.integers(1, 9)), 10)), (), False
        ways_there = list(ways_to_place(pieces, piece))
        if not ways_there:
            raise NotDone('no partner')
        return seated(pieces, data.draw(some.sampled_from(ways_there))[1]), (), False
    if kind == 'finish':
        return serving.finish(plan), (), False
    if not plan.placed:
        raise NotDone('nothing placed')
    exchanger = data.draw(some.sampled_from(plan.placed))
    if kind == 'take':
        return gestures.take_away(plan, exchanger), (exchanger,), False
    if kind == 'grow':
        return gestures.grown(plan, exchanger, whole.pinches), (exchanger,), False
    if kind == 'move':
        pieces = cut(plan, whole.pinches)
        pairs = [*((piece, None) for piece in pieces.open), *own_pairs(pieces, exchanger)]
        if not pairs:
            raise NotDone('nothing open')
        piece, other = data.draw(some.sampled_from(pairs))
        return move_end(pieces, exchanger, piece, other, whole.pinches), (exchanger,), False
    part = Fraction(data.draw(some.integers(1, 15)), 10)
    return gestures.with_duty(plan, exchanger, plan.duties[exchanger] * part, whole.pinches), (exchanger,), False


@pytest.mark.parametrize('name', few_of(WALKED, ('tc3',)))
def test_both_ends_of_each_range_are_accepted_and_no_more(name: str) -> None:
    plan, _ = network_of(name)
    _, content = whole_of(name)
    for ranged in ways_of(plan).ways:
        if ranged.least is None or ranged.most is None:
            continue
        for heat in {ranged.most, (ranged.least + ranged.most) / 2}:
            assert placed_is_right(shift(plan, ranged.identity, heat), content), ranged
        if not ranged.stops.endswith('goes'):
            assert not placed_is_right(shift(plan, ranged.identity, ranged.most + 1), content), ranged


def test_a_path_that_mends_says_from_which_heat_on() -> None:
    plan, layout = network_of('tc3')
    _, content = whole_of('tc3')
    loop = next(ranged for ranged in ways_of(plan).ways if ranged.way.loop and ranged.goes == 'E4')
    broken = shift(plan, loop.identity, plan.duties['E4'])
    assert 'E4' not in broken.pairs and not placed_is_right(broken, content)
    mending = [ranged for ranged in ways_of(broken).ways if ranged.mends]
    ends = [(Fraction(4000), Fraction(140_000)), (Fraction(20_000), Fraction(20_000))]
    assert [(ranged.least, ranged.most) for ranged in mending] == ends
    assert not placed_is_right(shift(broken, mending[0].identity, Fraction(3999)), content)
    assert placed_is_right(shift(broken, mending[0].identity, Fraction(4000)), content)
