"""States along a network: checked against what the audit says of the same."""
from __future__ import annotations

from fractions import Fraction

import pytest
from conftest import CASES, NETWORKS, example

from pinchdesk import Accepted, Cut, Pinch, Rejected, completed, follow, read_case, read_network
from pinchdesk.analysis.follow import Followed, PinchSide, pinches_of
from pinchdesk.program.verdicts import Place, PlaceKind, Verdict

SMALL = 'contribution,,50,,,,\nhot,H,1000,500,10,,\ncold,C,300,700,10,,\n'
LATENT = 'contribution,,50,,,,\nhot,H,1500,700,10,,\ncold,B,900,900,0,8000,\n'


def followed(case: str | bytes, network: str | bytes) -> Followed:
    return follow(completed(read_case(case)), read_network(network))


def audited(pinch: Pinch, case: str, network: str) -> tuple[Followed, Verdict]:
    return followed(case, network), pinch.audit(case, network)


@pytest.mark.parametrize('name', NETWORKS)
def test_an_accepted_network_keeps_its_approaches_and_targets(name: str, pinch: Pinch) -> None:
    case, network = example(f'{name}.csv'), example(f'{name}-network.txt')
    followed_network, verdict = followed(case, network), pinch.audit(case, network)
    assert isinstance(verdict, Accepted)
    for passage in followed_network.passages:
        assert passage.least_difference is not None and passage.least_difference >= passage.approach
    for stream in followed_network.case.streams:
        assert [end.branch.temperature for end in followed_network.ends[stream.name]] == [stream.target]
        assert [end.branch.size for end in followed_network.ends[stream.name]] == [stream.size]


@pytest.mark.parametrize('name', NETWORKS)
def test_penalties_of_exchangers_are_what_they_carry_across_the_reference_place(name: str, pinch: Pinch) -> None:
    case, network = example(f'{name}.csv'), example(f'{name}-network.txt')
    followed_network, verdict = followed(case, network), pinch.audit(case, network)
    assert isinstance(verdict, Accepted)
    for point in pinches_of(pinch.targets(case), pinch.curves(case))[:1]:
        if point.temperature != verdict.place:
            continue
        for passage in followed_network.passages:
            assert passage.crossing(point) == verdict.penalty(Place(PlaceKind.EXCHANGER, passage.exchanger.name))


@pytest.mark.parametrize('name', CASES)
def test_a_designed_network_is_followed_and_crosses_no_pinch(name: str, pinch: Pinch) -> None:
    case = example(f'{name}.csv')
    made = pinch.design(case)
    if isinstance(made, Cut):
        return
    followed_network = followed(case, made.text)
    for point in pinches_of(pinch.targets(case), pinch.curves(case)):
        crossing = sum((passage.crossing(point) or Fraction(0) for passage in followed_network.passages), Fraction(0))
        assert crossing == made.excess
        assert made.excess or PinchSide.ACROSS not in {passage.side_of(point) for passage in followed_network.passages}


def test_the_temperatures_of_a_rejected_network_are_what_the_audit_found(pinch: Pinch) -> None:
    network = ('exchanger E1 H C 1500\nexchanger Q1 H COLD 3500\nexchanger Q2 HOT C 2500\n'
               'pass H Q1 a\npass a E1 b\nend b\npass C Q2 d\npass d E1 e\nend e\n')
    followed_network, verdict = audited(pinch, SMALL, network)
    assert isinstance(verdict, Rejected) and verdict.reason == 'HotEndApproach'
    passage = followed_network.passage('E1')
    assert passage.hot.inlet == verdict.found == 650
    assert passage.cold.outlet is not None and passage.cold.outlet + passage.approach == verdict.wanted == 800


FOLLOWED = [
    (SMALL, 'end H\n', 'MissedTarget', 1000), (SMALL, 'split H a 4 b\nend a\n', 'Unfinished', 4),
    (LATENT, 'exchanger E1 HOT B 4000\npass B E1 a\nend a\n', 'MissedTarget', Fraction(1, 2)),
    (LATENT, 'split B a 3000 b\nend a\n', 'Unfinished', 3000),
]


@pytest.mark.parametrize('case, network, reason, found', FOLLOWED)
def test_the_end_of_a_stream_is_what_the_audit_found(case: str, network: str, reason: str, found: Fraction,
                                                     pinch: Pinch) -> None:
    followed_network, verdict = audited(pinch, case, network)
    assert isinstance(verdict, Rejected) and (verdict.reason, verdict.found) == (reason, found)
    stream = next(name for name, ends in followed_network.ends.items() if ends)
    branch = followed_network.ends[stream][0].branch
    assert found == (branch.state if reason == 'MissedTarget' else branch.size)


def test_behind_a_branch_that_is_overdrawn_nothing_is_followed(pinch: Pinch) -> None:
    network = ('exchanger Q1 H COLD 5000\nexchanger Q2 HOT C 4000\nsplit H a 10 b\npass b Q1 c\nmix a c d\nend d\n'
               'pass C Q2 e\nend e\n')
    followed_network, verdict = audited(pinch, SMALL, network)
    assert isinstance(verdict, Rejected) and verdict.reason == 'Overdrawn'
    assert (followed_network.branches['b'].size == 0 and followed_network.branches['c'].state is None
            and followed_network.branches['d'].state is None)
    passage = followed_network.passage('Q1')
    assert passage.hot.outlet is None and passage.least_difference is None
    assert followed_network.passage('Q2').least_difference is not None


def test_three_branches_have_their_own_shares() -> None:
    followed_network = followed(SMALL, 'split H a 2 rest\nsplit rest b 3 c\nmix a b d\nmix d c e\nend e\n')
    assert [followed_network.branches[name].size for name in 'abcde'] == [2, 3, 5, 5, 10]


def test_a_latent_stream_at_the_pinch_lies_on_its_side(pinch: Pinch) -> None:
    column = example('column.csv')
    point, = pinches_of(pinch.targets(column), pinch.curves(column))
    assert (point.temperature, point.takes_level) == (1185, True)
    vapour = 'contribution,,50,,,,\nhot,vapour,1000,1000,0,8000,\ncold,liquid,300,1200,10,,\n'
    point, = pinches_of(pinch.targets(vapour), pinch.curves(vapour))
    assert (point.temperature, point.takes_level) == (950, False)
    design = pinch.design(vapour)
    assert not isinstance(design, Cut)
    for passage in followed(vapour, design.text).passages:
        assert passage.side_of(point) is not PinchSide.ACROSS
