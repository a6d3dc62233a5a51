"""Exchangers that go on across the kinks of streams in segments, inside the search: each is one in the plant."""
from __future__ import annotations

from fractions import Fraction

import pytest
from conftest import example
from segmented_cases import FEED, FEED_NETWORK

from pinchdesk import Cut, Network, Pinch, completed, find_network, read_case, read_network
from pinchdesk.analysis.joined import network_count
from pinchdesk.formats.case import Case
from pinchdesk.formats.whole_streams import whole_names
from pinchdesk.search.accepted import Judge
from pinchdesk.search.budget import SearchWay
from pinchdesk.search.find import tight_of
from pinchdesk.search.reduce.going_on import NO_KINKS, kinks_of
from pinchdesk.search.reduce.network_structure import structure_of
from pinchdesk.search.reduce.structure import Lane, Parting, Through
from pinchdesk.search.reduce.widen import pairs_of
from pinchdesk.search.search_state import each_stream_has_one
from pinchdesk.search.solver.linear import solve
from pinchdesk.search.staged.transshipment import transshipment
from pinchdesk.search.staged.windows import whole, windows
from pinchdesk.search.ticking.prolonging import next_to, parts_of, with_part
from pinchdesk.search.ticking.thinning import Thinned
from pinchdesk.search.wishes import cut_case


def read(case: str, network: str) -> tuple[Case, Network]:
    return completed(read_case(case)), read_network(network)


CRUDE = read(example('crude-curve.csv').decode(), example('crude-curve-network.txt').decode())


def test_the_parts_of_an_exchanger_are_counted_once_as_in_the_plant() -> None:
    for (case, network), joints in ((read(FEED, FEED_NETWORK), 2), (CRUDE, 2)):
        structure, kinks = structure_of(case, network), kinks_of(case)
        assert kinks.count(structure) == network_count(case, network) == len(network.exchangers) - joints
        assert len(list(kinks.joints(structure))) == joints


def test_the_parts_of_an_exchanger_have_its_duty() -> None:
    case, network = read(FEED, FEED_NETWORK)
    structure = structure_of(case, network)
    duties = tuple(float(exchanger.duty) for exchanger in network.exchangers)
    thin = Thinned(structure, duties, chains=kinks_of(case).chains(structure))
    assert thin.count == 4 and thin.whole_duties == [180e3, 180e3, 180e3, 20e3, 95e3, 20e3]


def test_without_segments_each_exchanger_is_one() -> None:
    case, network = read(example('tc3.csv').decode(), example('tc3-network.txt').decode())
    assert kinks_of(case) is NO_KINKS and NO_KINKS.chains(structure_of(case, network)) == ()
    assert NO_KINKS.count(structure_of(case, network)) == len(network.exchangers)


def test_an_exchanger_of_another_stream_between_the_parts_parts_them() -> None:
    case, network = read(FEED, FEED_NETWORK.replace('pass H E1 e\npass e E2 f\npass f E3 g\n',
                                                    'pass H E1 e\npass e E3 f\npass f E2 g\n'))
    assert kinks_of(case).count(structure_of(case, network)) == 6


def test_a_network_is_ranked_by_what_the_plant_has(pinch: Pinch) -> None:
    case, network = read(FEED, FEED_NETWORK)
    found = Judge(pinch, case).given(network)
    assert (found.count, found.in_plant, found.rank[:2]) == (6, 4, (4, 6))


def test_the_bound_is_one_of_the_plant(pinch: Pinch) -> None:
    case, network = CRUDE
    assert each_stream_has_one(case) == 8
    flow = pinch.flow(case)
    assert not isinstance(flow, Cut)
    window, cost = whole(case, None), Fraction(flow.cost)
    least = [solve(transshipment(window, cost)[0]), solve(transshipment(window, cost, whole_names(case))[0])]
    assert least[0] and least[1] and least[1].aim < least[0].aim


def test_what_is_found_and_its_bound_are_of_the_plant(pinch: Pinch) -> None:
    found = find_network(FEED, pinch=pinch, way=SearchWay(steps=8, workers=1))
    assert found.exchangers == network_count(completed(read_case(FEED)), found.network) <= 4
    assert found.bound <= found.exchangers and 'in the program' not in found.bounds
    assert found.ended != 'searched to the end' or found.bound == found.exchangers


def test_an_exchanger_of_several_parts_is_tight_where_all_of_them_are() -> None:
    case = completed(read_case('contribution,,50,,,,\n#segment,C,C-1,,,,\n#segment,C,C-2,,,,\nhot,H,2000,1000,10,,\n'
                               'cold,C-1,900,1400,10,,\ncold,C-2,1400,1900,10,,\n'))
    network = read_network('exchanger E1 H C-2 5000\nexchanger E2 H C-1 5000\npass H E1 a\npass a E2 b\nend b\n'
                           'pass C-1 E2 c\nend c\npass C-2 E1 d\nend d\n')
    assert tight_of(case, network) == ('E1+E2',)


# Of both its streams a window has no segment.
APART = completed(read_case(
    'contribution,,50,,,,\n#segment,H,H-1,,,,\n#segment,H,H-2,,,,\n#segment,C,C-1,,,,\n#segment,C,C-2,,,,\n'
    'hot,H-1,1000,800,10,,\nhot,H-2,800,600,20,,\nhot,G,3000,2000,10,,\ncold,C-1,2100,2200,20,,\n'
    'cold,C-2,2200,2500,40,,\ncold,D,300,400,10,,\n'))


@pytest.mark.parametrize('case', [CRUDE[0], APART], ids=['crude', 'apart'])
def test_where_nothing_goes_through_a_cut_segments_are_one_in_a_window(pinch: Pinch, case: Case) -> None:
    flow = pinch.flow(case)
    assert not isinstance(flow, Cut)
    cut = cut_case(case, windows(case, {use.name: use.heat for use in flow.uses})).case
    names = {stream.name for stream in cut.streams}
    assert {name for stream in cut.basis.segments for name in stream.segments} <= names
    assert all(one.split('~')[1] == other.split('~')[1] for one, other in kinks_of(cut).kinks)


def test_an_exchanger_at_a_kink_gets_a_part_behind_it() -> None:
    case, network = read(FEED, FEED_NETWORK.replace('exchanger E2 H FEED-2 60000', 'exchanger E2 K FEED-2 60000')
                         .replace('pass e E2 f\npass f E3 g\npass g E5 h\nend h', 'pass e E3 f\npass f E5 h\nend h')
                         .replace('pass K E4 k', 'pass K E2 j\npass j E4 k'))
    structure, kinks = structure_of(case, network), kinks_of(case)
    assert kinks.count(structure) == 6
    parts = list(parts_of(kinks, structure))
    wanted = {('E1', 'FEED-2'), ('E2', 'FEED-3'), ('E2', 'FEED-1'), ('E3', 'FEED-2')}
    assert {(part.exchanger, part.segment) for part in parts} == wanted
    for part in parts:
        made = with_part(case, kinks, structure, part, pairs_of(case))
        assert made is not None and kinks.count(made) == 6 and len(made.pairs) == 7
    assert with_part(case, kinks, structure, parts[0], ()) is None


def test_what_goes_on_on_its_other_side_stands_next_to_the_exchanger() -> None:
    lanes = (Lane((Through('E1'), Through('E2')), Fraction(1, 2)), Lane((Through('E3'),), Fraction(1, 2)))
    assert next_to((Through('E0'), Through('E1')), 'E0', 'X', True) == (Through('E0'), Through('X'), Through('E1'))
    beside = next_to((Parting(lanes),), 'E2', 'X', False)
    assert beside == (Parting((Lane((Through('E1'), Through('X'), Through('E2')), Fraction(1, 2)), lanes[1])),)
    flat = (Parting((Lane((Through('E1'),), Fraction(1, 2)), lanes[1]), True),)
    assert next_to(flat, 'E1', 'X', True) is None and next_to(flat, 'E9', 'X', True) is None
