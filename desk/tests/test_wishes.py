"""What a network is wished to be beside few exchangers: few splits, none through a cut, exchangers that stay."""
from __future__ import annotations

import time
from dataclasses import replace
from fractions import Fraction
from pathlib import Path

import pytest
from conftest import EXAMPLES, example, few_of, pinchdesk

from pinchdesk import Accepted, Cut, Pinch, completed, find_network, read_case, read_network
from pinchdesk.errors import WordsError
from pinchdesk.formats.case import Case, Side
from pinchdesk.program.answers import Design
from pinchdesk.search.accepted import AcceptedNetwork, Judge, accepted_network, uneven_mixes
from pinchdesk.search.budget import SearchWay
from pinchdesk.search.child import Gone
from pinchdesk.search.find import FewExchangers, NoNetwork, tight_of
from pinchdesk.search.finishing import evened, finished
from pinchdesk.search.staged.windows import cuts_between, windows
from pinchdesk.search.tasks import SearchProcess
from pinchdesk.search.wishes import Wishes, crossing, cut_case, splits_of

STEPS = SearchWay(steps=24, workers=1)


def uses_of(pinch: Pinch, case: Case) -> dict[str, int]:
    flow = pinch.flow(case)
    assert not isinstance(flow, Cut)
    return {use.name: use.heat for use in flow.uses}


def cuts_of(pinch: Pinch, case: Case) -> list[int]:
    return [place for place, _ in cuts_between(case, uses_of(pinch, case))]


def wished(pinch: Pinch, name: str, wishes: Wishes, above: int = 0, start: bytes | None = None,
           way: SearchWay = STEPS) -> FewExchangers:
    found = find_network(example(f'{name}.csv'), above=above, start=start, pinch=pinch, way=way, wishes=wishes)
    verdict = pinch.audit(example(f'{name}.csv'), found.text)
    assert isinstance(verdict, Accepted) and verdict.cost == found.verdict.cost
    assert verdict.cost <= verdict.floor * Fraction(100 + above, 100)
    return found


@pytest.mark.parametrize('name', few_of(('tc3', 'four-stream', '10sp1', 'two-reactors'), ('tc3',)))
def test_a_cut_case_has_all_heat_in_pieces_that_meet_in_their_window(pinch: Pinch, name: str) -> None:
    case = completed(read_case(example(f'{name}.csv')))
    parts = windows(case, uses_of(pinch, case))
    cut = cut_case(case, parts)
    by_name = {stream.name: stream for stream in cut.case.streams}
    for stream in case.streams:
        pieces = [by_name[piece] for piece in cut.pieces[stream.name]]
        assert sum(piece.heat for piece in pieces) == stream.heat
        ends = [end for piece in pieces for end in (piece.supply, piece.target)]
        assert ends[0] == stream.supply and ends[-1] == stream.target and ends[1:-1:2] == ends[2::2]
    sides = [{side: sum(piece.side is side for piece in window.pieces) for side in Side} for window in parts]
    apart = sum(one[Side.HOT] * other[Side.COLD] for one in sides for other in sides if one is not other)
    assert len(cut.case.forbids) - len(case.forbids) >= apart


@pytest.mark.long
@pytest.mark.usefixtures('searched_here')
def test_no_exchanger_works_through_a_cut(pinch: Pinch) -> None:
    case = completed(read_case(example('tc3.csv')))
    found = wished(pinch, 'tc3', Wishes(may_cross=False))
    assert found.exchangers == 7 and not crossing(case, cuts_of(pinch, case), found.network)
    assert not crossing(case, cuts_of(pinch, case), read_network(example('tc3-network.txt')))


def test_an_exchanger_through_a_cut_is_seen(pinch: Pinch) -> None:
    case = completed(read_case('contribution,,50,,,,\nhot,H,2000,1000,10,,\ncold,C,900,1900,10,,\n'))
    network = read_network('exchanger E1 H C 10000\npass H E1 .h\nend .h\npass C E1 .c\nend .c\n')
    assert isinstance(pinch.audit(case, network), Accepted)
    assert crossing(case, [1500], network) == ('E1',)
    assert not crossing(case, [1950, 950], network)
    assert tight_of(case, network) == ('E1',)


@pytest.mark.long
@pytest.mark.usefixtures('searched_here')
def test_few_splits(pinch: Pinch) -> None:
    assert splits_of(wished(pinch, 'tc3', Wishes(most_splits=1)).network) <= 1


@pytest.mark.long
@pytest.mark.usefixtures('searched_here')
def test_no_splits_at_a_cost(pinch: Pinch) -> None:
    assert splits_of(wished(pinch, 'tc3', Wishes(most_splits=0), above=100).network) == 0


@pytest.mark.long
@pytest.mark.usefixtures('searched_here')
def test_what_cannot_be_met_is_refused_in_words(pinch: Pinch) -> None:
    # Two hot streams at the pinch and one cold one, which has to be split.
    case = 'contribution,,50,,,,\nhot,H,2000,1000,10,,\nhot,K,2000,1000,10,,\ncold,C,900,1900,20,,\n'
    with pytest.raises(NoNetwork, match='no network with no splits was found'):
        find_network(case, pinch=pinch, way=STEPS, wishes=Wishes(most_splits=0))
    assert find_network(case, pinch=pinch, way=STEPS, wishes=Wishes(most_splits=1)).exchangers == 2


@pytest.mark.long
@pytest.mark.usefixtures('searched_here')
def test_what_stays_has_its_streams_and_its_duty(pinch: Pinch) -> None:
    start = example('tc3-network.txt')
    kept = [exchanger for exchanger in read_network(start).exchangers if exchanger.name in ('E1', 'E3')]
    few = replace(STEPS, steps=8)
    found = wished(pinch, 'tc3', Wishes(keep=('E1', 'E3')), above=20, start=start, way=few)
    assert all(exchanger in found.network.exchangers for exchanger in kept)
    assert found.exchangers <= len(read_network(start).exchangers)


@pytest.mark.usefixtures('searched_here')
def test_a_network_to_begin_with_that_cannot_be_given_is_told(pinch: Pinch) -> None:
    case = 'contribution,,50,,,,\nhot,H,2000,1000,10,,\nhot,K,2000,1000,10,,\ncold,C,900,1700,20,,\n'
    few = SearchWay(steps=2, workers=1)
    dear = ('exchanger E1 HOT C 16000\nexchanger E2 H COLD 10000\nexchanger E3 K COLD 10000\npass H E2 .h\nend .h\n'
            'pass K E3 .k\nend .k\npass C E1 .c\nend .c\n')
    found = find_network(case, start=dear, pinch=pinch, way=few)
    assert found.left_aside == 'it costs more than the network may cost'
    assert 'the network to begin with was left aside: it costs more than the network may cost' in found.remarks()


def test_a_search_that_is_broken_off_is_told_and_not_the_same_again(
        pinch: Pinch, monkeypatch: pytest.MonkeyPatch) -> None:
    def gone(process: SearchProcess, until: float) -> object:
        raise Gone
    started = SearchProcess.message
    first = iter([started])
    monkeypatch.setattr(SearchProcess, 'message', lambda process, until: next(first, gone)(process, until))
    found = find_network(example('tc3.csv'), pinch=pinch, way=SearchWay(steps=5, workers=1))
    assert found.ended == 'the process of the search was ended on the way' and not found.libraries


def test_what_stays_is_named_of_a_network(pinch: Pinch) -> None:
    case, start = example('tc3.csv'), example('tc3-network.txt')
    with pytest.raises(WordsError, match='--keep E1: .* --start'):
        find_network(case, pinch=pinch, wishes=Wishes(keep=('E1',)))
    with pytest.raises(WordsError, match='no exchanger of this name'):
        find_network(case, start=start, pinch=pinch, wishes=Wishes(keep=('E99',)))
    with pytest.raises(WordsError, match='cannot be asked together'):
        find_network(case, start=start, pinch=pinch, wishes=Wishes(keep=('E1',), may_cross=False))


def test_of_as_many_exchangers_fewer_splits_come_first(pinch: Pinch) -> None:
    case = completed(read_case('contribution,,50,,,,\nhot,H,2000,1000,10,,\nhot,K,2000,1000,10,,\n'
                               'cold,C,300,1300,20,,\n'))
    texts = ('split C .a 10 .b\npass .a E1 .c\npass .b E2 .d\nmix .c .d .e\nend .e\n',
             'split C .a 8 .b\npass .a E1 .c\npass .b E2 .d\nmix .c .d .e\nend .e\n')
    head = 'exchanger E1 H C 10000\nexchanger E2 K C 10000\npass H E1 .h\nend .h\npass K E2 .k\nend .k\n'
    even, uneven = (read_network(head + text) for text in texts)
    ranks = []
    for network, mixes in ((even, 0), (uneven, 1)):
        verdict = pinch.audit(case, network)
        assert isinstance(verdict, Accepted) and uneven_mixes(case, network) == mixes
        ranks.append(accepted_network(case, network, verdict).rank)
    assert ranks[0] < ranks[1]


def test_a_mix_of_two_temperatures_is_made_one_of_one_where_that_costs_nothing(pinch: Pinch) -> None:
    case = completed(read_case('contribution,,50,,,,\nhot,H,2000,1000,10,,\nhot,K,2000,1000,10,,\n'
                               'cold,C,300,1300,20,,\n'))
    network = ('exchanger E1 H C 10000\nexchanger E2 K C 10000\npass H E1 .h\nend .h\npass K E2 .k\nend .k\n'
               'split C .a 8 .b\npass .a E1 .c\npass .b E2 .d\nmix .c .d .e\nend .e\n')
    judge = Judge(pinch, case)
    judged = judge.given(network)
    assert judged.uneven == 1
    assert evened(judge, judged, judged.cost, float('inf'), lambda found: None).uneven == 0


@pytest.mark.long
def test_the_last_steps_take_out_what_costs_nothing(pinch: Pinch) -> None:
    case = completed(read_case(example('four-stream.csv')))
    judge, design = Judge(pinch, case), pinch.design(case)
    told: list[AcceptedNetwork] = []
    assert isinstance(design, Design)
    judged = judge.given(design.text)
    least = finished(judge, judged, judged.cost, time.monotonic() + 30, told.append, False)
    assert least.count <= 7 < judged.count and least.cost == judged.cost and told


@pytest.mark.long
@pytest.mark.usefixtures('searched_here')
def test_a_little_more_cost_saves_an_exchanger(pinch: Pinch) -> None:
    assert wished(pinch, 'tc3', Wishes(), above=4).exchangers == 6


@pytest.mark.long
@pytest.mark.usefixtures('searched_here')
def test_a_large_case_is_the_same_by_one_worker_or_by_three(pinch: Pinch) -> None:
    case = example('bn15.csv')
    first, again = (find_network(case, pinch=pinch, way=SearchWay(steps=12, workers=count)) for count in (1, 3))
    assert first.text == again.text


@pytest.mark.long
def test_the_words(tmp_path: Path) -> None:
    out, case = tmp_path / 'few.txt', str(EXAMPLES / 'tc3.csv')
    told = pinchdesk('network', case, '--most-splits', '1', '--steps', '30', '--workers', '1', '-o', str(out))
    assert told.status == 0 and splits_of(read_network(out.read_bytes())) <= 1
    assert pinchdesk('network', case, '--most-splits', '1', '--no-splits').status == 2
    assert pinchdesk('network', case, '--most-splits', '-1').status == 2
    assert pinchdesk('network', case, '--keep', 'E1,,E2').status == 2
    told = pinchdesk('network', case, '--keep', 'E1')
    assert told.status == 2 and '--start' in told.err


@pytest.mark.long
def test_a_search_by_steps_names_its_libraries_and_is_the_same_again(pinch: Pinch) -> None:
    case = example('tc3.csv')
    first, again = (find_network(case, pinch=pinch, way=replace(STEPS, workers=count)) for count in (1, 2))
    assert first.text == again.text and '\n# the same again with the same seed and steps by numpy ' in first.text
