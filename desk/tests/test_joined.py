"""A stream that is cut into segments is one stream, and an exchanger that goes on across a kink is one exchanger."""
from __future__ import annotations

from fractions import Fraction
from functools import lru_cache
from typing import Any

import pytest
from branched import THREE, THREE_NETWORK
from conftest import EXAMPLES, few_of, tried
from cutting import can_be_cut, cut_network, cut_stream
from hypothesis import given
from hypothesis import strategies as some
from looking import cut_off, overlapping, texts_of
from matplotlib.lines import Line2D
from segmented_cases import FEED, FEED_NETWORK

from pinchdesk import Pinch, Refused, Side, Stream, completed, find_network, follow, read_case, read_network
from pinchdesk.analysis.change_table import read_changes
from pinchdesk.analysis.follow import Followed, pinches_of
from pinchdesk.analysis.joined import Kink, exchanger_count, joined, network_count
from pinchdesk.analysis.least_units import Units, least_units
from pinchdesk.analysis.rest import remaining, written_case
from pinchdesk.analysis.what_if import what_if
from pinchdesk.costs.network_areas import network_areas
from pinchdesk.figures import grid_figure
from pinchdesk.formats.case import print_case
from pinchdesk.formats.network import Mix, Split
from pinchdesk.formats.segments import SegmentedStream
from pinchdesk.formats.whole_streams import WholeStream
from pinchdesk.program.verdicts import Accepted
from pinchdesk.report.exchangers import exchangers_sheet, segments_sheets, streams_sheet
from pinchdesk.report.rest_sheets import rest_facts
from pinchdesk.report.unit_sheets import units_table
from pinchdesk.report.what_if_sheets import plus_minus_table
from pinchdesk.search.accepted import Judge
from pinchdesk.search.budget import SearchWay


def followed_of(case: str, network: str) -> Followed:
    return follow(completed(read_case(case)), read_network(network))


def test_an_exchanger_that_passes_kinks_is_one() -> None:
    plant = joined(followed_of(FEED, FEED_NETWORK))
    assert [passage.exchanger.name for passage in plant.followed.passages] == ['E1+E2+E3', 'E4', 'E5', 'E6']
    first = plant.followed.passage('E1+E2+E3')
    assert first.exchanger.duty == 180_000 and (first.exchanger.hot, first.exchanger.cold) == ('H', 'FEED')
    ends = [first.hot.inlet, first.hot.outlet, first.cold.inlet, first.cold.outlet]
    assert ends == [Fraction(2000), Fraction(1280), Fraction(400), Fraction(1200)]
    # It is narrowest where it begins to be heated up behind the boiling.
    assert first.least_difference == 800
    assert [stream.name for stream in plant.followed.case.streams] == ['FEED', 'H', 'K']
    feed = plant.followed.case.streams[0]
    assert isinstance(feed, WholeStream)
    assert plant.kinks == (Kink(feed, 800, '', 'E1+E2+E3'), Kink(feed, 800, '', 'E1+E2+E3')) and plant.notes == ()


def test_the_table_has_the_exchanger_with_both_ends_and_the_streams_as_they_are(pinch: Pinch) -> None:
    followed, verdict = followed_of(FEED, FEED_NETWORK), pinch.audit(FEED, FEED_NETWORK)
    assert isinstance(verdict, Accepted)
    table = exchangers_sheet(followed, (), verdict)
    row = dict(zip(table.headings, map(str, table.rows[0])))
    assert row['exchanger'] == 'E1+E2+E3' and row['duty kW'] == '180' and row['cold'] == 'FEED'
    assert (row['cold in °C'], row['cold out °C'], row['least K']) == ('40', '120', '80')
    streams = streams_sheet(followed, verdict)
    assert [str(cell) for cell in streams.rows[0]] == ['FEED', 'cold', '30', '120', '120', '2 / latent / 1', '200',
                                                       '200']
    segments = segments_sheets(joined(followed))
    assert [row[1] for row in segments[0].rows] == ['FEED-1', 'FEED-2', 'FEED-3']


def test_a_stream_that_does_not_end_is_shown_in_its_segments() -> None:
    open_network = FEED_NETWORK.replace('end b\n', '')
    plant = joined(followed_of(FEED, open_network))
    assert [stream.name for stream in plant.followed.case.streams][:3] == ['FEED-1', 'FEED-2', 'FEED-3']
    assert plant.notes == ('FEED is shown in its segments, since FEED-1 does not end at its target',)
    # Where the one segment ends and the next begins the exchanger goes on all the same.
    assert exchanger_count(followed_of(FEED, open_network)) == 5


TWO_TRAINS = '''contribution,,0,,,,
#segment,C,C1,,,,
#segment,C,C2,,,,
cold,C1,100,200,100,,
cold,C2,200,300,100,,
hot,H,500,300,50,,
hot,K,500,300,50,,
'''
TRAINS = '''exchanger E1 H C1 5000
exchanger E2 K C1 5000
exchanger E3 H C2 5000
exchanger E4 K C2 5000
split C1 a 50 b
pass a E1 a2
pass b E2 b2
mix a2 b2 c
end c
split C2 d 50 e
pass d E4 d2
pass e E3 e2
mix d2 e2 f
end f
pass H E3 h
pass h E1 h2
end h2
pass K E4 k
pass k E2 k2
end k2
'''


def test_branches_that_pass_a_kink_side_by_side_go_on(pinch: Pinch) -> None:
    verdict = pinch.audit(TWO_TRAINS, TRAINS)
    assert isinstance(verdict, Accepted)
    plant = joined(followed_of(TWO_TRAINS, TRAINS))
    assert [passage.exchanger.name for passage in plant.followed.passages] == ['E3+E1', 'E4+E2']
    assert sum(isinstance(statement, (Split, Mix)) for statement in plant.followed.network.statements) == 2
    assert {(kink.exchanger, kink.temperature) for kink in plant.kinks} == {('E3+E1', 200), ('E4+E2', 200)}
    assert plant.notes == ()
    figure = grid_figure(followed_of(TWO_TRAINS, TRAINS), (), verdict)
    assert overlapping(figure) == [] and cut_off(figure) == []


def three_trains(place: int) -> tuple[str, str]:
    """The case and the network of `branched`, whose stream H has three branches, with H cut at a temperature."""
    case = THREE.decode().replace('hot,H,2000,1000,100,,', f'#segment,H,H1,,,,\n#segment,H,H2,,,,\n'
                                  f'hot,H1,2000,{place},100,,\nhot,H2,{place},1000,100,,')
    lines: list[str] = []
    led: list[str] = []
    for name, cold, size in (('E1', 'A', 50), ('E2', 'B', 30), ('E3', 'D', 20)):
        lines += [f'exchanger {name}h H1 {cold} {size * (2000 - place)}',
                  f'exchanger {name}c H2 {cold} {size * (place - 1000)}']
        led += [f'pass {cold} {name}c {cold}x', f'pass {cold}x {name}h {cold}y', f'end {cold}y']
    for stream, end, end_name in (('H1', 'h', 'p'), ('H2', 'c', 'q')):
        led += [f'split {stream} {end_name}a 50 {end_name}r', f'split {end_name}r {end_name}b 30 {end_name}d',
                *(f'pass {end_name}{branch} {name}{end} {end_name}{branch}2'
                  for branch, name in (('a', 'E1'), ('b', 'E2'), ('d', 'E3'))),
                f'mix {end_name}a2 {end_name}b2 {end_name}m', f'mix {end_name}m {end_name}d2 {end_name}n',
                f'end {end_name}n']
    return case, '\n'.join([*lines, *led]) + '\n'


@given(some.integers(1001, 1999))
def test_a_cut_through_three_branches_changes_nothing(pinch: Pinch, place: int) -> None:
    case, network = three_trains(place)
    assert isinstance(pinch.audit(case, network), Accepted)
    uncut_one, plant = followed_of(THREE.decode(), THREE_NETWORK.decode()), joined(followed_of(case, network))
    pinches = pinches_of(pinch.targets(case), pinch.curves(case))
    assert sorted(seen(plant.followed, pinches)) == sorted(seen(uncut_one, pinches)) and plant.notes == ()
    kinds = [[type(statement).__name__ for statement in followed.network.statements]
             for followed in (plant.followed, uncut_one)]
    assert sorted(kinds[0]) == sorted(kinds[1])


def test_branches_that_are_mixed_and_split_again_are_as_the_program_has_them(pinch: Pinch) -> None:
    """The second time the parts of the stream are others."""
    apart = TRAINS.replace('split C2 d 50 e', 'split C2 d 40 e')
    assert isinstance(pinch.audit(TWO_TRAINS, apart), Accepted)
    plant = joined(followed_of(TWO_TRAINS, apart))
    assert len(plant.followed.passages) == 4 and len(plant.kinks) == 1
    assert plant.notes[0].startswith('C is mixed and split again at 20 °C, as the program has it')


def test_a_branch_may_go_on_beside_others_that_are_split_once_more(pinch: Pinch) -> None:
    more = TRAINS.replace('exchanger E3 H C2 5000', 'exchanger E3 H C2 2000\nexchanger E5 H C2 3000').replace(
        'pass e E3 e2\n', 'split e e3 20 e4\npass e3 E3 e5\npass e4 E5 e6\nmix e5 e6 e2\n').replace(
        'pass H E3 h\n', 'pass H E3 h0\npass h0 E5 h\n')
    assert isinstance(pinch.audit(TWO_TRAINS, more), Accepted)
    plant = joined(followed_of(TWO_TRAINS, more))
    assert [passage.exchanger.name for passage in plant.followed.passages] == ['E1', 'E3', 'E5', 'E4+E2']


def test_the_order_of_statements_is_open() -> None:
    lines = FEED_NETWORK.splitlines()
    exchangers, led = [line for line in lines if line[:2] == 'ex'], [line for line in lines if line[:2] != 'ex']
    kept = joined(followed_of(FEED, FEED_NETWORK)).followed
    # The segments of the feed last, the last one first.
    turned = joined(followed_of(FEED, '\n'.join([*exchangers, *led[7:], *led[5:7], *led[3:5], *led[:3]]))).followed
    assert turned.network == kept.network


UNSPLIT = ('four-stream', 'tc3', 'preheater', 'two-reactors', 'column', 'own-contributions', '10sp1', 'aromatics',
           'crude', 'bn15')


@lru_cache(maxsize=None)
def uncut(name: str) -> Followed:
    case, network = ((EXAMPLES / file).read_text(encoding='utf-8') for file in (f'{name}.csv', f'{name}-network.txt'))
    return followed_of(case, network)


@pytest.mark.parametrize('name', few_of(UNSPLIT, ('four-stream', 'own-contributions')))
@tried(12, 25)
@given(data=some.data())
def test_a_cut_stream_has_the_targets_the_curves_and_the_exchangers_of_the_uncut_one(
        name: str, pinch: Pinch, data: some.DataObject) -> None:
    followed = uncut(name)
    case = followed.case
    streams = [stream for stream in case.streams if not stream.latent and can_be_cut(followed, stream.name)
               and abs(stream.supply - stream.target) > 3]
    stream = data.draw(some.sampled_from(streams))
    low, high = sorted((stream.supply, stream.target))
    places = sorted(data.draw(some.lists(some.integers(low + 1, high - 1), min_size=1, max_size=3, unique=True)),
                    reverse=stream.side is Side.HOT)
    cut, network = cut_stream(case, stream.name, places), cut_network(followed, stream.name, places)
    targets, curves = pinch.targets(cut), pinch.curves(cut)
    whole = pinch.curves(case)
    assert targets == pinch.targets(case)
    assert pinches_of(targets, curves) == pinches_of(pinch.targets(case), whole)
    # The curves have a point more where the stream is cut.
    assert {*whole.hot} <= {*curves.hot} and {*whole.cold} <= {*curves.cold} and {*whole.net} <= {*curves.net}
    assert read_case(print_case(cut)).basis == cut.basis
    verdict = pinch.audit(cut, network)
    other = pinch.audit(case, followed.network)
    assert isinstance(verdict, Accepted) and isinstance(other, Accepted) and verdict.excess == other.excess
    plant = joined(follow(cut, network))
    assert network_count(cut, network) == len(followed.passages) == len(plant.followed.passages)
    pinches = pinches_of(targets, curves)
    assert sorted(seen(plant.followed, pinches)) == sorted(seen(followed, pinches))


def seen(followed: Followed, pinches: Any) -> list[Any]:
    """What a table and a diagram have of each exchanger, without its name."""
    return [(passage.exchanger.hot, passage.exchanger.cold, passage.exchanger.duty, passage.hot.inlet,
             passage.hot.outlet, passage.cold.inlet, passage.cold.outlet, passage.approach, passage.least_difference,
             [passage.crossing(pinch) for pinch in pinches]) for passage in followed.passages]


@pytest.mark.parametrize('name', few_of(('four-stream', 'tc3', 'two-reactors', 'column'), ('four-stream',)))
@tried(12, 25)
@given(data=some.data())
def test_the_least_number_of_exchangers_is_that_of_the_uncut_case(name: str, pinch: Pinch,
                                                                  data: some.DataObject) -> None:
    followed = uncut(name)
    stream = data.draw(some.sampled_from([stream for stream in followed.case.streams if not stream.latent]))
    low, high = sorted((stream.supply, stream.target))
    place = data.draw(some.integers(low + 1, high - 1))
    whole, cut = least_units(followed.case, pinch), least_units(cut_stream(followed.case, stream.name, [place]), pinch)
    assert isinstance(whole, Units) and isinstance(cut, Units)
    assert cut.whole.least == whole.whole.least
    assert [region.least for region in cut.at_pinches] == [region.least for region in whole.at_pinches]
    assert [region.sources for region in cut.at_all] == [region.sources for region in whole.at_all]
    if can_be_cut(followed, stream.name):
        beside = follow(cut.case, cut_network(followed, stream.name, [place]))
        assert units_table(cut, beside) == units_table(whole, followed)


def test_the_grid_has_one_line_with_its_kinks(pinch: Pinch) -> None:
    figure = grid_figure(followed_of(FEED, FEED_NETWORK), (), pinch.audit(FEED, FEED_NETWORK))
    assert overlapping(figure) == [] and cut_off(figure) == []
    texts = [text for text, _, _ in texts_of(figure)]
    assert 'FEED' in texts and not any('FEED-' in text for text in texts) and '2 / latent / 1' in texts
    assert 'E1+E2+E3\n180' in texts
    assert any('◇ is where the CP of a stream changes: FEED at 80 °C' in text for text in texts)
    marks = [line for line in figure.findobj(Line2D) if line.get_marker() == 'D']
    assert len(marks) == 2


def test_what_is_left_counts_exchangers_of_the_plant_and_keeps_the_segments_that_are_left(pinch: Pinch) -> None:
    begun = '\n'.join(line for line in FEED_NETWORK.splitlines() if line.split()[-1] not in ('d', 'h', 'l')
                      and ' E1 ' not in line and ' E5 ' not in line and ' E6 ' not in line)
    begun = begun.replace('pass e E2 f', 'pass H E2 f').replace('end c\n', '').replace('FEED-2 60000', 'FEED-2 50000')
    rest = remaining(FEED, begun, pinch)
    facts = {fact.name: fact.value for fact in rest_facts(rest)}
    assert facts['exchangers so far'] == 2
    case = written_case(rest)
    assert case is not None
    # A part of the boiling and the superheating are left, and are one stream still.
    assert case.basis.segments == (SegmentedStream('FEED', ('FEED-2', 'FEED-3')),)
    assert read_case(print_case(case)) == case
    assert case.source('FEED-2') == Stream('FEED-2', Side.COLD, 800, 800, 0, 10_000, 50)


CHANGES = 'scenario;source;field;value\n'


@pytest.mark.parametrize('row, before, after', [
    ('FEED;supply;+10', 'FEED-1', (400, 800, 200, 0)), ('FEED;target;-5', 'FEED-3', (800, 1150, 100, 0)),
    ('FEED;CP;+10 %', 'FEED-1', (300, 800, 220, 0)), ('FEED;CP;+10 %', 'FEED-2', (800, 800, 0, 66_000)),
    ('FEED;load;-50 %', 'FEED-3', (800, 1200, 50, 0)), ('FEED-3;CP;2', 'FEED-3', (800, 1200, 200, 0))])
def test_a_scenario_changes_the_stream(row: str, before: str, after: tuple[int, ...], pinch: Pinch) -> None:
    table = read_changes((CHANGES + 'more;' + row).encode(), 't.csv', read_case(FEED).basis)
    outcome = what_if(FEED, table.variants, pinch).outcomes[0]
    found = outcome.case.source(before)
    assert isinstance(found, Stream) and (found.supply, found.target, found.cp, found.load) == after
    assert not outcome.fault and outcome.targets


@pytest.mark.parametrize('row, cause', [
    ('FEED;CP;3', 'FEED has a CP in each of its segments, FEED-1 to FEED-3: say a percentage, or change one of these'),
    ('FEED;price;3', 'FEED has no price: it has supply, target, CP, load, contribution'),
    ('FEED;level;90', 'FEED has no level')])
def test_what_a_stream_of_segments_has_not_once_is_refused(row: str, cause: str, pinch: Pinch) -> None:
    table = read_changes((CHANGES + 'more;' + row).encode(), 't.csv', read_case(FEED).basis)
    with pytest.raises(Refused) as refused:
        what_if(FEED, table.variants, pinch)
    assert cause in refused.value.text


def test_segments_that_no_longer_meet_are_a_fault_of_the_scenario(pinch: Pinch) -> None:
    table = read_changes((CHANGES + 'apart;FEED-1;target;+5').encode(), 't.csv', read_case(FEED).basis)
    outcome = what_if(FEED, table.variants, pinch).outcomes[0]
    assert outcome.fault.startswith('FEED-1 ends at 85 °C, and FEED-2 begins at 80 °C') and outcome.targets is None


def test_a_little_more_of_a_stream_is_of_all_its_segments(pinch: Pinch) -> None:
    """As much as of the uncut stream."""
    followed = uncut('four-stream')
    whole = what_if(followed.case, (), pinch).plus_minus
    cut = what_if(cut_stream(followed.case, 'C1', [600, 1000]), (), pinch).plus_minus
    assert [(risen.stream.name, risen.size, risen.supply, risen.target) for risen in cut] == \
        [(risen.stream.name, risen.size, risen.supply, risen.target) for risen in whole]
    table = plus_minus_table(what_if(FEED, (), pinch))
    assert [str(fact.value) for fact in table.rows[0]][:2] == ['FEED', 'cold'] and len(table.rows) == 3


def test_a_search_counts_the_exchangers_of_the_plant(pinch: Pinch) -> None:
    found = find_network(FEED, pinch=pinch, way=SearchWay(steps=1, workers=1), start=FEED_NETWORK)
    assert found.exchangers == network_count(completed(read_case(FEED)), found.network) <= 4
    assert f'{len(found.network.exchangers)} in the program, which has segments as streams' in found.text
    assert found.bounds.startswith('bound: at least ') and 'in the program' not in found.bounds
    assert found.rule == 3


def test_of_networks_that_are_found_one_with_the_fewest_exchangers_of_the_plant_is_given(pinch: Pinch) -> None:
    case = completed(read_case(FEED))
    judge = Judge(pinch, case)
    joined_one = judge.accepted(FEED_NETWORK)
    # The same exchangers, but H meets K in between: nothing goes on across a kink.
    apart = judge.accepted(FEED_NETWORK.replace('pass e E2 f', 'pass e E5 f').replace('pass g E5 h', 'pass g E2 h')
                           .replace('exchanger E5 H COLD 95000', 'exchanger E5 H COLD 10000\nexchanger E7 H COLD 85000')
                           .replace('end h', 'pass h E7 i\nend i'))
    assert (joined_one.in_plant, joined_one.count) == (4, 6) and joined_one.rank < apart.rank


def test_an_exchanger_that_is_one_in_the_plant_has_one_area(pinch: Pinch) -> None:
    films = ''.join(f'#film,{name},0.5,kW/m2K,,,\n' for name in ('FEED-1', 'FEED-2', 'FEED-3', 'H', 'K', 'CW'))
    case = FEED + 'cooler,CW,200,0,1000000000000,1,\n#build,,counter-current,,,,exchanger\n' + films
    network = FEED_NETWORK.replace('COLD', 'CW')
    areas = network_areas(case, network, pinch)
    assert [exchanger.name for exchanger in areas.exchangers] == ['E1+E2+E3', 'E4', 'E5', 'E6']
    # A row of the stream holds for its segments.
    short = case.replace('#film,FEED-1,', '#film,FEED,').replace('#film,FEED-2,0.5,kW/m2K,,,\n', '')
    assert network_areas(short, network, pinch).area.shown(6) == areas.area.shown(6)
