"""What is left of a network: against the whole, against the audit, and against what can be worked out by hand."""
from __future__ import annotations

from dataclasses import replace
from fractions import Fraction
from pathlib import Path

import pytest
from conftest import CASES, NETWORKS, example, as_objects, tried
from hypothesis import given
from hypothesis import strategies as st

from pinchdesk import (Accepted, Case, Cut, Network, Pinch, Refused, Rejected, Stream, completed, print_case, read_case,
                       read_network)
from pinchdesk.analysis.open_branches import Rounding, rest_case, scale_of
from pinchdesk.analysis.rest import Rest, remaining, written_case
from pinchdesk.cli.main import main
from pinchdesk.formats.network import End, Exchanger, Mix, Pass, Split
from pinchdesk.program.answers import HeatFlow
from pinchdesk.report.rest_sheets import file_notes, rest_sheets, rounding_notes

FOUR = example('four-stream.csv')
AHEAD = 'exchanger E1 H2 C3 240000\npass H2 E1 a\npass C3 E1 b\nend b\n'
ACROSS = ('exchanger E1 H2 C1 100000\nexchanger Q1 HOT C3 50000\npass H2 E1 a\npass C1 E1 b\npass C3 Q1 c\n')
LATENT = 'contribution,,50,,,,\nhot,H,1500,700,10,,\ncold,B,900,900,0,8000,\n'


def targets_of(rest: Rest) -> tuple[object, ...]:
    assert rest.harder and rest.exact
    return as_objects(rest.harder.hot, rest.harder.cold)


@pytest.mark.parametrize('name', CASES)
def test_the_rest_of_an_empty_network_is_the_whole(name: str, pinch: Pinch) -> None:
    case = example(f'{name}.csv')
    rest, whole = remaining(case, '', pinch), pinch.targets(case)
    assert targets_of(rest) == (whole.hot, whole.cold) and as_objects(*rest.excess) == (0, 0)
    assert rest.harder and rest.harder.targets == whole and rest.good == (name != 'too-little-cooling')
    assert written_case(rest) == read_case(case)


@pytest.mark.parametrize('name', NETWORKS)
def test_the_rest_of_a_whole_network_is_nothing(name: str, pinch: Pinch) -> None:
    rest = remaining(example(f'{name}.csv'), example(f'{name}-network.txt'), pinch)
    assert isinstance(rest.verdict, Accepted) and rest.good and not rest.left and written_case(rest) is None
    assert as_objects(*rest.excess) == (rest.verdict.excess, rest.verdict.excess)
    assert (rest.hot_used, rest.cold_used, rest.cost_used) == (rest.verdict.hot, rest.verdict.cold, rest.verdict.cost)


@pytest.mark.parametrize('name', NETWORKS)
def test_what_is_left_without_the_last_statements_costs_no_more_than_the_whole_network(name: str,
                                                                                       pinch: Pinch) -> None:
    """All ends are left out: every branch stands at its target, and nothing is left to give or to take."""
    case, network = example(f'{name}.csv'), read_network(example(f'{name}-network.txt'))
    endless = Network(tuple(statement for statement in network.statements if not isinstance(statement, End)))
    rest = remaining(case, endless, pinch)
    assert rest.good and rest.harder is None and len(rest.left) == len(rest.followed.case.streams)
    whole = pinch.audit(case, network)
    assert isinstance(whole, Accepted) and as_objects(*rest.excess) == (whole.excess, whole.excess)


@pytest.mark.parametrize('name', NETWORKS)
def test_the_choice_of_each_beginning_of_a_network_costs_at_most_its_excess(name: str, pinch: Pinch) -> None:
    """Exchangers are taken off a network from its ends, as long as no mix stands behind them."""
    case, network = example(f'{name}.csv'), read_network(example(f'{name}-network.txt'))
    whole = pinch.audit(case, network)
    assert isinstance(whole, Accepted)
    for beginning in beginnings(network):
        rest = remaining(case, beginning, pinch)
        assert rest.good and 0 <= rest.excess[0] <= whole.excess and rest.excess[0] <= rest.excess[1]
        assert rest.exact or rest.excess[1] - rest.excess[0] < 10_000


def beginnings(network: Network) -> list[Network]:
    """The network without its last exchanger, without the last two, and so on, at most three."""
    made: list[Network] = []
    longer = network
    while len(made) < 3:
        shorter = without_last(longer)
        if shorter is None:
            return made
        made.append(shorter)
        longer = shorter
    return made


def without_last(network: Network) -> Network | None:
    """The network without an exchanger behind which nothing but ends stands on both of its streams."""
    open_ends = tuple(statement for statement in network.statements if not isinstance(statement, End))
    used = {name for statement in open_ends for name in
            ((statement.branch,) if isinstance(statement, Split | Pass) else (statement.first, statement.second)
             if isinstance(statement, Mix) else ())}
    last = {statement.exchanger: [one for one in open_ends
                                  if isinstance(one, Pass) and one.exchanger == statement.exchanger]
            for statement in open_ends if isinstance(statement, Pass)}
    for name, passes in last.items():
        if all(pass_statement.to not in used for pass_statement in passes):
            return Network(tuple(statement for statement in open_ends if statement not in passes and not (
                isinstance(statement, Exchanger) and statement.name == name)))
    return None


def test_a_match_above_the_pinch_costs_nothing_and_its_end_stands_at_the_pinch(pinch: Pinch) -> None:
    rest = remaining(FOUR, AHEAD, pinch)
    assert targets_of(rest) == (20_000, 60_000) and as_objects(*rest.excess) == (0, 0) and rest.good
    assert [as_objects(left.name, left.branch.name, left.state, left.heat) for left in rest.left] == [
        ('C1', 'C1', 200, 230_000), ('H2', 'a', 900, 90_000), ('H4', 'H4', 1500, 180_000)]
    sheets = rest_sheets(rest)
    assert [row[1:3] + row[6:] for row in sheets[2].rows] == [
        ('C1', 'C1', 'above below'), ('H2', 'a', 'below'), ('H4', 'H4', 'above below')]
    assert [as_objects(*row[1:4]) for row in sheets[3].rows] == [('above', 1, 1), ('below', 2, 1)]
    assert written_case(rest) == read_case('contribution,,50,,,,\ncold,C1,200,1350,200,,\nhot,H2,900,600,300,,\n'
                                           'hot,H4,1500,300,150,,\n')


def test_a_heater_too_many_counts_and_a_temperature_between_tenths_is_exact(pinch: Pinch) -> None:
    """100 kW are led down across the pinch, and 37.5 kW by `Q1` more than the stream above the pinch wants at the end:
    what is left wants 101.25 kW beside the 50 that are used."""
    rest = remaining(FOUR, ACROSS, pinch)
    assert rest.left[1].state == Fraction(4100, 3) and rest.harder and rest.harder.scale.degrees == 3
    assert targets_of(rest) == (101_250, 191_250) and rest.hot_used == 50_000
    assert as_objects(*rest.excess) == (131_250, 131_250) and rest.good and not list(rounding_notes(rest))
    assert list(file_notes(rest)) == [
        'in the case of the rest branch a of H2 begins at 136.6 °C, rounded from 136.666667 (410/3)']
    posed = written_case(rest)
    assert posed and posed.streams[1].supply == 1366
    assert 101_250 <= pinch.targets(posed).hot <= 101_250 + 200
    assert [as_objects(*row) for row in rest_sheets(rest)[-1].rows] == [('exchanger E1', 100)]


def test_the_example_that_is_begun_loses_what_its_heater_gives_below_the_pinch(pinch: Pinch) -> None:
    rest = remaining(FOUR, example('four-stream-begun.txt'), pinch)
    assert as_objects(*rest.excess) == (20_000, 20_000) and targets_of(rest) == (20_000, 80_000)
    assert [as_objects(*row) for row in rest_sheets(rest)[-1].rows] == [('exchanger Q1', 20)]


def test_sizes_that_are_fractions_are_scaled(pinch: Pinch) -> None:
    network = 'split H2 a 100/7 b\nsplit b c 1/3 d\n'
    rest = remaining(FOUR, network, pinch)
    assert rest.harder and rest.harder.scale.sizes == 21 and targets_of(rest) == (20_000, 60_000)
    posed = written_case(rest)
    assert posed and posed.basis.scale == 21 and [stream.cp for stream in posed.streams[1:4]] == [300, 7, 5993]
    assert list(file_notes(rest)) == ['in the case of the rest all heats and CPs are multiplied by 21 (#scale)']


def test_what_no_scale_holds_is_rounded_to_both_sides_and_told(pinch: Pinch) -> None:
    network = 'split H4 a 1000001/100003 b\nexchanger E1 H2 C3 100003/1009\npass H2 E1 c\npass C3 E1 d\n'
    rest, duty = remaining(FOUR, network, pinch), Fraction(100_003, 1009)
    assert not rest.exact and rest.harder and rest.easier
    # The place of the cold stream's beginning is the pinch of the rest: what the hot ones have below it is lost.
    assert rest.easier.hot <= 20_000 + duty * 5 / 8 <= rest.harder.hot < rest.easier.hot + 1000
    assert rest.harder.cold <= 60_000 + duty * 5 / 8 <= rest.easier.cold
    told = list(rounding_notes(rest))
    assert told[-1] == 'the exact targets of the rest lie between those of both'
    assert any(note.startswith('branch d of C3: 80.0247') for note in told)
    assert any('branch a of H4: 0.099997 (1000001/10000300) kW/K is taken as ' in note for note in told)
    split = remaining(FOUR, 'split H4 a 1000001/100003 b\nsplit C1 c 1000003/100019 d\n', pinch)
    assert split.excess[0] == 0 < split.excess[1] < 1000
    rows = rest_sheets(split)[0].rows
    assert ' to ' in str(rows[2][1]) and rows[4][2] == 'kW, no more than the rounding'


def test_of_a_latent_stream_the_load_is_left(pinch: Pinch) -> None:
    network = 'exchanger E1 H B 3000\npass H E1 a\nsplit B b 5000 c\npass b E1 d\n'
    rest = remaining(LATENT, network, pinch)
    assert [as_objects(left.name, left.heat) for left in rest.left] == [('H', 5000), ('c', 3000), ('d', 2000)]
    assert targets_of(rest) == (3000, 3000) and as_objects(*rest.excess) == (0, 0)
    posed = written_case(rest)
    assert posed and [stream.load for stream in posed.streams] == [0, 3000, 2000]


def test_own_contributions_ranges_and_forbidden_matches_are_kept(pinch: Pinch) -> None:
    case = ('contribution,,50,,,,\nhot,H,2000,1000,100,,20\ncold,C,300,1300,150,,\nheater,S,2200,30000,90000,2,10\n'
            'cooler,W,200,0,1000000,1,\nforbid,H,C,,,,\nforbid,H,W,,,,\n')
    network = 'exchanger Q1 S C 40000\nsplit C c1 50 c2\npass c1 Q1 c3\n'
    rest = remaining(case, network, pinch)
    posed = written_case(rest)
    assert posed is not None and [stream.contribution for stream in posed.streams] == [20, 50, 50]
    assert [(utility.least, utility.most) for utility in posed.utilities] == [(0, 50_000), (0, 1_000_000)]
    assert [(forbid.hot, forbid.cold) for forbid in posed.forbids] == [('H', 'c2'), ('H', 'c3'), ('H', 'W')]
    assert not rest.good and isinstance(rest.whole_flow, Cut)
    assert rest_sheets(rest)[-1].title.startswith('No heat flow: these parts have to ')


def test_a_utility_that_gave_all_has_nothing_left_and_one_that_gave_too_much_is_rejected(pinch: Pinch) -> None:
    case = 'contribution,,50,,,,\ncold,C,300,1300,100,,\nheater,S,2200,0,40000,2,\nheater,R,2000,0,90000,3,\n'
    rest = remaining(case, 'exchanger Q1 S C 40000\npass C Q1 a\n', pinch)
    assert rest.good and isinstance(rest.whole_flow, HeatFlow) and as_objects(*rest.excess) == (0, 0)
    assert rest.harder and [utility.most for utility in rest.harder.case.utilities] == [0, 90_000]
    assert rest.cost_used == 80_000 and rest.harder.cost == 180_000 and rest.whole_flow.cost == 260_000
    over = remaining(case, 'exchanger Q1 S C 40001\npass C Q1 a\n', pinch)
    assert isinstance(over.verdict, Rejected) and over.verdict.reason == 'UtilityRange' and not over.good


REJECTED = [
    ('exchanger E1 H4 C3 100000\npass H4 E1 a\npass C3 E1 b\n', 'ColdEndApproach',
     'exchanger E1', 'the hot side leaves at 83.333 (250/3) °C'),
    ('split H2 a 400 b\n', 'Overdrawn', 'line 1 (H2)', 'more than there is: 4 kW/K, and there is 3 kW/K'),
    ('exchanger E1 H2 C3 100000\npass H2 E1 a\npass C3 E1 b\nend b\n', 'MissedTarget', 'line 4 (C3)', '105'),
]


@pytest.mark.parametrize('network, reason, place, said', REJECTED)
def test_what_stands_is_judged_by_the_audit(network: str, reason: str, place: str, said: str, pinch: Pinch) -> None:
    rest = remaining(FOUR, network, pinch)
    assert isinstance(rest.verdict, Rejected) and rest.verdict.reason == reason and not rest.good
    rows = rest_sheets(rest)[0].rows
    assert rows[0] == (place, reason) and said in str(rows[1][1]) and written_case(rest) is None


def test_a_branch_beyond_its_target_is_refused(pinch: Pinch) -> None:
    with pytest.raises(Refused, match='network branch a of H2 is beyond the target of its stream'):
        remaining(FOUR, 'exchanger E1 H2 C1 20000\nsplit H2 x 10 y\npass x E1 a\npass C1 E1 b\n', pinch)
    with pytest.raises(Refused, match='network line 1 MissingPass'):
        remaining(FOUR, 'exchanger E1 H2 C1 20000\npass H2 E1 a\n', pinch)


def test_more_branches_than_a_case_holds_are_refused(pinch: Pinch) -> None:
    names = ['H2', *(f'b{at}' for at in range(40))]
    network = ''.join(f'split {one} a{at} 1 {other}\n' for at, (one, other) in enumerate(zip(names, names[1:])))
    with pytest.raises(Refused, match='more open branches than a case can hold'):
        remaining(FOUR, network, pinch)


def test_the_word_writes_the_case_of_the_rest(tmp_path: Path, capsys: pytest.CaptureFixture[str]) -> None:
    case, network, made = (tmp_path / file_name for file_name in ('case.csv', 'n.txt', 'rest.csv'))
    case.write_bytes(FOUR)
    network.write_text(ACROSS)
    assert main(['rest', str(case), str(network), '--case', str(made)]) == 0
    said = capsys.readouterr()
    assert 'the choice costs above it   131.25  kW' in said.out and 'begins at 136.6 °C' in said.err
    assert made.read_text().startswith('"# What is left of ') and len(read_case(made.read_bytes()).streams) == 4
    assert main(['rest', str(case), str(network), '--case', str(case)]) == 2
    assert main(['rest', str(case), str(network), '--case', str(made), '-o', str(made)]) == 2
    network.write_bytes(example('four-stream-network.txt'))
    assert main(['rest', str(case), str(network), '--case', str(tmp_path / 'none.csv')]) == 2
    assert 'nothing is left' in capsys.readouterr().err and not (tmp_path / 'none.csv').exists()
    network.write_text(REJECTED[1][0])
    assert main(['rest', str(case), str(network)]) == 1


# Any case.

@st.composite
def cases(draw: st.DrawFn) -> Case:
    """A case of one to three streams on each side, some of them latent, some with own contributions."""
    rows = ['contribution,,50,,,,']
    for kind in ('hot', 'cold'):
        for at in range(draw(st.integers(1, 3))):
            low, span = draw(st.integers(200, 1500)), draw(st.integers(0, 900))
            ends = (low + span, low) if kind == 'hot' else (low, low + span)
            size = draw(st.integers(1, 400))
            own = draw(st.sampled_from(('', '0', '75')))
            rows.append(f'{kind},{kind[0].upper()}{at},{ends[0]},{ends[1]},{size if span else 0},'
                        f'{"" if span else size * 100},{own}')
    return read_case('\n'.join(rows) + '\n')


@tried(3, 8)
@given(cases(), st.data())
def test_splits_alone_leave_the_whole(case: Case, data: st.DataObject) -> None:
    """A network that only splits moves no heat: the targets of its rest are those of the whole, in any fractions."""
    pinch = Pinch()
    stream = data.draw(st.sampled_from(case.streams))
    part = data.draw(st.fractions(Fraction(1, 60), Fraction(59, 60), max_denominator=60))
    network = Network((Split(stream.name, 'a', stream.size * part, 'b'),))
    rest, whole = remaining(case, network, pinch), pinch.targets(case)
    assert rest.harder and rest.easier and rest.excess[0] == 0
    assert rest.easier.hot <= whole.hot <= rest.harder.hot and rest.harder.cold <= whole.cold <= rest.easier.cold
    assert not rest.exact or targets_of(rest) == (whole.hot, whole.cold)
    assert sum((left.heat for left in rest.left), Fraction(0)) == sum(case_stream.heat for case_stream in case.streams)


@tried(3, 8)
@given(cases(), st.integers(2, 9))
def test_moved_and_scaled_temperatures_have_the_same_targets(case: Case, degrees: int) -> None:
    """The case with all temperatures taken several times, shifted and without contributions, as fractions make it."""
    pinch = Pinch()
    rest, whole = remaining(case, '', pinch), pinch.targets(case)
    plain = scale_of(rest.left, rest.followed.case, rest.used)
    assert (plain.sizes, plain.degrees) == (1, 1)
    scale = replace(plain, degrees=degrees, offset=-2731 + degrees * 100)
    found = pinch.targets(rest_case(rest.followed.case, rest.left, rest.used, scale, Rounding.HARDER))
    assert (found.hot, found.cold) == (degrees * whole.hot, degrees * whole.cold)
    assert tuple(scale.back(pinch_temperature) for pinch_temperature in found.pinches) == whole.pinches


def test_a_printed_case_of_the_rest_is_one(pinch: Pinch) -> None:
    posed = written_case(remaining(example('aromatics.csv'), 'split H1 a 100/3 b\n', pinch))
    assert posed and read_case(print_case(posed)) == posed and completed(posed).source('a')
    assert all(isinstance(stream, Stream) for stream in posed.streams)
