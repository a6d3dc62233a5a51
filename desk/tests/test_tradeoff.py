"""Networks with fewer exchangers: structures, what a structure costs, networks made simpler, and the trade-off, each
judged by the audit."""
from __future__ import annotations

import os
from collections.abc import Iterator
from dataclasses import replace
from fractions import Fraction
from pathlib import Path

import pytest
from branched import THREE, THREE_NETWORK
from captured import Captured
from conftest import EXAMPLES, NETWORKS, example, few_of, few_rows, search_here
from hypothesis import given
from hypothesis import strategies as st
from looking import cut_off, overlapping, svg_texts

from pinchdesk import (Accepted, Case, Network, Pinch, Refused, completed, print_network, read_case, read_network,
                       tradeoff)
from pinchdesk.figures import tradeoff_figure
from pinchdesk.formats.network import Exchanger
from pinchdesk.search.accepted import Judge, Judged, NotAccepted
from pinchdesk.search.find import NoNetwork
from pinchdesk.search.reduce.least_cost import cheapest, cheapest_of
from pinchdesk.search.reduce.moves import later, structures, unsplit, with_ends
from pinchdesk.search.reduce.network_structure import Costed, duties_of, network_of, structure_of
from pinchdesk.search.reduce.paths import Shift, shifts
from pinchdesk.search.reduce.shares import reshared
from pinchdesk.search.reduce.simplify import simpler
from pinchdesk.search.reduce.structure import Parting, levelled, splits
from pinchdesk.search.reduce.tradeoff import TradeOff
from pinchdesk.search.solver.quiet_output import silent

TC3 = [str(EXAMPLES / 'tc3.csv'), str(EXAMPLES / 'tc3-network.txt')]


def those(name: str) -> tuple[Case, Network]:
    return completed(read_case(example(f'{name}.csv'))), read_network(example(f'{name}-network.txt'))


@pytest.fixture(scope='module')
def traded(pinch: Pinch) -> TradeOff:
    with pytest.MonkeyPatch.context() as patch:
        search_here(patch)
        return tradeoff(*those('tc3'), pinch, seconds=30)


@pytest.fixture
def desk(capfd: pytest.CaptureFixture[str]) -> Captured:
    return Captured(capfd)


def cost_of(pinch: Pinch, case: Case, network: Network) -> Fraction:
    verdict = pinch.audit(case, network)
    assert isinstance(verdict, Accepted), verdict.text
    return verdict.cost


# Structures.

@pytest.mark.parametrize('name', NETWORKS)
def test_a_structure_with_its_duties_is_the_network(name: str, pinch: Pinch) -> None:
    case, network = those(name)
    for original in (network, read_network(pinch.design(case).text)):
        structure = structure_of(case, original)
        made = network_of(case, structure, duties_of(original))
        assert cost_of(pinch, case, made) == cost_of(pinch, case, original)
        assert structure_of(case, read_network(print_network(made))) == structure


def test_splits_of_splits_are_lanes_of_one_parting(pinch: Pinch) -> None:
    case = completed(read_case(THREE))
    course, = structure_of(case, read_network(THREE_NETWORK)).courses['H']
    assert isinstance(course, Parting)
    assert [lane.share for lane in course.lanes] == [Fraction(1, 2), Fraction(3, 10), Fraction(1, 5)]


def test_branches_that_are_joined_across_one_another_are_refused(pinch: Pinch) -> None:
    # A part of the first branch is joined to the second one behind its first exchanger.
    case = completed(read_case(b'contribution,,0,,,,\nhot,H,2000,1000,100,,\ncold,A,0,500,200,,\n'))
    network = read_network('exchanger E1 H A 20000\nexchanger E2 H A 20000\nexchanger E3 H A 30000\n'
                           'exchanger E4 H A 30000\nsplit H a 50 b\npass a E1 c\npass b E2 d\nsplit c e 25 f\n'
                           'mix f d g\npass e E3 i\npass g E4 j\nmix i j k\nend k\n'
                           'pass A E1 m\npass m E2 n\npass n E3 o\npass o E4 p\nend p\n')
    assert isinstance(pinch.audit(case, network), Accepted)
    assert simpler(case, network, pinch) is network
    with pytest.raises(Refused, match='network stream H: its branches are joined across'):
        tradeoff(case, network, pinch)


# The least cost of a structure.

@pytest.mark.parametrize('name', few_of(NETWORKS))
def test_the_least_cost_of_a_structure_is_that_of_the_audit(name: str, pinch: Pinch) -> None:
    case, network = those(name)
    judge = Judge(pinch, case)
    begun = judge.given(network)
    for structure in (begun.structure, levelled(begun.structure), with_ends(case, levelled(begun.structure))):
        costed = cheapest(case, structure)
        # An end that is not used has an approach too, so that more of them may cost more.
        assert costed is None or judge.of(costed) is not None
    least = cheapest(case, begun.structure)
    assert least is not None and begun.verdict.floor <= least.cost <= begun.cost


def test_an_exchanger_less_costs_what_the_books_say(pinch: Pinch) -> None:
    case, network = those('tc3')
    structure = with_ends(case, structure_of(case, network))
    found = [cheapest_of(case, structure, most, 10) for most in (7, 6, 5)]
    assert [costed.cost for costed in found if costed] == [107500, 111500, 172500]


def test_shares_that_need_not_mix_at_one_temperature(pinch: Pinch) -> None:
    case, network = those('aromatics')
    begun = cheapest(case, levelled(structure_of(case, network)))
    assert begun is not None and begun.cost == 25280000
    made = reshared(case, begun, float('inf'))
    assert made.cost == 25120000
    assert Judge(pinch, case).of(made) is not None


def test_latent_streams_in_lanes_keep_their_parts(pinch: Pinch) -> None:
    case = completed(read_case(b'contribution,,0,,,,\nhot,V,1000,1000,0,9000,\ncold,A,300,600,10,,\n'
                               b'cold,B,300,600,20,,\n'))
    network = read_network('exchanger E1 V A 3000\nexchanger E2 V B 6000\nsplit V a 3000 b\npass a E1 c\npass b E2 d\n'
                           'mix c d e\nend e\npass A E1 f\nend f\npass B E2 g\nend g\n')
    made = simpler(case, network, pinch)
    assert splits(structure_of(case, made)) == 0 and cost_of(pinch, case, made) == 0


def test_what_the_solver_writes_goes_nowhere(capfd: pytest.CaptureFixture[str]) -> None:
    with silent():
        os.write(1, b'a remark')
    os.write(1, b'an answer')
    assert capfd.readouterr().out == 'an answer'


# Simpler networks.

@pytest.mark.parametrize('name, most', few_rows([('preheater', 3), ('column', 7), ('two-reactors-steam', 10),
                                                 ('tc3', 7), ('three-levels', 10)], ('preheater', 'tc3')))
def test_a_network_made_simpler_costs_no_more(name: str, most: int, pinch: Pinch) -> None:
    case, network = those(name)
    made = simpler(case, network, pinch)
    assert len(made.exchangers) <= most
    assert cost_of(pinch, case, made) <= cost_of(pinch, case, network)
    assert splits(structure_of(case, made)) <= splits(structure_of(case, network))


def test_a_network_that_is_not_accepted_is_not_changed(pinch: Pinch) -> None:
    case, network = those('tc3')
    first, *others = network.statements
    assert isinstance(first, Exchanger)
    short = Network((replace(first, duty=Fraction(1)), *others))
    assert simpler(case, short, pinch) is short
    with pytest.raises(NotAccepted, match='rejected at line'):
        tradeoff(case, short, pinch)


def test_a_split_is_taken_out_in_both_orders(pinch: Pinch) -> None:
    case, network = those('two-reactors-steam')
    structure = structure_of(case, network)
    made = list(structures(structure, unsplit))
    assert len(made) == 8 and {splits(simpler_structure) for simpler_structure in made} == {1}
    assert list(later(case, structure)) == []


# Loops and paths.

PAIRS = {f'E{hot}{cold}': (hot, cold) for hot in 'SABC' for cold in 'wxyz' if hot + cold != 'Sw'}


@given(st.lists(st.tuples(st.permutations('ABC'), st.permutations('xyz'), st.integers(1, 3), st.booleans(),
                          st.integers(-9, 9)), max_size=5))
def test_shifts_are_all_that_changed_and_move_nothing_to_and_fro(
        ways: list[tuple[list[str], list[str], int, bool, int]]) -> None:
    change = {name: Fraction(0) for name in PAIRS}
    for hots, colds, length, path, heat in ways:
        # A way from S over cold and hot streams to w; without S and w it is closed to a loop.
        nodes = [node for pair in zip(colds, hots) for node in pair][:2 * length]
        chain = ['S', *nodes, 'w'] if path else [*nodes, nodes[0]]
        for at, (one, other) in enumerate(zip(chain, chain[1:])):
            change['E' + (one + other if one in 'SABC' else other + one)] += heat if at % 2 == 0 else -heat
    found = shifts(PAIRS, {}, change, frozenset('Sw'))
    told = {name: Fraction(0) for name in PAIRS}
    for shift in found:
        check_way(shift)
        for leg in shift.legs:
            assert leg.gains is (change[leg.exchanger] > 0)
            told[leg.exchanger] += shift.heat if leg.gains else -shift.heat
    assert told == change


def check_way(shift: Shift) -> None:
    """The legs follow one another, gain and lose by turns, and end at utilities or where they began."""
    sources = [shift.source, *(leg.source for leg in shift.legs)]
    for leg, ends in zip(shift.legs, zip(sources, sources[1:])):
        assert set(PAIRS[leg.exchanger]) == set(ends)
    assert all(one.gains is not other.gains for one, other in zip(shift.legs, shift.legs[1:]))
    assert sources[0] == sources[-1] if shift.loop else set(sources) & set('Sw') == {sources[0], sources[-1]}


# The trade-off.

def test_tc3_is_as_good_as_by_hand_or_better(traded: TradeOff, pinch: Pinch) -> None:
    costs = {row.exchangers: row.cost for row in traded.rows}
    assert costs[7] == traded.floor == 107500
    assert costs[6] <= 111500 and costs[5] <= 172500
    assert list(costs) == sorted(costs, reverse=True) and list(costs.values()) == sorted(costs.values())
    for row in traded.rows:
        assert len(row.network.exchangers) == row.exchangers
        assert cost_of(pinch, traded.case, row.network) == row.cost


def test_the_first_exchanger_that_goes_is_paid_by_steam_and_cooling(traded: TradeOff) -> None:
    row = traded.rows[1]
    assert [exchanger.name for exchanger in row.gone] == ['E4'] and row.come == ()
    assert [f'{shift.heat} {shift.told}' for shift in row.shifts] == [
        '4000 HOT (+H3) S3 (-E4) S1 (+C1) COLD', '16000 S3 (-E4) S1 (+E1) S3']


def test_what_changed_is_what_was_moved(traded: TradeOff) -> None:
    before: dict[str, Fraction] = {}
    for row in traded.rows:
        duties = {exchanger.name: exchanger.duty for exchanger in row.network.exchangers}
        if before:
            names = {*before, *duties}
            moved = {name: Fraction(0) for name in names}
            for shift in row.shifts:
                for leg in shift.legs:
                    moved[leg.exchanger] += shift.heat if leg.gains else -shift.heat
            assert moved == {name: duties.get(name, 0) - before.get(name, 0) for name in names}
        before = duties


def test_control_c_gives_the_rows_so_far(pinch: Pinch) -> None:
    told: list[Judged] = []

    def tell(judged: Judged) -> None:
        told.append(judged)
        raise KeyboardInterrupt
    made = tradeoff(*those('tc3'), pinch, tell=tell)
    assert made.stopped and [row.exchangers for row in made.rows] == [7, 6] and len(told) == 1


@pytest.mark.long
def test_other_pairs_and_places_are_tried(pinch: Pinch) -> None:
    # With S1 on S4, which needs no split, five cost less than what is left of the network by hand.
    made = tradeoff(*those('tc3'), pinch, seconds=8)
    costs = {row.exchangers: row.cost for row in made.rows}
    assert costs[6] <= 111500 and costs[5] <= 172500 and costs[4] <= 307500
    for row in made.rows:
        assert cost_of(pinch, made.case, row.network) == row.cost


@pytest.mark.long
def test_without_a_network_one_is_searched(pinch: Pinch) -> None:
    made = tradeoff(those('preheater')[0], None, pinch, seconds=30)
    assert {row.exchangers: int(row.cost) for row in made.rows} == {3: 2000, 2: 4000}
    little = read_case(example('too-little-cooling.csv'))
    with pytest.raises(NoNetwork, match='no heat flow'):
        tradeoff(little, None, pinch)


def test_a_picture_has_each_network(traded: TradeOff) -> None:
    figure = tradeoff_figure(traded)
    texts = ' '.join(svg_texts(figure))
    for row in traded.rows:
        assert f'{row.exchangers}: {row.cost}' in texts
    assert 'floor, no network costs less: 107500' in texts and 'without E4 S1-S3' in texts
    assert overlapping(figure) == [] and cut_off(figure) == []


def test_a_picture_of_one_network_has_whole_numbers_of_exchangers(traded: TradeOff) -> None:
    axes = tradeoff_figure(replace(traded, rows=traded.rows[:1])).axes[0]
    low, high = axes.get_xlim()
    assert [tick for tick in axes.get_xticks() if low <= tick <= high] == [6, 7, 8]


@pytest.mark.long
@pytest.mark.usefixtures('searched_here')
def test_a_picture_of_long_costs_and_many_networks_has_room(pinch: Pinch) -> None:
    made = tradeoff(*those('three-levels'), pinch, seconds=10)
    assert made.left_begun
    for rows in (made.rows, made.rows + made.rows[-1:] * 4):
        figure = tradeoff_figure(replace(made, rows=rows))
        assert cut_off(figure) == []
    assert 'the network at the beginning: 11, 105500000 price times W' in svg_texts(figure)


@pytest.mark.usefixtures('searched_here')
def test_the_word_gives_a_table_and_the_networks(desk: Captured, tmp_path: Path, pinch: Pinch) -> None:
    folder = tmp_path / 'networks'
    done = desk('tradeoff', *TC3, '--seconds', '30', '--form', 'csv', '--networks', str(folder))
    assert done.status == 0
    assert done.out.startswith('exchangers,cost price times W,above the floor price times W,excess kW,splits,')
    rows = [line.split(',') for line in done.out.split('\r\n')[1:]]
    assert [row[:4] for row in rows[:3]] == [['floor', '107500', '0', ''], ['7', '107500', '0', '0'],
                                             ['6', '111500', '4000', '4']]
    assert '6,4,path,HOT (+H3) S3 (-E4) S1 (+C1) COLD' in done.out
    files = {path.name: path.read_bytes() for path in folder.iterdir()}
    assert {'tc3-7.txt', 'tc3-6.txt', 'tc3-5.txt'} <= set(files)
    assert files['tc3-6.txt'].startswith(b'# 6 exchangers, 1 splits\n# cost 111500 price times W, floor 107500 price')
    verdict = pinch.audit(example('tc3.csv'), files['tc3-6.txt'])
    assert isinstance(verdict, Accepted) and verdict.cost == 111500


def errors(tmp_path: Path) -> Iterator[tuple[list[str], int, str]]:
    bad = tmp_path / 'bad.txt'
    bad.write_bytes(example('tc3-network.txt').replace(b'E1 S1 S3 120000', b'E1 S1 S3 120001'))
    yield [TC3[0], str(bad)], 1, 'the network is rejected at line '
    yield [str(EXAMPLES / 'too-little-cooling.csv')], 1, 'no heat flow'
    yield [*TC3, '--seconds', '0'], 2, '--seconds 0: it has to be a number of seconds'
    yield [*TC3, '--networks', str(bad)], 2, 'bad.txt: cannot be made a folder'
    yield [*TC3, '--networks', str(tmp_path / 'no' / 'such')], 2, 'cannot be made a folder'
    yield [TC3[0], str(tmp_path / 'nowhere.txt')], 3, 'nowhere.txt: cannot be read'
    yield [TC3[0], TC3[0]], 3, 'tc3.csv: network line 1 UnknownWord'
    yield [TC3[1], TC3[1]], 3, 'tc3-network.txt: case row 1 FieldCount'


def test_an_error_of_the_word_names_its_cause(desk: Captured, tmp_path: Path) -> None:
    for words, status, said in errors(tmp_path):
        done = desk('tradeoff', *words)
        assert (done.status, done.out) == (status, '') and said in done.err, words


def test_a_costed_structure_that_is_none_is_not_judged(pinch: Pinch) -> None:
    case, network = those('tc3')
    judge = Judge(pinch, case)
    begun = judge.given(network)
    assert judge.of(None) is None
    assert judge.of(Costed(begun.structure, begun.duties, Fraction(1))) is None
    fine = {**begun.duties, 'E1': Fraction(1, 2 ** 60)}
    assert judge.of(Costed(begun.structure, fine, begun.cost)) is None
