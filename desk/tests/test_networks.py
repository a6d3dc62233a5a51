"""Networks of few exchangers: windows, plans, what is joined, what is written; each accepted with what it says."""
from __future__ import annotations

import csv
import io
from dataclasses import replace
from fractions import Fraction
from pathlib import Path

import pytest
from conftest import EXAMPLES, example, few_of, of_all, pinchdesk

from pinchdesk import Accepted, Cut, Pinch, completed, find_network, read_case, read_network, tradeoff
from pinchdesk.formats.case import Basis
from pinchdesk.formats.shown import Shown
from pinchdesk.search.accepted import NotAccepted
from pinchdesk.search.budget import SearchWay, rounded_up
from pinchdesk.search.find import NoNetwork
from pinchdesk.search.solver.linear import solve
from pinchdesk.search.staged import windows
from pinchdesk.search.staged.merge import joined
from pinchdesk.search.staged.plan import Match, StagedPlan
from pinchdesk.search.staged.window_bound import window_bound_program
from pinchdesk.search.staged.write import written

# Each process of a search loads the solver for itself.
ALONE = SearchWay(workers=1)
FEW = {'four-stream': 6, 'tc3': 7, 'two-reactors': 7, 'own-contributions': 7, 'column': 7, 'preheater': 3,
       'two-steam-levels': 10, 'two-reactors-steam': 10, 'three-levels': 11}


@pytest.fixture
def soon_done(searched_here: None, monkeypatch: pytest.MonkeyPatch) -> None:
    """Searches end soon where nothing is gained any more: so few exchangers have to be found all the same."""
    del searched_here
    monkeypatch.setattr('pinchdesk.search.all_starts.IDLE', 6)
    monkeypatch.setattr('pinchdesk.search.reduce.simplify.TRIES', 2)


@pytest.mark.usefixtures('soon_done')
@pytest.mark.parametrize('name', few_of(FEW, ('four-stream', 'preheater')))
def test_as_few_as_published_at_the_least_cost(pinch: Pinch, name: str) -> None:
    found = find_network(example(f'{name}.csv'), pinch=pinch, seconds=300, way=ALONE)
    assert found.bound == found.proved <= found.exchangers <= FEW[name]
    verdict = pinch.audit(example(f'{name}.csv'), found.text)
    assert isinstance(verdict, Accepted) and verdict.cost == verdict.floor == found.verdict.cost
    assert found.text.startswith(f'# {found.exchangers} exchangers\n# bound: at least ')
    cost, excess, unit = Shown().cost(verdict.cost), Shown().heat(verdict.excess), 'price times W'
    assert f'\n# cost {cost} {unit}\n# floor {verdict.floor} {unit}\n# excess {excess} kW\n' in found.text


def test_windows_end_where_no_heat_crosses(pinch: Pinch) -> None:
    case = completed(read_case(example('two-steam-levels.csv')))
    flow = pinch.flow(case)
    assert not isinstance(flow, Cut)
    made = windows.windows(case, {use.name: use.heat for use in flow.uses})
    assert len(made) == 3
    for window in made:
        assert sum(piece.most for piece in window.hots) == sum(piece.most for piece in window.colds)
    heats = {stream.name: stream.heat for stream in case.streams} | {use.name: use.heat for use in flow.uses}
    for name, heat in heats.items():
        assert sum(piece.most for window in made for piece in window.pieces if piece.name == name) == heat


# What is known to be enough at the least cost.
KNOWN = {'four-stream': 5, 'tc3': 7, 'two-reactors': 7, 'own-contributions': 7, 'column': 7, 'preheater': 3,
         'two-steam-levels': 10, 'three-levels': 11, '10sp1': 10, 'aromatics': 14}


@pytest.mark.parametrize('name', few_of(KNOWN, ('four-stream', 'tc3', 'column', 'three-levels')))
def test_no_bound_is_above_what_is_known(pinch: Pinch, name: str) -> None:
    case = completed(read_case(example(f'{name}.csv')))
    flow = pinch.flow(case)
    assert not isinstance(flow, Cut)
    parts = windows.windows(case, {use.name: use.heat for use in flow.uses})
    solved = solve(window_bound_program(parts))
    assert solved is not None and max(map(len, ([], *(part.hots for part in parts)))) <= rounded_up(solved.bound)
    assert rounded_up(solved.bound) <= KNOWN[name]


def test_what_works_through_a_cut_may_pass_the_target_of_its_stream(pinch: Pinch) -> None:
    # At four-stream a branch of C1 is warmer than C1 has to be, and is mixed back: so five exchangers do, and no bound
    # is six.
    case = completed(read_case(example('four-stream.csv')))
    flow = pinch.flow(case)
    assert not isinstance(flow, Cut)
    solved = solve(window_bound_program(windows.windows(case, {use.name: use.heat for use in flow.uses})))
    assert solved is not None and rounded_up(solved.bound) == 5


@pytest.mark.long
@pytest.mark.usefixtures('searched_here')
def test_more_cost_buys_fewer_exchangers(pinch: Pinch) -> None:
    case = example('tc3.csv')
    found = find_network(case, most_cost=115000, seconds=300, pinch=pinch)
    assert found.exchangers == 6 and found.verdict.cost <= 115000
    assert find_network(case, above=Fraction(100), seconds=300, pinch=pinch).exchangers == 5


def test_no_network(pinch: Pinch) -> None:
    with pytest.raises(NoNetwork, match='no heat flow'):
        find_network(example('too-little-cooling.csv'), pinch=pinch)
    with pytest.raises(NoNetwork, match='less than 107500 price times W'):
        find_network(example('tc3.csv'), most_cost=107499, pinch=pinch)
    with pytest.raises(NoNetwork, match='rejected'):
        find_network(example('tc3.csv'), start='end S1\n', pinch=pinch)


def test_equal_pairs_that_follow_each_other_are_one() -> None:
    case = completed(read_case('contribution,,50,,,,\nhot,H,1000,500,10,,\ncold,C,300,500,25,,\n'))
    matches = {0: Match('H', 'C', Fraction(2000)), 1: Match('H', 'C', Fraction(3000))}
    size = {'H': Fraction(10), 'C': Fraction(25)}
    plan = StagedPlan(matches, {'H': ({0: size['H']}, {1: size['H']}), 'C': ({1: size['C']}, {0: size['C']})})
    assert [match.duty for match in joined(case, plan).matches.values()] == [5000]
    other = StagedPlan(matches, {'H': ({0: size['H']}, {1: size['H']}), 'C': ({0: size['C']}, {1: size['C']})})
    assert len(joined(case, other).matches) == 2


def test_a_branch_goes_through_where_the_others_are_mixed(pinch: Pinch) -> None:
    case = completed(read_case('contribution,,50,,,,\nhot,H,1000,500,10,,\nhot,K,1000,500,10,,\ncold,C,300,700,20,,\n'))
    half, whole = Fraction(10), Fraction(10)
    matches = {0: Match('H', 'C', Fraction(4000)), 1: Match('K', 'C', Fraction(2000)),
               2: Match('K', 'C', Fraction(2000)), 3: Match('H', 'COLD', Fraction(1000)),
               4: Match('K', 'COLD', Fraction(1000))}
    plan = StagedPlan(matches, {'H': ({0: whole}, {3: whole}), 'K': ({1: whole}, {2: whole}, {4: whole}),
                                'C': ({0: half, 2: half}, {0: half, 1: half})})
    network = written(case, plan)
    assert isinstance(pinch.audit(case, network), Accepted)
    assert len(joined(case, plan).matches) == 4


def test_the_word(tmp_path: Path) -> None:
    out = tmp_path / 'few.txt'
    done = pinchdesk('network', str(EXAMPLES / 'preheater.csv'), '--start', str(EXAMPLES / 'preheater-network.txt'),
                     '-o', str(out))
    assert done.status == 0 and not done.out
    assert len(read_network(out.read_bytes()).exchangers) == 3
    assert pinchdesk('network', str(EXAMPLES / 'too-little-cooling.csv')).status == 1
    assert pinchdesk('network', str(EXAMPLES / 'tc3.csv'), '--cost', '1').status == 2
    assert pinchdesk('network', str(EXAMPLES / 'tc3.csv'), '--seconds', '0').status == 2


HEAT = 'Stream;Kind;Supply (°C);Target (°C);CP (kW/K);Price (EUR/MWh)\nH1;;150;60;2;\nC1;;20;125;2,5;\n'
# A table, what its heats are taken times, its cost, and that cost's unit.
PRICED = [(HEAT + 'LP;heater;180;;;30,05\n', '10', '2.479', 'EUR/h'), (HEAT, '10', '82500', 'price times W'),
          (HEAT.replace('EUR/MWh', 'EUR/(kW a)') + 'LP;heater;180;;;20\n', '0.1', '1650', 'EUR/a')]
UNITS = [pytest.param(*row, id=unit, marks=pytest.mark.long)
         for row, unit in zip(PRICED, ('per MWh', 'no price', 'per kW and year'))]


@pytest.mark.usefixtures('searched_here')
@pytest.mark.parametrize('table, scale, cost, unit', UNITS)
def test_a_network_is_told_in_the_units_of_its_case(table: str, scale: str, cost: str, unit: str,
                                                    tmp_path: Path) -> None:
    plant, case, out = tmp_path / 'plant.csv', tmp_path / 'case.csv', tmp_path / 'case-network.txt'
    plant.write_text(table)
    assert pinchdesk('case', '-d', '10', '--scale', scale, str(plant), '-o', str(case)).status == 0
    assert pinchdesk('network', str(case), '--seconds', '1', '-o', str(out)).status == 0
    head = f'\n# cost {cost} {unit}\n# floor {cost} {unit}\n# excess 0 kW\n'
    times = f'# duties and sizes are {Fraction(scale)} times the plant\'s, as in the case\n'
    assert head + times in out.read_text()
    folder = tmp_path / 'ways'
    done = pinchdesk('tradeoff', str(case), str(out), '--seconds', '0.1', '--form', 'csv', '--networks', str(folder))
    assert done.out.startswith(f'exchangers,cost {unit},above the floor {unit},excess kW')
    text = next(folder.iterdir()).read_text()
    assert f'\n# cost {cost} {unit}, floor {cost} {unit}, excess 0 kW\n{times}' in text
    (tmp_path / 'list').write_text(f'case\n{case}\n{EXAMPLES}/tc3.csv\n')
    how = ('--steps', '5')
    done = pinchdesk('many', 'network', str(tmp_path / 'list'), *how, '--form', 'csv')
    first, other = csv.DictReader(io.StringIO(done.out))
    assert (first[f'cost {unit}'], first[f'floor {unit}'], first['excess kW'], first['exchangers']) == (
        cost, cost, '0', '2')
    assert other['cost price times W'] == '107500' and other['said'].startswith('bound: at least ')


@pytest.mark.long
@pytest.mark.usefixtures('searched_here')
@pytest.mark.parametrize('table, scale, cost, unit', UNITS)
def test_what_a_network_may_cost_is_asked_in_the_unit_that_is_told(table: str, scale: str, cost: str, unit: str,
                                                                   tmp_path: Path) -> None:
    plant, case = tmp_path / 'plant.csv', tmp_path / 'case.csv'
    plant.write_text(table)
    assert pinchdesk('case', '-d', '10', '--scale', scale, str(plant), '-o', str(case)).status == 0
    more, less = (f'{float(cost) * part:g}' for part in (1.01, 0.99))
    for asked in of_all((f'{more} {unit}',), (more, f'{more} {unit}', more.replace('.', ','))):
        assert pinchdesk('network', str(case), '--seconds', '1', '--cost', asked).status == 0
    refused = pinchdesk('network', str(case), '--seconds', '1', '--cost', less)
    assert refused.status == 2 and f' {unit}, the least cost of a heat flow' in refused.err
    for asked, told in ((f'{more} USD/d', f'the costs of the case are in {unit}, and `USD/d` is another unit'),
                        ('dear', f'dear is not a cost: it needs a number, in {unit}'),
                        ('32.000', 'the cost 32.000 may be 32 or 32000')):
        refused = pinchdesk('network', str(case), '--cost', asked)
        assert (refused.status, refused.err) == (2, f'pinchdesk: {told}\n')


def test_a_cost_below_the_least_one_is_refused_with_all_its_digits(pinch: Pinch) -> None:
    case = read_case(example('tc3.csv'))
    small = replace(case, basis=Basis(cost_unit='EUR/h', cost_divisor=Fraction(10 ** 9)))
    with pytest.raises(NoNetwork, match='less than 0.000108 EUR/h'):
        find_network(small, most_cost=107_000, pinch=pinch)


def test_a_network_to_begin_with_is_refused_in_the_units_of_its_case(pinch: Pinch) -> None:
    case = b'#scale,10,,,,,\n' + example('tc3.csv')
    network = example('tc3-network.txt').replace(b'E4 S1 S3 20000', b'E4 S1 S3 20500')
    said = r'is rejected at .*: .* °C instead of .* °C \(MissedTarget\)'
    with pytest.raises(NoNetwork, match=said):
        find_network(case, start=network, pinch=pinch)
    with pytest.raises(NotAccepted, match=said):
        tradeoff(case, network, pinch)
