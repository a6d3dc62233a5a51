"""The least number of exchangers: sets against trying all, numbers against the books, sums that add up."""
from __future__ import annotations

from functools import lru_cache
from pathlib import Path

import pytest
from conftest import CASES, NETWORKS, as_objects, example
from hypothesis import given
from hypothesis import strategies as st

from pinchdesk import Cut, Pinch, completed, follow, read_case, read_network
from pinchdesk.analysis.independent_sets import Member, is_joined, joinable_partition, partition
from pinchdesk.analysis.joined import exchanger_count
from pinchdesk.analysis.least_units import Units, least_units
from pinchdesk.cli.main import main
from pinchdesk.formats.whole_streams import whole_name
from pinchdesk.report.unit_sheets import units_sheets

# Sources less sets on all sides of the pinches, and the exchangers of the published network or of that by hand.
BOOKS = {'four-stream': ((5, 6), 6), 'tc3': ((5, 7), 7), 'two-reactors': ((5, 7), 7), 'own-contributions': ((5, 7), 7),
         'column': ((7, 7), 7), 'preheater': ((3, 3), 4), '10sp1': ((10, 10), 10), 'bn15': ((13, 24), 24)}


def counted(pinch: Pinch, case: bytes | str) -> Units:
    made = least_units(case, pinch)
    assert isinstance(made, Units)
    return made


@pytest.mark.parametrize('name', BOOKS)
def test_the_numbers_are_those_of_the_books(name: str, pinch: Pinch) -> None:
    units, (wanted, found) = counted(pinch, example(f'{name}.csv')), BOOKS[name]
    sides = sum(region.least for region in units.at_pinches)
    assert (units.whole.least, sides) == wanted and all(region.exact for region in (units.whole, *units.at_pinches))
    assert len(read_network(example(f'{name}-network.txt')).exchangers) == found >= units.whole.least


@pytest.mark.parametrize('name', CASES)
def test_each_set_is_a_sum_that_adds_up(name: str, pinch: Pinch) -> None:
    units = least_units(example(f'{name}.csv'), pinch)
    if isinstance(units, Cut):
        assert name == 'too-little-cooling'
        return
    for counted_one in (units.whole, *units.at_pinches, *units.at_all):
        assert all(sum(piece.signed for piece in one.pieces) == 0 for one in counted_one.sets)
        names = [piece.source.name for one in counted_one.sets for piece in one.pieces]
        assert sorted(names) == sorted({whole_name(units.case, piece.source.name)
                                        for piece in counted_one.region.pieces})
        assert counted_one.least == len(names) - counted_one.partition.most_sets
    for regions in (units.at_pinches, units.at_all):
        for stream in units.case.streams:
            parts = [piece for counted_region in regions for piece in counted_region.region.pieces
                     if piece.source is stream]
            assert sum(piece.heat for piece in parts) == stream.heat
        used = {utility.name: sum(piece.heat for region in regions for piece in region.region.pieces
                                  if piece.source.name == utility.name) for utility in units.case.utilities}
        assert used == {utility.name: units.flow.use(utility.name) for utility in units.case.utilities}


def test_a_pinch_that_heat_crosses_is_no_cut_and_utility_pinches_are(pinch: Pinch) -> None:
    levels = counted(pinch, example('three-levels.csv'))
    assert [(cross.temperature, cross.heat) for cross in levels.crossed] == [(1450, 7_000_000)]
    assert len(levels.at_pinches) == 1 and len(levels.at_all) == 2
    steam = counted(pinch, example('two-steam-levels.csv'))
    assert [[region.least for region in level] for level in steam.levels] == [[4, 3], [4, 4, 3]]


def test_the_text_has_the_sums_and_the_exchangers_of_a_network(pinch: Pinch) -> None:
    case, network = example('four-stream.csv'), example('four-stream-network.txt')
    sheets = units_sheets(counted(pinch, case), follow(completed(read_case(case)), read_network(network)))
    assert [as_objects(*row[1:]) for row in sheets[0].rows[:3]] == [(6, 1, 5, 6, 0), (5, 2, 3, 3, 0), (4, 1, 3, 3, 0)]
    assert [row[2] for row in sheets[1].rows[1:]] == [
        'hot: H2 240 = cold: C3 240', 'hot: H4 90 + HOT 20 = cold: C1 110',
        'hot: H2 90 + H4 90 = cold: C1 120 + COLD 60']


@pytest.mark.parametrize('name', NETWORKS)
def test_each_exchanger_of_a_network_is_on_a_side_or_across(name: str, pinch: Pinch) -> None:
    case, network = example(f'{name}.csv'), read_network(example(f'{name}-network.txt'))
    units = counted(pinch, case)
    rows = units_sheets(units, follow(units.case, network))[0].rows
    columns = len(rows[0])
    exchangers = exchanger_count(follow(units.case, network))
    assert as_objects(*rows[0][columns - 2:]) == (exchangers, 0)
    for level in units.levels:
        at = 1 if level is units.levels[0] else 2 + len(units.levels[0])
        inside, partly = (sum(int(str(row[column])) for row in rows[at:at + len(level)])
                          for column in (columns - 2, columns - 1))
        assert inside <= exchangers <= inside + partly


def test_a_forbidden_match_parts_a_set_that_balances(pinch: Pinch) -> None:
    """`A` and `C` balance, and may not exchange heat: two sets are the books' most, and with those that can be joined
    there is one."""
    case = ('contribution,,50,,,,\nhot,A,2000,1000,10,,\nhot,B,2000,1000,20,,\ncold,C,300,800,20,,\n'
            'cold,D,300,800,40,,\nforbid,A,C,,,,\n')
    units = counted(pinch, case)
    assert (units.whole.least, units.whole.least_joined) == (2, 3)
    assert [independent_set.parts for independent_set in units.whole.sets if not independent_set.joinable] == [
        (('A',), ('C',))]
    sheets = units_sheets(units)
    assert sheets[0].headings[4] == 'that can be joined' and as_objects(*sheets[0].rows[0][3:5]) == (2, 3)
    assert sheets[1].rows[0][3] == 'forbidden matches or temperatures part it: A | C' and 0 in sheets[1].marked
    free = counted(pinch, case.replace('forbid,A,C,,,,\n', ''))
    assert (free.whole.least, free.whole.least_joined) == (2, 2)


# Sets against trying all.

HEATS = st.lists(st.tuples(st.integers(1, 12), st.booleans()), min_size=1, max_size=4)


def tried(members: tuple[Member, ...], near: tuple[int, ...] | None = None) -> int:
    """The most sets, by trying every subset that has the lowest member left."""
    size = len(members)
    sums = [sum(member.heat for at, member in enumerate(members) if mask >> at & 1) for mask in range(1 << size)]
    streams = sum(1 << at for at, member in enumerate(members) if not member.utility)

    @lru_cache(maxsize=None)
    def most(left: int) -> int:
        if not left:
            return 0
        best, subset = -size, left
        while subset:
            good = is_joined(subset, near) if near else subset & streams
            if subset & left & -left and sums[subset] == 0 and good:
                best = max(best, 1 + most(left ^ subset))
            subset = (subset - 1) & left
        return best
    return most((1 << size) - 1)


@st.composite
def balanced(draw: st.DrawFn) -> tuple[Member, ...]:
    """Members that balance, at least one of which is a stream."""
    hot, cold = draw(HEATS), draw(HEATS)
    members = [Member(f'h{at}', heat, utility and at > 0) for at, (heat, utility) in enumerate(hot)]
    members += [Member(f'c{at}', -heat, utility) for at, (heat, utility) in enumerate(cold)]
    missing = -sum(member.heat for member in members)
    return (*members, *([Member('x', missing)] if missing else []))


@given(balanced())
def test_the_partition_has_as_many_sets_as_trying_all_finds(members: tuple[Member, ...]) -> None:
    made = partition(members)
    assert made.exact and len(made.sets) == tried(members)
    assert sorted(member.name for one in made.sets for member in one) == sorted(member.name for member in members)
    for one in made.sets:
        assert sum(member.heat for member in one) == 0 and not all(member.utility for member in one)


@given(balanced(), st.integers(0, 2 ** 16 - 1))
def test_sets_that_can_be_joined_are_as_many_as_trying_all_finds(members: tuple[Member, ...], bars: int) -> None:
    """Each pair of a hot and a cold member is allowed or not by a bit."""
    hots = [at for at, member in enumerate(members) if member.heat > 0]
    near = [0] * len(members)
    for at, hot in enumerate(hots):
        for cold in (index for index in range(len(members)) if index not in hots):
            if bars >> ((at * 5 + cold) % 16) & 1:
                near[hot] |= 1 << cold
                near[cold] |= 1 << hot
    made, most = joinable_partition(members, near), tried(members, tuple(near))
    assert (made is None) == (most < 1)
    assert made is None or len(made.sets) == most


def test_too_many_sources_have_bounds_and_no_guess() -> None:
    members = [Member(f's{at}', heat) for at, heat in enumerate((3 * index + 1) * (-1) ** index for index in range(44))]
    members.append(Member('x', -sum(member.heat for member in members)))
    made = partition(members)
    assert not made.exact and made.least_exchangers < made.found_exchangers
    assert made.members == 45 and made.most_sets <= 45 // 2
    with pytest.raises(ValueError):
        partition([Member('h', 5), Member('c', -4)])


def test_a_sum_that_is_a_little_off_is_no_set(pinch: Pinch) -> None:
    text = example('four-stream.csv').decode().replace('cold,C3,800,1400,400', 'cold,C3,800,1401,400')
    assert [len(region.sets) for region in counted(pinch, text).at_pinches] == [1, 1]


def test_a_network_that_is_rejected_is_counted_and_told(tmp_path: Path, capsys: pytest.CaptureFixture[str]) -> None:
    case, network = tmp_path / 'case.csv', tmp_path / 'n.txt'
    case.write_bytes(example('four-stream.csv'))
    network.write_bytes(example('four-stream-network.txt').replace(b'C1 20000', b'C1 19000'))
    assert main(['units', str(case), str(network)]) == 1
    said = capsys.readouterr()
    assert 'above 85 °C                     5     2           3               3       0' in said.out
    assert 'n.txt: rejected at line 18 (C1): the target is missed: 134.5 °C instead of 135 °C' in said.err
    case.write_bytes(example('too-little-cooling.csv'))
    assert main(['units', str(case)]) == 1
    assert capsys.readouterr().out.startswith('No heat flow: these parts have to give 5 kW')
