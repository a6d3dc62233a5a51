"""Networks at plant size: windows ticked off, with the cascade of what is left as the test, and combined."""
from __future__ import annotations

import time
from collections.abc import Iterator
from fractions import Fraction
from random import Random

import pytest
from conftest import example, few_of, of_all

from pinchdesk import Cut, Pinch, completed, read_case, read_network
from pinchdesk.formats.case import Case, Side
from pinchdesk.search.accepted import Judge, Judged
from pinchdesk.search.reduce.float_duties import FloatDuties, is_dearer, least_point
from pinchdesk.search.reduce.least_cost import cheapest
from pinchdesk.search.reduce.moves import later, structures, unsplit
from pinchdesk.search.reduce.network_structure import structure_of
from pinchdesk.search.reduce.structure import Course, Parting, Structure, Through
from pinchdesk.search.reduce.widen import pairs_of
from pinchdesk.search.staged.windows import Window, WindowPiece, whole, windows
from pinchdesk.search.ticking.completing import completion
from pinchdesk.search.ticking.window_courses import (BESIDE, CORNER_TOP, STRETCH, TOP, WHOLE, Chain, ChainEnd, Tick,
                                                     window_network)
from pinchdesk.search.ticking.crew import JobCrew
from pinchdesk.search.ticking.descent import LEAST_PART, Descent
from pinchdesk.search.ticking.growing import Growing, grown
from pinchdesk.search.ticking.heat_left import HeatLeft
from pinchdesk.search.ticking.jobs import ChainJob, DropJob, StartJob, WholeEnd, end_of
from pinchdesk.search.ticking.joining import joined_windows
from pinchdesk.search.ticking.plant_search import JobRow, Pace, PlantSearch
from pinchdesk.search.ticking.ruin import run_chain
from pinchdesk.search.ticking.thinning import Aim, Mixing, thinned

# What is found in a few jobs; the least costs all.
FEW = {'four-stream': 5, 'tc3': 7, 'two-reactors': 7, 'own-contributions': 7, 'column': 7, 'preheater': 3,
       'two-steam-levels': 11, 'three-levels': 11, '10sp1': 10}
QUICK = Pace(steps=60, tries=20)


def uses_of(pinch: Pinch, case: Case) -> dict[str, int]:
    flow = pinch.flow(case)
    assert not isinstance(flow, Cut)
    return {use.name: use.heat for use in flow.uses}


def windows_of(pinch: Pinch, name: str) -> tuple[Case, tuple[Window, ...]]:
    case = completed(read_case(example(f'{name}.csv')))
    return case, windows(case, uses_of(pinch, case))


def search_of(pinch: Pinch, name: str, found: list[Judged], seed: int, forbid: str = '') -> PlantSearch:
    case = completed(read_case(example(f'{name}.csv') + forbid.encode()))
    flow = pinch.flow(case)
    assert not isinstance(flow, Cut)
    uses = {use.name: use.heat for use in flow.uses}
    return PlantSearch(Judge(pinch, case), uses, Fraction(flow.cost), found.append, seed=seed, pace=QUICK)


def searched(pinch: Pinch, name: str, jobs: int, seed: int = 1, forbid: str = '') -> list[Judged]:
    """What a search of a case accepts in so many jobs."""
    found: list[Judged] = []
    row = JobRow(search_of(pinch, name, found, seed, forbid))
    for number in range(jobs):
        job = row.job(number)
        assert job is not None
        row.end(number, job.run())
    return found


@pytest.mark.parametrize('name', few_of(FEW, ('four-stream', 'preheater')))
def test_few_exchangers_in_a_few_jobs(pinch: Pinch, name: str) -> None:
    found = searched(pinch, name, 40)
    assert found and found[-1].count <= FEW[name]
    for judged in found:
        assert judged.cost == judged.verdict.floor


@pytest.mark.parametrize('name', few_of(('tc3', 'two-steam-levels', 'two-reactors', '10sp1'), ('tc3',)))
def test_the_cascade_is_kept_and_nowhere_below_nothing(pinch: Pinch, name: str) -> None:
    case, parts = windows_of(pinch, name)
    for window in (*parts, whole(case, uses_of(pinch, case))):
        ended = 0
        for seed in range(3):
            left = HeatLeft(window)
            descent = Descent(left, Random(seed))
            while (left.hots or left.colds) and descent.step():
                again = left.copy()
                again.renew_cascade()
                for place, heat in zip(again.places, again.heats):
                    assert heat >= -left.scale * 1e-6
                    assert abs(heat - left.heat_at(place)) <= left.scale * 1e-6
                for fits in descent.table.values():
                    assert all(left.fits(fit.warm, fit.cool) for fit in fits)
            ended += not left.hots and not left.colds
        # Some descents come to where nothing fits any more, and are begun anew.
        assert ended


def test_a_descent_that_takes_parts_leaves_nothing_over(pinch: Pinch) -> None:
    _, (window, *_) = windows_of(pinch, '10sp1')
    for seed in range(6):
        left = HeatLeft(window)
        descent = Descent(left, Random(seed))
        while (left.hots or left.colds) and descent.step():
            pass
        assert not left.hots and not left.colds


def test_without_splits_exchangers_stand_one_behind_the_other(pinch: Pinch) -> None:
    _, (window, *_) = windows_of(pinch, 'tc3')
    end = run_chain(window, 1, 20, Chain(), None, may_split=False)
    assert end.networks
    for network in end.networks:
        assert all(isinstance(step, Through) for course in network.courses.values() for step in course)


def test_what_is_grown_has_no_more_exchangers(pinch: Pinch) -> None:
    case, parts = windows_of(pinch, '10sp1')
    flow = pinch.flow(case)
    assert not isinstance(flow, Cut)
    structure = joined_windows(case, [run_chain(window, 1, 20, Chain(), None).networks[-1] for window in parts])
    growing = Growing(case, pairs_of(case), Fraction(flow.cost))
    first, *later = grown(growing, structure, 1, 10, Aim())
    assert all(thin.count <= first.count and thin.count == len(thin.structure.pairs) for thin in later)
    exact = cheapest(case, later[-1].structure if later else first.structure)
    assert exact is not None and exact.cost == flow.cost


def test_a_large_case_has_a_network_after_its_first_job(pinch: Pinch) -> None:
    case, parts = windows_of(pinch, 'bn15')
    flow = pinch.flow(case)
    assert not isinstance(flow, Cut)
    end = StartJob(Mixing(case, (), Fraction(flow.cost), False), parts, 1, 5, Aim()).run()
    assert end.found and Judge(pinch, case).of(end.exact[0]) is not None


def test_a_chain_goes_on_from_where_it_was(pinch: Pinch) -> None:
    case, (window, *_) = windows_of(pinch, '10sp1')
    end = run_chain(window, 1, 20, Chain(), None)
    assert end == run_chain(window, 1, 20, Chain(), None)
    least = min(network.count for network in end.networks)
    later = run_chain(window, 2, 40, end.chain, least)
    assert later.chain.count <= end.chain.count + 1
    assert all(network.count <= least + 1 for network in later.networks)


def test_the_same_seed_gives_the_same_networks_by_one_process_or_two(pinch: Pinch) -> None:
    jobs = of_all(16, 24)
    here = [judged.network for judged in searched(pinch, 'tc3', jobs, 5)]
    assert here and here == [judged.network for judged in searched(pinch, 'tc3', jobs, 5)]
    found: list[Judged] = []
    search = search_of(pinch, 'tc3', found, 5)
    crew = JobCrew(2)
    try:
        crew.run(JobRow(search), lambda: search.taken >= jobs, time.monotonic() + 600)
    finally:
        crew.end()
    assert search.taken == jobs and [judged.network for judged in found] == here


def test_what_cannot_be_ticked_off_goes_straight_down(pinch: Pinch) -> None:
    case, parts = windows_of(pinch, 'tc3')
    flow = pinch.flow(case)
    assert not isinstance(flow, Cut)
    networks = []
    for window in parts:
        left = HeatLeft(window)
        ticks = completion(left)
        assert ticks and all(tick.hot_place == STRETCH for tick in ticks)
        left.finish(ticks)
        assert left.is_done and left.count == Chain(tuple(ticks)).count <= len(ticks)
        network = window_network(window, ticks)
        assert network is not None and network.count == left.count
        networks.append(network)
    exact = cheapest(case, joined_windows(case, networks))
    assert exact is not None and exact.cost == flow.cost
    assert Judge(pinch, case).of(exact) is not None


@pytest.mark.long
def test_forbidden_pairs_stay_apart(pinch: Pinch) -> None:
    free = searched(pinch, 'tc3', 24)[-1]
    pair = next(pair for pair in free.structure.pairs.values() if pair[0] != 'HOT' and pair[1] != 'COLD')
    found = searched(pinch, 'tc3', 24, forbid=f'forbid,{pair[0]},{pair[1]},,,,\n')
    assert found and all(pair not in judged.structure.pairs.values() for judged in found)


def test_a_branch_beside_and_one_in_a_corner_have_exact_shares() -> None:
    hot = WindowPiece('H', Side.HOT, 1000, 500, 30, 15000, 15000)
    pieces = (hot, *(WindowPiece(name, Side.COLD, high, low, cp, cp * (high - low), cp * (high - low))
                     for name, high, low, cp in (('C1', 990, 590, 10), ('C2', 490, 450, 25), ('C3', 480, 460, 350))))
    ticks = (Tick(0, 1, CORNER_TOP, WHOLE, 4000.0), Tick(4, 2, BESIDE, WHOLE, 1000.0))
    network = window_network(Window(pieces, frozenset()), ticks)
    assert network is not None and network.pairs == (('H', 'C1'), ('H', 'C2'))
    corner, beyond = network.courses['H']
    assert isinstance(corner, Parting) and [lane.share for lane in corner.lanes] == [Fraction(1, 3), Fraction(2, 3)]
    assert corner.lanes[0].course == (Through('0'),) and corner.lanes[1].course == ()
    assert isinstance(beyond, Parting) and beyond.lanes[0].share == Fraction(1000, 3000)


def test_a_thinned_structure_has_duties_for_all_that_is_left(pinch: Pinch) -> None:
    case, parts = windows_of(pinch, 'tc3')
    networks = [run_chain(window, 1, 10, Chain(), None).networks[0] for window in parts]
    structure = joined_windows(case, networks)
    flow = pinch.flow(case)
    assert not isinstance(flow, Cut)
    model = FloatDuties(case, structure)
    assert least_point(model.rows(Fraction(flow.cost)), [1.0] * model.count) is not None
    less = thinned(case, structure, Fraction(flow.cost), Random(1))
    assert less is not None and less.count == len(less.structure.pairs) <= len(structure.pairs)
    assert min(less.duties) > 0
    assert thinned(case, structure, Fraction(flow.cost) * Fraction(99, 100) - 1, Random(1)) is None


def test_what_floats_say_is_dearer_is_dearer(pinch: Pinch) -> None:
    case = completed(read_case(example('tc3.csv')))
    network = read_network(example('tc3-network.txt'))
    structure = structure_of(case, network)
    tried = [structure, *structures(structure, unsplit), *later(case, structure), *structures(structure, one_turned)]
    known = [(at, costed.cost) for at, costed in ((at, cheapest(case, at)) for at in tried) if costed]
    assert len({cost for _, cost in known}) > 1
    for one, cost in known:
        assert [is_dearer(case, one, other) for _, other in known] == [cost > other for _, other in known]
        assert not is_dearer(case, one, cost)


def one_turned(course: Course) -> Iterator[Course]:
    """A course with two of its steps the other way round."""
    for at in range(len(course) - 1):
        yield (*course[:at], course[at + 1], course[at], *course[at + 2:])


def test_a_part_of_a_source_is_more_than_a_sliver(pinch: Pinch) -> None:
    _, (window, *_) = windows_of(pinch, '10sp1')
    left = HeatLeft(window)
    hot = left.hots[0]
    assert left.can_part(hot, TOP, LEAST_PART) and left.can_part(hot, BESIDE, LEAST_PART)
    left.lows[hot] = left.highs[hot] - 1e-6
    assert Descent(left, Random(1)).places_of(hot) == [BESIDE]


def broken(job: object) -> ChainEnd:
    raise ZeroDivisionError


def test_a_job_whose_floats_break_finds_nothing(monkeypatch: pytest.MonkeyPatch) -> None:
    monkeypatch.setattr(ChainJob, 'run', broken)
    begin = Chain((Tick(0, 1, WHOLE, WHOLE, 1.0),))
    assert end_of(ChainJob(Window((), frozenset()), 0, 0, 1, 5, begin, None)) == ChainEnd(begin, ())
    monkeypatch.setattr(DropJob, 'run', broken)
    case = completed(read_case(example('tc3.csv')))
    assert end_of(DropJob(case, Structure({}, {}), Fraction(0), 1, 1.0, Aim())) == WholeEnd((), ())


def test_the_job_of_a_worker_that_ends_is_done_again(pinch: Pinch) -> None:
    here = [judged.network for judged in searched(pinch, 'tc3', 10, 5)]
    found: list[Judged] = []
    search = search_of(pinch, 'tc3', found, 5)
    crew = JobCrew(2)
    crew.members[0].process.kill()
    try:
        crew.run(JobRow(search), lambda: search.taken >= 10, time.monotonic() + 600)
    finally:
        crew.end()
    assert len(crew.members) == 1 and search.taken == 10 and [judged.network for judged in found] == here
