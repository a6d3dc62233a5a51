"""Networks with open pieces, exchangers whose names begin with `open-`: each word says that they are unfinished, and
what is left of them is the same as of branches that are left open."""
from __future__ import annotations

from fractions import Fraction
from pathlib import Path

import pytest
from conftest import EXAMPLES, NETWORKS, few_of, pinchdesk

from pinchdesk import Pinch, completed, follow, read_case, read_network
from pinchdesk.analysis.rest import remaining
from pinchdesk.analysis.unfinished import open_exchangers, placed, unfinished_told
from pinchdesk.formats.network import End, Exchanger, Network, Pass, print_network

TC3 = EXAMPLES / 'tc3.csv'
# One match of tc3 and a heater; all else is open.
BEGUN = """exchanger E1 S1 S3 120000
exchanger open-1 S1 COLD 60000
exchanger open-2 S2 COLD 240000
exchanger open-3 HOT S3 125000
exchanger open-4 HOT S4 225000
exchanger H1 HOT S3 17500
pass S1 E1 a
pass a open-1 b
end b
pass S2 open-2 c
end c
pass S3 open-3 d
pass d E1 e
pass e H1 f
end f
pass S4 open-4 g
end g
"""


@pytest.fixture
def begun(tmp_path: Path) -> str:
    path = tmp_path / 'begun.txt'
    path.write_text(BEGUN, encoding='utf-8')
    return str(path)


@pytest.mark.parametrize('word', [('audit',), ('table',), ('units',)])
def test_a_word_says_that_it_is_unfinished(word: tuple[str, ...], begun: str) -> None:
    done = pinchdesk(*word, str(TC3), begun)
    assert done.status == 0 and 'unfinished, 4 open (open-1 of S1, open-2 of S2' in done.err
    assert 'ccepted\n' not in done.out


@pytest.mark.usefixtures('without_curves')
def test_a_picture_and_a_page_say_it_too(begun: str, tmp_path: Path) -> None:
    for words, name in ((('draw', 'grid'), 'grid.svg'), (('page',), 'page.html')):
        assert pinchdesk(*words, str(TC3), begun, '-o', str(tmp_path / name)).status == 0
    page = (tmp_path / 'page.html').read_text(encoding='utf-8')
    assert '<td>unfinished</td>' in page.replace(' class="text"', '') or 'unfinished, 4 open' in page
    assert 'accepted<' not in page


def test_a_table_of_many_says_it(begun: str, tmp_path: Path) -> None:
    (tmp_path / 'list.csv').write_text(f'{TC3},{begun}\n', encoding='utf-8')
    done = pinchdesk('many', 'audit', str(tmp_path / 'list.csv'))
    assert done.status == 0 and 'unfinished, 4 open' in done.out


def test_the_rest_is_what_is_open(begun: str) -> None:
    left = remaining(TC3.read_bytes(), BEGUN)
    assert left.good and left.exact and left.hot_used == 17_500 and left.excess == (Fraction(0), Fraction(0))
    assert {branch.stream.name: int(branch.heat) for branch in left.left} == {
        'S1': 60_000, 'S2': 240_000, 'S3': 125_000, 'S4': 225_000}
    done = pinchdesk('rest', str(TC3), begun)
    assert done.status == 0 and 'exchangers so far                2' in done.out


def test_a_fault_of_what_stands_is_found_beside_what_is_open() -> None:
    wrong = BEGUN.replace('120000', '130000').replace('open-1 S1 COLD 60000', 'open-1 S1 COLD 50000') \
        .replace('open-3 HOT S3 125000', 'open-3 HOT S3 115000')
    left = remaining(TC3.read_bytes(), wrong)
    assert not left.good and 'E1' in str(getattr(left.verdict, 'place', ''))


def test_an_exchanger_between_streams_is_never_open() -> None:
    case = completed(read_case(TC3.read_bytes()))
    followed = follow(case, read_network(BEGUN.replace('E1', 'open-9')))
    assert 'open-9' in {passage.exchanger.name for passage in placed(followed)}
    assert len(open_exchangers(case, followed.network.exchangers)) == 4
    assert unfinished_told(follow(case, read_network((EXAMPLES / 'tc3-network.txt').read_text()))) == ''


def with_open_ends(name: str) -> tuple[Network, Network]:
    """A network whose last heaters and coolers are open pieces, and the same whose branches are left open there."""
    text = (EXAMPLES / f'{name}-network.txt').read_text(encoding='utf-8')
    network = read_network(text)
    case = completed(read_case((EXAMPLES / f'{name}.csv').read_bytes()))
    utilities = {utility.name for utility in case.utilities}
    ended = {statement.branch for statement in network.statements if isinstance(statement, End)}
    last = {statement.exchanger: statement for statement in network.statements
            if isinstance(statement, Pass) and statement.to in ended}
    gone = {exchanger.name for exchanger in network.exchangers
            if exchanger.name in last and utilities & {exchanger.hot, exchanger.cold}}
    behind = {last[exchanger].to for exchanger in gone}
    begun = Network(tuple(statement for statement in network.statements
                          if getattr(statement, 'exchanger', getattr(statement, 'name', '')) not in gone
                          and not (isinstance(statement, End) and statement.branch in behind)))
    names = {exchanger: f'open-{at}' for at, exchanger in enumerate(sorted(gone), 1)}
    named = Network(tuple(
        Exchanger(names.get(statement.name, statement.name), statement.hot, statement.cold, statement.duty)
        if isinstance(statement, Exchanger) else
        Pass(statement.branch, names.get(statement.exchanger, statement.exchanger), statement.to)
        if isinstance(statement, Pass) else statement for statement in network.statements))
    return named, begun


@pytest.mark.parametrize('name', few_of(NETWORKS, ('tc3', 'four-stream', 'preheater')))
def test_open_pieces_at_the_ends_are_as_branches_left_open(name: str) -> None:
    named, begun = with_open_ends(name)
    case = (EXAMPLES / f'{name}.csv').read_bytes()
    one, other = (remaining(case, print_network(network), Pinch()) for network in (named, begun))
    assert one.excess == other.excess and one.hot_used == other.hot_used and one.cold_used == other.cold_used
    assert sum((left.heat for left in one.left), Fraction(0)) == sum((left.heat for left in other.left), Fraction(0))
