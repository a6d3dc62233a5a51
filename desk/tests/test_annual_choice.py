"""Networks that are chosen by their annual cost: among those that were found, in `network` and in `tradeoff`."""
from __future__ import annotations

from decimal import Decimal
from itertools import accumulate

import pytest
from costed import NETWORK, SMALL, costed_case, law_rows, near

from pinchdesk import Pinch, Refused, completed, read_case, read_network
from pinchdesk.program.verdicts import Accepted
from pinchdesk.report.tradeoff_sheets import network_texts, tradeoff_tables
from pinchdesk.search.accepted import AcceptedNetwork
from pinchdesk.search.annual_choice import AnnualChooser, least_a_year
from pinchdesk.search.budget import SearchWay
from pinchdesk.search.find import find_network
from pinchdesk.search.reduce.tradeoff import TradeOff, TradeOffRow
from pinchdesk.search.visited import Visited, WatchedPinch
from pinchdesk.words.network_word import NetworkOptions, network
from pinchdesk.words.tradeoff_word import TradeoffOptions, tradeoff
from pinchdesk.words.word import Files, TextFile

# The same with the exchanger in two, which pays two charges.
DIVIDED = NETWORK.replace('exchanger E H C 150000\n', 'exchanger E H C 100000\nexchanger F H C 50000\n').replace(
    'pass H E a\n', 'pass H E e\npass e F a\n').replace('pass C E c\n', 'pass C F f\npass f E c\n')
CASE = completed(read_case(SMALL))


def accepted(pinch: Pinch, text: str, case: str = SMALL) -> AcceptedNetwork:
    verdict = pinch.audit(case, text)
    assert isinstance(verdict, Accepted), verdict.text
    return AcceptedNetwork(read_network(text), verdict)


def test_names_make_no_other_network(pinch: Pinch) -> None:
    renamed = NETWORK.replace(' E ', ' F ').replace(' a\n', ' a1\n').replace('pass a ', 'pass a1 ')
    assert least_a_year(CASE, [accepted(pinch, NETWORK), accepted(pinch, renamed)]).among == 1


def test_a_utility_that_comes_too_close_comes_last(pinch: Pinch) -> None:
    """With its water up to 70 °C the whole network is cheaper still, but has 5 K in the place of 10."""
    case = completed(read_case(SMALL.replace('#range,W,20,30', '#range,W,20,70')))
    choice = least_a_year(case, [accepted(pinch, NETWORK)])
    assert choice.told.endswith('; exchanger W1: at its hot end the difference is 5 K with the real ends of its '
                                'utility, and 10 K are needed')


def test_each_accepted_network_of_the_case_is_told(pinch: Pinch) -> None:
    told: list[object] = []
    watched = WatchedPinch(pinch.path, CASE, told.append)
    for case, text in ((CASE, NETWORK), (read_case(SMALL), DIVIDED), (CASE, NETWORK.replace('50000', '40000'))):
        watched.audit(case, text)
    assert [message.found.network for message in told if isinstance(message, Visited)] == \
        [read_network(NETWORK), read_network(DIVIDED)]


# Four streams whose search has several networks of six exchangers.
FOUR = costed_case(10, 'H1 377 97 10 1, H2 317 97 20 1, C1 137 377 15 1, C2 80 227 13 1', 'S 407 407 80 5',
                   'W 27 47 15 1', *law_rows('5500', '150', '1', 'factor', '1'))


@pytest.mark.usefixtures('searched_here')
def test_networks_that_are_no_better_than_the_best_are_seen_too(pinch: Pinch) -> None:
    seen: list[AcceptedNetwork] = []
    find_network(FOUR, pinch=pinch, way=SearchWay(steps=8, workers=1), seen=seen.append)
    ranks = [found.rank for found in seen]
    assert any(rank > min(before) for rank, before in zip(ranks[1:], accumulate(([rank] for rank in ranks))))


def files_of(case: str = SMALL) -> Files:
    return Files({'case': (TextFile('case.csv', case.encode()),),
                  'network': (TextFile('net.txt', DIVIDED.encode()),)})


def test_the_choice_is_the_least_of_those_that_were_seen(pinch: Pinch) -> None:
    divided, whole = accepted(pinch, DIVIDED), accepted(pinch, NETWORK)
    choice = least_a_year(CASE, [divided, whole])
    assert choice.found == whole and choice.among == 2 and near(choice.costs.cost.whole, '13673')
    assert least_a_year(CASE, [divided]).found == divided
    assert choice.told.startswith('area 39.7 m2, annual cost 13672.89 $/a: the least of 2 networks')


def test_a_network_that_no_area_is_large_enough_for_is_left_out(pinch: Pinch) -> None:
    case = completed(read_case(SMALL.replace('#range,W,20,30', '#range,W,20,75')))
    with pytest.raises(Refused, match='exchanger W1: at its hot end the difference is 0 K'):
        least_a_year(case, [accepted(pinch, NETWORK)])


@pytest.mark.parametrize(('row', 'told'), [
    ('#film,C,0.4,kW/m2K,,,', 'film coefficient of C is missing'),
    ('#law,,,10000,400,0.8,m2', 'cost law of an exchanger is missing'),
    ('#build,,counter-current,,,,exchanger', 'build of an exchanger is missing'),
    ('#annual,recovery,0.1,5,,,', 'annual factor of the capital is missing')])
def test_what_is_missing_is_refused_before_the_search(row: str, told: str) -> None:
    case = SMALL.replace(row + '\n', '')
    with pytest.raises(Refused, match=told):
        AnnualChooser(completed(read_case(case)))
    with pytest.raises(Refused, match=told):
        network(files_of(case), NetworkOptions(annual=True))


def test_rows_of_a_trade_off_have_areas_and_annual_costs(pinch: Pinch) -> None:
    divided, whole = accepted(pinch, DIVIDED), accepted(pinch, NETWORK)
    traded = TradeOff(CASE, 3_500_000_000, divided, (TradeOffRow(whole),))
    table = tradeoff_tables(traded, whole)[0].sheet()
    at = table.headings.index('annual cost $/a')
    assert table.headings[at - 1:at + 2] == ('area m²', 'annual cost $/a', 'gone') and table.marked == {2}
    assert [row[at] for row in table.rows] == [None, Decimal('16517.06'), Decimal('13672.89')]
    assert 'annual cost $/a' not in tradeoff_tables(bare(traded))[0].sheet().headings


def test_a_network_that_is_no_step_has_a_row_and_a_text_of_its_own(pinch: Pinch) -> None:
    divided, whole = accepted(pinch, DIVIDED), accepted(pinch, NETWORK)
    traded = TradeOff(CASE, 3_500_000_000, divided, (TradeOffRow(divided),))
    table = tradeoff_tables(traded, whole)[0].sheet()
    assert [row[0] for row in table.rows] == ['floor', Decimal(4), '3, least a year'] and table.marked == {2}
    texts = network_texts(traded, whole, 'of least annual cost')
    assert list(texts) == ['4', 'annual'] and '\n# of least annual cost\n' in texts['annual']
    assert read_network(texts['annual']) == whole.network and list(network_texts(traded)) == ['4']


def bare(traded: TradeOff) -> TradeOff:
    """The same in a case that says nothing of areas."""
    case = completed(read_case(''.join(f'{row}\n' for row in SMALL.split('\n') if row and row[0] != '#')))
    return TradeOff(case, traded.floor, traded.begun, traded.rows)


@pytest.mark.usefixtures('searched_here')
def test_the_words_choose_and_say_so() -> None:
    found = network(files_of(), NetworkOptions(seconds='5', annual=True))
    text = str(found.content('text'))
    assert '\n# area 39.7 m2, annual cost 13672.89 $/a: the least of ' in text
    facts = {fact.name: fact.value for fact in found.facts[0]}
    assert facts['annual cost'] == Decimal('13672.89') and facts['exchangers'] == 3
    traded = tradeoff(files_of(), TradeoffOptions(seconds='5', annual=True))
    assert traded.notes[0].startswith('3 exchangers: area 39.7 m2, annual cost 13672.89 $/a: the least of ')
    assert len(traded.sheets[0].marked) == 1
