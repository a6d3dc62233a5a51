"""Cases, networks, studies and sites: printed and read again they are the same, and what is none is refused."""
from __future__ import annotations

import csv
import io
from collections.abc import Callable

import pytest
from anycase import cases, networks, studies
from conftest import CASES, NETWORKS, SITES, example
from hypothesis import given

from pinchdesk import (Case, Cut, Network, Pinch, Refused, Side, Stream, completed, print_case, print_network,
                       read_case, read_network)
from pinchdesk.formats.case import Basis, shifted
from pinchdesk.formats.site import read_site
from pinchdesk.formats.study import Study, print_study, read_study


@given(cases)
def test_a_case_printed_and_read_again_is_the_same(case: Case) -> None:
    assert read_case(print_case(case)) == case
    assert read_case(print_case(case).replace('\n', '\r\n').encode('utf-8-sig')) == case
    assert read_case(print_case(case).replace('\n', '\r')) == case
    # No cell of it is a formula for a spreadsheet.
    for row in csv.reader(io.StringIO(print_case(case), newline='')):
        assert not any(cell.startswith(('=', '+', '@')) for cell in row)


@given(networks)
def test_a_network_printed_and_read_again_is_the_same(network: Network) -> None:
    assert read_network(print_network(network)) == network
    assert read_network('# a comment\n\n' + print_network(network).replace(' ', '\t  ').replace('\n',
                                                                                                '\r\n')) == network


@given(studies)
def test_a_study_printed_and_read_again_is_the_same(study: Study) -> None:
    assert read_study(print_study(study)) == study


@pytest.mark.parametrize('name', CASES)
def test_the_program_says_the_same_of_a_case_that_was_read_and_printed(name: str, pinch: Pinch) -> None:
    content = example(f'{name}.csv')
    case = read_case(content)
    assert pinch.targets(case) == pinch.targets(content)
    assert pinch.flow(case) == pinch.flow(content)


@pytest.mark.parametrize('name', CASES)
def test_the_utilities_that_stand_in_are_those_of_the_flow(name: str, pinch: Pinch) -> None:
    content = example(f'{name}.csv')
    case, flow = completed(read_case(content)), pinch.flow(content)
    if isinstance(flow, Cut):
        return
    levels = {price.part.name: price.part.high for price in (*flow.gives, *flow.takes)}
    prices = {price.part.name: price.price for price in flow.gives}
    assert [use.name for use in flow.uses] == [utility.name for utility in case.utilities]
    for utility in case.utilities:
        assert levels[utility.name] == shifted(utility, utility.level)
        assert not utility.invented or utility.side is Side.COLD or prices[utility.name] <= utility.price


@pytest.mark.parametrize('name', NETWORKS)
def test_a_network_of_the_examples_is_read_as_the_program_reads_it(name: str, pinch: Pinch) -> None:
    case, network = example(f'{name}.csv'), example(f'{name}-network.txt')
    assert pinch.audit(case, read_network(network)) == pinch.audit(case, network)


@pytest.mark.parametrize('name', SITES)
def test_a_site_is_read(name: str) -> None:
    site = read_site(example(f'{name}.csv'))
    assert site.mains and sum(len(plant.streams) for plant in site.plants) > 3


REFUSED_CASES = [
    ('hot,K,900,400,10,', 'case row 1 FieldCount'), ('steam,S,1,2,3,4,', 'case row 1 UnknownKind'),
    ('contribution,,50,,,,\nhot,K,9x0,400,10,,', 'case row 2 BadNumber'), ('', 'case row 1 NoContribution'),
    ('hot,K,900,400,10,,\n\n', 'case row 2 NoContribution'), ('contribution,,5 0,,,,', 'case row 1 BadNumber'),
]


@pytest.mark.parametrize('text, said', REFUSED_CASES)
def test_what_is_no_case_is_refused_as_the_program_refuses_it(text: str, said: str, pinch: Pinch) -> None:
    asks: tuple[Callable[[str], object], ...] = (read_case, pinch.targets)
    for ask in asks:
        with pytest.raises(Refused) as fault:
            ask(text)
        assert fault.value.text == said


REFUSED_NETWORKS = [
    ('heat E1', 'network line 1 UnknownWord'), ('end', 'network line 1 FieldCount'),
    ('exchanger E1 H2 C1 x', 'network line 1 BadNumber'), ('exchanger E1 H2 C1 1/0', 'network line 1 BadNumber'),
    ('# no statement\n\nexchanger E1 H2 C1 1/2/3', 'network line 1 BadNumber'),
    ('\ufeffexchanger E1 H2 C1 5', 'network line 1 UnknownWord'),
    ('exchanger E1 H2 C3 5\rpass H2 E1 a\r', 'network line 1 FieldCount'),
]


@pytest.mark.parametrize('text, said', REFUSED_NETWORKS)
def test_what_is_no_network_is_refused_as_the_program_refuses_it(text: str, said: str, pinch: Pinch) -> None:
    with pytest.raises(Refused) as fault:
        read_network(text)
    assert fault.value.text == said
    with pytest.raises(Refused) as fault:
        pinch.audit(example('four-stream.csv'), text)
    assert fault.value.text == said


@pytest.mark.parametrize('text, said', [('plant,A,,,,,', 'site row 2 NoContribution'),
                                        ('heater,S,1,2,3,4,', 'site row 1 UnknownKind'),
                                        ('hot,H,1,2,3,,', 'site row 1 NoPlant'), ('main,M', 'site row 1 FieldCount')])
def test_what_is_no_site_is_refused(text: str, said: str) -> None:
    with pytest.raises(Refused) as fault:
        read_site(text)
    assert fault.value.text == said


@pytest.mark.parametrize('text, said', [('price,HP,1,', 'study row 1 NoScenario'),
                                        ('span,HP,0', 'study row 1 FieldCount'),
                                        ('span,HP,0,x', 'study row 1 BadNumber'),
                                        ('buy,HP,0,1', 'study row 1 UnknownKind')])
def test_what_is_no_study_is_refused(text: str, said: str) -> None:
    with pytest.raises(Refused) as fault:
        read_study(text)
    assert fault.value.text == said


def test_comments_in_any_letters_and_long_fields_are_passed_over() -> None:
    long = b'# ' + b'x' * 200_000 + b',,,,,,\n'
    content = b'# caf\xe9,,,,,,\n' + long + b'contribution,,50,,,,\n,,,,,,\nhot,H,1000,500,10,,\n'
    assert read_case(content).streams == (Stream('H', Side.HOT, 1000, 500, 10, 0, 50),)


def test_comments_of_the_desk_that_say_what_cannot_be_are_refused() -> None:
    rows = 'contribution,,50,,,,\nhot,H,1000,500,10,,\n'
    for comment in ('#scale,x,,,,,', '#scale,0,,,,,', '#price,EUR/MWh,1/0,,,,', '#cost,EUR/h,,,,,'):
        with pytest.raises(Refused, match=f'case row 1 {comment.split(",")[0]}: .* is not a number from'):
            read_case(f'{comment}\n{rows}')
    assert read_case(f'#,x,,,,,\n# scale,x,,,,,\n{rows}').basis == Basis()
