"""The words `cost` and `supertarget` and their pictures: tables, notes, statuses."""
from __future__ import annotations

import re
from decimal import Decimal
from fractions import Fraction

import pytest
from conftest import example
from costed import NETWORK, ONE_TWO, SMALL

from pinchdesk import Cut, Pinch, Refused, WordsError
from pinchdesk.costs.network_areas import NoAreas
from pinchdesk.errors import Status
from pinchdesk.report.facts import Fact
from pinchdesk.words.cost_word import CostOptions, cost
from pinchdesk.words.draw_word import area, driving, over_difference
from pinchdesk.words.shared import SweepOptions
from pinchdesk.words.supertarget_word import SupertargetOptions
from pinchdesk.words.supertarget_word import over_difference as supertarget
from pinchdesk.words.word import Answer, Files, TextFile

CASE, EXAMPLE = 'reactors-cost.csv', 'reactors-cost-network.txt'


def files_of(**contents: bytes) -> Files:
    return Files({role: (TextFile(f'{role}.txt', content),) for role, content in contents.items()})


REACTORS = files_of(case=example(CASE))
BUILT = files_of(case=example(CASE), network=example(EXAMPLE))


def test_targets_are_facts_with_their_units() -> None:
    answer = cost(REACTORS, CostOptions(Fraction(0)))
    facts = {fact.name: fact for fact in answer.facts[0]}
    assert facts['area by the formula'] == Fact('area by the formula', Decimal('7409.98'), 'm²')
    assert facts['units'].value == 7 and facts['energy a year'] == Fact('energy a year', Decimal(1000000), '$/a')
    assert facts['annual cost'] == Fact('annual cost', Decimal('2051229.68'), '$/a')
    floor = facts['floor: no network has less'].value
    assert isinstance(floor, Decimal) and 3000 < floor < Decimal('7409.98')
    assert 'the formula is no bound' in str(answer.content('text'))


def test_a_network_has_its_exchangers_and_sums() -> None:
    answer = cost(BUILT)
    facts = {fact.name: fact.value for fact in answer.facts[0]}
    assert facts['area'] == Decimal('8340.76') and facts['area efficiency'] == Decimal('88.8')
    text = str(answer.content('text'))
    assert text.startswith('Exchangers\n') and 'E4         exchanger    17500  0.342857' in text


def test_shells_that_have_a_price_each_are_shown() -> None:
    """39.7 m² in shells of 10 m²."""
    case = SMALL.replace('counter-current,,,,exchanger', 'counter-current,,10,m2,shell').encode()
    facts = {fact.name: fact.value for fact in cost(files_of(case=case)).facts[0]}
    assert (facts['units'], facts['shells']) == (Decimal(3), Decimal(4))
    table = supertarget(files_of(case=case), SweepOptions('8', '10', '2')).sheets[1]
    assert [row[table.headings.index('shells')] for row in table.rows] == [5, 4]


def test_the_formula_beside_1_2_shells_is_said_to_be_counter_current() -> None:
    case = SMALL.replace(*ONE_TWO).encode()
    text = str(cost(files_of(case=case, network=NETWORK.encode())).content('text'))
    assert 'Ft of its 1-2 shells in it: so has the area efficiency' in text
    assert 'Ft of its' not in str(cost(BUILT).content('text'))


def test_a_network_that_is_not_accepted_ends_as_rejected() -> None:
    with pytest.raises(NoAreas, match='rejected') as fault:
        cost(files_of(case=example(CASE), network=example(EXAMPLE).replace(b'7500000', b'7400000')))
    assert (fault.value.status, fault.value.no) == (Status.NO, 'rejected')


def test_an_exchanger_that_no_area_is_enough_for_is_refused_with_the_network() -> None:
    case = SMALL.replace('#range,W,20,30', '#range,W,20,75').encode()
    with pytest.raises(Refused, match='^network.txt: network exchanger W1: at its hot end the difference is 0 K'):
        cost(files_of(case=case, network=NETWORK.encode()))


def test_what_is_open_is_reported() -> None:
    network = NETWORK.replace('S1', 'open-1').encode()
    assert cost(files_of(case=SMALL.encode(), network=network)).notes == (
        'network.txt: unfinished, 1 open (open-1 of C): what is open counts as served by utilities',)


def test_without_a_heat_flow_there_is_its_cut(pinch: Pinch) -> None:
    case = example(CASE).replace(b'cooler,CW,200,0,1000000000000', b'cooler,CW,200,0,1000000')
    assert isinstance(pinch.flow(case), Cut)
    assert cost(files_of(case=case)).status == Status.NO


def test_what_is_missing_is_refused_with_the_file() -> None:
    case = example(CASE).replace(b'#film,CW,1,kW/m2K,,,\n', b'')
    with pytest.raises(Refused, match='^case.txt: case film coefficient of CW is missing: enter a row `#film,CW,'):
        cost(files_of(case=case))


def test_the_least_is_marked_in_the_table() -> None:
    answer = supertarget(files_of(case=SMALL.encode()), SweepOptions('4', '10', '2'))
    least, table = answer.sheets[:2]
    assert [row[0] for row in least.rows] == ['as it is', 'a fifth cheaper', 'a fifth dearer']
    marked, = table.marked
    assert table.rows[marked][-1] == 'the least, found between two answers of the program'
    assert [row[0] for row in table.rows if row[-1] != table.rows[marked][-1]] == [4, 6, 8, 10]


def test_pictures_say_their_numbers() -> None:
    assert 'Area by the formula: 7410 m²' in drawn_text(area(REACTORS))
    text = drawn_text(driving(BUILT))
    assert all(f'>{name}</text>' in text for name in ('E1', 'E5', 'Q2'))
    drawn = over_difference(files_of(case=SMALL.encode()), SweepOptions('4', '10', '2'))
    assert 'Least annual cost 13777 $ at 6.4' in drawn_text(drawn)


def drawn_text(answer: Answer) -> str:
    content = answer.content('svg')
    assert isinstance(content, bytes)
    return content.decode()


def test_a_film_for_all_that_have_none_is_reported() -> None:
    case = ''.join(f'{row}\n' for row in SMALL.split('\n') if row and not row.startswith(('#film,H', '#film,W')))
    given = cost(files_of(case=case.encode()), CostOptions(film='500'))
    assert given.notes == ('case.txt: the film coefficient 500 W/m2K is taken for H, W, of which the case gives none',)
    facts = {fact.name: fact.value for fact in given.facts[0]}
    whole = case.replace('hot,H', '#film,H,0.5,kW/m2K,,,\n#film,W,0.5,kW/m2K,,,\nhot,H')
    assert facts == {fact.name: fact.value for fact in cost(files_of(case=whole.encode())).facts[0]}
    assert not cost(files_of(case=whole.encode()), CostOptions(film='0.3 kW/m2K')).notes


@pytest.mark.parametrize(('film', 'told'), [('x', 'a coefficient is needed'), ('1,250', '1250 or 1.25'),
                                            ('0', 'above 0'), ('5 kW', 'a coefficient is needed')])
def test_a_film_that_is_none_is_refused(film: str, told: str) -> None:
    with pytest.raises(WordsError, match=told):
        cost(files_of(case=SMALL.encode()), CostOptions(film=film))


def test_a_supertarget_takes_a_film_too() -> None:
    case = SMALL.replace('#film,H,0.5,kW/m2K,,,\n', '').encode()
    answer = supertarget(files_of(case=case), SupertargetOptions('4', '10', '2', film='0.5 kW/m2K'))
    assert answer.notes[0].startswith('case.txt: the film coefficient 0.5 kW/m2K is taken for H')
    assert answer.sheets[0] == supertarget(files_of(case=SMALL.encode()), SupertargetOptions('4', '10', '2')).sheets[0]


def test_a_small_area_is_not_0() -> None:
    """Films of 10,000 kW/m²K: 0.0025 m² in all."""
    case = re.sub('#film,(.),[^,]*', '#film,\\1,10000', SMALL).encode()
    answer = cost(files_of(case=case, network=NETWORK.encode()))
    exchangers = answer.sheets[0]
    assert [row[exchangers.headings.index('area m²')] for row in exchangers.rows] == [
        Decimal('0.0015'), Decimal('0.00012'), Decimal('0.00027')]


def test_a_number_of_which_no_digit_is_certain_is_a_question_mark() -> None:
    case = SMALL.replace('counter-current,,,,exchanger', '1-2,1e-30,1e-30,m2,shell').encode()
    facts = {fact.name: fact.value for fact in cost(files_of(case=case)).facts[0]}
    assert facts['area in 1-2 shells'] == '?' and facts['area by the formula'] == Decimal('39.7')
