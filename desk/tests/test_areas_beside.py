"""Areas and costs beside the verdict of a network: in `table` and `audit`, as far as the case says enough for them."""
from __future__ import annotations

from decimal import Decimal

from conftest import example
from costed import NETWORK, SMALL

from pinchdesk import Pinch, completed, read_case
from pinchdesk.costs.areas_beside import target_beside_flow
from pinchdesk.errors import Status
from pinchdesk.report.page import Answered, Given, page_of, review_of
from pinchdesk.report.page_areas import case_areas
from pinchdesk.report.sheet import Sheet
from pinchdesk.words.audit_word import audit
from pinchdesk.words.table_word import table
from pinchdesk.words.word import Answer, Files, TextFile


def files_of(case: str, network: str = NETWORK) -> Files:
    return Files({'case': (TextFile('case.csv', case.encode()),), 'network': (TextFile('net.txt', network.encode()),)})


def without(word: str) -> str:
    """The small case without the rows that begin with this word."""
    return ''.join(f'{row}\n' for row in SMALL.split('\n') if row and not row.startswith(word))


def sheets_of(answer: Answer) -> dict[str, Sheet]:
    return {sheet.title: sheet for sheet in answer.sheets}


def notes_of(answer: Answer) -> list[object]:
    return [row[0] for row in sheets_of(answer)['Notes'].rows]


def test_the_table_has_the_area_of_each_exchanger_and_the_sums_beside_the_targets() -> None:
    answer = table(files_of(SMALL))
    sheets = sheets_of(answer)
    areas = sheets['Areas']
    assert areas.headings == ('exchanger', 'kind', 'duty kW', 'U kW/m²K', 'mean difference K', 'Ft', 'shells',
                              'area m²', 'price $', '1 K more would save $/a')
    assert areas.rows[0][:8] == ('E', 'exchanger', Decimal(150), Decimal('0.222222'), Decimal('19.956'), Decimal(1),
                                 Decimal(1), Decimal('33.82'))
    rows = {row[0]: row[1:] for row in sheets['Areas and costs'].rows}
    assert rows['area'] == (Decimal('39.7'), Decimal('39.7'), Decimal('39.7'), 'm²')
    assert rows['area efficiency'] == (Decimal(100), None, None, '%')
    assert rows['exchangers'] == (Decimal(3), None, Decimal(3), '')
    assert [round(number) for number in rows['annual cost'][::2] if isinstance(number, Decimal)] == [13673, 13913]
    assert rows['energy a year'] == (Decimal(3500), None, Decimal(3500), '$/a')
    assert 'shells' not in rows
    facts = {fact.name: fact.value for fact in answer.facts[0]}
    assert facts['area efficiency'] == 100 and facts['S hot'] == 30


def test_the_audit_has_the_sums_and_the_costliest_exchangers() -> None:
    answer = audit(files_of(SMALL))
    sheets = sheets_of(answer)
    assert 'Areas' not in sheets and sheets['Areas and costs'].rows[0][1] == Decimal('39.7')
    assert [row[0] for row in sheets['The costliest exchangers'].rows] == ['E', 'W1', 'S1']
    facts = {fact.name: fact.value for fact in answer.facts[0]}
    assert facts['hot utility'] == 30 and facts['annual cost'] == Decimal('13672.89')


def test_a_case_that_says_nothing_of_areas_has_none() -> None:
    files = Files({'case': (TextFile('tc3.csv', example('tc3.csv')),),
                   'network': (TextFile('net.txt', example('tc3-network.txt')),)})
    assert not {'Areas', 'Areas and costs', 'Notes'} & {*sheets_of(table(files)), *sheets_of(audit(files))}


def test_what_areas_need_is_reported_and_the_verdict_stands() -> None:
    case = without('#film,W')
    for answer in (table(files_of(case)), audit(files_of(case))):
        assert answer.status == Status.GOOD and 'Areas and costs' not in sheets_of(answer)
        assert notes_of(answer) == ['areas are not shown: case film coefficient of W is missing: enter a row '
                                    '`#film,W,VALUE,kW/m2K,,,`']


def test_without_a_cost_law_there_are_areas_alone() -> None:
    answer = table(files_of(without('#law')))
    assert sheets_of(answer)['Areas'].headings[-1] == 'area m²'
    assert [row[0] for row in sheets_of(answer)['Areas and costs'].rows] == ['area', 'area efficiency', 'exchangers']
    assert [note for note in map(str, notes_of(answer)) if 'not shown' in note] == [
        'costs are not shown: case cost law of an exchanger is missing: enter a row '
        '`#law,exchanger,,FIXED,FACTOR,EXPONENT,m2`']


def test_an_approach_that_real_ends_do_not_leave_is_in_the_headline() -> None:
    case = SMALL.replace('#range,W,20,30', '#range,W,20,70')
    told = 'exchanger W1: at its hot end the difference is 5 K with the real ends of its utility, and 10 K are needed'
    for answer in (table(files_of(case)), audit(files_of(case))):
        assert told in answer.headline and told in notes_of(answer) and answer.status == Status.GOOD


def test_an_approach_is_checked_without_any_coefficient() -> None:
    rows = (row for row in SMALL.split('\n') if row and row[0] != '#')
    answer = audit(files_of(''.join(f'{row}\n' for row in (*rows, '#range,W,20,75,C,,'))))
    assert 'exchanger W1: at its hot end the difference is 0 K' in answer.headline
    assert str(notes_of(answer)[-1]).startswith('areas are not shown: ')


def test_1_2_shells_are_counted_beside_the_target() -> None:
    answer = table(files_of(SMALL.replace('counter-current,,,,exchanger', '1-2,0.9,,,shell')))
    rows = {row[0]: row[1:] for row in sheets_of(answer)['Areas and costs'].rows}
    assert rows['shells'] == (Decimal(6), None, Decimal(6), '')


def page_with(case: str) -> str:
    return page_of(review_of(Pinch(), Given('case.csv', 'case.csv', case.encode()),
                             [Given('net.txt', 'net.txt', NETWORK.encode())]))


def test_the_page_has_targets_exchangers_and_pictures() -> None:
    page = page_with(SMALL)
    for told in ('Area and cost before a network', 'area by the formula', 'area efficiency', '1 K more would save $/a',
                 'alt="Balanced composite curves with the area of each interval"', 'alt="Driving forces of net.txt"'):
        assert told in page, told
    assert page.count('<img') == 6


def sheets_of_page(case: str, pinch: Pinch) -> list[Sheet]:
    """What a page has of the areas of a case before a network."""
    whole = completed(read_case(case))
    return case_areas(target_beside_flow(whole, pinch.targets(whole), pinch.uses(whole)))


def test_a_page_without_areas_says_what_they_need(pinch: Pinch) -> None:
    notes, = sheets_of_page(without('#film,W'), pinch)
    assert notes.rows[0][0] == 'areas are not shown: case film coefficient of W is missing: enter a row ' \
                               '`#film,W,VALUE,kW/m2K,,,`'
    area, notes = sheets_of_page(without('#law'), pinch)
    assert area.title == 'Area before a network' and str(notes.rows[0][0]).startswith('costs are not shown: ')


def test_a_page_of_a_case_that_says_nothing_of_areas_has_none(pinch: Pinch) -> None:
    bare = ''.join(f'{row}\n' for row in SMALL.split('\n') if row and row[0] != '#')
    whole = completed(read_case(bare))
    assert Answered(whole, pinch.targets(bare), pinch.curves(bare), pinch.uses(bare)).areas is None


def test_a_rejected_network_has_no_areas() -> None:
    answer = audit(files_of(SMALL, NETWORK.replace('50000', '40000')))
    assert answer.status == Status.NO and [sheet.title for sheet in answer.sheets] == ['Rejected']
