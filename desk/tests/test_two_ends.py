"""Both temperatures of a stream in one cell: taken where they have one meaning, else refused with what to write."""
from __future__ import annotations

import pytest
from tabled import made, refusal, workbook

from pinchdesk.report.understood_sheet import understood_sheet

BOTH = [('hot', 1700, 600), ('cold', 200, 1350)]
HEADINGS = ('T (°C)', 'Temperature range (°C)', 'Temperatures [°C]', 'Ts → Tt (°C)', 'T in -> T out, °C', 'T1→T2 (°C)',
            'Temperaturverlauf in °C', 'Plage de température (°C)', 'Rango de temperaturas (°C)', 'from → to')
CELLS = (('170 → 60', '20 → 135'), ('170->60', '20-->135'), ('170 °C => 60 °C', '20 °C > 135'),
         ('from 170 to 60', 'from 20 to 135'), ('170 bis 60', '20 bis 135'), ('170–60', '20–135'),
         ('170 - 60', '20 - 135'), ('170 … 60', '20..135'), ('170,0→60,0', '20,0→135,0'))


def table(heading: str, first: str, second: str, kinds: tuple[str, str] = ('', '')) -> str:
    rows = ((kinds[0], 'H', first, '3'), (kinds[1], 'C', second, '2'))
    return '\n'.join([f'Kind;Stream;{heading};CP (kW/K)', *map(';'.join, rows), ''])


def ends(text: str | bytes) -> list[tuple[str, int, int]]:
    return [(stream.side.value, stream.supply, stream.target) for stream in made(text).case.streams]


@pytest.mark.parametrize('heading', HEADINGS)
def test_a_heading_of_both_temperatures_is_known(heading: str) -> None:
    converted = made(table(heading, *CELLS[0]))
    assert ends(table(heading, *CELLS[0])) == BOTH
    assert 'row 1 column 3: the column has both ends of each stream: they are taken as supply and target' in \
        converted.notes


@pytest.mark.parametrize('first, second', CELLS)
def test_both_temperatures_of_a_cell_are_read(first: str, second: str) -> None:
    assert ends(table('T (°C)', first, second)) == BOTH


def test_a_slash_parts_them_where_the_heading_names_both() -> None:
    assert ends(table('Tin/Tout (°C)', '170/60', '20/135')) == BOTH
    assert ends(table('Vorlauf/Rücklauf (°C)', '170/60', '20/135')) == BOTH
    assert 'two numbers in one cell' in refusal(table('T (°C)', '170/60', '20/135'))


def test_places_are_those_of_the_file() -> None:
    text = table('T (°C)', '170 → 60', '20 → 135').replace(';2\n', ';x\n')
    assert refusal(text).startswith('row 3 column 4: `x`')
    places = [row[0] for row in understood_sheet(made(table('T (°C)', *CELLS[0]))).rows]
    assert places == [f'row 1 column {column}' for column in (1, 2, 3, 3, 4)]
    book = workbook([['Stream', 'T (°C)', 'CP'], ['H', '170 → 60', 3], ['C', '20 → 135', 'x']])
    assert refusal(book).startswith('sheet Streams row 3 column C: `x`')


def test_units_stand_with_a_number_or_in_the_heading_or_below_it() -> None:
    assert ends(table('T', '443.15 K -> 333.15 K', '20 °C -> 135 °C')) == BOTH
    rows = 'Stream;Temperature;CP\n;K;kW/K\nH;443.15 → 333.15;3\nC;293.15 → 408.15;2\n'
    assert ends(rows) == BOTH


def test_a_sheet_behind_a_cover_and_streams_side_by_side_are_found() -> None:
    head = ['Stream', 'T (°C)', 'CP (kW/K)']
    book = workbook([['Plant 7']], Data=[head, ['H', '170 → 60', 3], ['C', '20 → 135', 2]])
    assert ends(book) == BOTH
    beside = 'Hot stream;T (°C);CP (kW/K);;Cold stream;T (°C);CP (kW/K)\nH;170 → 60;3;;C;20 → 135;2\n'
    assert ends(beside) == BOTH


@pytest.mark.parametrize('first, second', [('170 -60', '20 -135'), ('170-60', '-20-135'), ('170- 60', '20-135'),
                                           ('170–−60', '20–135')])
def test_a_dash_that_may_be_a_minus_is_refused(first: str, second: str) -> None:
    assert 'the dash may be a minus: write it with an arrow' in refusal(table('T (°C)', first, second))


def test_an_arrow_leaves_signs_as_they_are() -> None:
    assert ends(table('T (°C)', '170 → -60', '-20 → 135')) == [('hot', 1700, -600), ('cold', -200, 1350)]


def test_a_mere_range_needs_a_kind() -> None:
    cause = 'may be a mere range, since all of them run one way'
    for first, second in (('60–170', '20–135'), ('60 to 170', '20 to 135')):
        assert cause in refusal(table('T (°C)', first, second))
        assert 'a hot stream runs the other way' in refusal(table('T (°C)', first, second, ('hot', 'cold')))
    assert ends(table('T (°C)', '135–170', '20–135', ('cold', 'cold'))) == [('cold', 1350, 1700), BOTH[1]]
    assert ends(table('T (°C)', '135 → 170', '20 → 135')) == [('cold', 1350, 1700), BOTH[1]]


@pytest.mark.parametrize('heading', ['Tin (°C)', 'Tt → Ts (°C)', 'Pressure (bar)', 'Remark'])
def test_two_numbers_below_another_heading_are_not_taken(heading: str) -> None:
    assert refusal(table(heading, *CELLS[0]))
