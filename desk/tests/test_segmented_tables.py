"""Tables with streams of several segments: rows of one name, rows without a name, heating curves. What has one meaning
is taken, what has two is refused."""
from __future__ import annotations

import io
from fractions import Fraction

import openpyxl
import pytest
from conftest import EXAMPLES
from hypothesis import given
from hypothesis import strategies as some
from openpyxl.styles import Alignment
from tabled import TEN, made, refusal, saved, streams, workbook

from pinchdesk import Pinch, Stream
from pinchdesk.formats.case import print_case, read_case
from pinchdesk.formats.segments import SegmentedStream
from pinchdesk.tables.convert import Wanted, checked
from pinchdesk.tables.heating_curve import CurvePoint, between, simplified

HEAD = 'Stream;Supply (°C);Target (°C);CP (kW/K)\n'
CRUDE = [('cold', 'Crude-1', 250, 1250, 31000, 0), ('cold', 'Crude-2', 1250, 2200, 36500, 0),
         ('cold', 'Crude-3', 2200, 3600, 44000, 0)]
OF_CRUDE = (SegmentedStream('Crude', ('Crude-1', 'Crude-2', 'Crude-3')),)
KERO = ('hot', 'Kero', 1850, 450, 3300, 0)


@pytest.mark.parametrize('rows', [
    'Crude;25;125;310\nCrude;125;220;365\nCrude;220;360;440\nKero;185;45;33\n',
    'Crude;25;125;310\n;125;220;365\n;220;360;440\nKero;185;45;33\n',
    'Crude;25;125;310\n-;125;220;365\n-;220;360;440\nKero;185;45;33\n',
])
def test_rows_of_one_name_whose_ends_meet_are_one_stream(rows: str) -> None:
    converted = made(HEAD + rows)
    assert streams(HEAD + rows) == [*CRUDE, KERO]
    assert converted.case.basis.segments == OF_CRUDE and converted.case.basis.names == ()
    assert any('`Crude` stands in 3 rows whose ends meet' in note for note in converted.notes)
    assert read_case(print_case(converted.case)) == converted.case


def test_the_rows_may_stand_apart_or_from_the_target_on() -> None:
    turned = made(HEAD + 'Crude;220;360;440\nKero;185;45;33\nCrude;125;220;365\nCrude;25;125;310\n').case
    assert turned.basis.segments == OF_CRUDE
    assert sorted(stream.name for stream in turned.streams) == ['Crude-1', 'Crude-2', 'Crude-3', 'Kero']
    first = turned.source('Crude-1')
    assert (first.name, turned.streams[-1]) == ('Crude-1', first)


def test_a_column_of_segments_is_passed_over() -> None:
    table = 'Stream;Segment;Supply (°C);Target (°C);CP (kW/K)\n' \
            'Crude;1;25;125;310\nCrude;2;125;220;365\nCrude;3;220;360;440\nKero;1;185;45;33\n'
    assert streams(table) == [*CRUDE, KERO] and made(table).case.basis.segments == OF_CRUDE


@pytest.mark.parametrize('rows', [
    'Crude\n  segment 1;25;125;310\n  segment 2;125;220;365\n  segment 3;220;360;440\nKero;185;45;33\n',
    'Crude;25;360;\nSeg. 1;25;125;310\nSeg. 2;125;220;365\nSeg. 3;220;360;440\nKero;185;45;33\n',
    'Crude;25;360;380.03\nPart A;25;125;310\nPart B;125;220;365\nPart C;220;360;440\nKero;185;45;33\n'])
def test_rows_that_are_called_segments_below_a_name_are_its_segments(rows: str) -> None:
    converted = made(HEAD + rows)
    assert streams(HEAD + rows) == [*CRUDE, KERO] and converted.case.basis.segments == OF_CRUDE
    again = made(HEAD + rows + rows.replace('Crude', 'Feed').replace('Kero', 'Naphtha')).case
    assert [segmented.name for segmented in again.basis.segments] == ['Crude', 'Feed']


def test_rows_below_a_title_are_no_segments_of_it() -> None:
    rows = 'Kero;185;45;33\nCold streams\nsegment 1;25;125;310\nsegment 2;125;220;365\n'
    assert made(HEAD + rows).case.basis.segments == ()
    assert made(HEAD + 'Unit 3\nA;25;125;310\nB;125;220;365\nKero;185;45;33\n').case.basis.segments == ()


def test_a_phase_change_has_the_side_of_its_stream() -> None:
    table = 'Stream;Supply (°C);Target (°C);CP (kW/K);Duty (kW)\n' \
            'Vapour;150;100;2;\nVapour;100;100;;600\nVapour;100;60;4.5;\nFeed;20;130;3;\n'
    assert streams(table)[:3] == [('hot', 'Vapour-1', 1500, 1000, 200, 0), ('hot', 'Vapour-2', 1000, 1000, 0, 600_000),
                                  ('hot', 'Vapour-3', 1000, 600, 450, 0)]


def test_a_match_that_is_forbidden_for_a_stream_is_so_for_its_segments() -> None:
    case = made('kind;Stream;Supply (°C);Target (°C);CP (kW/K)\nhot;Kero;185;45;33\ncold;Crude;25;125;310\n'
                'cold;Crude;125;220;365\nforbid;Kero;Crude;;\n').case
    assert [(forbid.hot, forbid.cold) for forbid in case.forbids] == [('Kero', 'Crude-1'), ('Kero', 'Crude-2')]


def test_a_name_that_no_case_has_is_kept_for_the_stream_alone() -> None:
    basis = made(HEAD + 'Crude oil;25;125;310\nCrude oil;125;220;365\nCrude-oil-1;185;45;33\n').case.basis
    assert basis.names == (('Crude oil', 'Crude-oil'),)
    assert basis.segments == (SegmentedStream('Crude-oil', basis.segments[0].segments),)
    assert 'Crude-oil-1' not in basis.segments[0].segments


@some.composite
def chains(draw: some.DrawFn) -> list[tuple[int, int, int]]:
    """The segments of a stream, with both temperatures in tenths of °C and the CP in 10 W/K."""
    way = draw(some.sampled_from((1, -1)))
    steps = draw(some.lists(some.tuples(some.integers(1, 900), some.integers(1, 9000)), min_size=2, max_size=6))
    # Six steps down end above the least temperature of a case.
    made_of, at = [], draw(some.integers(2700, 5000))
    for step, cp in steps:
        made_of.append((at, at + way * step, cp))
        at += way * step
    return made_of


@given(chains(), some.booleans(), some.booleans())
def test_the_segments_of_any_stream_are_read_as_they_are(chain: list[tuple[int, int, int]], again: bool,
                                                         turned: bool) -> None:
    rows = [f'{supply / 10:.1f};{target / 10:.1f};{cp / 100:.2f}' for supply, target, cp in chain]
    named = [f'{"My stream" if again or at == 0 else ""};{row}\n' for at, row in enumerate(rows)]
    case = made(HEAD + ''.join(reversed(named) if turned and again else named)).case
    assert case.basis.segments[0].name == 'My-stream'
    found = [case.source(name) for name in case.basis.segments[0].segments]
    assert [(stream.supply, stream.target, stream.cp) for stream in found if isinstance(stream, Stream)] == chain
    assert read_case(print_case(case)) == case


@pytest.mark.parametrize('rows, cause', [
    ('Crude;25;125;310\nCrude;130;220;365\n', 'row 3 column 2: `Crude` stands in several rows, and one ends at 125 '
     'where the next begins at 130'),
    ('Crude;25;125;310\nCrude;125;60;365\n', 'cools down in one row and warms up in another'),
    ('Crude;25;125;310\n;130;220;365\n', 'a name is missing'),
    ('Crude;25;125;310\nCrude;25;125;310\n', 'stands in several rows'),
    ('Crude;25;360;380\nSeg. 1;25;125;310\nSeg. 2;125;220;365\n', '`Crude` may be the whole of the rows below it'),
])
def test_rows_of_one_name_that_do_not_meet_are_refused(rows: str, cause: str) -> None:
    assert cause in refusal(HEAD + rows + 'Kero;185;45;33\n')


PLAIN = HEAD + 'Kero;185;45;33.0\n\nCold streams\nStream;T (°C);H (MW)\n'
CURVED = PLAIN + 'Crude;25;0\n;125;31\n;220;65.675\n;360;127.275\n'


@pytest.mark.parametrize('table', [
    CURVED,
    CURVED.replace('\n;', '\nCrude;'),
    # From the other end, from another zero, and with the heat that is given in place of the enthalpy.
    PLAIN + 'Crude;360;227.275\n;220;165.675\n;125;131\n;25;100\n',
    PLAIN + 'Crude;360;0\n;220;61.6\n;125;96.275\n;25;127.275\n',
    'kind;Stream;T (°C);Enthalpy (MW)\nhot;Kero;185;4.62\n;;45;0\ncold;Crude;25;0\n;;125;31\n;;220;65.675\n'
    ';;360;127.275\n',
    # More points on a straight line are one piece.
    CURVED.replace(';125;31\n', ';75;15.5\n;100;23.25\n;125;31\n'),
    CURVED.replace('T (°C);H (MW)', 'Temperature [°C];Enthalpy / MW;Vapour fraction').replace('\n;', '\n;')])
def test_a_heating_curve_is_a_stream_of_segments(table: str) -> None:
    converted = made(table)
    assert sorted(streams(table)) == sorted([*CRUDE, KERO])
    assert converted.case.basis.segments == OF_CRUDE
    assert any('the heating curve of `Crude`' in note and 'is taken in 3 pieces' in note for note in converted.notes)


def test_a_curve_may_boil_and_may_be_a_hot_one() -> None:
    table = 'kind;Stream;T (°C);Enthalpy (kW)\nhot;Vapour;150;1000\n;;100;900\n;;100;300\n;;60;120\n' \
            'cold;Feed;20;0\n;;130;330\n'
    assert streams(table) == [('hot', 'Vapour-1', 1500, 1000, 200, 0), ('hot', 'Vapour-2', 1000, 1000, 0, 600_000),
                              ('hot', 'Vapour-3', 1000, 600, 450, 0), ('cold', 'Feed', 200, 1300, 300, 0)]


def test_a_curve_may_stand_on_a_sheet_of_its_own_and_in_other_units() -> None:
    content = workbook([['Stream', 'Supply (°C)', 'Target (°C)', 'CP (kW/K)'], ['Kero', 185, 45, 33]],
                       Curves=[['kind', 'Stream', 'T (°F)', 'H (kW)'], ['cold', 'Crude', 77, 0],
                               [None, None, 257, 31000], [None, None, 428, 65675], [None, None, 680, 127275]])
    assert sorted(streams(content, Wanted('10 K'))) == sorted([*CRUDE, KERO])


@pytest.mark.parametrize('table, cause', [
    (CURVED.replace('Cold streams\n', ''), 'whether `Crude` is heated or cooled is open'),
    (CURVED.replace(';125;31\n', ';125;31\n;110;40\n'), 'go up and down'),
    (CURVED.replace(';125;31\n', ';125;31\n;140;31\n'), 'do not go one way'),
    (PLAIN + 'Crude;25;0\nFeed;20;0\n;130;3.3\n', 'a heating curve has 2 to 200 points, and `Crude` has 1'),
    (CURVED.replace(';125;31\n', ';125;x\n'), '`x`: no number'),
    (CURVED.replace(';125;31\n', ';398 K;31\n'), 'have different units')])
def test_a_curve_that_is_none_is_refused(table: str, cause: str) -> None:
    assert cause in refusal(table)


def test_a_table_of_temperatures_and_enthalpies_of_streams_is_no_heating_curve() -> None:
    table = HEAD + 'Kero;185;45;33.0\nCrude;25;360;380.5\n\nStream;T (°C);Enthalpy (kW)\nKero;185;120\nCrude;25;3\n'
    converted = made(table)
    assert [stream.name for stream in converted.case.streams] == ['Kero', 'Crude']
    assert any('of another table' in note for note in converted.notes)


@some.composite
def curves(draw: some.DrawFn) -> tuple[CurvePoint, ...]:
    """Points of a stream that is heated, or cooled, with a level here and there."""
    steps = draw(some.lists(some.tuples(some.integers(0, 50), some.integers(1, 5000)), min_size=1, max_size=12))
    way = draw(some.sampled_from((1, -1)))
    points = [CurvePoint(Fraction(draw(some.integers(-100, 300))), Fraction(0))]
    for step, heat in steps:
        points.append(CurvePoint(points[-1].temperature + way * step, points[-1].heat + heat))
    return tuple(points)


@given(curves(), some.integers(0, 20))
def test_the_pieces_of_a_curve_are_on_its_safe_side_within_the_tolerance(points: tuple[CurvePoint, ...],
                                                                         tolerance: int) -> None:
    way = 1 if points[-1].temperature >= points[0].temperature else -1
    pieces = simplified(points, Fraction(tolerance) * way)
    assert (pieces[0], pieces[-1]) == (points[0], points[-1]) and len(pieces) <= len(points)
    for before, after in zip(pieces, pieces[1:]):
        assert before.heat < after.heat and (after.temperature - before.temperature) * way >= 0
        for point in points:
            if before.heat <= point.heat <= after.heat:
                assert 0 <= (between(before, after, point.heat) - point.temperature) * way <= tolerance
    if tolerance == 0:
        assert {*pieces} <= {*points}


def test_a_tolerance_is_reported_with_how_far_it_takes_the_curve() -> None:
    rows = ''.join(f';{at};{at * at / 1000:.3f}\n' for at in range(20, 130, 10))
    table = HEAD + 'Kero;185;45;33.0\n\nCold streams\nStream;T (°C);H (MW)\nCrude;10;0.1\n' + rows
    exact, wide = made(table), made(table, Wanted('10', tolerance=Fraction(3, 2)))
    assert len(exact.case.streams) == 12 and len(wide.case.streams) == 7
    told = next(note for note in wide.notes if 'heating curve' in note and 'points' in note)
    assert '12 points' in told and 'K hotter than they are, on the safe side' in told


def test_a_tolerance_is_in_what_is_told_of_the_targets(pinch: Pinch) -> None:
    """By hand: above 50 °C the curve has 96 kW, and its one piece, 2 K hotter at 64 kW, has 100 kW."""
    table = 'Kind;Stream;T (°C);H (kW)\ncold;Crude;20;0\n;;50;64\n;;100;160\nhot;Oil;60;100\n;;59;0\n'
    said = 'by what is rounded and the tolerance of 2 K the hot target is 4 kW too high, and the cold target is 4 kW ' \
           'too high'
    for own_units in (False, True):
        exact, wide = (checked(made(table, Wanted('10', own_units=own_units, tolerance=Fraction(tolerance))), pinch)
                       for tolerance in (0, 2))
        assert wide.notes[-1] == said and f'# {said}' in wide.comments
        assert not any('tolerance' in note for note in exact.notes)


def test_what_is_said_of_a_piece_names_a_column_that_the_table_has() -> None:
    notes = made(CURVED.replace(';220;', ';220.04;')).notes
    assert 'row 8 column 2: 220.04 °C is rounded to 220 °C' in notes
    assert not any('column 4' in note for note in notes)


def test_more_segments_than_a_case_has_streams_are_refused_in_these_words() -> None:
    rows = ''.join(f'Crude;{at};{at + 1};{300 + at}\n' for at in range(31))
    assert 'a case has at most 30 cold streams, of which each segment of a stream is one, and this is the 31st' in \
        refusal(HEAD + rows + 'Kero;185;45;33\n')


def test_the_example_is_what_its_table_gives() -> None:
    table = (EXAMPLES / 'crude-curve-table.txt').read_bytes()
    converted = made(table, Wanted('20'), 'crude-curve-table.txt')
    case = read_case((EXAMPLES / 'crude-curve.csv').read_bytes())
    assert converted.case == case and case.basis.segments[0].name == 'CRUDE'
    assert TEN.tolerance == 0


def of_crude(table: str | bytes) -> bool:
    converted = made(table)
    return sorted(streams(table)) == sorted([*CRUDE, KERO]) and converted.case.basis.segments == OF_CRUDE


@pytest.mark.parametrize('rows', [
    'Crude\n  Desalter;25;125;310\n  Preheat;125;220;365\n  Furnace;220;360;440\nKero;185;45;33\n',
    'Crude\n;25;125;310\n;125;220;365\n;220;360;440\nKero;185;45;33\n',
    'Crude;25;360;379.9\n  Desalter;25;125;310\n  Preheat;125;220;365\n  Furnace;220;360;440\nKero;185;45;33\n',
    'Crude;25;360;379.9\n;25;125;310\n;125;220;365\n;220;360;440\nKero;185;45;33\n',
    'Cold streams\n  Crude\n    Desalter;25;125;310\n    Preheat;125;220;365\n    Furnace;220;360;440\n'
    'Hot streams\n  Kero;185;45;33\n'])
def test_rows_that_are_indented_below_a_name_are_its_segments(rows: str) -> None:
    assert of_crude(HEAD + rows)


def test_a_workbook_indents_by_its_format() -> None:
    names = ['Crude', 'Desalter', 'Preheat', 'Furnace', 'Kero']
    numbers: list[list[object]] = [[], [25, 125, 310], [125, 220, 365], [220, 360, 440], [185, 45, 33]]
    book = openpyxl.load_workbook(io.BytesIO(workbook([HEAD.strip().split(';')] + [
        [name, *row] for name, row in zip(names, numbers)])))
    assert not made(saved(book)).case.basis.segments
    for row in (3, 4, 5):
        book.active.cell(row, 1).alignment = Alignment(indent=1)
    assert of_crude(saved(book))


@pytest.mark.parametrize('rows', [
    # Below the name of a unit, of hot or of cold streams, and where their ends do not meet.
    'Unit 3\n  A;25;125;310\n  B;125;220;365\nKero;185;45;33\n',
    'Cold streams\n  A;25;125;310\n  B;125;220;365\nHot streams\n  Kero;185;45;33\n',
    'Preheat\n  A;25;125;310\n  B;120;220;365\nKero;185;45;33\n',
    '  A;25;125;310\n  B;125;220;365\n  Kero;185;45;33\n'])
def test_indented_rows_that_are_streams_of_their_own(rows: str) -> None:
    assert {name for _, name, *_ in streams(HEAD + rows)} == {'A', 'B', 'Kero'}


def test_what_a_whole_has_beside_its_heat_is_that_of_its_segments() -> None:
    head = 'Stream;Supply (°C);Target (°C);Duty (kW);HTC (kW/m2 K);DTmin contrib. (K)\n'
    case = made(head + 'Crude;25;220;65675;0.5;8\n;25;125;31000;;\n;125;220;34675;;\nKero;185;45;4620;;\n').case
    assert [case.source(name).contribution for name in ('Crude-1', 'Crude-2', 'Kero')] == [80, 80, 50]
    assert '#film,Crude-1,0.5,kW/m2 K,,,\n#film,Crude-2,0.5,kW/m2 K,,,\n' in print_case(case)


def test_a_whole_of_another_heat_than_its_segments_is_refused() -> None:
    rows = 'Crude;25;360;450\n;25;125;310\n;125;220;365\n;220;360;440\nKero;185;45;33\n'
    assert '`Crude` as a whole has 150750 kW, and its segments below it have 127275 kW' in refusal(HEAD + rows)
