"""A plant in a notebook: each method says what `pinch` printed, shows itself as HTML, and gives data frames."""
from __future__ import annotations

import dataclasses
import re
import sys
from decimal import Decimal
from fractions import Fraction
from typing import Any

import pytest
from conftest import EXAMPLES, example
from matplotlib.figure import Figure

from pinchdesk import Pinch, Plant, Refused, WordsError, print_case, read
from pinchdesk.plant.given import FileGiven, as_text
from pinchdesk.plant.plant_answer import PlantAnswer
from pinchdesk.program.answers import HeatFlow
from pinchdesk.program.verdicts import Accepted
from pinchdesk.report.sheet import Sheet

PREHEATER, NETWORK = EXAMPLES / 'preheater.csv', EXAMPLES / 'preheater-network.txt'
LEVELS = EXAMPLES / 'two-steam-levels.csv'


def plant() -> Plant:
    return read(PREHEATER)


def test_a_table_is_read_as_the_word_case_reads_it() -> None:
    made = read(EXAMPLES / 'table.xlsx', difference=10)
    same = read(example('table.xlsx'), 'table.xlsx', difference='10')
    assert made.text == same.text and print_case(made.case) in made.text
    targets = made.targets()
    assert targets.hot_kw == 20 and targets.cold_kw == 60 and targets.pinches_c == (Decimal(85),)
    with pytest.raises(WordsError, match='bytes need a name'):
        read(example('table.xlsx'))
    with pytest.raises(Refused, match='no contribution'):
        read(b'name,supply,target,CP\nA,150,60,2\n', 'plant.csv')


def test_a_case_file_is_told_and_takes_no_options() -> None:
    assert plant().text.encode() == example('preheater.csv') and 'tenths' in plant().notes[0]
    with pytest.raises(Refused, match='a case already'):
        read(PREHEATER, difference=10)
    with pytest.raises(Refused, match='preheater-network.txt'):
        read(NETWORK)
    with pytest.raises(Refused, match='cannot be read'):
        read('nowhere.xlsx')


def test_targets_flow_and_sweep_are_those_of_pinch(pinch: Pinch) -> None:
    text, levels = example('two-steam-levels.csv'), read(LEVELS)
    targets, flow, shown = pinch.targets(text), pinch.flow(text), levels.targets()
    assert (shown.text, levels.flow().text) == (targets.text, flow.text) and isinstance(flow, HeatFlow)
    assert shown.exact.hot_kw == Fraction(targets.hot, 1000) and shown.hot_kw == Decimal(targets.hot) / 1000
    assert shown.exact.pinches_c == tuple(Fraction(pinch_at, 10) for pinch_at in targets.pinches)
    assert levels.flow().cost == flow.cost and levels.flow().feasible
    assert levels.flow().uses_kw == {use.name: Decimal(use.heat) / 1000 for use in flow.uses}
    sweep, printed = levels.sweep(0, Decimal('20.0'), 2.4, workers=1), pinch.sweep(text, 0, 100, 12)
    assert sweep.text == printed.text and sweep.points[1].difference_k == Decimal('2.4')
    for point, row in zip(sweep.points, printed.points, strict=True):
        assert point.hot_kw * 1000 == row.hot and point.cost == row.cost


def test_without_a_heat_flow_there_is_no_cost() -> None:
    short_of_cooling = read(EXAMPLES / 'too-little-cooling.csv')
    flow, units = short_of_cooling.flow(), short_of_cooling.units()
    assert (flow.feasible, flow.cost, flow.uses_kw, units.least_exchangers) == (False, None, {}, None)
    assert 'No heat flow' in flow._repr_html_()


def test_an_audit_is_that_of_pinch(pinch: Pinch) -> None:
    verdict = pinch.audit(example('preheater.csv'), example('preheater-network.txt'))
    assert isinstance(verdict, Accepted)
    files: list[FileGiven] = [NETWORK, str(NETWORK), example('preheater-network.txt'), NETWORK.read_text()]
    for network in files:
        audit = plant().audit(network)
        assert audit.text == verdict.text and audit.accepted and audit.exact
        assert (audit.exact.hot_kw, audit.exact.cost) == (verdict.hot / 1000, verdict.cost)
        assert audit.excess_kw == Decimal(int(verdict.excess)) / 1000 and audit.floor == verdict.floor
    assert [sheet.title for sheet in plant().table(NETWORK).sheets][:1] == ['Exchangers']
    rejected = plant().audit('# nothing is done\n')
    assert (rejected.accepted, rejected.hot_kw, rejected.cost, rejected.exact) == (False, None, None, None)
    with pytest.raises(Refused, match='preheater.csv.*network line 1|network line 1'):
        plant().audit('no network\n')


def test_a_network_is_searched_and_given_back() -> None:
    tc3_plant = read(EXAMPLES / 'tc3.csv')
    found = tc3_plant.network(above='2 %', seconds=0.6)
    audit = tc3_plant.audit(found)
    assert audit.accepted and (audit.cost, audit.floor) == (found.cost, found.floor)
    assert audit.exact == found.exact and found.exact.cost <= found.exact.floor * Fraction(102, 100)
    assert audit.exchangers == found.exchangers and 'bound' in found.bounds
    with pytest.raises(WordsError, match='not both'):
        tc3_plant.network(above=2, cost=115000)
    with pytest.raises(WordsError, match='at least 0'):
        tc3_plant.network(above=-1)


def every_answer() -> list[PlantAnswer]:
    levels, begun = read(LEVELS), read(EXAMPLES / 'four-stream.csv')
    return [plant().targets(), plant().flow(), plant().sweep(0, 4, 2, 1), plant().audit(NETWORK),
            plant().table(NETWORK), plant().units(NETWORK), begun.rest(EXAMPLES / 'four-stream-begun.txt'),
            levels.prices(EXAMPLES / 'steam-prices.csv', 1), levels.what_if(EXAMPLES / 'changes.csv', workers=2),
            read(EXAMPLES / 'tc3.csv').tradeoff(EXAMPLES / 'tc3-network.txt', seconds=0.3),
            read(EXAMPLES / 'too-little-cooling.csv').flow()]


def test_each_answer_shows_itself_and_its_frames_are_columns_of_numbers() -> None:
    pandas = pytest.importorskip('pandas')
    for answer in every_answer():
        html = answer._repr_html_()
        for sheet in answer.sheets:
            frame = sheet.frame()
            assert list(frame.columns) == list(dict.fromkeys(frame.columns)) and '' not in frame.columns
            for heading in frame.columns:
                numbers = pandas.api.types.is_float_dtype(frame[heading])
                assert numbers or all(frame_cell is None or isinstance(frame_cell, str)
                                      for frame_cell in frame[heading])
            assert all(f'>{cell:f}</td>' in html for row in sheet.rows for cell in row if isinstance(cell, Decimal))
        assert answer.frame().equals(answer.sheets[0].frame())
        assert dataclasses.is_dataclass(answer) and str(answer)


def test_a_frame_says_beside_its_numbers_what_is_none() -> None:
    pytest.importorskip('pandas')
    frame: Any = Sheet('', ('', 'kW', 'kW'), (('a', Decimal('1.5'), None), ('b', 'no heat flow', Decimal(2)))).frame()
    assert list(frame.columns) == ['what', 'kW', 'kW, said', 'kW (3)']
    assert frame['kW'][0] == 1.5 and frame['kW'].isna()[1] and frame['kW, said'][1] == 'no heat flow'
    flow = plant().flow().frame('Heat flow, shifted °C')
    assert list(flow.columns) == ['hot', 'hot from °C', 'hot to °C', 'cold', 'cold from °C', 'cold to °C', 'kW']
    with pytest.raises(WordsError, match='there is no table x: there are Least cost'):
        plant().flow().frame('x')


def test_what_is_shown_is_escaped() -> None:
    sheet = Sheet('<b>', ('<i>', 'a&b'), (('<script>alert(1)</script>', Decimal('1')),))
    html = PlantAnswer(sheets=(sheet,), notes=('"<u>"',))._repr_html_()
    assert not re.search('<(b|i|u|script)>', html) and '&lt;script&gt;' in html and 'a&amp;b' in html


def test_prices_and_scenarios_and_the_rest(pinch: Pinch) -> None:
    levels, study = read(LEVELS), EXAMPLES / 'steam-prices.csv'
    made = levels.prices(study, 1)
    printed = pinch.prices(example('two-steam-levels.csv'), study.read_bytes())
    assert made.text == printed.text and len(made.costs) == sum(
        1 for answer in printed.answers if hasattr(answer, 'name'))
    changed = levels.what_if(EXAMPLES / 'changes.csv')
    for name, case in changed.cases.items():
        if name not in changed.faults:
            assert changed.exact.hot_kw[name] == Fraction(pinch.targets(case).hot, 1000)
    begun = read(EXAMPLES / 'four-stream.csv').rest(EXAMPLES / 'four-stream-begun.txt')
    assert begun.good and begun.case and begun.text == print_case(begun.case) and begun.exact
    assert begun.exact.excess_least_kw <= begun.exact.excess_most_kw


def test_the_rest_of_a_rejected_network_has_no_numbers() -> None:
    made = read(EXAMPLES / 'four-stream.csv').rest('exchanger E1 H4 C3 100000\npass H4 E1 h4a\npass C3 E1 c3a\n')
    assert (made.good, made.exact, made.hot_used_kw, made.excess_most_kw, made.case) == (False, None, None, None, None)


@pytest.mark.long
def test_pictures_show_themselves_and_a_page_is_a_text() -> None:
    levels = read(LEVELS)
    figures = [plant().curves(), plant().grid(NETWORK), plant().sweep(0, 4, 2, 1).figure(),
               levels.prices(EXAMPLES / 'steam-prices.csv', 1).figure('LP')]
    for shown in figures:
        assert isinstance(shown.figure, Figure) and '<svg' in shown._repr_svg_()
    assert figures[0].as_file('png').startswith(b'\x89PNG') and 'matplotlib.pyplot' not in sys.modules
    page = plant().page(NETWORK, NETWORK.read_text())
    assert page.startswith('<!') and 'preheater-network.txt' in page and 'network 2' in page


@pytest.mark.parametrize('number, text', [(10, '10'), (2.4, '2.4'), (10.125, '10.1250'), (Decimal('1E+1'), '10'),
                                          (Fraction(5, 2), '2.5'), (Fraction(1, 3), '1/3'), ('18 °F', '18 °F')])
def test_a_number_of_python_is_one_number(number: Any, text: str) -> None:
    assert as_text(number) == text


@pytest.mark.parametrize('number', [float('nan'), float('inf'), Decimal('1e999999'), True, [1]])
def test_what_is_no_number_is_refused(number: Any) -> None:
    with pytest.raises(WordsError):
        as_text(number)
