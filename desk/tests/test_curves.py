"""Curves: the pinch where it is, utilities that stand on the grand curve, balanced curves that begin and end together;
and that all of it can be read."""
from __future__ import annotations

from collections.abc import Callable
from dataclasses import replace
from fractions import Fraction
from functools import lru_cache

import pytest
from conftest import CASES, example, few_of, tried
from hypothesis import given
from hypothesis import strategies as some
from looking import cut_off, line_of, lines_named, overlapping, pale, svg_texts, texts_of
from matplotlib.figure import Figure

from pinchdesk import Case, Cut, Pinch, Side, Stream, Utility, completed, print_case, read_case
from pinchdesk.analysis.pinch_places import temperatures_at
from pinchdesk.figures import balanced_figure, composite_figure, curves_figure, grand_figure
from pinchdesk.figures.labels import meets
from pinchdesk.figures.utilities_used import Drawn, balanced, drawn_of, on_curve, stairs
from pinchdesk.formats.shown import Shown
from pinchdesk.program.answers import Curves, HeatFlow, Targets
from pinchdesk.report.answer_sheets import targets_sheets

FURNACE = b"""contribution,,50,,,,
cold,C1,200,1350,200,,
hot,H2,1700,600,300,,
cold,C3,800,1400,400,,
hot,H4,1500,300,150,,
heater,FURNACE,9000,0,1000000000000,3,
cooler,CW,100,0,1000000000000,1,
"""
# The vapour lies below its pinch, so that this is at the end of its level piece.
VAPOUR = b'contribution,,50,,,,\nhot,vapour,1000,1000,0,8000,\ncold,liquid,300,1200,10,,\n'
# A pinch that streams with contributions of their own pass at other temperatures.
SHIFTS = b"""contribution,,50,,,,
hot,H,2000,500,10,,150
cold,B,1000,1000,0,9000,25
cold,C,300,1900,4,,
"""


Drawing = Callable[[Case, Targets, Curves, HeatFlow | Cut], Figure]


def answered(pinch: Pinch, content: bytes) -> Drawn:
    case = completed(read_case(content))
    return drawn_of(case, pinch.targets(content), pinch.curves(content), pinch.flow(content))


@lru_cache(maxsize=64)
def curves(pinch: Pinch, content: bytes) -> Figure:
    case = completed(read_case(content))
    return curves_figure(case, pinch.targets(content), pinch.curves(content), pinch.flow(content))


def assert_readable(figure: Figure) -> None:
    assert overlapping(figure) == []
    assert cut_off(figure) == []
    assert pale(figure) == []


@pytest.mark.parametrize('name', few_of(CASES, ('two-steam-levels',)))
def test_curves_show_targets_and_pinches_on_both_scales(name: str, pinch: Pinch) -> None:
    content = example(f'{name}.csv')
    figure, case, targets = curves(pinch, content), read_case(content), pinch.targets(content)
    assert_readable(figure)
    shown, texts = Shown(case.basis), ' '.join(svg_texts(figure))
    for target in (targets.hot, targets.cold):
        assert f'{shown.heat(target)} kW' in texts
    for pinch_level in targets.pinches:
        assert f'pinch {shown.temperature(pinch_level)} °C' in texts
        hot, cold = (temperatures_at(case, side, pinch_level).told(shown) for side in (Side.HOT, Side.COLD))
        assert f'hot {hot} °C, cold {cold} °C' in texts


@pytest.mark.parametrize('name', few_of(('refinery', 'column', 'too-little-cooling'), ('column',)))
@pytest.mark.parametrize('drawing', [composite_figure, balanced_figure, grand_figure])
def test_each_diagram_alone_can_be_read(name: str, drawing: Drawing, pinch: Pinch) -> None:
    content = example(f'{name}.csv')
    case, flow = completed(read_case(content)), pinch.flow(content)
    figure = drawing(case, pinch.targets(content), pinch.curves(content), flow)
    assert_readable(figure)
    assert ('(no heat flow: utilities are left out)' in svg_texts(figure)) == isinstance(flow, Cut)


@pytest.mark.parametrize(('content', 'hot', 'cold'), [
    (example('column.csv'), ('123.5', 123.5), ('116', 116)),
    (VAPOUR, ('100', 100), ('90', 90)),
    (example('tc3.csv'), ('90', 90), ('70', 70)),
    (SHIFTS, ('117.5', 117.5), ('97.5 to 100', 97.5)),
])
def test_a_pinch_is_where_it_is(content: bytes, hot: tuple[str, float], cold: tuple[str, float], pinch: Pinch) -> None:
    drawn = answered(pinch, content)
    [place] = drawn.pinches
    sheet = targets_sheets(drawn.case, drawn.targets)[1]
    assert [str(cell) for cell in sheet.rows[0]] == [drawn.shown.temperature(place.temperature), hot[0], cold[0]]
    # Both sides have the same heat below it, and there it is drawn, with the curves as far apart as printed.
    heat = drawn.below(Side.HOT, place)
    assert heat == drawn.below(Side.COLD, place)
    [line] = lines_named(curves(pinch, content).axes[0], 'pinch')
    assert [point[0] * 1000 for point in line] == [heat, heat]
    assert [point[1] for point in line] == [hot[1], cold[1]]


def test_a_vapour_below_its_pinch_has_it_at_its_end(pinch: Pinch) -> None:
    [line] = lines_named(curves(pinch, VAPOUR).axes[0], 'pinch')
    assert line[0] == (8.0, 100.0)


@pytest.mark.parametrize('name', few_of(CASES))
def test_balanced_curves_begin_and_end_together(name: str, pinch: Pinch) -> None:
    content = example(f'{name}.csv')
    drawn, flow = answered(pinch, content), pinch.flow(content)
    if not isinstance(flow, HeatFlow):
        return
    case = drawn.case
    hot, cold = (line_of(curves(pinch, content).axes[1], f'{side.value} streams') for side in Side)
    assert hot[0][0] == cold[0][0] == 0 and hot[-1][0] == cold[-1][0]
    heats = [sum(stream.heat for stream in case.streams if stream.side is side)
             + sum(flow.use(utility.name) for utility in case.utilities if utility.side is side) for side in Side]
    assert heats[0] == heats[1] == hot[-1][0] * 1000


def test_plain_curves_begin_at_the_target_and_have_no_utilities(pinch: Pinch) -> None:
    content = example('three-levels.csv')
    drawn = answered(pinch, content)
    assert drawn.used(Side.COLD) > drawn.targets.cold
    axes = curves(pinch, content).axes[0]
    assert line_of(axes, 'cold streams')[0][0] * 1000 == drawn.targets.cold
    assert lines_named(axes, 'utility') == []


def assert_stands(drawn: Drawn) -> None:
    """The utilities stand left of the grand curve at each temperature, and the hot balanced curve above the cold
    one."""
    net = {point.temperature: (point.heat, point.heat) for point in drawn.curves.net}
    for point in drawn.curves.net:
        net[point.temperature] = (min(net[point.temperature][0], point.heat),
                                  max(net[point.temperature][1], point.heat))
    spans = stairs(drawn)
    # Just above and just below a temperature.
    for temperature in {*net, *(span.temperature for span in spans)}:
        for upto in (True, False):
            at = drawn.targets.hot + sum((span.last - span.first) for span in spans if span.temperature > temperature
                                         or not upto and span.temperature == temperature)
            assert at <= heat_of_grand(drawn, temperature, upto)
    assert not spans or spans[-1].last == drawn.targets.cold
    hot, cold = (balanced(points, [use for use in drawn.uses if use.utility.side is side])[0]
                 for side, points in ((Side.HOT, drawn.curves.hot), (Side.COLD, drawn.curves.cold)))
    for heat in {corner[0] for corner in (*hot, *cold)}:
        warm, cool = on_curve(hot, heat, Fraction(-10 ** 6)), on_curve(cold, heat, Fraction(-10 ** 6))
        assert warm is not None and cool is not None and warm >= cool


def heat_of_grand(drawn: Drawn, temperature: int, upto: bool) -> Fraction:
    """The grand curve just above a temperature, or just below it."""
    points = drawn.curves.net
    heats = [point.heat for point in points if point.temperature == temperature]
    if heats:
        return Fraction(heats[0] if upto else heats[-1])
    hotter = [point for point in points if point.temperature > temperature]
    if not hotter or len(hotter) == len(points):
        return Fraction(points[0].heat if not hotter else points[-1].heat)
    one, other = hotter[-1], points[len(hotter)]
    return one.heat + Fraction(one.temperature - temperature, one.temperature - other.temperature) \
        * (other.heat - one.heat)


@pytest.mark.parametrize('name', CASES)
def test_utilities_stand_on_the_grand_curve(name: str, pinch: Pinch) -> None:
    drawn = answered(pinch, example(f'{name}.csv'))
    if drawn.feasible:
        assert_stands(drawn)


def test_what_is_used_beyond_the_targets_is_left_of_the_axis_and_told(pinch: Pinch) -> None:
    content = example('three-levels.csv')
    drawn, figure = answered(pinch, content), curves(pinch, content)
    assert drawn.beyond == 7000000 and min(span.last for span in stairs(drawn)) == -drawn.beyond
    texts = svg_texts(figure)
    assert 'used beyond the targets: 7000 kW' in texts
    assert any('hot utility 14500 kW, cold utility 17000 kW' in text for text in texts)


def test_a_legend_has_the_utilities_from_the_hottest_down_and_says_what_the_dotted_line_is(pinch: Pinch) -> None:
    drawn = answered(pinch, example('three-levels.csv'))
    for drawing, first in ((balanced_figure, 'hot streams'), (grand_figure, 'used beyond the targets: 7000 kW')):
        figure = drawing(drawn.case, drawn.targets, drawn.curves, pinch.flow(example('three-levels.csv')))
        told = [text.get_text() for text in figure.axes[0].get_legend().get_texts()]
        names = [text.split(' at ')[0] for text in told if ' at ' in text]
        assert told[0] == first and names == ['HP', 'MP', 'LP', 'BFW', 'CW']
    assert 'heat flows down between this line and the curve' in told


def test_raised_steam_touches_the_grand_curve(pinch: Pinch) -> None:
    drawn = answered(pinch, example('three-levels.csv'))
    raised = next(span for span in stairs(drawn) if span.used.utility.name == 'BFW')
    assert raised.last == heat_of_grand(drawn, raised.temperature, True) == 5000000


@pytest.mark.parametrize('name', few_of(('four-stream', 'three-levels', 'refinery'), ('three-levels',)))
def test_labels_do_not_lie_on_curves(name: str, pinch: Pinch) -> None:
    figure = curves(pinch, example(f'{name}.csv'))
    for axes in figure.axes[:3]:
        labels = [box for _, box, label in texts_of(figure) if label in axes.texts]
        for line in lines_named(axes, 'curve'):
            points = axes.transData.transform(line)
            for box in labels:
                assert not any(meets(box, one, other) for one, other in zip(points, points[1:]))


@pytest.mark.long
def test_a_furnace_does_not_squeeze_the_curves(pinch: Pinch) -> None:
    figure = curves(pinch, FURNACE)
    assert_readable(figure)
    axes = figure.axes[1]
    heights = [axes.transAxes.inverted().transform(axes.transData.transform((0, at)))[1] for at in (20, 170, 900)]
    assert heights[1] - heights[0] > 0.4 and heights[2] <= 1
    assert any('FURNACE at 900 °C (895 °C shifted): 20 kW' in text for text in svg_texts(figure))


def streams() -> some.SearchStrategy[list[Stream]]:
    temperature, share = some.integers(-2000, 20000), some.sampled_from([0, 25, 50, 150, 1000])
    sensible = some.builds(lambda one, other, cp, own: Stream(
        '', Side.HOT if one > other else Side.COLD, one, other + (one == other), cp, 0, own),
        temperature, temperature, some.integers(1, 100000), share)
    latent = some.builds(lambda side, level, load, own: Stream('', side, level, level, 0, load, own),
                         some.sampled_from([*Side]), temperature, some.integers(1, 10 ** 10), share)
    return some.lists(some.one_of(sensible, latent), min_size=1, max_size=6)


def utilities() -> some.SearchStrategy[list[Utility]]:
    one = some.builds(Utility, some.just(''), some.sampled_from([*Side]), some.integers(-2000, 25000), some.just(0),
                      some.sampled_from([0, 5 * 10 ** 6, 10 ** 12]), some.integers(-10, 10),
                      some.sampled_from([0, 50, 1000]))
    return some.lists(one, max_size=12)


def named(some_streams: list[Stream], added: list[Utility]) -> Case:
    return Case(50, tuple(replace(stream, name=f'S{at}') for at, stream in enumerate(some_streams)),
                tuple(replace(utility, name=f'UTILITY-{at:08}') for at, utility in enumerate(added)))


@tried(2, 6)
@given(streams(), utilities())
def test_whatever_the_case_is_the_pictures_are_right_and_can_be_read(some_streams: list[Stream],
                                                                     added: list[Utility]) -> None:
    pinch, content = Pinch(), print_case(named(some_streams, added)).encode()
    drawn = answered(pinch, content)
    for place in drawn.pinches:
        assert drawn.below(Side.HOT, place) == drawn.below(Side.COLD, place)
    if drawn.feasible:
        assert_stands(drawn)
    assert_readable(curves(pinch, content))
