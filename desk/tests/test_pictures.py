"""Pictures by what is in them: every number that should be there, no two texts that lie on each other, none that is
cut, none on a curve."""
from __future__ import annotations

from dataclasses import replace
from fractions import Fraction
from functools import lru_cache
from itertools import combinations
from time import process_time

import pytest
from branched import THREE, THREE_NETWORK
from conftest import NETWORKS, example, few_of
from looking import bars_of, cut_off, dashed_of, on_lines, overlapping, pale, svg_texts, texts_of
from matplotlib.figure import Figure
from matplotlib.patches import PathPatch
from matplotlib.path import Path

from pinchdesk import Accepted, Pinch, Rejected, WordsError, completed, follow, read_case, read_network
from pinchdesk.analysis.follow import Followed, pinches_of
from pinchdesk.analysis.joined import joined
from pinchdesk.costs.area_target import asked_area
from pinchdesk.costs.network_areas import asked_duties
from pinchdesk.figures import grid_figure, prices_figure, rendered, site_figure, sweep_figure
from pinchdesk.figures.area_curves import area_figure, driving_forces_figure
from pinchdesk.figures.axes import plain
from pinchdesk.figures.grid.diagram import BARS
from pinchdesk.figures.grid.layout import plan_of
from pinchdesk.figures.labels import meets
from pinchdesk.figures.price_spans import BETWEEN_PRICES
from pinchdesk.figures.style import ACROSS, FAULT
from pinchdesk.formats.shown import Shown
from pinchdesk.formats.site import read_site
from pinchdesk.formats.whole_streams import parts_of
from pinchdesk.program.answers import Prices, Segment, SpanAnswer


@lru_cache(maxsize=64)
def grid(pinch: Pinch, content: bytes, text: bytes, most: int = 60) -> Figure:
    followed = follow(completed(read_case(content)), read_network(text))
    pinches = pinches_of(pinch.targets(content), pinch.curves(content))
    return grid_figure(followed, pinches, pinch.audit(content, text), most)


def plant_of(content: bytes, text: bytes) -> Followed:
    """A network with the streams and the exchangers of the plant, as it is drawn."""
    return joined(follow(completed(read_case(content)), read_network(text))).followed


def assert_readable(figure: Figure) -> None:
    assert overlapping(figure) == []
    assert cut_off(figure) == []
    assert pale(figure) == []


@pytest.mark.parametrize('name', few_of(NETWORKS))
def test_a_grid_diagram_has_every_number_and_nothing_on_another(name: str, pinch: Pinch) -> None:
    content, text = example(f'{name}.csv'), example(f'{name}-network.txt')
    figure, plant = grid(pinch, content, text), plant_of(content, text)
    assert_readable(figure)
    shown, texts = Shown(plant.case.basis), ' '.join(svg_texts(figure)).split()
    for passage in plant.passages:
        assert passage.exchanger.name in texts and shown.heat(passage.exchanger.duty) in texts
    for stream in plant.case.streams:
        wanted = [stream.name, shown.temperature(stream.supply), shown.temperature(stream.target),
                  shown.heat(stream.heat)]
        flows = ['latent' if part.latent else shown.flow(part.cp) for part in parts_of(stream)]
        assert {*wanted, flows[0], flows[-1]} <= set(texts)
    for pinch_at in pinch.targets(content).pinches:
        assert shown.temperature(pinch_at) in texts
    wide, high = figure.get_size_inches()
    assert wide <= 16.6 and high <= 16.6


@pytest.mark.parametrize('name', few_of(NETWORKS))
def test_no_bar_passes_through_the_label_of_another(name: str, pinch: Pinch) -> None:
    figure = grid(pinch, example(f'{name}.csv'), example(f'{name}-network.txt'))
    bars = [points for points, _ in bars_of(figure)]
    assert len(bars) == len(plant_of(example(f'{name}.csv'), example(f'{name}-network.txt')).passages)
    for text, box, drawn in texts_of(figure):
        if drawn.get_zorder() == 7:
            through = [bar for bar in bars if any(meets(box, one, other) for one, other in zip(bar, bar[1:]))]
            assert len(through) == 1, text


@pytest.mark.parametrize('name', few_of(NETWORKS))
def test_no_bar_and_no_pinch_passes_through_a_number(name: str, pinch: Pinch) -> None:
    figure = grid(pinch, example(f'{name}.csv'), example(f'{name}-network.txt'))
    bars = [points for points, _ in bars_of(figure)]
    for text, box, drawn in texts_of(figure):
        if drawn.get_zorder() != 7:
            assert not any(meets(box, one, other) for bar in bars for one, other in zip(bar, bar[1:])), text


def test_exchangers_between_utilities_have_columns_of_their_own(pinch: Pinch) -> None:
    content = b'contribution,,50,,,,\nhot,H,1000,500,10,,\nheater,A,2000,3000,9000,1,\nheater,B,1900,4000,9000,1,\n' \
        b'cooler,C,100,0,100000,1,\n'
    text = b'exchanger E1 H C 5000\nexchanger E2 A C 3000\nexchanger E3 B C 4000\npass H E1 h\nend h\n'
    figure = grid(pinch, content, text)
    assert isinstance(pinch.audit(content, text), Accepted)
    assert_readable(figure)
    assert len({bar[0][0] for bar, _ in bars_of(figure)}) == 3


def test_three_branches_have_their_own_shares(pinch: Pinch) -> None:
    figure = grid(pinch, THREE, THREE_NETWORK)
    assert isinstance(pinch.audit(THREE, THREE_NETWORK), Accepted)
    texts = svg_texts(figure)
    assert [share for share in texts if share.endswith('%')] == ['50 %', '30 %', '20 %']
    assert_readable(figure)


def test_a_missed_target_is_drawn_as_missed(pinch: Pinch) -> None:
    content = example('four-stream.csv')
    text = example('four-stream-network.txt')
    first = read_network(text).exchangers[-1]
    less = text.replace(f' {first.duty}\n'.encode(), f' {first.duty - 1000}\n'.encode(), 1)
    verdict = pinch.audit(content, less)
    assert isinstance(verdict, Rejected) and verdict.reason == 'MissedTarget'
    figure = grid(pinch, content, less)
    assert_readable(figure)
    red = [text for text, _, drawn in texts_of(figure) if drawn.get_color() == FAULT]
    found = Shown().temperature(verdict.found or Fraction(0), 3)
    assert any(found in label and 'target' in label for label in red)
    assert any(label.startswith('Rejected at ') for label in red)


OPEN = b"""exchanger E1 S1 S3 120000\nexchanger open-1 S1 COLD 60000\nexchanger open-2 S2 COLD 240000
exchanger open-3 HOT S3 142500\nexchanger open-4 HOT S4 225000\npass S1 E1 s1a\npass s1a open-1 s1b\nend s1b
pass S2 open-2 s2a\nend s2a\npass S3 E1 s3a\npass s3a open-3 s3b\nend s3b\npass S4 open-4 s4a\nend s4a
"""


def test_what_is_still_open_is_dashed(pinch: Pinch) -> None:
    figure = grid(pinch, example('tc3.csv'), OPEN)
    assert_readable(figure)
    dashed = [patch for patch in figure.findobj(PathPatch) if patch.get_zorder() == BARS
              and patch.get_linestyle() != 'solid']
    assert sum(list(patch.get_path().codes).count(Path.MOVETO) for patch in dashed) == 4
    assert 'still open' in svg_texts(figure)
    whole = grid(pinch, example('tc3.csv'), example('tc3-network.txt'))
    assert 'still open' not in svg_texts(whole)


def test_what_works_across_the_pinch_is_marked(pinch: Pinch) -> None:
    content, text = example('preheater.csv'), example('preheater-network.txt')
    figure = grid(pinch, content, text)
    assert any('↯ 1' in label for label in svg_texts(figure))
    marked = [colour for _, colour in bars_of(figure) if colour == ACROSS]
    assert len(marked) == sum('↯' in label for label in svg_texts(figure) if not label.startswith('on both sides'))


def test_of_several_pinches_each_is_drawn_and_streams_begin_there(pinch: Pinch) -> None:
    content = (b'contribution,,0,,,,\nhot,H,2000,1500,100,,\ncold,C,1500,2000,100,,\nhot,G,1000,500,100,,\n'
               b'cold,D,500,1000,100,,\ncold,T,2000,2500,10,,\nhot,B,500,200,10,,\ncold,M,1000,1500,10,,\n'
               b'hot,N,1500,1000,10,,\n')
    text = pinch.design(content).text.encode()
    targets = pinch.targets(content)
    assert len(targets.pinches) > 1
    figure = grid(pinch, content, text)
    texts = ' '.join(svg_texts(figure))
    for pinch_at in targets.pinches:
        assert f'pinch {Shown().temperature(pinch_at)} °C' in texts
    assert len(dashed_of(figure)) == len(targets.pinches)
    # Two numbers beside each other would be read as one.
    boxes = [(text, box.padded(3)) for text, box, _ in texts_of(figure) if text.isdigit()]
    assert [(one, other) for (one, box), (other, second) in combinations(boxes, 2) if box.overlaps(second)] == []


def chain(count: int) -> tuple[bytes, bytes]:
    """A hot and a cold stream with many exchangers one after the other."""
    content = f'contribution,,0,,,,\nhot,H,{count + 1000},1000,100,,\ncold,C,{500},{count + 500},100,,\n'.encode()
    lines = [f'exchanger E{at} H C 100' for at in range(count)]
    lines += [f'pass {f"h{at}" if at else "H"} E{at} h{at + 1}' for at in range(count)] + [f'end h{count}']
    lines += [f'pass {f"c{at}" if at else "C"} E{count - 1 - at} c{at + 1}' for at in range(count)] + [f'end c{count}']
    return content, '\n'.join(lines).encode()


def test_sixty_exchangers_have_room_on_a_sheet(pinch: Pinch) -> None:
    figure = grid(pinch, *chain(60))
    assert_readable(figure)
    assert figure.get_size_inches()[0] <= 16.6


def test_more_are_told_and_not_drawn(pinch: Pinch) -> None:
    with pytest.raises(WordsError, match='has 500 exchangers'):
        grid(pinch, *chain(500))


def test_the_plan_of_many_exchangers_takes_no_time_worth_telling(pinch: Pinch) -> None:
    content, text = chain(500)
    followed = follow(completed(read_case(content)), read_network(text))
    begun = process_time()
    plan = plan_of(followed, pinches_of(pinch.targets(content), pinch.curves(content)))
    assert process_time() - begun < 5 and len(plan.labels) == 500


def test_a_sweep_has_a_gap_in_its_cost_alone(pinch: Pinch) -> None:
    content = example('too-little-cooling.csv')
    sweep = pinch.sweep(content, 0, 100, 10)
    figure = sweep_figure(read_case(content), sweep)
    assert_readable(figure)
    lines = {line.get_label().split(':')[0]: line for axes in figure.axes for line in axes.get_lines()}
    gaps = [point.cost is None for point in sweep.points]
    assert any(gaps)
    assert list(lines['hot target'].get_ydata()) == [point.hot / 1000 for point in sweep.points]
    assert list(lines['cold target'].get_ydata()) == [point.cold / 1000 for point in sweep.points]
    if 'least cost (right scale)' in lines:
        assert [cost != cost for cost in lines['least cost (right scale)'].get_ydata()] == gaps


@pytest.mark.parametrize('name', few_of(('crude', 'three-levels', 'refinery'), ('three-levels',)))
def test_of_a_sweep_neither_the_legend_nor_the_title_of_an_axis_is_cut(name: str, pinch: Pinch) -> None:
    content = example(f'{name}.csv')
    figure = sweep_figure(read_case(content), pinch.sweep(content, 0, 200, 10))
    assert_readable(figure)
    assert any('least cost, ' in text for text in svg_texts(figure))


def test_large_costs_and_long_units_have_room(pinch: Pinch) -> None:
    """In a sweep, over a price, and over exchangers."""
    unit = 'a-money-with-a-long-name per year and plant'
    content = f'#cost,{unit},1,,,,\n'.encode() + example('crude.csv')
    case, answer = read_case(content), pinch.sweep(content, 0, 100, 20)
    points = tuple(replace(point, cost=(point.cost or 10) * 10 ** 6, hot=point.hot * 10 ** 4)
                   for point in answer.points)
    assert_readable(sweep_figure(case, replace(answer, points=points)))
    segments = tuple(Segment(at * 100000, (at + 1) * 100000, -10 ** 15, 10 ** 10) for at in range(-3, 3))
    assert_readable(prices_figure(case, Prices((SpanAnswer('LONGEST-NAME-16B', segments),))))


def test_where_both_targets_are_equal_both_lines_are_seen(pinch: Pinch) -> None:
    content = example('preheater.csv')
    axes = sweep_figure(read_case(content), pinch.sweep(content, 0, 100, 10)).axes[0]
    hot, cold = (next(line for line in axes.get_lines() if line.get_label().startswith(f'{side} target'))
                 for side in ('hot', 'cold'))
    assert list(hot.get_ydata()) == list(cold.get_ydata())
    assert hot.get_linewidth() >= 2 * cold.get_linewidth() and hot.get_zorder() <= cold.get_zorder()


@pytest.mark.parametrize(('number', 'text'), [
    (0, '0'), (-0.0000001, '0'), (-5000, '−5000'), (0.125, '0.125'), (9999.5, '9999.5'), (-99999.5, '−99\u202f999.5'),
    (-1234567, '−1\u202f234\u202f567')])
def test_a_number_of_a_scale_has_no_exponent_and_its_digits_in_groups(number: float, text: str) -> None:
    assert plain(number) == text


def test_prices_are_segments_with_their_ends(pinch: Pinch) -> None:
    content = example('two-steam-levels.csv')
    prices = pinch.prices(content, example('steam-prices.csv'))
    figure = prices_figure(read_case(content), prices)
    assert_readable(figure)
    texts = svg_texts(figure)
    for wanted in ('0: 55500', '3: 60000', '5: 60000', '1.5 kW', '20 kW', '18.5 kW', BETWEEN_PRICES,
                   'least cost; its slope is the heat of LP', 'least cost; its slope is the heat of HP'):
        assert wanted in texts
    with pytest.raises(WordsError, match='no span of CW'):
        prices_figure(read_case(content), prices, 'CW')


def test_a_site_has_its_boiler_its_cooling_and_its_mains(pinch: Pinch) -> None:
    content = example('three-plants.csv')
    figure = site_figure(read_site(content), pinch.site(content))
    assert_readable(figure)
    texts = svg_texts(figure)
    for wanted in ('Site profiles: boiler 25 kW, cooling 9 kW', 'HP 235 °C', 'HP 225 °C', 'LP 105 °C'):
        assert wanted in texts


def test_of_driving_forces_each_exchanger_has_its_name_and_no_line_passes_through_one(pinch: Pinch) -> None:
    content, text = example('reactors-cost.csv'), example('reactors-cost-network.txt')
    case = completed(read_case(content))
    figure = driving_forces_figure(asked_area(pinch, case), asked_duties(pinch, case, text))
    assert_readable(figure)
    assert {exchanger.name for exchanger in read_network(text).exchangers} <= set(svg_texts(figure))
    assert on_lines(figure, [line.get_xydata() for line in figure.axes[0].get_lines()]) == []


def test_areas_of_intervals_have_room_or_are_not_written(pinch: Pinch) -> None:
    content = example('crude.csv')
    case = completed(read_case(content))
    films = ''.join(f'#film,{source.name},0.8,kW/m2K,,,\n' for source in case.sources)
    ranges = '#range,FURN,430,429,C,,\n#range,AIR,60,61,C,,\n#range,CW,25,26,C,,\n'
    figure = area_figure(asked_area(pinch, completed(read_case((films + ranges).encode() + content))))
    assert_readable(figure)
    written = [text for text in svg_texts(figure) if text.endswith(' m²')]
    assert 3 <= len(written) <= 6 and written[0].startswith('Area by the formula: ')


def test_a_picture_is_the_same_each_time_in_each_form(pinch: Pinch) -> None:
    figure = grid(pinch, THREE, THREE_NETWORK)
    assert rendered(figure, 'svg') == rendered(figure, 'svg')
    assert rendered(figure, 'png').startswith(b'\x89PNG') and rendered(figure, 'pdf').startswith(b'%PDF')
