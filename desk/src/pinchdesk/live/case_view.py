"""The case as the page shows it: its rows, its units, its least approach and its curves."""
from __future__ import annotations

from collections.abc import Sequence
from fractions import Fraction
from math import ceil

from ..analysis.pinch_places import side_below, temperatures_at
from ..formats.case import ANY_HEAT, Case, Side, Stream, Utility
from ..formats.shown import Shown
from ..formats.whole_streams import WholeStream, whole_streams
from ..program.answers import Point
from .judgement import Whole
from .pieces import HandPlan
from .view import CurvePicture, Difference, ForbidRow, PinchMark, StreamRow, UnitNames, UtilityRow

# Numbers of cells are read again: they have as many places as they need.
PLACES = 9
# How far the slider goes, in degrees of the case, where the least approach is small.
WIDTH = 60


def unit_names(case: Case) -> UnitNames:
    shown = Shown(case.basis)
    units = shown.units
    return UnitNames(units.temperature, units.difference, shown.heat_unit, units.flow, shown.price_unit,
                     shown.cost_unit)


def difference_of(case: Case) -> Difference:
    """The least approach: twice the contribution of the case."""
    shown = Shown(case.basis)
    value = shown.units.shown_difference(2 * case.contribution)
    own = [source.name for source in case.sources if source.contribution != case.contribution]
    told = f'{", ".join(own)} with contributions of their own move by as much' if own else ''
    # The end of the slider is another one only where the value lies beyond it: a thumb that is let go does not jump.
    most, finest = Fraction(WIDTH), shown.units.shown_difference(2)
    while most < value:
        most *= 2
    return Difference(shown.difference(2 * case.contribution, PLACES), float(value), 0.0, float(most),
                      float(finest * ceil(1 / finest)), told)


def stream_rows(case: Case) -> tuple[StreamRow, ...]:
    """The streams of the plant: one of several segments is a row with these in it."""
    shown = Shown(case.basis)
    return tuple(whole_row(case, stream, shown) if isinstance(stream, WholeStream) else stream_row(case, stream, shown)
                 for stream in whole_streams(case))


def whole_row(case: Case, stream: WholeStream, shown: Shown) -> StreamRow:
    segments = tuple(stream_row(case, segment, shown) for segment in stream.segments)
    return StreamRow(f'whole {stream.name}', stream.name, stream.side.value, segments[0].supply,
                     shown.temperature(stream.target, PLACES), '', '', shown.heat(stream.heat), '', segments)


def stream_row(case: Case, stream: Stream, shown: Shown) -> StreamRow:
    latent = stream.latent
    return StreamRow(f'stream {stream.name}', stream.name, stream.side.value, shown.temperature(stream.supply, PLACES),
                     '' if latent else shown.temperature(stream.target, PLACES),
                     '' if latent else shown.flow(stream.cp, PLACES),
                     shown.heat(stream.load, PLACES) if latent else '', shown.heat(stream.heat),
                     own_contribution(case, stream, shown))


def own_contribution(case: Case, source: Stream | Utility, shown: Shown) -> str:
    same = source.contribution == case.contribution
    return '' if same else shown.difference(source.contribution, PLACES)


def utility_rows(plan_or_case: HandPlan | Case) -> tuple[UtilityRow, ...]:
    """The utilities with what is used of them, where there is a plan."""
    case = plan_or_case.case if isinstance(plan_or_case, HandPlan) else plan_or_case
    used = plan_or_case.used(True) if isinstance(plan_or_case, HandPlan) else {}
    return tuple(utility_row(case, utility, used.get(utility.name, Fraction(0))) for utility in case.utilities)


def utility_row(case: Case, utility: Utility, used: Fraction) -> UtilityRow:
    shown = Shown(case.basis)
    level = '' if utility.invented else shown.temperature(utility.level, PLACES)
    return UtilityRow(f'utility {utility.name}', utility.name, utility.side.value, level,
                      shown.heat(utility.least, PLACES) if utility.least else '',
                      '' if utility.most == ANY_HEAT else shown.heat(utility.most, PLACES), shown.price(utility.price),
                      own_contribution(case, utility, shown), shown.heat(used), utility.invented)


def forbid_rows(case: Case) -> tuple[ForbidRow, ...]:
    return tuple(ForbidRow(f'forbid {pair.hot} {pair.cold}', pair.hot, pair.cold) for pair in case.forbids)


def corners(points: Sequence[Point], shown: Shown, start: int = 0) -> tuple[tuple[float, float], ...]:
    """Points of a curve in the units that are shown, for a picture."""
    scale = shown.basis.scale
    return tuple((float(shown.units.shown_heat(Fraction(point.heat + start) / scale)),
                  float(shown.units.shown_temperature(point.temperature))) for point in points)


def curve_picture(whole: Whole) -> CurvePicture:
    """The composite curves at the targets, and the grand one."""
    case, targets, curves = whole.case, whole.targets, whole.curves
    shown = Shown(case.basis)
    units = unit_names(case)
    hot, cold, grand = (corners(points, shown, start) for points, start in
                        ((curves.hot, 0), (curves.cold, targets.cold), (curves.net, 0)))
    hot_end, cold_end = (max((heat for heat, _ in curve), default=0.0) for curve in (hot, cold))
    cold_start = min((heat for heat, _ in cold), default=hot_end)
    return CurvePicture(hot, cold, grand, pinch_marks(whole), f'hot {shown.heat(targets.hot)} {units.heat}',
                        f'cold {shown.heat(targets.cold)} {units.heat}', hot_end, max(hot_end, cold_end), 0.0,
                        cold_start, f'heat in {units.heat}', f'temperature in {units.temperature}',
                        f'shifted temperature in {units.temperature}')


def pinch_marks(whole: Whole) -> tuple[PinchMark, ...]:
    made: list[PinchMark] = []
    shown = Shown(whole.case.basis)
    unit = shown.temperature_unit
    for pinch in whole.pinches:
        hot, cold = (temperatures_at(whole.case, side, pinch.temperature) for side in Side)
        heat = Fraction(side_below(whole.case, Side.HOT, pinch)) / whole.case.basis.scale
        made.append(PinchMark(float(shown.units.shown_heat(heat)), float(shown.units.shown_temperature(hot.high)),
                              float(shown.units.shown_temperature(cold.low)),
                              float(shown.units.shown_temperature(pinch.temperature)),
                              f'pinch: hot {hot.told(shown)} {unit}, cold {cold.told(shown)} {unit}'))
    return tuple(made)
