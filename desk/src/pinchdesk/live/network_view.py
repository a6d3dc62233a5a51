"""The network as the page shows it beside the grid: the verdict in words, the score, the table of exchangers."""
from __future__ import annotations

from dataclasses import dataclass, field
from fractions import Fraction

from ..formats.case import Side
from ..formats.range_parts import cost_of_ranges, range_costs
from ..formats.shown import Shown
from ..program.verdicts import Accepted, Place, PlaceKind, Rejected, TooFine, Verdict
from .areas import Areas
from .faults import rejection_told
from .grid_view import Lines, place_of
from .judgement import Reachable, Stand, Whole, count_placed, money
from .pieces import HandPlan, cut
from .view import ExchangerRow, Judgement, ScoreView


@dataclass(frozen=True)
class Standing:
    """All that is known of a plan: the case, how it stands, what it can reach, how many exchangers the rule needs for
    the whole and for what is left, what that is as a case, and areas."""

    whole: Whole
    plan: HandPlan
    stand: Stand
    reach: Reachable | None
    rule: int
    left: int
    of_left: Whole | None = None
    areas: Areas = field(default_factory=Areas)


def judgement_of(standing: Standing) -> Judgement:
    """The verdict in words."""
    plan, stand, shown = standing.plan, standing.stand, Shown(standing.plan.case.basis)
    unit = shown.heat_unit
    if not plan.placed and not isinstance(stand.placed, Rejected):
        hot, cold = shown.heat(standing.whole.targets.hot), shown.heat(standing.whole.targets.cold)
        return Judgement('nothing-placed', 'Nothing placed',
                         f'The targets are {hot} {unit} of hot and {cold} {unit} of cold utility.')
    if isinstance(stand.placed, Rejected):
        return Judgement('rejected', 'Rejected', *rejection_told(stand, plan, stand.placed))
    if isinstance(stand.placed, TooFine):
        return Judgement('faulty', 'Too fine', 'A number has more digits than can be judged: choose rounder duties or '
                         'shares.')
    if plan.open:
        # As many as the grid has dashed ones.
        count = len(cut(plan, standing.whole.pinches).open)
        told = f'{count} open piece{"s" if count > 1 else ""}; what is placed is right. {reach_told(standing, shown)}'
        return Judgement('unfinished', 'Unfinished', told.strip())
    assert isinstance(stand.verdict, Accepted)
    excess = stand.verdict.excess
    told = f'{count_placed(plan)} exchangers, {shown.heat(stand.verdict.hot)} {unit} of hot utility: '
    told += f'{shown.heat(excess)} {unit} above the target.' if excess else 'the target.'
    return Judgement('accepted', 'Accepted', told)


def reach_told(standing: Standing, shown: Shown) -> str:
    """What can still be reached, in a sentence."""
    reach = standing.reach
    if reach is None:
        return ''
    above = reach.most - standing.whole.targets.hot
    most = '' if reach.exact else 'at most '
    if not above:
        return 'The target can still be reached.'
    return f'{most}{shown.heat(reach.most)} {shown.heat_unit} of hot utility can still be reached: ' \
           f'{most}{shown.heat(above)} above the target.'


def score_of(standing: Standing) -> ScoreView:
    """Target, what can be reached, as it stands; units beside the rule, cost beside the floor."""
    plan, whole, reach = standing.plan, standing.whole, standing.reach
    shown, accepted, beside = Shown(plan.case.basis), standing.stand.accepted, cost_of_ranges(plan.case)
    cold_more = whole.targets.cold - whole.targets.hot
    placed, left, rule = count_placed(plan), standing.left, standing.rule
    units = f'{placed} + {left} = {placed + left}; the rule: {rule}' if left else f'{placed}; the rule: {rule}'
    right = isinstance(standing.stand.placed, Accepted)
    judged = accepted or standing.stand.placed
    rejected = isinstance(judged, Rejected)
    stands_hot = judged.hot if isinstance(judged, Accepted) else hot_used(plan) if rejected else None
    # Where no utility of the case has a price a cost says nothing that the heat does not.
    priced = accepted if any(utility.price and not utility.invented for utility in plan.case.utilities) else None
    known = right and reach is not None
    reached = reach.most if reach is not None and right else None
    return ScoreView(
        shown.heat(whole.targets.hot), shown.heat(whole.targets.cold),
        shown.heat(reached) if reached is not None else '',
        shown.heat(reached + cold_more) if reached is not None else '',
        shown.heat(stands_hot) if stands_hot is not None else '',
        shown.heat(stands_hot + cold_more) if stands_hot is not None else '',
        shown.heat(max(Fraction(0), reached - whole.targets.hot)) if reached is not None else '',
        bar_of_score(whole, reached, stands_hot), placed, left, rule, units,
        money(shown, priced.cost + beside) if priced else '',
        money(shown, priced.floor + beside) if priced else '', notes_of(standing, known))


def hot_used(plan: HandPlan) -> Fraction:
    """The hot utility of a network as it stands, open pieces too, whatever is wrong with it."""
    used = plan.used()
    return sum((used[utility.name] for utility in plan.case.utilities if utility.side is Side.HOT), Fraction(0))


def notes_of(standing: Standing, known: bool) -> tuple[str, ...]:
    areas = standing.areas
    cost = f', {areas.cost} with the utilities' if areas.cost else ''
    notes = [f'area {areas.area}{cost}'] if areas.area else []
    notes += [areas.missing] if areas.missing else []
    case = standing.plan.case
    if case.basis.ranges and standing.stand.accepted:
        shown = Shown(case.basis)
        named = ', '.join(f'{name} {money(shown, cost)}' for name, cost in range_costs(case))
        notes.append(f'cost and floor have in them: {named}, which the program does not know')
    if standing.reach is not None and not standing.reach.exact:
        notes.append('what can be reached is rounded up: what is left has finer numbers than a case can hold')
    if standing.reach is None and known is False and standing.plan.open:
        notes.append('what can be reached is not known: what is left is more than a case can hold')
    return tuple(notes)


def bar_of_score(whole: Whole, reached: Fraction | None, stands: Fraction | None) -> tuple[float, float, float]:
    """Target, reachable and present as parts of the largest of them, with a margin."""
    numbers = [Fraction(whole.targets.hot), reached or Fraction(0), stands or Fraction(0)]
    most = max(numbers) * Fraction(21, 20) or Fraction(1)
    first, second, third = (float(number / most) for number in numbers)
    return first, second, third


def exchanger_rows(lines: Lines, standing: Standing) -> tuple[ExchangerRow, ...]:
    """The exchangers that stand, as a table."""
    return tuple(exchanger_row(lines, name, standing.stand.verdict, standing.areas.of.get(name, ''))
                 for name in lines.plan.placed)


def exchanger_row(lines: Lines, name: str, verdict: Verdict, area: str) -> ExchangerRow:
    plan, shown = lines.plan, lines.shown
    hot, cold = plan.pairs[name]
    ends = [*side_ends(plan, name, Side.HOT, shown), *side_ends(plan, name, Side.COLD, shown)]
    invented = any(utility.invented for utility in [plan.utility_of(name)] if utility)
    loss = verdict.penalty(Place(PlaceKind.EXCHANGER, name)) if isinstance(verdict, Accepted) else None
    where, _ = place_of(lines, name)
    return ExchangerRow(name, hot, cold, shown.heat(plan.duties[name]), ends[0], ends[1], ends[2], ends[3],
                        '' if invented else shown.difference(min(plan.differences(name))),
                        shown.difference(plan.approach(name)), where, shown.heat(loss) if loss is not None else '',
                        area, lines.faults.get(name, ''))


def side_ends(plan: HandPlan, name: str, side: Side, shown: Shown) -> list[str]:
    """The temperatures at both ends of a side; none of a utility that stands in."""
    utility = plan.utility_of(name)
    if utility is not None and utility.side is side and utility.invented:
        return ['', '']
    return [shown.temperature(temperature) for temperature in plan.ends(name, side)]
