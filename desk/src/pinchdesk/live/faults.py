"""What is wrong with a network, in the units of its case and at its places: what the audit found first, and all other
exchangers that are too close or may not be there."""
from __future__ import annotations

from collections.abc import Sequence
from fractions import Fraction

from ..analysis.findings import REASONS
from ..formats.case import Side
from ..formats.shown import Shown
from ..program.verdicts import PlaceKind, Rejected
from .judgement import Stand
from .pieces import HandPlan
from .view import Mark

KINDS = {PlaceKind.EXCHANGER: 'exchanger', PlaceKind.STREAM: 'stream', PlaceKind.UTILITY: 'utility'}
APPROACHES = ('HotEndApproach', 'ColdEndApproach')


def faults_of(stand: Stand, plan: HandPlan) -> dict[str, str]:
    """What is wrong at exchangers, by their names, that which the audit found first."""
    verdict, too_close = stand.placed, set(plan.too_close)
    found: dict[str, str] = {}
    for name in wrong_names(stand, plan):
        if isinstance(verdict, Rejected) and is_found_at(verdict, name):
            found[name] = sentence_of(verdict, Shown(plan.case.basis), plan)
        else:
            found[name] = close_told(plan, name) if name in too_close and not is_forbidden(plan, name) else \
                f'{name}: {REASONS["Forbidden"]}'
    return found


def wrong_names(stand: Stand, plan: HandPlan) -> list[str]:
    """The exchangers at which something is wrong, that which the audit found first."""
    verdict = stand.placed
    if not isinstance(verdict, Rejected):
        return []
    first = [verdict.place.name] if verdict.place.kind is PlaceKind.EXCHANGER else []
    forbidden = [name for name in plan.placed if is_forbidden(plan, name)]
    return list(dict.fromkeys([*first, *forbidden, *plan.too_close]))


def is_found_at(verdict: Rejected, name: str) -> bool:
    return verdict.place.kind is PlaceKind.EXCHANGER and verdict.place.name == name


def is_forbidden(plan: HandPlan, name: str) -> bool:
    return plan.pairs[name] in plan.forbidden


def rejection_told(stand: Stand, plan: HandPlan, verdict: Rejected) -> tuple[str, tuple[Mark, ...]]:
    """Why a network is rejected, with the names of what else is wrong, and all of its places."""
    text, marks = sentence_of(verdict, Shown(plan.case.basis), plan), marks_of(verdict)
    others = [name for name in wrong_names(stand, plan) if Mark('exchanger', name) not in marks]
    if others:
        words = 'too close' if verdict.reason in APPROACHES and set(others) <= set(plan.too_close) else 'wrong'
        text += f'; {listed(others)} {"is" if len(others) == 1 else "are"} {words} too'
    return text, (*marks, *(Mark('exchanger', name) for name in others))


def listed(names: Sequence[str]) -> str:
    *first, last = names
    return f'{", ".join(first)} and {last}' if first else last


def sentence_of(rejected: Rejected, shown: Shown, plan: HandPlan | None = None) -> str:
    """Why a network is rejected; with its plan also how close an exchanger is."""
    place = rejected.place
    if plan is not None and rejected.reason in APPROACHES and place.name in plan.too_close:
        return close_told(plan, place.name, cold_end=rejected.reason == 'ColdEndApproach')
    found, wanted = (told_number(rejected.reason, number, shown) for number in (rejected.found, rejected.wanted))
    words = REASONS.get(rejected.reason, rejected.reason).format(found=found, wanted=wanted)
    if place.kind is PlaceKind.EXCHANGER:
        return f'{place.name}: {words}' if rejected.reason == 'Forbidden' else f'{place.name} is {words}'
    return f'{place}: {words}'


def close_told(plan: HandPlan, name: str, cold_end: bool | None = None) -> str:
    """That an exchanger is too close: at which end, its temperatures there, and by how much."""
    shown, approach, ends = Shown(plan.case.basis), plan.approach(name), plan.differences(name)
    at = ends[0] >= approach if cold_end is None else cold_end
    hot, cold = plan.ends(name, Side.HOT)[at], plan.ends(name, Side.COLD)[not at]
    side, moves = ('cold', ('leaves', 'enters')) if at else ('hot', ('enters', 'leaves'))
    return (f'{name} is too close at its {side} end: the hot side {moves[0]} at {shown.with_its_unit(hot)}, the cold '
            f'side {moves[1]} at {shown.with_its_unit(cold)}, {below(shown, ends[at], approach)}, and '
            f'{shown.with_degrees(approach)} are needed')


def below(shown: Shown, difference: Fraction, wanted: int) -> str:
    """A difference that is too small, with so many digits that it is seen to be."""
    told = next((text for places in (2, 4, 6) for text in [shown.difference(difference, places)]
                 if text != shown.difference(wanted)), f'less than {shown.difference(wanted)}')
    return f'{told} {shown.difference_unit}'


def told_number(reason: str, number: Fraction | None, shown: Shown) -> str:
    if number is None:
        return ''
    if reason in (*APPROACHES, 'MissedTarget'):
        return f'{shown.temperature(number, 3)} {shown.temperature_unit}'
    if reason == 'UtilityRange':
        return f'{shown.heat(number)} {shown.heat_unit}'
    return f'{shown.flow(number)} {shown.units.flow}'


def marks_of(rejected: Rejected) -> tuple[Mark, ...]:
    kind = KINDS.get(rejected.place.kind)
    return (Mark(kind, rejected.place.name),) if kind and rejected.place.name else ()
