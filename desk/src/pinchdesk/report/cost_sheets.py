"""Targets of area, capital and annual cost as tables, and cost over the least difference. An enclosure is shown with
the digits on which both of its ends agree."""
from __future__ import annotations

from collections.abc import Sequence
from decimal import Decimal
from fractions import Fraction
from math import floor

from ..costs.annual import AnnualCost
from ..costs.area_floor import AreaFloor
from ..costs.area_target import AreaTarget
from ..costs.cost_data import CostData
from ..costs.cost_target import CostTarget
from ..costs.enclosure import Enclosure, leading_zeros
from ..costs.network_costs import NetworkCosts
from ..costs.supertarget import LeastCost, Supertarget, SupertargetPoint
from ..formats.shown import Shown, decimal
from ..text import printable
from .facts import Fact, FactRow, FactTable
from .sheet import Cell, Sheet

NO_BOUND = 'coefficients differ, so the area by the formula is no bound: a network that crosses the curves may have ' \
           'less'
BOUND = 'all coefficients are equal: no network with the same utilities has less area than the formula'


def certain(number: Enclosure, places: int) -> Cell:
    """A number with at most so many decimals, of the digits on which both of its ends agree; `?` where they agree on
    none. One above 0 that would be shown as 0 has the two digits that it begins with."""
    text = number.shown(places)
    if text == '0' and number.low > 0:
        text = number.shown(leading_zeros(number.low) + 2)
    return text if text == '?' else Decimal(text)


def metres(area: Enclosure) -> Cell:
    return certain(area, 2)


def money(amount: Enclosure | Fraction) -> Cell:
    return certain(amount, 2) if isinstance(amount, Enclosure) else Decimal(decimal(amount, 2))


def currency_of(data: CostData) -> str:
    return printable(data.capital.currency)


def notes_sheets(notes: Sequence[str]) -> list[Sheet]:
    """Notes, a line each; no sheet where there are none."""
    return [Sheet('Notes', (), tuple((note,) for note in notes))] if notes else []


def cost_facts(cost: AnnualCost, currency: str) -> FactRow:
    """Capital and the cost of a year with its parts."""
    return (Fact('capital', money(cost.capital), currency),
            Fact('capital a year', money(cost.capital_a_year), f'{currency}/a'),
            Fact('energy a year', money(cost.energy), f'{currency}/a'),
            *range_facts(cost, currency), Fact('annual cost', money(cost.whole), f'{currency}/a'))


def range_facts(cost: AnnualCost, currency: str) -> FactRow:
    """What the utilities with a range cost a year, where a case has some: the energy is without them."""
    return (Fact('utilities with a range a year', money(cost.ranges), f'{currency}/a'),) if cost.ranges else ()


def annual_facts(costs: NetworkCosts) -> FactRow:
    """The area and the annual cost of a network."""
    return (Fact('area', metres(costs.areas.area), 'm²'),
            Fact('annual cost', money(costs.cost.whole), f'{currency_of(costs.data)}/a'))


def target_facts(target: CostTarget, least: AreaFloor | None = None) -> FactRow:
    """The targets of a case, with the floor of the area where it was asked for."""
    shells = target.shells
    counted = (Fact('shells', Decimal(target.parts)),) if target.parts > target.units and not shells else ()
    return (*area_target_facts(target.area),
            *(floor_facts(least, Shown(target.data.case.basis)) if least else ()), Fact('units', Decimal(target.units)),
            *((Fact('1-2 shells', Decimal(shells.shells)), Fact('area in 1-2 shells', metres(shells.area), 'm²'))
              if shells else counted),
            *cost_facts(target.cost, currency_of(target.data)))


def area_target_facts(target: AreaTarget) -> FactRow:
    """The area by the formula alone, of a case that has no cost law."""
    return (Fact('area by the formula', metres(target.area), 'm²'),)


def area_target_notes(target: AreaTarget) -> list[str]:
    return [BOUND if target.bound else NO_BOUND]


def floor_facts(least: AreaFloor, shown: Shown) -> FactRow:
    """The floor, rounded down, and the slices that it was made with."""
    area = Fact('floor: no network has less', Decimal(floor(least.area * 100)).scaleb(-2).normalize() + 0, 'm²')
    if least.slice is None:
        return (area,)
    return area, Fact('slices of the floor', Decimal(shown.kelvin(least.slice, 3)), shown.difference_unit)


def target_notes(target: CostTarget) -> list[str]:
    """What the targets leave out."""
    return [*area_target_notes(target.area), *target.remarks]


def point_facts(point: SupertargetPoint, shown: Shown, currency: str, counted: bool, remark: str = '') -> FactRow:
    """A point of a supertarget; where its shells are `counted` they stand there also where the flow is
    counter-current."""
    shells = (Fact('shells', Decimal(point.shells or point.parts)),) if point.shells or counted else ()
    return (Fact('least difference', Decimal(shown.kelvin(point.difference, 3)), shown.difference_unit),
            Fact('hot', Decimal(shown.heat(point.hot)), shown.heat_unit),
            Fact('cold', Decimal(shown.heat(point.cold)), shown.heat_unit),
            Fact('area', metres(point.area), 'm²'),
            Fact('units', Decimal(point.units)), *shells, *cost_facts(point.cost, currency), Fact('remark', remark))


def supertarget_table(found: Supertarget) -> FactTable:
    """The targets at each difference, with the least where the desk found it between two of them."""
    shown, currency = Shown(found.data.case.basis), currency_of(found.data)
    least = found.least.point
    between = (least,) if least.found else ()
    points = sorted((*found.points, *between), key=lambda point: point.difference)
    counted = any(point.parts > point.units for point in points)
    rows = tuple(point_facts(point, shown, currency, counted, remark_of(point, found)) for point in points)
    marked = frozenset(at for at, point in enumerate(points) if point is least)
    return FactTable('Cost over the least difference', rows, marked)


def remark_of(point: SupertargetPoint, found: Supertarget) -> str:
    if point is found.least.point:
        return 'the least, found between two answers of the program' if point.found else 'the least'
    first, last = found.least.flat
    return 'within 1 % of the least' if first <= point.difference <= last else ''


def least_facts(least: LeastCost, currency: str, shown: Shown) -> FactRow:
    (first, last), unit = least.flat, shown.difference_unit
    return (Fact('energy', {0: 'as it is', -1: 'a fifth cheaper', 1: 'a fifth dearer'}[sign(least.factor - 1)]),
            Fact('least difference', Decimal(shown.kelvin(least.point.difference)), unit),
            Fact('annual cost', money(least.annual), f'{currency}/a'),
            Fact('within 1 % from', Decimal(shown.kelvin(first)), unit), Fact('to', Decimal(shown.kelvin(last)), unit),
            Fact('remark', '; '.join(end_remarks(least))))


def end_remarks(least: LeastCost) -> list[str]:
    """Which of the difference and of the ends of its range the desk found, and which may lie farther out."""
    found = [name for name, is_found in (('least', least.point.found), ('from', least.ends[0].found),
                                         ('to', least.ends[1].found)) if is_found]
    open_ends = [name for name, end in zip(('from', 'to'), least.ends) if end.open]
    return [*([f'{", ".join(found)}: found between two answers of the program'] if found else []),
            *([f'{", ".join(open_ends)}: the range ends there'] if open_ends else [])]


def sign(number: Fraction) -> int:
    return (number > 0) - (number < 0)


def least_table(found: Supertarget) -> FactTable:
    """The least with energy as it is, cheaper and dearer."""
    currency, shown = currency_of(found.data), Shown(found.data.case.basis)
    return FactTable('Where the cost is least', tuple(least_facts(least, currency, shown)
                                                      for least in (found.least, found.cheaper, found.dearer)))


def supertarget_notes(found: Supertarget) -> list[str]:
    """The differences without a cost, and how units were counted."""
    shown = Shown(found.data.case.basis)
    notes = [f'{shown.kelvin(difference)} {shown.difference_unit}: {why}' for difference, why in found.without]
    if not found.by_sets:
        notes.append('units are sources less one on each side of the pinch: there are too many sources for sets')
    return notes
