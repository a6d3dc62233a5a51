"""Areas and costs of the exchangers of a network as tables, and beside the targets of its case."""
from __future__ import annotations

from collections.abc import Callable, Iterator
from decimal import Decimal
from fractions import Fraction

from ..costs.annual import AnnualCost
from ..costs.areas_beside import AreasBeside
from ..costs.cost_target import CostTarget
from ..costs.enclosure import Enclosure
from ..costs.network_areas import ExchangerArea, NetworkAreas
from ..costs.network_costs import ExchangerPrice, NetworkCosts
from ..formats.cost_rows import Flow
from ..formats.shown import Shown, decimal
from .cost_sheets import area_target_notes, certain, cost_facts, currency_of, metres, money, notes_sheets
from .facts import Fact, FactRow, FactTable
from .sheet import Cell, Sheet

FORMULA_IN_SHELLS = 'the area by the formula is that of counter-current flow, and that of the network has Ft of its ' \
                    '1-2 shells in it: so has the area efficiency'


def area_facts(exchanger: ExchangerArea, shown: Shown) -> FactRow:
    """An exchanger with its area and what that is made of."""
    return (Fact('exchanger', exchanger.name), Fact('kind', exchanger.service.value),
            Fact('duty', Decimal(shown.watts(exchanger.duty)), shown.heat_unit),
            Fact('U', None if exchanger.coefficient is None else Decimal(decimal(exchanger.coefficient / 1000, 6)),
                 'kW/m²K'),
            Fact('mean difference', certain(in_degrees(exchanger.mean, shown), 3), shown.difference_unit),
            Fact('Ft', certain(exchanger.factor, 4)), Fact('shells', Decimal(exchanger.shells)),
            Fact('area', metres(exchanger.area), 'm²'))


def in_degrees(mean: Enclosure, shown: Shown) -> Enclosure:
    """A mean difference in K in the unit of the case."""
    return mean * shown.units.shown_difference(shown.units.of_tenths_between(Fraction(10)))


def price_facts(priced: ExchangerPrice, currency: str) -> FactRow:
    gain: Cell = '' if priced.gain is None else money(priced.gain)
    return Fact('price', money(priced.price), currency), Fact('1 K more would save', gain, f'{currency}/a')


def exchangers_table(areas: NetworkAreas, costs: NetworkCosts | None, title: str = 'Exchangers') -> FactTable:
    """The exchangers of a network in their order; the costliest say what 1 K more at both ends would save."""
    shown = Shown(areas.data.case.basis)
    if costs is None:
        return FactTable(title, tuple(area_facts(exchanger, shown) for exchanger in areas.exchangers))
    currency = currency_of(costs.data)
    return FactTable(title, tuple((*area_facts(priced.exchanger, shown), *price_facts(priced, currency))
                                  for priced in costs.prices))


def network_facts(areas: NetworkAreas, costs: NetworkCosts | None) -> FactRow:
    """The sums of a network, beside the target at its own use of the utilities."""
    beside: FactRow = ()
    if areas.target and areas.efficiency:
        beside = (Fact('area by the formula with the same utilities', metres(areas.target.area), 'm²'),
                  Fact('area efficiency', certain(areas.efficiency * 100, 1), '%'))
    return (Fact('area', metres(areas.area), 'm²'), *beside, Fact('exchangers', Decimal(len(areas.exchangers))),
            Fact('shells', Decimal(areas.shells)),
            *(cost_facts(costs.cost, currency_of(costs.data)) if costs else ()))


def network_notes(areas: NetworkAreas) -> list[str]:
    """Where the real ends of a utility leave no approach, and what the target beside is."""
    return [*map(str, areas.faults), *formula_notes(areas)]


def formula_notes(areas: NetworkAreas) -> list[str]:
    """What the area by the formula beside a network is."""
    if areas.target is None:
        return []
    notes = area_target_notes(areas.target)
    flows = {areas.data.build(exchanger.service).flow for exchanger in areas.exchangers}
    return [*notes, FORMULA_IN_SHELLS] if Flow.ONE_TWO in flows else notes


def costliest_sheets(costs: NetworkCosts | None) -> list[Sheet]:
    """What 1 K more at both ends of the costliest exchangers would save; no sheet without prices."""
    if costs is None:
        return []
    currency = currency_of(costs.data)
    rows = tuple((Fact('exchanger', priced.exchanger.name), Fact('area', metres(priced.exchanger.area), 'm²'),
                  *price_facts(priced, currency)) for priced in costs.costliest)
    return [FactTable('The costliest exchangers', rows).sheet()]


def beside_sheet(beside: AreasBeside, areas: NetworkAreas) -> Sheet:
    """The sums of a network beside the formula with the same utilities, and the targets of the case."""
    target, same = beside.target, areas.target
    paid = target.cost.built_area if target.cost else target.area.area if target.area else None
    efficiency = None if areas.efficiency is None else certain(areas.efficiency * 100, 1)
    rows: list[tuple[Cell, ...]] = [
        ('area', metres(areas.area), metres(same.area) if same else None, None if paid is None else metres(paid),
         'm²'),
        ('area efficiency', efficiency, None, None, '%'),
        ('exchangers', Decimal(len(areas.exchangers)), None, Decimal(target.cost.units) if target.cost else None, '')]
    costs, wanted = beside.costs, target.cost
    shells = shells_of_target(wanted) if wanted else None
    if shells or areas.shells > len(areas.exchangers):
        rows.append(('shells', Decimal(areas.shells), None, None if shells is None else Decimal(shells), ''))
    if costs:
        rows += money_rows(costs.cost, wanted.cost if wanted else None, currency_of(areas.data))
    return Sheet('Areas and costs', ('', 'network', 'formula with the same utilities', 'target', ''),
                 tuple(row for row in rows if any(isinstance(cell, Decimal) for cell in row)))


def shells_of_target(target: CostTarget) -> int | None:
    """The shells of a target, where they are counted."""
    if target.shells:
        return target.shells.shells
    return target.parts if target.parts > target.units else None


def money_rows(cost: AnnualCost, target: AnnualCost | None, currency: str) -> Iterator[tuple[Cell, ...]]:
    """What a network costs beside the target."""
    for name, part in MONEY:
        if name != RANGES or cost.ranges:
            yield (name, money(part(cost)), None, money(part(target)) if target else None,
                   currency if name == 'capital' else f'{currency}/a')


RANGES = 'utilities with a range a year'
MONEY: tuple[tuple[str, Callable[[AnnualCost], Enclosure | Fraction]], ...] = (
    ('capital', lambda cost: cost.capital), ('capital a year', lambda cost: cost.capital_a_year),
    ('energy a year', lambda cost: cost.energy), (RANGES, lambda cost: cost.ranges),
    ('annual cost', lambda cost: cost.whole))


def beside_notes(beside: AreasBeside) -> list[str]:
    """What stands beside a verdict that has no number: an approach that is not there, and what is not known for want
    of data."""
    notes = [str(fault) for fault in beside.faults]
    if beside.areas is None:
        return [*notes, f'areas are not shown: {beside.lacking}']
    if beside.costs is None:
        notes.append(f'costs are not shown: {beside.lacking}')
    if beside.target.lacking and (beside.costs or beside.target.lacking != beside.lacking):
        what = 'costs' if beside.target.area else 'areas'
        notes.append(f'targets of {what} are not shown: {beside.target.lacking}')
    return [*notes, *formula_notes(beside.areas), *(beside.target.cost.remarks if beside.target.cost else ())]


def table_areas(beside: AreasBeside) -> list[Sheet]:
    """What a table of exchangers has of areas: all exchangers, the sums beside the targets, and notes."""
    if beside.areas is None:
        return notes_sheets(beside_notes(beside))
    return [exchangers_table(beside.areas, beside.costs, 'Areas').sheet(), beside_sheet(beside, beside.areas),
            *notes_sheets(beside_notes(beside))]


def audit_areas(beside: AreasBeside) -> list[Sheet]:
    """What an audit has of areas: the sums beside the targets, the costliest exchangers, and notes."""
    if beside.areas is None:
        return notes_sheets(beside_notes(beside))
    return [beside_sheet(beside, beside.areas), *costliest_sheets(beside.costs), *notes_sheets(beside_notes(beside))]


def facts_beside(beside: AreasBeside) -> FactRow:
    """The sums of the areas and costs of a network; nothing where the case does not say enough for them."""
    return network_facts(beside.areas, beside.costs) if beside.areas else ()
