"""Utilities with a range of temperature, which a case has as streams: what each gives or takes and costs, and what one
unit of its CP less would do."""
from __future__ import annotations

from collections.abc import Sequence
from dataclasses import replace
from decimal import Decimal

from ..analysis.range_checks import CheckedRange
from ..errors import Refused
from ..formats.case import Case, Side, Stream, read_case
from ..formats.range_parts import cost_of_ranges, heat_of_parts, leading, one_less, range_parts
from ..formats.ranges import RangedUtility
from ..formats.shown import Number, Shown
from ..program.answers import Targets
from .answer_sheets import targets_sheets
from .facts import Fact, FactRow, FactTable
from .sheet import Sheet

TITLE = 'Utilities with a range, as streams'
GIVES = {Side.HOT: 'gives', Side.COLD: 'takes'}


def ranged_case(content: bytes) -> Case | None:
    """The case of a text where it has utilities with a range; None of another one, and of what is no case."""
    if b'#utility' not in content:
        return None
    try:
        case = read_case(content)
    except Refused:
        return None
    return case if case.basis.ranges else None


def ranges_told(content: bytes) -> list[str]:
    """What is said beside an answer about a case that has utilities with a range: which streams they are, and that the
    costs of the program are without theirs."""
    case = ranged_case(content)
    if case is None:
        return []
    shown, told = Shown(case.basis), list[str]()
    for utility in case.basis.ranges:
        parts = range_parts(case, utility)
        heat = heat_of_parts(parts)
        told.append(f'{utility.name} is a {parts[0].side.value} utility {ends_told(parts, shown)}, held as a stream of '
                    f'{shown.heat(heat)} {shown.heat_unit}: its cost of {shown.with_unit(utility.price * heat)} is in '
                    'no cost of the program')
    return told


def ends_told(parts: Sequence[Stream], shown: Shown) -> str:
    return f'from {shown.temperature(parts[0].supply)} to {shown.temperature(parts[-1].target)} ' \
           f'{shown.temperature_unit}'


def range_told(checked: CheckedRange, shown: Shown) -> str:
    """What a utility with a range is, and what that rests on, as a sentence."""
    return f'{checked.utility.name} is a {checked.side.value} utility {ends_told(checked.parts, shown)}, held as a ' \
           f'stream: it {"; ".join(clauses(checked, shown))}'


def clauses(checked: CheckedRange, shown: Shown) -> list[str]:
    """What a utility with a range gives or takes, and what that rests on."""
    flow = f'{shown.flow(checked.cp)} {shown.flow_unit}'
    size = f'a CP of {flow}' + (' in its largest segment' if len(checked.parts) > 1 else '')
    heat = f'{shown.heat(checked.heat)} {shown.heat_unit}'
    told = [f'{GIVES[checked.side]} {heat} with {size}', less_told(checked, shown), beside_told(checked, shown),
            spare_told(checked, shown)]
    return [clause for clause in told if clause]


def less_told(checked: CheckedRange, shown: Shown) -> str:
    """What one unit of CP less would do."""
    is_one = checked.cp == 1
    less = 'without it' if is_one else f'with {shown.flow(checked.cp - 1)} {shown.flow_unit}'
    there = 'there' if is_one else 'it'
    if not checked.flows:
        return 'the case has no heat flow'
    if checked.dearer is not None and checked.dearer < 0:
        return f'{less}, and all others as they are, the cost is {shown.with_unit(-checked.dearer)} lower: the sizes ' \
               'are those of all together in whole units of CP, or it has its least'
    if not checked.is_least:
        return f'{less} {there} is enough too'
    if checked.less_lacking:
        return f'{less} {there} is not enough: {shown.heat(checked.less_lacking.heat)} {shown.heat_unit} are missing'
    return f'{less} the cost is {shown.with_unit(checked.dearer or 0)} higher'


def beside_told(checked: CheckedRange, shown: Shown) -> str:
    """What is needed beside it."""
    if not checked.lacking:
        return ''
    return f'{shown.heat(checked.lacking)} {shown.heat_unit} of another {checked.side.value} utility are needed ' \
           'beside it'


def spare_told(checked: CheckedRange, shown: Shown) -> str:
    """What it has beyond the need, where that is more than what whole units of CP leave."""
    if not 0 < checked.spare or checked.spare < unit_heat(checked) and checked.side is Side.COLD:
        return ''
    heat = f'{shown.heat(checked.spare)} {shown.heat_unit}'
    if checked.side is Side.COLD:
        return f'{heat} of that have to come from a hot utility'
    finer = ': with a larger --scale units of CP are finer' if checked.spare < unit_heat(checked) else ''
    return f'{heat} of that are more than is needed, and go on to the cold side{finer}'


def unit_heat(checked: CheckedRange) -> int:
    """What one unit of CP is in heat."""
    return checked.heat - heat_of_parts(one_less(checked.parts))


def ranges_sheet(case: Case, cost: Number | None = None, whole: str = 'all of them') -> Sheet:
    """The utilities with a range of a case, each with its heat and its cost, and beside a cost of the program, where
    there is one, the sum with it."""
    shown, beside = Shown(case.basis), cost_of_ranges(case)
    rows: list[FactRow] = [range_facts(utility, range_parts(case, utility), shown) for utility in case.basis.ranges]
    sums: list[tuple[str, Number]] = [(whole, beside)]
    sums += [] if cost is None else [('with the cost of the program', beside + cost)]
    rows += [(Fact('utility', name), *[Fact('', None)] * 6, Fact('cost', Decimal(shown.cost(amount)), shown.cost_unit))
             for name, amount in sums]
    temperature = shown.temperature_unit
    columns = ('utility', 'side', f'from {temperature}', f'to {temperature}', f'CP {shown.flow_unit}',
               f'heat {shown.heat_unit}', f'price {shown.price_unit}', f'cost {shown.cost_unit}')
    return FactTable(TITLE, tuple(rows), columns=columns).sheet()


def with_ranges_sheet(sheets: tuple[Sheet, ...], content: bytes) -> tuple[Sheet, ...]:
    """The sheets of an answer about a case with the utilities with a range behind them, where it has some and they are
    not among these."""
    case = ranged_case(content)
    if case is None or not sheets or any(sheet.title == TITLE for sheet in sheets):
        return sheets
    return (*sheets, ranges_sheet(case, whole='all of them, in no cost of the program'))


def range_sheets(case: Case, ranges: Sequence[CheckedRange], cost: int | None = None) -> list[Sheet]:
    """The table of the utilities with a range, and what is said of each; nothing where there is none."""
    if not ranges:
        return []
    shown = Shown(case.basis)
    told = tuple((checked.utility.name, clause) for checked in ranges for clause in clauses(checked, shown))
    return [ranges_sheet(case, cost), Sheet('What that rests on', (), told)]


def plant_sheets(case: Case, targets: Targets) -> list[Sheet]:
    """The targets of the streams of a plant alone, and its pinches: a case with utilities with a range mostly has
    none."""
    sheets = targets_sheets(case, targets)
    return [replace(sheet, title=f'{sheet.title} without the utilities with a range') for sheet in sheets]


def heat_facts(case: Case, cost: Number | None = None) -> FactRow:
    """What each utility with a range gives or takes, in a table of many cases, and beside a cost of the program, where
    there is one, what they cost and the sum with it."""
    shown, beside = Shown(case.basis), cost_of_ranges(case)
    costs = [('cost of utilities with a range', beside), ('cost with these', beside + cost)] \
        if cost is not None and case.basis.ranges else []
    return (*heats_of(case, shown), *(Fact(name, Decimal(shown.cost(amount)), shown.cost_unit)
                                      for name, amount in costs))


def heats_of(case: Case, shown: Shown) -> FactRow:
    return tuple(Fact(utility.name, Decimal(shown.heat(heat_of_parts(range_parts(case, utility)))), shown.heat_unit)
                 for utility in case.basis.ranges)


def range_facts(utility: RangedUtility, parts: Sequence[Stream], shown: Shown) -> FactRow:
    heat = heat_of_parts(parts)
    return (Fact('utility', utility.name), Fact('side', parts[0].side.value),
            Fact('from', Decimal(shown.temperature(parts[0].supply)), shown.temperature_unit),
            Fact('to', Decimal(shown.temperature(parts[-1].target)), shown.temperature_unit),
            Fact('CP', Decimal(shown.flow(leading(parts).cp)), shown.flow_unit),
            Fact('heat', Decimal(shown.heat(heat)), shown.heat_unit),
            Fact('price', Decimal(shown.price(utility.price)), shown.price_unit),
            Fact('cost', Decimal(shown.cost(utility.price * heat)), shown.cost_unit))
