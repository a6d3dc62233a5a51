"""Scenarios as tables: targets, pinch and cost of each beside the case as it is, what was changed, and what a little
more of each stream would do."""
from __future__ import annotations

from collections.abc import Iterator
from decimal import Decimal
from fractions import Fraction

from ..analysis.change_columns import Field
from ..analysis.what_if import ScenarioOutcome, PlusMinus, Step, WhatIf, little
from ..formats.case import ANY_HEAT
from ..formats.range_parts import cost_of_ranges
from ..formats.shown import Shown
from ..formats.whole_streams import parts_of
from ..program.answers import Cut
from .facts import Fact, FactRow, FactTable
from .sheet import Cell, Sheet

REFUSED, INFEASIBLE = 'refused', 'no heat flow'
TEMPERATURES = (Field.SUPPLY, Field.TARGET, Field.LEVEL)


def what_if_sheets(answered: WhatIf) -> list[Sheet]:
    return [table.sheet() for table in what_if_tables(answered)]


def what_if_tables(answered: WhatIf) -> list[FactTable]:
    """The scenarios, what they change, and the plus-minus numbers of the case as it is."""
    scenarios = [scenarios_table(answered), steps_table(answered)] if answered.outcomes else []
    return [*scenarios, plus_minus_table(answered)]


def scenarios_table(answered: WhatIf) -> FactTable:
    """A row for the base and each scenario, with the differences from the base; one that is refused or has no heat
    flow is marked."""
    shown = Shown(answered.base.case.basis)
    outcomes = (answered.base, *answered.outcomes)
    marked = frozenset(at for at, outcome in enumerate(outcomes) if outcome.fault or isinstance(outcome.flow, Cut))
    rows = [scenario_row(outcome, answered.base, shown) for outcome in outcomes]
    if answered.refused:
        rows = [(*row, Fact('fault', outcome.fault)) for row, outcome in zip(rows, outcomes)]
    return FactTable('What if', tuple(rows), marked)


def scenario_row(outcome: ScenarioOutcome, base: ScenarioOutcome, shown: Shown) -> FactRow:
    """A scenario with its differences from the base. Costs have those of the utilities with a range in them, which it
    may have changed."""
    hot: list[Cell] = [None, None]
    cold: list[Cell] = [None, None]
    cost: list[Cell] = [None, None]
    pinches: Cell = REFUSED
    what = ' with utilities with a range' if base.case.basis.ranges else ''
    if outcome.targets and base.targets:
        hot = with_more(outcome.targets.hot, base.targets.hot, outcome is base, shown)
        cold = with_more(outcome.targets.cold, base.targets.cold, outcome is base, shown)
        pinches = pinches_of(outcome.targets.pinches, shown)
        here, there = whole_cost(outcome), whole_cost(base)
        more = None if outcome is base or here is None or there is None else Decimal(shown.cost(here - there))
        cost = [INFEASIBLE if here is None else Decimal(shown.cost(here)), more]
    heat = shown.heat_unit
    return (Fact('scenario', outcome.variant.name), Fact('hot', hot[0], heat), Fact('more hot', hot[1], heat),
            Fact('cold', cold[0], heat), Fact('more cold', cold[1], heat),
            Fact('pinch, shifted', pinches, shown.temperature_unit),
            Fact(f'least cost{what}', cost[0], shown.cost_unit), Fact('more cost', cost[1], shown.cost_unit))


def whole_cost(outcome: ScenarioOutcome) -> int | None:
    return None if outcome.cost is None else outcome.cost + cost_of_ranges(outcome.case)


def with_more(number: int, base: int, is_base: bool, shown: Shown) -> list[Cell]:
    """A target, and what of it is more than that of the base."""
    return [heat_of(number, shown), None if is_base else heat_of(number - base, shown)]


def pinches_of(pinches: tuple[int, ...], shown: Shown) -> Cell:
    """One pinch as a number, several as a text."""
    texts = [shown.temperature(pinch) for pinch in pinches]
    return Decimal(texts[0]) if len(texts) == 1 else ' '.join(texts) or 'none'


def heat_of(number: int, shown: Shown) -> Decimal:
    return Decimal(shown.heat(number))


def steps_table(answered: WhatIf) -> FactTable:
    """What each scenario changes, from what and to what."""
    shown = Shown(answered.base.case.basis)
    rows = tuple(step_row(step, outcome.variant.name if at == 0 else '', shown)
                 for outcome in answered.outcomes for at, step in enumerate(outcome.steps))
    return FactTable('What is changed', rows)


def step_row(step: Step, scenario: str, shown: Shown) -> FactRow:
    field = step.change.field
    return (Fact('scenario', scenario), Fact('source', step.change.source), Fact('field', field.word),
            Fact('from', number(step.before, field, shown)), Fact('to', number(step.behind, field, shown)),
            Fact('unit', unit_of(field, shown)))


def number(value: int | Fraction, field: Field, shown: Shown) -> Cell:
    """A number of a field in engineers' units."""
    if field in TEMPERATURES:
        return Decimal(shown.temperature(value, 3))
    if field is Field.CONTRIBUTION:
        return Decimal(shown.difference(value, 3))
    if field is Field.CP:
        return Decimal(shown.flow(value, 6))
    if field is Field.PRICE:
        return Decimal(shown.price(value))
    return 'any' if field is Field.MOST and value == ANY_HEAT else Decimal(shown.heat(value, 6))


def unit_of(field: Field, shown: Shown) -> str:
    if field in TEMPERATURES:
        return shown.temperature_unit
    if field is Field.CONTRIBUTION:
        return shown.difference_unit
    return shown.flow_unit if field is Field.CP else shown.price_unit if field is Field.PRICE else shown.heat_unit


def rounding_notes(answered: WhatIf) -> Iterator[str]:
    """What was rounded, since a case has whole numbers."""
    shown = Shown(answered.base.case.basis)
    for outcome in answered.outcomes:
        for step in outcome.steps:
            if step.exact != step.behind:
                yield rounding_note(step, shown)


def rounding_note(step: Step, shown: Shown) -> str:
    field, unit = step.change.field, unit_of(step.change.field, shown)
    exact, taken = number(step.exact, field, shown), number(step.behind, field, shown)
    return f'{step.change.place}: {field.word} of {step.change.source}: {exact} {unit} is rounded to {taken} {unit}'


def plus_minus_table(answered: WhatIf) -> FactTable:
    """By how much the hot target rises with a little more of each stream: what makes it smaller is worth trying."""
    shown = Shown(answered.base.case.basis)
    latent = any(risen.stream.latent for risen in answered.plus_minus)
    rows = tuple(plus_minus_row(risen, latent, shown) for risen in answered.plus_minus)
    return FactTable(f'Plus and minus: more hot {shown.heat_unit}', rows)


def plus_minus_row(risen: PlusMinus, latent: bool, shown: Shown) -> FactRow:
    """The numbers of a stream; those of latent ones only where there are such."""
    def fact(name: str, value: int | None, is_there: bool) -> Fact:
        told: Cell = 'refused' if value is None else heat_of(value, shown)
        return Fact(f'{name}:', told if is_there else None, shown.heat_unit)
    stream, more = risen.stream, little(shown.basis)
    degree = f'{shown.difference(more.degree)} {shown.difference_unit}'
    first, last = (not parts_of(stream)[at].latent for at in (0, -1))
    sensible = any(not part.latent for part in parts_of(stream))
    row = [Fact('stream', stream.name), Fact('side', stream.side.value),
           fact(f'CP +{shown.flow(more.cp, 6)} {shown.flow_unit}', risen.size, sensible),
           fact(f'load +{shown.heat(more.load, 6)} {shown.heat_unit}', risen.size, stream.latent),
           fact(f'supply +{degree}', risen.supply, first), fact(f'target +{degree}', risen.target, last),
           fact(f'level +{degree}', risen.supply, stream.latent)]
    return tuple(row if latent else [*row[:3], *row[4:6]])
