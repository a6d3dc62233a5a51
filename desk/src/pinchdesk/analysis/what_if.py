"""What a case would need if something of it were otherwise: scenarios, each a changed case with the answers of `pinch`
beside those of the case as it is; and what a little more of each stream would do (the plus-minus principle: Linnhoff
and Vredeveld 1984), by asking `pinch` for each of these cases too."""
from __future__ import annotations

import os
from collections.abc import Callable, Iterable, Sequence
from concurrent.futures import ThreadPoolExecutor
from dataclasses import dataclass, replace
from fractions import Fraction
from math import ceil
from typing import TypeVar

from ..errors import Refused
from ..formats.amounts import rounded
from ..formats.case import ANY_HEAT, Case, Source, Stream, Utility, case_rows, completed, read_case
from ..formats.case_units import CaseUnits
from ..formats.comments import Basis, basis_rows
from ..formats.limits import outside_of_row
from ..formats.whole_streams import WholeStream, whole_streams
from ..program.answers import Cut, HeatFlow, Targets
from ..program.causes import CAUSES
from ..program.run import CaseText, Pinch, case_bytes
from .change_columns import Field
from .change_table import SOURCES, Change, CaseScenario, Way, refusal
from .segment_changes import fault_in_segments, on_segments, with_streams

LATENT, SENSIBLE = ('level', 'load', 'contribution'), ('supply', 'target', 'CP', 'load', 'contribution')
OF_UTILITY = ('level', 'supply', 'least', 'most', 'price', 'contribution')
Asked = TypeVar('Asked')
Given = TypeVar('Given')


@dataclass(frozen=True)
class Step:
    """A change as it was made: the number before and behind it, in the program's units; `exact` is what it would be
    without rounding to whole ones."""

    change: Change
    before: int
    behind: int
    exact: Fraction


@dataclass(frozen=True)
class ScenarioOutcome:
    """A scenario with its changed case, completed, and its answers. `fault` is why it is refused: then there are
    none."""

    variant: CaseScenario
    steps: tuple[Step, ...]
    case: Case
    targets: Targets | None = None
    flow: HeatFlow | Cut | None = None
    fault: str = ''

    @property
    def cost(self) -> int | None:
        return self.flow.cost if isinstance(self.flow, HeatFlow) else None


@dataclass(frozen=True)
class PlusMinus:
    """By how much heat the hot target rises with a little more (`little`) of a stream's CP, or of the load of a latent
    one, and with its supply and its target (its level) a little higher. None where there is no such case."""

    stream: Stream
    size: int | None
    supply: int | None
    target: int | None


@dataclass(frozen=True)
class AskedCase:
    """A case as it is, with its targets."""

    case: Case
    targets: Targets


@dataclass(frozen=True)
class WhatIf:
    """The case as it is, its scenarios, and its plus-minus numbers."""

    base: ScenarioOutcome
    outcomes: tuple[ScenarioOutcome, ...]
    plus_minus: tuple[PlusMinus, ...]

    @property
    def refused(self) -> bool:
        return any(outcome.fault for outcome in self.outcomes)

    @property
    def infeasible(self) -> bool:
        return any(isinstance(outcome.flow, Cut) for outcome in (self.base, *self.outcomes))


def what_if(case: CaseText, scenarios: Iterable[CaseScenario], pinch: Pinch | None = None, workers: int = 0) -> WhatIf:
    """The scenarios of a case. `Refused` where the program refuses the case as it is, or a change names what is not
    there; a scenario that the program refuses says so in its outcome. `workers` of the program run side by side."""
    asked = pinch or Pinch()
    return compared(asked_case(asked, case), scenarios, asked, workers)


def asked_case(pinch: Pinch, case: CaseText) -> AskedCase:
    """A case with its targets; `Refused` where the program refuses it."""
    content = case_bytes(case)
    targets = pinch.targets(content)
    return AskedCase(read_case(content), targets)


def compared(base: AskedCase, scenarios: Iterable[CaseScenario], pinch: Pinch, workers: int = 0) -> WhatIf:
    """The scenarios of a case that was asked already."""
    as_it_is = replace(unchanged(base.case), targets=base.targets)
    changes = [changed(base.case, scenario) for scenario in scenarios]
    first, *outcomes = side_by_side(lambda outcome: answered(pinch, outcome), [as_it_is, *changes], workers)
    return WhatIf(first, tuple(outcomes), plus_minus(base.case, base.targets, pinch, workers))


def side_by_side(run: Callable[[Asked], Given], items: Sequence[Asked], workers: int) -> list[Given]:
    """Runs in threads, each of which waits for its program; where one fails the others are not begun."""
    pool = ThreadPoolExecutor(workers or min(16, os.cpu_count() or 1))
    try:
        return list(pool.map(run, items))
    finally:
        pool.shutdown(cancel_futures=True)


def unchanged(case: Case) -> ScenarioOutcome:
    return ScenarioOutcome(CaseScenario('base', ()), (), completed(case))


def answered(pinch: Pinch, outcome: ScenarioOutcome) -> ScenarioOutcome:
    """An outcome with the answers that it has not, or with the cause for which the program refuses it."""
    if outcome.fault:
        return outcome
    try:
        targets = outcome.targets or pinch.targets(outcome.case)
        return replace(outcome, targets=targets, flow=pinch.flow(outcome.case))
    except Refused as fault:
        return replace(outcome, fault=told(outcome.case, fault))


def told(case: Case, fault: Refused) -> str:
    """The cause of a refusal with the source that it is about."""
    rows = [*basis_rows(case.basis), *case_rows(case)]
    number = fault.place.split()[-1]
    at = int(number) - 1 if number.isdigit() else len(rows)
    where = f'{rows[at][1]}: ' if at < len(rows) and rows[at][1] else ''
    said = outside_of_row(rows[at], case.basis.units is not None) \
        if at < len(rows) and fault.cause == 'OutOfRange' else ''
    return f'{where}{said or CAUSES.get(fault.cause, "refused")} ({fault.cause})'


def changed(case: Case, scenario: CaseScenario) -> ScenarioOutcome:
    """The case with the changes of a scenario; `Refused` where a change names what is not there."""
    changed_case, steps = case, []
    seen: set[tuple[str, Field]] = set()
    changes = [part for change in scenario.changes for part in on_segments(case, change, in_case(case, change.source))]
    for change in changes:
        source = found(case, change)
        key = (source.name if source else '', canonical(source, change.field))
        if key in seen:
            raise refusal(change, f'scenario {scenario.name} changes this twice')
        seen.add(key)
    # A load of a sensible stream is over the span that its temperatures have in the end.
    for change in sorted(changes, key=lambda scenario_change: scenario_change.field is Field.LOAD):
        changed_case, step = applied(case, changed_case, change)
        steps.append(step)
    order = {id(scenario_change): at for at, scenario_change in enumerate(changes)}
    steps.sort(key=lambda made_step: order[id(made_step.change)])
    return ScenarioOutcome(scenario, tuple(steps), completed(changed_case), fault=fault_in_segments(changed_case))


def found(case: Case, change: Change) -> Source | None:
    """The source that a change names; None where it is the contribution of the case. `Refused` where there is no such
    source, or it has no such field."""
    source = next((candidate for candidate in case.sources if candidate.name == in_case(case, change.source)), None)
    if source is None and change.source.lower() in SOURCES and change.field is Field.CONTRIBUTION:
        return None
    if source is None:
        invented = change.source in ('HOT', 'COLD')
        why = 'is added where the case has no such utility: give it a row there' if invented else \
            'is not a source of the case'
        raise refusal(change, f'`{change.source}` {why}')
    fields = OF_UTILITY if isinstance(source, Utility) else LATENT if source.latent else SENSIBLE
    if change.field.word not in fields:
        raise refusal(change, f'{source.name} has no {change.field.word}: it has {", ".join(fields)}')
    return source


def in_case(case: Case, name: str) -> str:
    """A name of the table that the case came from, as the case has it."""
    return next((new for old, new in case.basis.names if old == name), name)


def canonical(source: Source | None, field: Field) -> Field:
    """The field that is changed: the supply of a utility is its level, and the load of a sensible stream its CP."""
    if isinstance(source, Utility) and field is Field.SUPPLY:
        return Field.LEVEL
    sensible = isinstance(source, Stream) and not source.latent
    return Field.CP if sensible and field is Field.LOAD else field


def applied(base: Case, case: Case, change: Change) -> tuple[Case, Step]:
    """A case with one more change; changes are of what the base has."""
    source = found(base, change)
    if source is None:
        behind, exact = moved(base.contribution, change)
        shares = {base_source.name for base_source in base.sources if base_source.contribution == base.contribution}
        streams = tuple(replace(case_stream, contribution=behind) if case_stream.name in shares else case_stream
                        for case_stream in case.streams)
        utilities = tuple(replace(case_utility, contribution=behind) if case_utility.name in shares else case_utility
                          for case_utility in case.utilities)
        made = replace(case, contribution=behind, streams=streams, utilities=utilities)
        return made, Step(change, base.contribution, behind, exact)
    now = case.source(source.name)
    if isinstance(source, Stream):
        assert isinstance(now, Stream)
        stream, step = of_stream(source, now, change)
        return replace(case, streams=tuple(stream if case_stream is now else case_stream
                                           for case_stream in case.streams)), step
    assert isinstance(now, Utility)
    utility, step = of_utility(source, now, change, case)
    return replace(case, utilities=tuple(utility if case_utility is now else case_utility
                                         for case_utility in case.utilities)), step


def moved(before: int, change: Change, divisor: Fraction = Fraction(1)) -> tuple[int, Fraction]:
    """The number behind a change, rounded, and exact; what is added or set is taken times the divisor."""
    if change.way is Way.PERCENT:
        exact = before * (1 + change.value / 100)
    else:
        exact = change.value * divisor + (before if change.way is Way.BY else 0)
    return rounded(exact), exact


def of_stream(base: Stream, now: Stream, change: Change) -> tuple[Stream, Step]:
    if change.field is Field.LEVEL:
        behind, exact = moved(base.supply, change)
        return replace(now, supply=behind, target=behind), Step(change, base.supply, behind, exact)
    if change.field is Field.LOAD and not base.latent:
        span = abs(now.supply - now.target) or 1
        _, heat = moved(base.heat, change)
        return replace(now, cp=rounded(heat / span)), Step(change, base.heat, rounded(heat / span) * span, heat)
    name = change.field.name.lower()
    before: int = getattr(base, name)
    behind, exact = moved(before, change)
    return replace(now, **{name: behind}), Step(change, before, behind, exact)


def of_utility(base: Utility, now: Utility, change: Change, case: Case) -> tuple[Utility, Step]:
    field = canonical(base, change.field)
    name = field.name.lower()
    before: int = getattr(base, name)
    if field is Field.MOST and before == ANY_HEAT and change.way is not Way.TO:
        raise refusal(change, f'{base.name} has no most that could be changed: give the new one')
    behind, exact = moved(before, change, case.basis.price_divisor if field is Field.PRICE else Fraction(1))
    return replace(now, **{name: behind}), Step(change, before, behind, exact)


def plus_minus(case: Case, base: Targets, pinch: Pinch, workers: int = 0) -> tuple[PlusMinus, ...]:
    """What a little more of each stream of a case would do to its hot target."""
    streams = whole_streams(case)
    cases = [made for stream in streams for made in cases_with_more(stream, case)]
    rises = side_by_side(lambda made: rise(pinch, made, base) if made else None, cases, workers)
    return tuple(PlusMinus(stream, *rises[3 * at:3 * at + 3]) for at, stream in enumerate(streams))


def cases_with_more(stream: Stream, case: Case) -> tuple[Case | None, Case | None, Case | None]:
    """The case with a larger size of a stream, with a warmer supply, with a warmer target. A stream in segments has a
    larger CP in each of them; None where it has none, or a phase change at its end."""
    if not isinstance(stream, WholeStream):
        larger, supplied, led = little_more(stream, case)
        return (with_streams(case, {stream.name: larger}), with_streams(case, {stream.name: supplied}),
                with_streams(case, {stream.name: led}))
    more = {segment.name: little_more(segment, case) for segment in stream.segments if not segment.latent}
    first, last = stream.segments[0].name, stream.segments[-1].name
    return (with_streams(case, {name: made[0] for name, made in more.items()}) if more else None,
            with_streams(case, {first: more[first][1]}) if first in more else None,
            with_streams(case, {last: more[last][2]}) if last in more else None)


@dataclass(frozen=True)
class Little:
    """How much a CP, a load and a temperature are made larger, in the numbers of a case."""

    cp: int
    load: int
    degree: int


def little(basis: Basis) -> Little:
    """0.01 kW/K and 1 kW of the plant, or what a case can hold that is not less, and one degree of its own."""
    units = basis.units or CaseUnits()
    cp, load = units.of_flow(Fraction(1)) * basis.scale, units.of_watts(Fraction(1000)) * basis.scale
    return Little(max(1, ceil(cp)), max(1, ceil(load)), max(1, ceil(units.steps)))


def little_more(stream: Stream, case: Case) -> tuple[Stream, Stream, Stream]:
    """The stream with a larger size, with a warmer supply, with a warmer target; a latent one has one level."""
    more = little(case.basis)
    if stream.latent:
        warmer = replace(stream, supply=stream.supply + more.degree, target=stream.target + more.degree)
        return replace(stream, load=stream.load + more.load), warmer, warmer
    return (replace(stream, cp=stream.cp + more.cp), replace(stream, supply=stream.supply + more.degree),
            replace(stream, target=stream.target + more.degree))


def rise(pinch: Pinch, case: Case, base: Targets) -> int | None:
    """By how much the hot target is above that of the base; None where the program refuses the case."""
    try:
        return pinch.targets(case).hot - base.hot
    except Refused:
        return None
