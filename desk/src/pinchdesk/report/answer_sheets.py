"""The answers of `pinch` as tables in engineers' units: °C, K, kW, and the prices and costs of the case's table."""
from __future__ import annotations

from decimal import Decimal

from ..analysis.findings import finding_of
from ..analysis.follow import Followed
from ..analysis.pinch_places import temperatures_at
from ..analysis.sweep_request import own_contributions
from ..analysis.unfinished import unfinished_told
from ..formats.case import Basis, Case, Side
from ..formats.shown import Number, Shown
from ..program.answers import (Cut, HeatFlow, Prices, PriceScenarioAnswer, SiteAnswer, SpanAnswer, Sweep, SweepRow,
                               Targets)
from ..program.verdicts import Accepted, TooFine, Verdict
from .facts import Fact, FactRow, FactTable, lines_sheet
from .sheet import Cell, Sheet


NO_FLOW = 'no heat flow'


def temperature(shown: Shown, number: Number) -> Decimal:
    """A temperature in the unit of the case."""
    return Decimal(shown.temperature(number))


def heat_of(shown: Shown, number: Number) -> Decimal:
    """A heat in the unit of the case."""
    return Decimal(shown.heat(number))


def cost(shown: Shown, value: Number) -> Decimal:
    return Decimal(shown.cost(value))


def targets_sheets(case: Case, targets: Targets) -> list[Sheet]:
    """Both targets, and each pinch on the shifted scale and where the streams of both sides stand at it."""
    shown = Shown(case.basis)
    pinches = tuple((temperature(shown, pinch), *(side_cell(case, side, pinch, shown)
                                                  for side in (Side.HOT, Side.COLD))) for pinch in targets.pinches)
    title = 'Pinches' if pinches else 'No pinch'
    unit = shown.temperature_unit
    headings = (f'shifted {unit}', f'hot side {unit}', f'cold side {unit}') if pinches else ()
    return [lines_sheet('Targets', utility_facts(targets, shown)), Sheet(title, headings, pinches)]


def utility_facts(targets: Targets | Accepted, shown: Shown) -> FactRow:
    """The hot and the cold utility: of a case the least ones, of a network its own."""
    return (Fact('hot utility', heat_of(shown, targets.hot), shown.heat_unit),
            Fact('cold utility', heat_of(shown, targets.cold), shown.heat_unit))


def targets_facts(case: Case, targets: Targets) -> FactRow:
    """Both targets, and the pinches on the shifted scale, several ones as a text."""
    shown = Shown(case.basis)
    pinches = [temperature(shown, pinch) for pinch in targets.pinches]
    told: Cell = pinches[0] if len(pinches) == 1 else '; '.join(f'{pinch:f}' for pinch in pinches) or 'no pinch'
    return *utility_facts(targets, shown), Fact('pinch, shifted', told, shown.temperature_unit)


def side_cell(case: Case, side: Side, pinch: int, shown: Shown) -> Cell:
    there = temperatures_at(case, side, pinch)
    return temperature(shown, there.low) if there.low == there.high else there.told(shown)


def uses_sheet(case: Case, flow: HeatFlow, shown: Shown) -> Sheet:
    """What each utility gives or takes, and what that costs."""
    rows: list[tuple[Cell, ...]] = []
    for utility in case.utilities:
        heat, side = flow.use(utility.name), 'gives' if utility.side is Side.HOT else 'takes'
        level = None if utility.invented else temperature(shown, utility.level)
        rows.append((utility.name, side, level, heat_of(shown, heat), Decimal(shown.price(utility.price)),
                     cost(shown, heat * utility.price)))
    rows.append(('all', '', None, None, None, cost(shown, flow.cost)))
    headings = ('utility', '', f'level {shown.temperature_unit}', f'use {shown.heat_unit}', f'price {shown.price_unit}',
                f'cost {shown.cost_unit}')
    return Sheet('Least cost', headings, tuple(rows))


def flow_sheets(case: Case, flow: HeatFlow | Cut) -> list[Sheet]:
    """A heat flow of a completed case with the prices of one watt that prove it, or the cut that proves that there is
    none."""
    shown = Shown(case.basis)
    if isinstance(flow, Cut):
        return [cut_sheet(flow, shown)]
    moves = tuple((move.hot.name, temperature(shown, move.hot.high), temperature(shown, move.hot.low), move.cold.name,
                   temperature(shown, move.cold.high), temperature(shown, move.cold.low), heat_of(shown, move.heat))
                  for move in flow.moves)
    prices = tuple((word, price.part.name, temperature(shown, price.part.high), temperature(shown, price.part.low),
                    Decimal(shown.price(price.price)))
                   for word, parts in (('gives', flow.gives), ('takes', flow.takes)) for price in parts)
    unit = shown.temperature_unit
    headings = ('hot', f'hot from {unit}', f'hot to {unit}', 'cold', f'cold from {unit}', f'cold to {unit}',
                shown.heat_unit)
    return [uses_sheet(case, flow, shown), Sheet(f'Heat flow, shifted {unit}', headings, moves),
            Sheet(f'Prices that prove it, shifted {unit}',
                  ('', 'part', f'from {unit}', f'to {unit}', f'price {shown.price_unit}'),
                  prices)]


def flow_facts(case: Case, flow: HeatFlow | Cut) -> FactRow:
    """The least cost and the use of each utility; nothing where there is no heat flow."""
    if isinstance(flow, Cut):
        return ()
    shown = Shown(case.basis)
    uses = (Fact(utility.name, heat_of(shown, flow.use(utility.name)), shown.heat_unit) for utility in case.utilities)
    return Fact('least cost', cost(shown, flow.cost), shown.cost_unit), *uses


def cut_told(cut: Cut, shown: Shown) -> str:
    """That there is no heat flow, and why."""
    need, offer = (f'{shown.heat(heat)} {shown.heat_unit}' for heat in (cut.need, cut.offer))
    told = f'have to give {need}, and all that they reach can take {offer} at most' if cut.side is Side.HOT \
        else f'have to take {need}, and all that reaches them can give {offer} at most'
    return f'No heat flow: these parts {told}'


def cut_table(cut: Cut, shown: Shown) -> FactTable:
    """The parts that cannot be served."""
    rows = tuple((Fact('part', part.name), Fact('from', temperature(shown, part.high), shown.temperature_unit),
                  Fact('to', temperature(shown, part.low), shown.temperature_unit)) for part in cut.parts)
    return FactTable(cut_told(cut, shown), rows)


def cut_sheet(cut: Cut, shown: Shown) -> Sheet:
    return cut_table(cut, shown).sheet()


def audit_sheets(followed: Followed, verdict: Verdict) -> list[Sheet]:
    """A verdict: the balance of an accepted network and where it loses heat, or why it is rejected."""
    shown = Shown(followed.case.basis)
    if isinstance(verdict, Accepted):
        return [balance_sheet(verdict, shown, unfinished_told(followed)), penalties_sheet(verdict, shown)]
    if isinstance(verdict, TooFine):
        return [Sheet('Too fine: nothing is said about the network', (), ((too_fine_told(verdict),),))]
    found = finding_of(followed, verdict, shown)
    return [Sheet('Rejected', (), ((found.place, verdict.reason), ('', found.sentence)))]


def too_fine_told(verdict: TooFine) -> str:
    return f'at {verdict.place}, step {verdict.step}: write duties and sizes with fewer digits'


def audit_told(followed: Followed, verdict: Verdict) -> str:
    """Why a network, or its penalties, cannot be told, or that it is unfinished; nothing of one that is accepted with
    them."""
    if isinstance(verdict, TooFine):
        return too_fine_told(verdict)
    if isinstance(verdict, Accepted):
        fine = penalties_told(verdict.too_fine) if verdict.too_fine else ''
        return '; '.join(told for told in (unfinished_told(followed), fine) if told)
    found = finding_of(followed, verdict, Shown(followed.case.basis))
    return f'{found.place} {verdict.reason}; {found.sentence}'


def balance_facts(verdict: Accepted, shown: Shown) -> FactRow:
    """The balance of an accepted network and its cost, beside which the floor stands."""
    unit = shown.cost_unit
    return (*utility_facts(verdict, shown),
            Fact('excess over the hot target', heat_of(shown, verdict.excess), shown.heat_unit),
            Fact('cost', cost(shown, verdict.cost), unit),
            Fact('floor: no network costs less', cost(shown, verdict.floor), unit),
            Fact('cost above the floor', cost(shown, verdict.cost - verdict.floor), unit),
            Fact('reference place, shifted', temperature(shown, verdict.place), shown.temperature_unit))


def balance_sheet(verdict: Accepted, shown: Shown, unfinished: str = '') -> Sheet:
    title = f'{unfinished[0].upper()}{unfinished[1:]}: with utilities there' if unfinished else 'Accepted'
    return lines_sheet(title, balance_facts(verdict, shown))


def penalties_told(too_fine: TooFine) -> str:
    return f'at {too_fine.place}, step {too_fine.step}'


def penalties_sheet(verdict: Accepted, shown: Shown) -> Sheet:
    if verdict.too_fine:
        return Sheet('Penalties are too fine', (), ((penalties_told(verdict.too_fine),),))
    rows = tuple((str(penalty.place), heat_of(shown, penalty.heat)) for penalty in verdict.penalties if penalty.heat)
    title = 'Penalties: where it loses heat' if rows else 'No penalty: it loses no heat'
    return Sheet(title, ('', shown.heat_unit) if rows else (), rows)


def sweep_table(case: Case, sweep: Sweep, base: SweepRow | None = None) -> FactTable:
    """Targets and least cost over the least difference, which is twice the contribution, with the case as it is: a row
    of the sweep, or `base` above them where sources have contributions of their own, which a sweep replaces."""
    shown, own = Shown(case.basis), own_contributions(case)
    rows: list[FactRow] = []
    for point in (*([base] if base else []), *sweep.points):
        as_it_is = point is base or not own and point.contribution == case.contribution
        least: Cell = NO_FLOW if point.cost is None else cost(shown, point.cost)
        approach: Cell = 'its own' if point is base else Decimal(shown.difference(2 * point.contribution))
        rows.append((Fact('least difference', approach, shown.difference_unit),
                     Fact('hot', heat_of(shown, point.hot), shown.heat_unit),
                     Fact('cold', heat_of(shown, point.cold), shown.heat_unit),
                     Fact('least cost', least, shown.cost_unit),
                     Fact('remark', 'the case as it is' if as_it_is else '')))
    title = f'Sweep: the contributions of their own of {", ".join(own)} are replaced' if own else 'Sweep'
    return FactTable(title, tuple(rows))


def sweep_sheets(case: Case, sweep: Sweep, base: SweepRow | None = None) -> list[Sheet]:
    return [sweep_table(case, sweep, base).sheet()]


def prices_tables(case: Case, prices: Prices) -> list[FactTable]:
    """The least cost of each scenario, and at both ends of each segment of a span, with the heat that is its slope."""
    shown = Shown(case.basis)
    scenarios: list[FactRow] = []
    segments: list[FactRow] = []
    for answer in prices.answers:
        if isinstance(answer, PriceScenarioAnswer):
            least: Cell = NO_FLOW if answer.cost is None else cost(shown, answer.cost)
            scenarios.append((Fact('scenario', answer.name), Fact('least cost', least, shown.cost_unit)))
        else:
            segments.extend(span_rows(answer, shown))
    price, costs = shown.price_unit, shown.cost_unit
    columns = ('utility', f'from {price}', f'to {price}', f'cost at the first {costs}', f'cost at the last {costs}',
               f'slope {shown.heat_unit}')
    tables = [FactTable('Scenarios', tuple(scenarios)), FactTable('Spans', tuple(segments), columns=columns)]
    return [table for table in tables if table.rows]


def prices_sheets(case: Case, prices: Prices) -> list[Sheet]:
    return [table.sheet() for table in prices_tables(case, prices)]


def span_rows(span: SpanAnswer, shown: Shown) -> list[FactRow]:
    """A row for each segment, or one that says that there is no heat flow."""
    price_unit, cost_unit, utility = shown.price_unit, shown.cost_unit, Fact('utility', span.utility)
    if not span.segments:
        return [(utility, Fact('from', NO_FLOW, price_unit))]
    return [(utility, Fact('from', Decimal(shown.price(segment.first)), price_unit),
             Fact('to', Decimal(shown.price(segment.last)), price_unit),
             Fact('cost at the first', cost(shown, segment.cost(segment.first)), cost_unit),
             Fact('cost at the last', cost(shown, segment.cost(segment.last)), cost_unit),
             Fact('slope', heat_of(shown, segment.slope), shown.heat_unit)) for segment in span.segments]


def site_facts(answer: SiteAnswer, basis: Basis) -> FactRow:
    """What the boiler has to give and the cooling to take; nothing where there is no heat flow."""
    if answer.boiler is None or answer.cooling is None:
        return ()
    shown = Shown(basis)
    return (Fact('boiler', heat_of(shown, answer.boiler), shown.heat_unit),
            Fact('cooling', heat_of(shown, answer.cooling), shown.heat_unit))


def site_tables(answer: SiteAnswer, basis: Basis) -> list[FactTable]:
    """The profiles of a site, and what cannot be served."""
    shown = Shown(basis)
    rows = tuple((Fact('shifted', temperature(shown, profile.temperature), shown.temperature_unit),
                  Fact('to give below it', heat_of(shown, profile.source), shown.heat_unit),
                  Fact('to take above it', heat_of(shown, profile.sink), shown.heat_unit))
                 for profile in answer.profiles)
    return [FactTable('Profiles', rows), *([cut_table(answer.cut, shown)] if answer.cut else [])]


def site_sheets(answer: SiteAnswer, basis: Basis = Basis()) -> list[Sheet]:
    """What a site of this basis needs, and its profiles."""
    needs = [lines_sheet('Site', site_facts(answer, basis))] if answer.feasible else []
    return [*needs, *(table.sheet() for table in site_tables(answer, basis))]
