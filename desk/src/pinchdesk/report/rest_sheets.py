"""What is left of a network as tables: what the choice so far costs, the open branches, those at the pinch of the rest,
and where the network loses heat already. What is rounded is told."""
from __future__ import annotations

from collections.abc import Callable, Iterator
from dataclasses import replace
from decimal import Decimal
from fractions import Fraction

from ..analysis.findings import exact, finding_of
from ..analysis.follow import PinchPoint
from ..analysis.joined import placed_count
from ..analysis.open_branches import Left, rounded
from ..analysis.rest import Posed, Rest
from ..analysis.unfinished import placed
from ..formats.case import Side, Stream, shifted
from ..formats.shown import Shown, decimal
from ..program.answers import Cut
from ..program.verdicts import Accepted, Rejected
from .answer_sheets import audit_told, cut_sheet
from .facts import Fact, FactRow, lines_sheet
from .sheet import Cell, Sheet

TOO_FINE = 'its numbers are too fine to be audited: write duties and sizes with fewer digits'
SIDES = ('above', 'below')
SPLITS = {('above', True): 'split a cold one', ('below', True): 'split a hot one'}


def between(low: Fraction, high: Fraction, show: Callable[[Fraction], str]) -> Cell:
    """A number, or both bounds of one that lies between."""
    first, last = show(low), show(high)
    return Decimal(first) if low == high or first == last else f'{first} to {last}'


def rest_facts(rest: Rest) -> FactRow:
    """What stands, what is left, and what it costs above the targets of the whole; what lies between two numbers is a
    text."""
    shown = Shown(rest.followed.case.basis)
    posed = [part for part in (rest.easier, rest.harder) if part]
    hots, colds = ([part.hot for part in posed] or [Fraction(0)], [part.cold for part in posed] or [Fraction(0)])
    used, least, most, unit = rest.hot_used, min(hots), max(hots), shown.heat_unit

    def heat(low: Fraction, high: Fraction) -> Cell:
        return between(low, high, lambda number: shown.heat(number, 6))
    return (Fact('exchangers so far', Decimal(placed_count(rest.followed))),
            Fact('hot utility that they use', heat(used, used), unit),
            Fact('hot target of the rest', heat(least, most), unit),
            Fact('hot target of the whole', heat(Fraction(rest.whole.hot), Fraction(rest.whole.hot)), unit),
            Fact('the choice costs above it', heat(*rest.excess), unit + excess_words(rest)),
            Fact('cold utility that they use', heat(rest.cold_used, rest.cold_used), unit),
            Fact('cold target of the rest', heat(min(colds), max(colds)), unit),
            Fact('cold target of the whole', heat(Fraction(rest.whole.cold), Fraction(rest.whole.cold)), unit),
            *cost_facts(rest, shown))


def excess_words(rest: Rest) -> str:
    least, most = rest.excess
    return ', no more than the rounding' if least == 0 < most else ''


def cost_facts(rest: Rest, shown: Shown) -> Iterator[Fact]:
    """Costs, by the least-cost heat flows of the rest and of the whole; none where one of them has none."""
    posed = [part for part in (rest.easier, rest.harder) if part]
    costs = [part.cost for part in posed if part.cost is not None]
    if isinstance(rest.whole_flow, Cut) or len(costs) < len(posed):
        return
    floor, unit = rest.whole_flow.cost, shown.cost_unit
    low, high = (rest.cost_used + cost for cost in (min(costs, default=Fraction(0)), max(costs, default=Fraction(0))))
    yield Fact('cost of the utilities used', Decimal(shown.cost(rest.cost_used)), unit)
    yield Fact('least cost of the rest', between(low - rest.cost_used, high - rest.cost_used, shown.cost), unit)
    yield Fact('floor of the whole', Decimal(shown.cost(floor)), unit)
    yield Fact('the choice costs above it', between(low - floor, high - floor, shown.cost), unit)


def open_sheet(rest: Rest) -> Sheet:
    """Each open branch: where it stands, where it has to go, and what is left of it."""
    shown = Shown(rest.followed.case.basis)
    rows = tuple(open_row(left, shown) for left in rest.left)
    title = 'Open branches' if rows else 'No open branch: every stream is ended'
    degree = shown.temperature_unit
    headings = ('stream', 'branch', 'in the rest', 'side', f'CP {shown.flow_unit}', f'from {degree}', f'to {degree}',
                f'left {shown.heat_unit}')
    return Sheet(title, headings if rows else (), rows)


def open_row(left: Left, shown: Shown) -> tuple[Cell, ...]:
    stream = left.stream
    size = None if stream.latent else Decimal(shown.flow(left.size, 6))
    begins = Fraction(stream.supply) if stream.latent else left.state
    ends = Fraction(stream.target) if stream.latent else left.end
    named = left.name if left.heat else 'at its target'
    return (stream.name, left.branch.name, named, stream.side.value, size, Decimal(shown.temperature(begins, 3)),
            Decimal(shown.temperature(ends, 3)), Decimal(shown.heat(left.heat)))


def stands(stream: Stream, pinch: PinchPoint) -> tuple[bool, bool]:
    """Whether a stream is just above a pinch, and just below it."""
    at = pinch.temperature
    if stream.latent:
        is_there, is_above = stream.high == at, pinch.is_below(stream.high)
        return is_there and is_above, is_there and not is_above
    return stream.low <= at < stream.high, stream.low < at <= stream.high


def pinch_sheets(posed: Posed, rest: Rest) -> list[Sheet]:
    """The open branches that meet at each pinch of the rest, and their numbers and CPs on both sides of it."""
    # The case of the rest has its own scale, which the CPs are divided by again.
    basis = rest.followed.case.basis
    shown = Shown(replace(basis, scale=basis.scale * posed.scale.sizes))
    lefts = {left.name: left for left in rest.left}
    rows = tuple(pinch_row(posed, pinch, stream, lefts[stream.name], shown) for pinch in posed.pinches
                 for stream in posed.case.streams if any(stands(stream, pinch)))
    if not rows:
        return [Sheet('No pinch is left' if not posed.pinches else 'No open branch is at the pinch', (), ())]
    degree = shown.temperature_unit
    headings = (f'pinch, shifted {degree}', 'in the rest', 'branch', 'side', f'at {degree}', f'CP {shown.flow_unit}',
                'stands')
    return [Sheet('Branches at the pinch', headings, rows), counts_sheet(posed, shown)]


def pinch_row(posed: Posed, pinch: PinchPoint, stream: Stream, left: Left, shown: Shown) -> tuple[Cell, ...]:
    place = posed.scale.back(pinch.temperature)
    at = place - shifted(left.stream, 0)
    size = None if stream.latent else Decimal(shown.flow(stream.cp, 6))
    words = ' '.join(word for word, is_there in zip(SIDES, stands(stream, pinch)) if is_there)
    return (Decimal(shown.temperature(place)), stream.name, left.branch.name, stream.side.value,
            Decimal(shown.temperature(at)), size, words)


def counts_sheet(posed: Posed, shown: Shown) -> Sheet:
    """How many streams meet on each side of each pinch, and the sums of their CPs: above it each hot one wants a cold
    one of its own, below it each cold one a hot one (Linnhoff and Hindmarsh 1983)."""
    rows: list[tuple[Cell, ...]] = []
    for pinch in posed.pinches:
        for at, word in enumerate(SIDES):
            there = [stream for stream in posed.case.streams if stands(stream, pinch)[at]]
            hot, cold = ([stream for stream in there if stream.side is side] for side in (Side.HOT, Side.COLD))
            few = len(hot) > len(cold) if word == 'above' else len(cold) > len(hot)
            if there:
                place = Decimal(shown.temperature(posed.scale.back(pinch.temperature)))
                rows.append((place, word, Decimal(len(hot)), Decimal(len(cold)),
                             *(Decimal(shown.flow(sum(stream.cp for stream in side), 6))
                               for side in (hot, cold)), SPLITS.get((word, few), '')))
    headings = (f'pinch, shifted {shown.temperature_unit}', 'side', 'hot', 'cold', f'hot CP {shown.flow_unit}',
                f'cold CP {shown.flow_unit}', 'to pair each')
    return Sheet('Numbers at the pinch', headings, tuple(rows))


def lost_sheets(rest: Rest) -> list[Sheet]:
    """Where the network loses heat already, by the audit's penalties of its exchangers and mixes."""
    if not isinstance(rest.verdict, Accepted):
        return []
    shown = Shown(rest.followed.case.basis)
    names = {passage.exchanger.name for passage in placed(rest.followed)}
    lines = len(rest.followed.network.statements)
    rows = tuple((str(penalty.place), Decimal(shown.heat(penalty.heat))) for penalty in rest.verdict.penalties
                 if penalty.heat and (penalty.place.name in names or 0 < penalty.place.line <= lines))
    return [Sheet('Penalties so far', ('', shown.heat_unit), rows)] if rows else []


def fault_sheets(rest: Rest) -> list[Sheet]:
    """Why what stands is no beginning of a network."""
    if isinstance(rest.verdict, Rejected):
        found = finding_of(rest.finished, rest.verdict, Shown(rest.followed.case.basis))
        return [Sheet('Rejected', (), ((found.place, rest.verdict.reason), ('', found.sentence)))]
    return [Sheet('Too fine: nothing is said about the network', (), ((TOO_FINE,),))]


def rest_told(rest: Rest) -> str:
    """Why what stands is no beginning of a network, or those of its numbers that lie between two."""
    if isinstance(rest.verdict, Accepted):
        return '; '.join(f'{fact.name} {fact.value} {fact.unit}' for fact in rest_facts(rest)
                         if isinstance(fact.value, str))
    return audit_told(rest.finished, rest.verdict) if isinstance(rest.verdict, Rejected) else TOO_FINE


def rest_sheets(rest: Rest) -> list[Sheet]:
    """What is left of a network, or why it is rejected."""
    if not isinstance(rest.verdict, Accepted):
        return fault_sheets(rest)
    sheets = [lines_sheet('The choice so far', rest_facts(rest)), open_sheet(rest)]
    if rest.harder:
        sheets += pinch_sheets(rest.harder, rest)
        if isinstance(rest.harder.flow, Cut):
            sheets.append(unserved_sheet(rest.harder, rest.harder.flow))
    return [*sheets, *lost_sheets(rest)]


def unserved_sheet(posed: Posed, cut: Cut) -> Sheet:
    """The parts of the rest that cannot be served, in the temperatures of the whole."""
    shown = Shown(posed.case.basis)
    rows = tuple((part.name, *(Decimal(shown.temperature(posed.scale.back(end))) for end in (part.high, part.low)))
                 for part in cut.parts)
    return replace(cut_sheet(cut, shown), rows=rows)


def rounding_notes(rest: Rest) -> Iterator[str]:
    """What is rounded in the rest, each number with both that are taken for it."""
    if rest.exact:
        return
    shown = Shown(rest.followed.case.basis)
    scale = next(posed.scale for posed in (rest.harder, rest.easier) if posed)
    for left in (left for left in rest.left if left.heat):
        where, latent = f'branch {left.branch.name} of {left.stream.name}', left.stream.latent
        times = scale.factor if latent else scale.sizes
        if (left.size * times).denominator != 1:
            show, unit = (shown.in_heat, shown.heat_unit) if latent else (shown.in_flow, shown.flow_unit)
            yield f'{where}: {both(left.size, times, show, unit)}'
        if not latent and (left.state * scale.degrees).denominator != 1:
            yield f'{where}: {both(left.state, scale.degrees, shown.in_temperature, shown.temperature_unit)}'
    yield 'the exact targets of the rest lie between those of both'


def both(value: Fraction, times: int, show: Callable[[Fraction], Fraction], unit: str) -> str:
    """A number with the two that are taken for it: the nearest ones that are whole, taken so many times."""
    low, high = (Fraction(rounded(value * times, up), times) for up in (False, True))
    return f'{exact(show(value), 6)} {unit} is taken as {decimal(show(low), 6)} and {decimal(show(high), 6)}'


def file_notes(rest: Rest) -> Iterator[str]:
    """What the case of the rest as a file has rounded, to the side on which it needs more hot utility."""
    scale = next((posed.scale for posed in (rest.harder, rest.easier) if posed), None)
    if scale is None:
        return
    shown = Shown(rest.followed.case.basis)
    if scale.sizes > 1:
        yield f'in the case of the rest all heats and CPs are multiplied by {scale.sizes} (#scale)'
    for left in (left for left in rest.left if left.heat and not left.stream.latent):
        if left.state.denominator != 1:
            low = shown.temperature(rounded(left.state, False), 1)
            yield (f'in the case of the rest branch {left.branch.name} of {left.stream.name} begins at {low} '
                   f'{shown.temperature_unit}, rounded from {exact(shown.in_temperature(left.state), 6)}')
