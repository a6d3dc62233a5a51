"""The exchangers of a network as a table: both sides in and out, differences, duties, the side of the pinch,
penalties.

Duties, balance and penalties are the program's. Temperatures are worked out along the network in fractions (`states`),
and rounded here. A duty over the logarithmic mean of its differences is for the eye: it is given where both levels are
known."""
from __future__ import annotations

from collections.abc import Sequence
from dataclasses import replace
from decimal import Decimal, localcontext
from fractions import Fraction

from ..analysis.findings import Finding, finding_of, headline, stream_at
from ..analysis.follow import Followed, Passage, PinchPoint, SideState, StreamEnd
from ..analysis.joined import Joined, exchanger_count, joined
from ..formats.case import Side, Stream, Utility
from ..formats.shown import Shown
from ..formats.whole_streams import WholeStream, parts_of
from ..program.verdicts import Accepted, Place, PlaceKind, Rejected, Verdict
from .facts import Fact, FactRow
from .sheet import Cell, Sheet


def headings_of(shown: Shown) -> tuple[str, ...]:
    degree, difference, heat = shown.temperature_unit, shown.difference_unit, shown.heat_unit
    ends = (f'{side} {way} {degree}' for side in ('hot', 'cold') for way in ('in', 'out'))
    return ('exchanger', 'hot', 'hot branch', 'cold', 'cold branch', f'duty {heat}', *ends, f'least {difference}',
            f'needed {difference}', shown.flow_unit, 'pinch', f'across {heat}', f'penalty {heat}')


def mean_difference(passage: Passage, shown: Shown) -> Decimal | None:
    """The logarithmic mean of the differences at both ends; None where an end has none, or a level is invented."""
    first, second = passage.hot_end, passage.cold_end
    if is_invented(passage.hot) or is_invented(passage.cold):
        return None
    if first is None or second is None or first <= 0 or second <= 0:
        return None
    with localcontext() as context:
        context.prec = 50
        at_hot, at_cold = (Decimal(end.numerator) / Decimal(end.denominator)
                           for end in map(shown.in_difference, (first, second)))
        # Where both are nearly one the quotient of differences says nothing.
        if abs(at_hot - at_cold) <= at_hot * Decimal('1e-12'):
            return at_hot
        return (at_hot - at_cold) / (at_hot / at_cold).ln()


def is_invented(side: SideState) -> bool:
    """Whether a side is a utility that stands in, at a level that nobody gave."""
    return isinstance(side.source, Utility) and side.source.invented


def conductance(passage: Passage, shown: Shown) -> Decimal | None:
    """Duty over mean difference: the overall coefficient times the area."""
    if len(passage.parts) > 1:
        sizes = [conductance(part, shown) for part in passage.parts]
        known = [size for size in sizes if size is not None]
        return sum(known, Decimal(0)) if len(known) == len(sizes) else None
    mean = mean_difference(passage, shown)
    duty = shown.in_heat(passage.exchanger.duty)
    return None if mean is None else Decimal(duty.numerator) / Decimal(duty.denominator) / mean


def rounded(size: Decimal, shown: Shown) -> Decimal:
    """A duty over a mean difference as it is shown."""
    return size.quantize(Decimal(1).scaleb(-3 - shown.finer_flow))


def branch_of(side: object, passage: Passage) -> str:
    """The branch that a side leads through, where it is not the whole stream."""
    state = passage.hot if side == 'hot' else passage.cold
    return state.before.name if state.before and state.before.name != state.source.name else ''


def temperatures(passage: Passage, shown: Shown) -> list[Cell]:
    return [None if end is None or is_invented(side) else Decimal(shown.temperature(end))
            for side in (passage.hot, passage.cold) for end in (side.inlet, side.outlet)]


def sides(passage: Passage, pinches: tuple[PinchPoint, ...]) -> str:
    """The side of the pinch, of several pinches each."""
    return ' '.join(side.value if side else '?' for side in map(passage.side_of, pinches))


def crossing(passage: Passage, pinches: tuple[PinchPoint, ...], shown: Shown) -> Cell:
    """What is carried down across the pinches, of the one across which it is most."""
    heats = [heat for heat in map(passage.crossing, pinches) if heat]
    return Decimal(shown.heat(max(heats, key=abs))) if heats else None


def row_of(passage: Passage, pinches: tuple[PinchPoint, ...], verdict: Verdict, shown: Shown) -> tuple[Cell, ...]:
    least, size = passage.least_difference, conductance(passage, shown)
    invented = is_invented(passage.hot) or is_invented(passage.cold)
    lost = penalty_of(passage, verdict)
    return (passage.exchanger.name, passage.hot.source.name, branch_of('hot', passage), passage.cold.source.name,
            branch_of('cold', passage), Decimal(shown.heat(passage.exchanger.duty)), *temperatures(passage, shown),
            None if least is None or invented else Decimal(shown.difference(least)),
            Decimal(shown.difference(passage.approach)),
            rounded(size, shown) if size is not None else None, sides(passage, pinches),
            crossing(passage, pinches, shown), Decimal(shown.heat(lost)) if lost is not None else None)


def penalty_of(passage: Passage, verdict: Verdict) -> Fraction | None:
    """What heat an exchanger loses, by the audit's penalties of its parts; None where there are none."""
    places = [Place(PlaceKind.EXCHANGER, part.exchanger.name) for part in passage.parts]
    lost = [verdict.penalty(place) if isinstance(verdict, Accepted) else None for place in places]
    known = [heat for heat in lost if heat is not None]
    return sum(known, Fraction(0)) if len(known) == len(lost) else None


def exchangers_sheet(followed: Followed, pinches: tuple[PinchPoint, ...], verdict: Verdict) -> Sheet:
    """One row for each exchanger; of a rejected network the row of the fault is marked. An exchanger that goes on
    across the kink of a stream is one, with the names of those that it is in the program."""
    shown = Shown(followed.case.basis)
    passages = joined(followed).followed.passages
    rows = tuple(row_of(passage, pinches, verdict, shown) for passage in passages)
    finding = finding_of(followed, verdict, shown) if isinstance(verdict, Rejected) else None
    marked = frozenset(at for at, passage in enumerate(passages) if finding and is_at(passage, finding, verdict))
    return with_fault(Sheet('Exchangers', headings_of(shown), rows, marked), finding)


def with_fault(sheet: Sheet, finding: Finding | None) -> Sheet:
    """The sheet with a column that says the fault in the rows that are marked."""
    if finding is None:
        return sheet
    rows = tuple((*row, finding.told) if at in sheet.marked else row for at, row in enumerate(sheet.rows))
    return replace(sheet, headings=(*sheet.headings, 'fault'), rows=rows)


def is_at(passage: Passage, finding: Finding, verdict: Verdict) -> bool:
    """Whether a finding is about an exchanger: itself, or its utility."""
    if isinstance(verdict, Rejected) and verdict.place.kind is PlaceKind.UTILITY:
        return verdict.place.name in (passage.hot.source.name, passage.cold.source.name)
    return finding.exchanger in [part.exchanger.name for part in passage.parts]


def streams_sheet(followed: Followed, verdict: Verdict) -> Sheet:
    """Where each stream ends: its target, what is reached there, and how much heat it exchanged."""
    shown = Shown(followed.case.basis)
    finding = finding_of(followed, verdict, shown) if isinstance(verdict, Rejected) else None
    plant = joined(followed).followed
    streams = plant.case.streams
    rows = tuple(stream_row(stream, plant.ends[stream.name], shown) for stream in streams)
    marked = frozenset(at for at, stream in enumerate(streams)
                       if finding and finding.stream in [part.name for part in parts_of(stream)])
    degree, heat = shown.temperature_unit, shown.heat_unit
    headings = ('stream', 'side', f'supply {degree}', f'target {degree}', f'reached {degree}', f'CP {shown.flow_unit}',
                f'load {heat}', f'exchanged {heat}')
    return with_fault(Sheet('Streams', headings, rows, marked), finding)


def stream_row(stream: Stream, ends: tuple[StreamEnd, ...], shown: Shown) -> tuple[Cell, ...]:
    end = ends[0].branch if len(ends) == 1 else None
    reached = end.temperature if end else None
    exchanged = None
    if isinstance(stream, WholeStream):
        exchanged = Fraction(stream.heat)
    elif end and end.state is not None:
        part = end.state if stream.side is Side.COLD else 1 - end.state
        exchanged = end.size * part if stream.latent else abs(end.state - stream.supply) * end.size
    return (stream.name, stream.side.value, Decimal(shown.temperature(stream.supply)),
            Decimal(shown.temperature(stream.target)),
            None if reached is None else Decimal(shown.temperature(reached)), flow_of(stream, shown),
            Decimal(shown.heat(stream.heat)),
            None if exchanged is None else Decimal(shown.heat(exchanged)))


def flow_of(stream: Stream, shown: Shown) -> Cell:
    """The CP of a stream, of one in segments those of all of them; none of a latent one."""
    if isinstance(stream, WholeStream):
        return ' / '.join('latent' if segment.latent else shown.flow(segment.cp)
                          for segment in stream.segments)
    return None if stream.latent else Decimal(shown.flow(stream.cp))


def streams_sheets(followed: Followed, verdict: Verdict) -> list[Sheet]:
    """The streams of the plant, and their segments where some have several."""
    return [streams_sheet(followed, verdict), *segments_sheets(joined(followed))]


def segments_sheets(plant: Joined) -> list[Sheet]:
    """The segments of each stream that has some, and where they are shown as the program has them; no sheet where
    there are none."""
    case = plant.followed.case
    notes = tuple((note,) for note in plant.notes)
    return [*segments_of(case.streams, Shown(case.basis)), *([Sheet('Kinks', (), notes)] if notes else [])]


def segments_of(streams: Sequence[Stream], shown: Shown) -> list[Sheet]:
    """The segments of each stream that has some."""
    rows: list[tuple[Cell, ...]] = [
        (stream.name, segment.name, Decimal(shown.temperature(segment.supply)),
         Decimal(shown.temperature(segment.target)), flow_of(segment, shown), Decimal(shown.heat(segment.heat)))
        for stream in streams if isinstance(stream, WholeStream) for segment in stream.segments]
    degree = shown.temperature_unit
    headings = ('stream', 'in the program', f'from {degree}', f'to {degree}', f'CP {shown.flow_unit}',
                f'load {shown.heat_unit}')
    return [Sheet('Segments of streams', headings, tuple(rows))] if rows else []


def sums_sheet(followed: Followed) -> Sheet:
    """The heat of each utility, of all exchangers, and the duty over mean difference of those of which it is known."""
    shown = Shown(followed.case.basis)
    sides = [(utility.side.value, utility_sum(followed, utility, shown)) for utility in followed.case.utilities]
    lines = [*sides, *(('', fact) for fact in exchanger_sums(followed, shown))]
    return Sheet('Utilities', ('', '', '', ''), tuple((fact.name, side, fact.value, fact.unit) for side, fact in lines))


def sums_facts(followed: Followed) -> FactRow:
    """The same sums, each utility with its side."""
    shown = Shown(followed.case.basis)
    utilities = [(utility.side.value, utility_sum(followed, utility, shown)) for utility in followed.case.utilities]
    return (*(replace(fact, name=f'{fact.name} {side}') for side, fact in utilities), *exchanger_sums(followed, shown))


def utility_sum(followed: Followed, utility: Utility, shown: Shown) -> Fact:
    duties = [exchanger.duty for exchanger in followed.network.exchangers
              if utility.name in (exchanger.hot, exchanger.cold)]
    return Fact(utility.name, Decimal(shown.heat(sum(duties, Fraction(0)))), shown.heat_unit)


def exchanger_sums(followed: Followed, shown: Shown) -> FactRow:
    """The heat of all exchangers, and the duty over mean difference of those of which it is known."""
    duty = sum((exchanger.duty for exchanger in followed.network.exchangers), Fraction(0))
    sizes = [conductance(passage, shown) for passage in joined(followed).followed.passages]
    known = [size for size in sizes if size is not None]
    sum_of_known = rounded(sum(known, Decimal(0)), shown)
    return (Fact(f'{exchanger_count(followed)} exchangers', Decimal(shown.heat(duty)), shown.heat_unit),
            Fact(f'duty over mean difference of {len(known)} of them', sum_of_known, shown.flow_unit))


def verdict_sheet(followed: Followed, verdict: Verdict) -> Sheet:
    return Sheet('', (), ((headline(followed, verdict),),))


def mixes_sheets(followed: Followed, verdict: Verdict) -> list[Sheet]:
    """The mixes that lose heat, by their statements; no sheet where none does."""
    shown = Shown(followed.case.basis)
    penalties = verdict.penalties if isinstance(verdict, Accepted) else ()
    lost = [penalty for penalty in penalties if penalty.place.kind is PlaceKind.LINE and penalty.heat]
    rows = tuple((str(mix.place), stream_at(followed, mix.place.line), Decimal(shown.heat(mix.heat)))
                 for mix in lost)
    return [Sheet('Mixes that lose heat', ('statement', 'stream', f'penalty {shown.heat_unit}'), rows)] if rows else []
