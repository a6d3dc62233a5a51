"""What a sweep asks for, within its limits, and the case as it is beside its rows."""
from __future__ import annotations

from fractions import Fraction

from ..errors import WordsError
from ..formats.amounts import exact, shortened
from ..formats.case import Case
from ..formats.case_units import CaseUnits
from ..formats.shown import decimal, is_rounded
from ..program.answers import Cut, SweepRow
from ..program.run import CaseText, Pinch

# The limits of the program: of a contribution in steps of the case, of rows, of workers.
MOST_CONTRIBUTION, MOST_ROWS, MOST_WORKERS = 1000, 1000, 16


def steps_of(text: str, units: CaseUnits | None) -> Fraction:
    """A least difference in steps of the case; a `ValueError` where it is no number. That of a case in tenths of °C is
    in K; of one in units of its own it may have its unit, and needs it where degrees are no kelvins."""
    number = text.replace(',', '.')
    if units is None:
        return exact(number) * CaseUnits().steps
    # Most words take no unit, and load no tables.
    from ..tables.numbers import numeral_of
    from ..tables.units import Kind, unit_of
    numeral = numeral_of(number)
    value = Fraction(numeral.value('.'))
    if numeral.unit:
        return units.of_tenths_between(unit_of(numeral.unit, Kind.DIFFERENCE).exact(value))
    if units.difference != 'K':
        raise WordsError(f'the least difference {shortened(text)} has no unit, and the case is in {units.temperature}: '
                         f'say "{shortened(text)} {units.difference}", or in kelvins as "10 K"')
    return value * units.steps


def shown_steps(steps: int, units: CaseUnits | None) -> str:
    """So many steps of the case as a difference with its unit."""
    known = units or CaseUnits()
    difference = known.shown_difference(steps)
    told = str(difference) if is_rounded(difference, 6) else decimal(difference, 6)
    return f'{told} {known.difference}'


def contribution_of(text: str, units: CaseUnits | None = None) -> int:
    """Half of a least difference in steps of the case; `WordsError` where that is no whole number, or out of its
    limits."""
    try:
        contribution = steps_of(text, units) / 2
    except ValueError:
        contribution = Fraction(-1)
    if contribution > MOST_CONTRIBUTION:
        raise WordsError(f'a least difference is {shown_steps(2 * MOST_CONTRIBUTION, units)} at most, and '
                         f'{shortened(text)} is more')
    if contribution.denominator != 1 or contribution < 0:
        wanted = f'multiple of {shown_steps(2, units)}' if units else 'number of fifths of a K, as 10 or 2.4'
        raise WordsError(f'{shortened(text)} is not a least difference in {(units or CaseUnits()).difference}: it '
                         f'needs a {wanted}')
    return int(contribution)


def asked_range(first: str, last: str, step: str, workers: int,
                units: CaseUnits | None = None) -> tuple[int, int, int]:
    """The first and the last contribution and the step of a sweep that is asked for by least differences, of a case in
    these units of its own, if it has some; `WordsError` where there is no such sweep."""
    begin, end, by = (contribution_of(difference, units) for difference in (first, last, step))
    if begin > end:
        raise WordsError(f'the first least difference, {shown_steps(2 * begin, units)}, is above the last one, '
                         f'{shown_steps(2 * end, units)}')
    if not by:
        raise WordsError(f'the step is 0: {shown_steps(2, units) if units else "a fifth of a K"} is the least')
    rows = (end - begin) // by + 1
    if rows > MOST_ROWS:
        least = 2 * ((end - begin) // MOST_ROWS + 1)
        raise WordsError(f'a sweep has {MOST_ROWS} rows at most, and this one would have {rows}: take a step of '
                         f'{shown_steps(least, units)} or more')
    check_workers(workers)
    return begin, end, by


def check_workers(workers: int) -> None:
    if not 1 <= workers <= MOST_WORKERS:
        raise WordsError(f'{workers} is not a number of workers: 1 to {MOST_WORKERS}')


def own_contributions(case: Case) -> tuple[str, ...]:
    """The sources with a contribution of their own, which a sweep replaces."""
    return tuple(source.name for source in case.sources if source.contribution != case.contribution)


def as_it_is(pinch: Pinch, text: CaseText, case: Case) -> SweepRow | None:
    """The case as it is as a row of a sweep, where no row of one can be it, since sources have contributions of their
    own."""
    if not own_contributions(case):
        return None
    targets, flow = pinch.targets(text), pinch.flow(text)
    return SweepRow(case.contribution, targets.hot, targets.cold, None if isinstance(flow, Cut) else flow.cost)
