"""The table that a case came from: read again, and shown as it was understood, where it gives this very case."""
from __future__ import annotations

from dataclasses import dataclass, replace
from itertools import product

from ..errors import Refused, of_file
from ..formats.case import Case
from ..formats.case_units import CaseUnits
from ..formats.shown import decimal, is_rounded
from ..program.run import Pinch
from ..report.sheet import Sheet
from ..report.understood_sheet import understood_sheet
from ..tables.convert import case_of_table
from ..tables.wanted import wanted_by
from ..text import printable
from .case_word import with_ranges
from .shared import CaseShown
from .word import TextFile


@dataclass(frozen=True)
class ReadingOptions(CaseShown):
    """How the table is to be read, in the words of the command; all else the case says."""

    sheet: str | None = None
    separator: str | None = None
    decimal: str | None = None


def understood_of(file: TextFile, case: Case, options: ReadingOptions) -> Sheet:
    """How the table of a case was understood; `Refused` where the table gives another case."""
    # Its own least difference, else that of the case. Prices are not compared, so that any hours do.
    own = difference_of(case)
    faults: list[Refused] = []
    tries = list(product((None, own), (False, True)))
    for difference, levels in tries:
        asked = wanted_by(difference, options.sheet, options.separator, options.decimal, str(case.basis.scale), '1')
        asked = replace(asked, own_units=case.basis.units is not None, levels=levels)
        try:
            with of_file(file.name):
                table = case_of_table(file.content, file.name, asked)
                table = with_ranges(table, Pinch()) if table.ranges else table
        except Refused as fault:
            faults.append(fault)
            continue
        if unpriced(table.case) == unpriced(case):
            return understood_sheet(table, f'How the table {printable(file.name)} was understood')
    if len(faults) == len(tries):
        raise faults[-1]
    raise Refused(3, '', 'another case', 'the table gives another case than this one', file.name)


def difference_of(case: Case) -> str:
    """The least difference of a case with its unit: in K, or in °F where it is no decimal number of these."""
    kelvin = (case.basis.units or CaseUnits()).in_tenths_between(case.contribution) / 5
    return f'{decimal(kelvin * 9 / 5, 9)} °F' if is_rounded(kelvin, 9) else f'{decimal(kelvin, 9)} K'


def unpriced(case: Case) -> tuple[object, ...]:
    """What of a case is compared: all but prices and comments."""
    return (case.contribution, case.streams, tuple(replace(utility, price=0) for utility in case.utilities),
            case.forbids)
