"""What is asked of a table, and what comes of it."""
from __future__ import annotations

from dataclasses import dataclass
from fractions import Fraction

from ..formats.case import Case, Forbid
from ..formats.range_parts import UnsizedRange
from .blocks import Blocks
from .roundings import RoundingSpan
from .rows import Body
from .spreadsheet import Table


@dataclass(frozen=True)
class Wanted:
    """How a table is to be read: the least difference, the sheet, the separator, the decimal mark, what all heats are
    taken times, and the hours of a year for prices; None is what the table says. With `own_units` the case has the
    units of the table, and nothing is rounded that is whole in these. `tolerance` is how far from a heating curve its
    segments may be, in K. With `levels` a utility with a range has the end that is worth less as its level."""

    difference: str | None = None
    sheet: str | None = None
    separator: str | None = None
    decimal: str | None = None
    scale: Fraction = Fraction(1)
    hours: Fraction | None = None
    own_units: bool = False
    tolerance: Fraction = Fraction(0)
    levels: bool = False


@dataclass(frozen=True)
class Converted:
    """A case that was made of a table: `origins` has the row of the table behind each row of the case, `notes` is
    told, `exact` are its streams before anything was rounded, also by the `tolerance` of heating curves in K;
    `blocks` and `body` are the table as it was understood; `difference` is the least difference and where it comes
    from. `ranges` are the utilities with a range that the case does not have yet, since their sizes are to be found,
    with the row of each, and `range_forbids` the forbidden matches with them."""

    case: Case
    table: Table
    origins: tuple[int, ...]
    notes: tuple[str, ...]
    comments: tuple[str, ...] = ()
    exact: tuple[RoundingSpan, ...] = ()
    blocks: Blocks = Blocks()
    body: Body = Body((), (), (), ())
    difference: str = ''
    ranges: tuple[tuple[int, UnsizedRange], ...] = ()
    range_forbids: tuple[Forbid, ...] = ()
    tolerance: Fraction = Fraction(0)
