"""The comment rows of a case of which some streams are gone, and others have other names: those of areas and money
(`cost_rows`), and those of utilities with a range (`ranges`)."""
from __future__ import annotations

from collections.abc import Mapping, Sequence
from dataclasses import replace
from itertools import product

from .case import Stream
from .cost_rows import CostRow, Film, Material, Overall, UtilityRange, subject
from .ranges import RangedUtility

Names = Mapping[str, Sequence[str]]


def named_by(row: CostRow) -> tuple[str, ...]:
    """The sources that a row of areas and money names; an empty one stands for all."""
    match row:
        case Film(source=name) | Material(source=name) | UtilityRange(utility=name):
            return (name,)
        case Overall(source, other):
            return (source, other)
    return ()


def naming(row: CostRow, names: Sequence[str]) -> CostRow:
    """A row with these sources in place of its own."""
    match row:
        case Film() | Material():
            return replace(row, source=names[0])
        case UtilityRange():
            return replace(row, utility=names[0])
        case Overall():
            return replace(row, source=names[0], other=names[1])
    return row


def kept_cost_rows(rows: Sequence[CostRow], names: Names, wholes: Names) -> tuple[CostRow, ...]:
    """The rows with the names that their sources have now: `names` has those of each source of the case, none where it
    is gone, and `wholes` those that stand for each stream in segments, whose own rows come first."""
    made: dict[tuple[object, ...], CostRow] = {}
    for known in (names, {**wholes, **names}):
        for row in rows:
            for sources in product(*(known.get(name, ()) if name else ('',) for name in named_by(row))):
                changed = naming(row, sources)
                made.setdefault(subject(changed), changed)
    return tuple(made.values())


def kept_ranges(utilities: Sequence[RangedUtility], left: Mapping[str, Mapping[str, Sequence[Stream]]]) \
        -> tuple[RangedUtility, ...]:
    """The utilities with a range of which something is left: `left` has of each the streams, or the segments of one,
    that are left of it, by their names. What is left at one temperature alone is a stream as any other."""
    return tuple(replace(utility, name=name, cp=max(part.cp for part in parts), lacking=None)
                 for utility in utilities for name, parts in left.get(utility.name, {}).items()
                 if not all(part.latent for part in parts))
