"""The site file: the only reader of it in the desk (docs/FORMATS.md, *The site file*). Tenths of °C and 10 W/K."""
from __future__ import annotations

from collections.abc import Sequence
from dataclasses import dataclass
from fractions import Fraction

from ..errors import Refused, refused_row
from .case import Side, Stream, is_passed_over, number, records
from .comments import Basis, noted


@dataclass(frozen=True)
class Main:
    """A steam main: shifted, it takes heat at its level plus the contribution and gives it at its level less the
    contribution."""

    name: str
    level: int


@dataclass(frozen=True)
class SitePlant:
    """A plant with its streams."""

    name: str
    streams: tuple[Stream, ...]


@dataclass(frozen=True)
class Site:
    """Plants that share steam mains; one contribution holds for all. All its CPs are the basis's scale times those of
    the plants, as those of cases that were put together to a site may be."""

    contribution: int
    mains: tuple[Main, ...]
    plants: tuple[SitePlant, ...]
    basis: Basis = Basis()


def read_site(text: str | bytes) -> Site:
    """The site of a file's text. `Refused` where it is none as far as this reader sees; names and limits are for the
    program to check."""
    contribution: int | None = None
    mains: list[Main] = []
    plants: list[tuple[str, list[tuple[Side, str, list[int]]]]] = []
    at = 0
    for at, row in records(text):
        if len(row) != 7:
            raise refused_row('site', at, 'FieldCount')
        if row[0] == '#units':
            cause = 'a site has tenths of °C and 10 W/K: make the cases of its plants without --units table'
            raise Refused(3, f'site row {at}', 'units', f'site row {at} #units: {cause}')
        if is_passed_over(row):
            continue
        if row[0] == 'contribution':
            contribution = number('site', at, row[2])
        elif row[0] == 'main':
            mains.append(Main(row[1], number('site', at, row[2])))
        elif row[0] == 'plant':
            plants.append((row[1], []))
        elif row[0] not in ('hot', 'cold'):
            raise refused_row('site', at, 'UnknownKind')
        elif not plants:
            raise refused_row('site', at, 'NoPlant')
        else:
            plants[-1][1].append((Side(row[0]), row[1], [number('site', at, text) for text in row[2:5]]))
    if contribution is None:
        raise refused_row('site', at + 1, 'NoContribution')
    made = tuple(SitePlant(name, streams_of(rows, contribution)) for name, rows in plants)
    return Site(contribution, tuple(mains), made, Basis(scale=scale_of(list(records(text)))))


def scale_of(rows: Sequence[tuple[int, Sequence[str]]]) -> Fraction:
    """What the CPs of a site are taken times, by its rows `#scale`: one above the plants, or the same in each;
    `Refused` where they are not the same."""
    # That of the head, and that of each plant.
    found: list[Fraction | None] = [None]
    last = 0
    for at, row in rows:
        if row[0] == 'plant':
            found.append(None)
        elif row[0] == '#scale':
            last = at
            try:
                found[-1] = noted(Basis(scale=found[-1] or Fraction(1)), row).scale
            except ValueError as fault:
                raise Refused(3, f'site row {at}', 'comment', f'site row {at} {row[0]}: {fault}') from fault
    head, *plants = found
    distinct_scales = {plant_scale or head or Fraction(1) for plant_scale in plants} | ({head} if head else set())
    if len(distinct_scales) > 1:
        scales = ' and '.join(str(scale) for scale in sorted(distinct_scales))
        cause = f'the plants have the scales {scales}, and one has to hold for all'
        raise Refused(3, f'site row {last}', 'scale', f'site row {last}: {cause}')
    return next(iter(distinct_scales), Fraction(1))


def streams_of(rows: list[tuple[Side, str, list[int]]], contribution: int) -> tuple[Stream, ...]:
    return tuple(Stream(name, side, supply, target, cp, 0, contribution) for side, name, (supply, target, cp) in rows)
