"""Heating curves: rows with a temperature and an enthalpy, several for a stream. Between two of them the enthalpy
changes evenly, so that each piece is a segment of the stream, one at a single temperature a latent one.

Within a tolerance fewer pieces stand for them, on the safe side: at each enthalpy a stream that is heated is no colder
than its curve, and one that is cooled no warmer, so that no target becomes too low."""
from __future__ import annotations

from collections.abc import Iterator, Mapping, Sequence
from dataclasses import dataclass, replace
from decimal import Decimal
from fractions import Fraction
from itertools import groupby
from math import lcm
from typing import NamedTuple

from ..formats.case import Side
from ..formats.shown import decimal
from .blocks import Blocks
from .cells import Told
from .layouts import Layout
from .numbers import NoNumber, numeral_of
from .rows import Body, Line
from .spreadsheet import Cell, TableRow
from .units import Kind, UnknownUnit, unit_of
from .vocabulary import Heading

# More points than these of one stream are none of a table that somebody reads.
MOST_POINTS = 200
PLACES = 12


@dataclass(frozen=True)
class CurvePoint:
    """A temperature, and what was given or taken up to it."""

    temperature: Fraction
    heat: Fraction


@dataclass(frozen=True)
class Curve:
    """The points of a stream from its supply to its target in the units of the table, each with its row."""

    lines: tuple[Line, ...]
    points: tuple[CurvePoint, ...]
    side: Side
    # The units that stand with its numbers themselves.
    temperature_unit: str
    heat_unit: str


def with_curves(blocks: Blocks, body: Body, mark: str, tolerance: Fraction, told: Told) -> tuple[Blocks, Body]:
    """The table with the pieces of its heating curves in place of their points; the tolerance is in K."""
    if not any(block.layout.curve for block in blocks.blocks):
        return blocks, body
    # The targets of pieces are in columns of their own, which the table has not.
    width = max(len(row.cells) for row in (*told.table.rows, *(line.row for line in body.lines)))
    curved = [block.layout for block in blocks.blocks if block.layout.curve]
    layouts = {place_of(layout): with_target(layout, width + at) for at, layout in enumerate(curved)}
    told.origins |= {width + at: layout.columns[Heading.SUPPLY] for at, layout in enumerate(curved)}
    made = tuple(replace(block, layout=layouts.get(place_of(block.layout), block.layout)) for block in blocks.blocks)
    lines: list[Line] = []
    for is_point, group in groupby(named_down(body.lines), lambda line: line.layout.curve and line.is_stream):
        if not is_point:
            lines += group
            continue
        for (place, _), points in groupby(group, lambda line: (place_of(line.layout), line.name())):
            curve = CurveReader(mark, told).curve(list(points))
            lines += pieces_of(curve, layouts[place], tolerance, told) if curve else []
    return replace(blocks, blocks=made), replace(body, lines=tuple(lines))


def place_of(layout: Layout) -> tuple[int, int]:
    """The first cell of a head."""
    return layout.head, min(layout.columns.values())


def with_target(layout: Layout, column: int) -> Layout:
    """The layout of a curve with a column of targets, which has the unit of the temperatures."""
    supply = layout.columns[Heading.SUPPLY]
    units, titles = dict(layout.units), dict(layout.titles)
    if supply in units:
        units[column] = units[supply]
    titles[column] = titles[supply]
    return replace(layout, columns={**layout.columns, Heading.TARGET: column}, units=units, titles=titles)


def named_down(lines: Sequence[Line]) -> Iterator[Line]:
    """The lines, points without a name and a kind with those above them."""
    above: Line | None = None
    for line in lines:
        if line.layout.curve and line.is_stream and above and above.layout is line.layout and not line.name():
            column = line.columns[Heading.NAME]
            line = replace(with_cells(line, {column: Cell(above.name())}), kind=line.kind or above.kind)
        above = line
        yield line


def with_cells(line: Line, cells: Mapping[int, Cell]) -> Line:
    """A line with some other cells."""
    width = max([len(line.row.cells), *(column + 1 for column in cells)])
    row = TableRow(line.row.number, tuple(cells.get(at, line.row.cell(at)) for at in range(width)), line.row.hidden)
    return replace(line, row=row)


class CurveReader:
    """Reads the points of a heating curve; what is wrong is told as a fault."""

    def __init__(self, mark: str, told: Told) -> None:
        self.mark, self.told = mark, told

    def curve(self, lines: list[Line]) -> Curve | None:
        """The curve of the points of one stream; None where they are none."""
        name, row = lines[0].name(), lines[0].row.number
        sides = {line.kind or (line.section.side.value if line.section and line.section.side else '') for line in lines}
        if len(lines) < 2 or len(lines) > MOST_POINTS:
            self.told.fault(row, None, f'a heating curve has 2 to {MOST_POINTS} points, and `{name}` has {len(lines)}')
            return None
        if sides not in ({'hot'}, {'cold'}):
            self.told.fault(row, lines[0].at(Heading.NAME), f'whether `{name}` is heated or cooled is open, since a '
                            'curve may begin at either end: a column `kind` has to say hot or cold')
            return None
        temperatures = [self.number(line, Heading.SUPPLY) for line in lines]
        heats = [self.number(line, Heading.LOAD) for line in lines]
        known = [(one, other) for one, other in zip(temperatures, heats) if one and other]
        if len(known) < len(lines):
            return None
        units = {(warm[1], heat[1]) for warm, heat in known}
        if len(units) > 1:
            self.told.fault(row, None, f'the points of `{name}` have different units')
            return None
        side = Side(next(iter(sides)))
        return self.ordered(lines, [CurvePoint(warm[0], heat[0]) for warm, heat in known], side, *next(iter(units)))

    def number(self, line: Line, heading: Heading) -> tuple[Fraction, str] | None:
        """The number of a point and the unit that stands with it; None where it is none, which is a fault."""
        cell, column = line.cell(heading), line.at(heading)
        if cell.fault:
            self.told.fault(line.row.number, column, f'`{cell.text}`: {cell.fault}')
            return None
        if cell.number is not None:
            return Fraction(cell.number), cell.unit
        try:
            numeral = numeral_of(cell.text)
            return Fraction(numeral.value(self.mark)), numeral.unit
        except NoNumber as fault:
            cause = f'`{cell.text}`: {fault}' if cell.text else 'a number is missing'
            self.told.fault(line.row.number, column, cause)
            return None

    def ordered(self, lines: list[Line], points: list[CurvePoint], side: Side, temperature_unit: str,
                heat_unit: str) -> Curve | None:
        """The curve from its supply on, with what was given or taken from there."""
        name, row = lines[0].name(), lines[0].row.number
        warming = points[-1].temperature > points[0].temperature
        if points[-1].temperature != points[0].temperature and warming != (side is Side.COLD):
            lines, points = lines[::-1], points[::-1]
        way = 1 if side is Side.COLD else -1
        steps = list(zip(points, points[1:]))
        if any((after.temperature - before.temperature) * way < 0 for before, after in steps):
            self.told.fault(row, lines[0].at(Heading.SUPPLY), f'the temperatures of `{name}` go up and down: those of '
                            'a heating curve go one way')
            return None
        rising = points[-1].heat > points[0].heat
        if any(before.heat == after.heat or (after.heat > before.heat) != rising for before, after in steps):
            self.told.fault(row, lines[0].at(Heading.LOAD), f'the enthalpies of `{name}` do not go one way from row to '
                            'row: between two points of a heating curve some heat is given or taken')
            return None
        begun = points[0].heat
        counted = tuple(CurvePoint(point.temperature, abs(point.heat - begun)) for point in points)
        return Curve(tuple(lines), counted, side, temperature_unit, heat_unit)


def pieces_of(curve: Curve, layout: Layout, tolerance: Fraction, told: Told) -> list[Line]:
    """The pieces of a curve as rows of segments. The tolerance is in K."""
    first = curve.lines[0]
    degree = degree_of(curve, first)
    aside = (1 if curve.side is Side.COLD else -1) * floored(tolerance / degree)
    pieces = simplified(curve.points, aside)
    rows = {point.heat: line for point, line in zip(curve.points, curve.lines)}
    made = [piece_line(curve, rows[end.heat], layout, begin, end) for begin, end in zip(pieces, pieces[1:])]
    off = furthest(curve.points, pieces) * degree
    way = 'hotter' if curve.side is Side.COLD else 'colder'
    beside = f', at most {decimal(off, 3)} K {way} than they are, on the safe side' if off else ''
    told.note(first.row.number, None, f'the heating curve of `{first.name()}`, {len(curve.points)} points, is taken in '
              f'{len(made)} piece{"s" if len(made) > 1 else ""}{beside}')
    return made


def degree_of(curve: Curve, line: Line) -> Fraction:
    """What a degree of the curve's temperatures is in K; 1 where their unit is not known, which is told elsewhere."""
    text = curve.temperature_unit or line.layout.units.get(line.columns[Heading.SUPPLY], '') or Kind.TEMPERATURE.default
    try:
        return Fraction(unit_of(text, Kind.TEMPERATURE).factor) / 10
    except UnknownUnit:
        return Fraction(1)


def floored(value: Fraction) -> Fraction:
    """A number with so many decimals as a cell may have, and no more than it is."""
    return Fraction(int(value * 10 ** PLACES), 10 ** PLACES)


def piece_line(curve: Curve, line: Line, layout: Layout, begin: CurvePoint, end: CurvePoint) -> Line:
    """A piece as a row with its two temperatures and its duty."""
    columns, unit = layout.columns, curve.temperature_unit
    cells = {columns[Heading.SUPPLY]: number_cell(begin.temperature, unit),
             columns[Heading.TARGET]: number_cell(end.temperature, unit),
             columns[Heading.LOAD]: number_cell(end.heat - begin.heat, curve.heat_unit)}
    return replace(with_cells(line, cells), kind=curve.side.value, layout=layout, columns=columns)


def number_cell(number: Fraction, unit: str) -> Cell:
    value = Decimal(number.numerator) / Decimal(number.denominator)
    return Cell(f'{value:f}', value, unit=unit)


def simplified(points: Sequence[CurvePoint], aside: Fraction) -> tuple[CurvePoint, ...]:
    """As few points as there may be with straight pieces between them that are from the curve by no more than `aside`
    at each enthalpy, and to that side. Both ends stay; between them a piece ends at a point, or beside it."""
    degrees = lcm(aside.denominator, *(point.temperature.denominator for point in points))
    heats = lcm(*(point.heat.denominator for point in points))
    whole = [WholePoint(int(point.temperature * degrees), int(point.heat * heats)) for point in points]
    made = Thinning(whole, int(aside * degrees)).places()
    return tuple(CurvePoint(Fraction(place.temperature, degrees), Fraction(place.heat, heats)) for place in made)


class WholePoint(NamedTuple):
    """A point in whole numbers, in which a comparison takes no time."""

    temperature: int
    heat: int


class Thinning:
    """Looks for the fewest pieces, point by point."""

    def __init__(self, points: Sequence[WholePoint], aside: int) -> None:
        self.points, self.aside = points, aside
        self.way = 1 if points[-1].temperature >= points[0].temperature else -1
        between_ends = [[point, WholePoint(point.temperature + aside, point.heat)] if aside else [point]
                        for point in points[1:-1]]
        self.ends = [[points[0]], *between_ends, [points[-1]]]
        # For each end how many pieces lead there, and the end before it; None where none do.
        self.best: list[list[tuple[int, tuple[int, int]] | None]] = [[(0, (0, 0))]]

    def places(self) -> list[WholePoint]:
        for at in range(1, len(self.points)):
            self.best.append([self.fewest(at, end) for end in self.ends[at]])
        made, place = [self.points[-1]], (len(self.points) - 1, 0)
        while place[0]:
            found = self.best[place[0]][place[1]]
            assert found is not None
            place = found[1]
            made.append(self.ends[place[0]][place[1]])
        return made[::-1]

    def fewest(self, at: int, end: WholePoint) -> tuple[int, tuple[int, int]] | None:
        """The fewest pieces up to an end, and the end before it; None where none lead there."""
        found: tuple[int, tuple[int, int]] | None = None
        for before in range(at - 1, -1, -1):
            for which, reached in enumerate(self.best[before]):
                if reached and (found is None or reached[0] + 1 < found[0]) and self.is_within(before, at, which, end):
                    found = (reached[0] + 1, (before, which))
        return found

    def is_within(self, before: int, at: int, which: int, end: WholePoint) -> bool:
        """Whether a straight piece goes the way of the curve, and is to its safe side by no more than the tolerance."""
        begin = self.ends[before][which]
        rise, run = end.temperature - begin.temperature, end.heat - begin.heat
        if rise * self.way < 0:
            return False
        low, high = sorted((0, self.aside * run))
        return all(low <= (begin.temperature - point.temperature) * run + rise * (point.heat - begin.heat) <= high
                   for point in self.points[before:at + 1])


def between(begin: CurvePoint, end: CurvePoint, heat: Fraction) -> Fraction:
    """The temperature of a straight piece at a heat."""
    return begin.temperature + (end.temperature - begin.temperature) * (heat - begin.heat) / (end.heat - begin.heat)


def furthest(points: Sequence[CurvePoint], pieces: Sequence[CurvePoint]) -> Fraction:
    """How far pieces are from the curve at most."""
    return max(abs(between(begin, end, point.heat) - point.temperature) for begin, end in zip(pieces, pieces[1:])
               for point in points if begin.heat <= point.heat <= end.heat)
