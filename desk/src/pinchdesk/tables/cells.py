"""From the cells of a table to exact numbers of the program's units, with what is wrong and what is told of them."""
from __future__ import annotations

from collections.abc import Iterable, Mapping, Sequence
from contextlib import suppress
from dataclasses import dataclass, field
from decimal import Decimal
from fractions import Fraction

from ..errors import Refused
from ..formats.amounts import rounded
from .headings import EMPTY
from .layouts import Layout
from .numbers import NoNumber, Numeral, Says, numeral_of, plain, readings
from .spreadsheet import Cell, Table, TableRow
from .two_ends import two_ends
from .units import Kind, UnknownUnit, names_fahrenheit, of_kilowatts, open_unit, said_multiple, same_unit, unit_of

EXAMPLES = {Kind.TEMPERATURE: '°C, K, °F', Kind.DIFFERENCE: 'K, °C, °F',
            Kind.FLOW: 'kW/K, MW/°C, W/K, kcal/h/K, Btu/(h °F)',
            Kind.HEAT: 'kW, MW, W, GJ/h, kcal/h, Btu/h'}
MOST_FAULTS = 20


@dataclass(frozen=True)
class Entered:
    """A number of a table in the program's unit, exact, and half of what its last digit stands for."""

    value: Fraction
    slack: Fraction
    text: str


@dataclass
class Told:
    """What is found on the way through a table: faults, which refuse it, and notes, which are told."""

    table: Table
    faults: list[Refused] = field(default_factory=list)
    notes: list[str] = field(default_factory=list)
    # The notes of numbers that were rounded.
    roundings: set[str] = field(default_factory=set)
    # Columns that the table has not, with those whose numbers stand there.
    origins: dict[int, int] = field(default_factory=dict)

    def fault(self, row: int, column: int | None, cause: str) -> None:
        self.faults.append(self.table.refusal(row, self.column(column), cause))

    def note(self, row: int, column: int | None, what: str) -> None:
        self.notes.append(f'{self.table.place(row, self.column(column))}: {what}')

    def column(self, column: int | None) -> int | None:
        return column if column is None else self.origins.get(column, column)

    def rounding(self, row: int, column: int | None, what: str) -> None:
        """Tells what was rounded: of a case in units of its own it is told by these."""
        self.note(row, column, what)
        self.roundings.add(self.notes[-1])

    def once(self, what: str) -> None:
        if what not in self.notes:
            self.notes.append(what)

    def settle(self) -> None:
        """Raises what was found: the first faults in one refusal."""
        if self.faults:
            first = self.faults[0]
            texts = [fault.text for fault in self.faults[:MOST_FAULTS]]
            left = len(self.faults) - len(texts)
            raise Refused(3, first.place, first.cause, '\n'.join(texts + [f'and {left} more'] * bool(left)))


def decimal_mark(table: Table, cells: Iterable[tuple[int, int, Cell]], told: str | None) -> str:
    """The decimal mark of a table, by the cells that are numbers; `Refused` where they differ, or where a number has
    two readings and no other settles it."""
    if told:
        return told
    first: tuple[Says, str] | None = None
    either: tuple[int, int, Numeral, str] | None = None
    for row, column, cell in cells:
        try:
            numeral = numeral_of(cell.text)
            says = numeral.says
        except NoNumber:
            continue
        if says is Says.EITHER:
            either = either or (row, column, numeral, cell.text)
        elif says is not Says.NOTHING and first is None:
            first = (says, f'`{cell.text}` in {table.place(row, column)}')
        elif says is not Says.NOTHING and first and says is not first[0]:
            raise table.refusal(row, column, f'`{cell.text}` and {first[1]} have different decimal marks')
    if first is None and either:
        row, column, numeral, text = either
        raise table.refusal(row, column, f'`{text}` may be {readings(numeral)}: use --decimal . or --decimal ,')
    return first[0].value if first else '.'


def settled_mark(cells: Iterable[tuple[int, int, Cell]], told: str | None) -> str | None:
    """The decimal mark that cells say, or that is told; None where none says one."""
    for _, _, cell in cells:
        with suppress(NoNumber):
            says = numeral_of(cell.text).says
            if told is None and says in (Says.POINT, Says.COMMA):
                return says.value
    return told


@dataclass
class CellReader:
    """Reads the cells of a table whose decimal mark and units are known. Of a kind of numbers `taken` has where there
    was no unit, and `others` the units that stand there and are others than is taken then, with a row and a column.
    `entered` has each number that was read, by its row and column. Where a table has several blocks `layouts` has those
    of each row, and the units and titles are theirs."""

    told: Told
    mark: str
    units: dict[int, str]
    titles: dict[int, str]
    taken: dict[Kind, str] = field(default_factory=dict)
    others: dict[tuple[Kind, str], tuple[int, int]] = field(default_factory=dict)
    entered: dict[tuple[int, int], Entered] = field(default_factory=dict)
    layouts: Mapping[int, Sequence[Layout]] = field(default_factory=dict)

    def headed(self, row: int, column: int) -> tuple[str, str]:
        """The unit and the title of a cell's column; empty where it has none."""
        for layout in self.layouts.get(row, ()):
            if column in layout.titles or column in layout.columns.values():
                return layout.units.get(column, ''), layout.titles.get(column, '')
        return self.units.get(column, ''), self.titles.get(column, '')

    def unit_beside(self, row: TableRow, column: int) -> str:
        """The unit of a cell, its own or that of its column; empty where there is none, of which nothing is told."""
        cell = row.cell(column)
        own = cell.unit
        with suppress(NoNumber):
            own = own or (numeral_of(cell.text).unit if cell.number is None else '')
        return own or self.headed(row.number, column)[0]

    def quiet(self, row: TableRow, column: int | None) -> Fraction | None:
        """The number of a cell, in whatever unit; None where it is none, and nothing is told."""
        cell = row.cell(column) if column is not None else Cell()
        if cell.number is not None:
            return Fraction(cell.number)
        try:
            return Fraction(numeral_of(cell.text).value(self.mark))
        except NoNumber:
            return None

    def given(self, row: TableRow, column: int | None) -> bool:
        """Whether there is something in a cell; a dash is nothing."""
        cell = row.cell(column) if column is not None else Cell()
        return not cell.empty and not (cell.number is None and cell.text in EMPTY)

    def number(self, row: TableRow, column: int | None) -> tuple[Fraction, Fraction, str] | None:
        """The number of a cell, half of what its last digit stands for, and its own unit; None where it is none, which
        is told as a fault."""
        cell = row.cell(column) if column is not None else Cell()
        if cell.fault:
            self.told.fault(row.number, column, f'`{cell.text}`: {cell.fault}')
            return None
        if cell.number is not None:
            return Fraction(cell.number), last_digit(cell.text), cell.unit
        try:
            numeral = numeral_of(cell.text)
            value = numeral.value(self.mark)
        except NoNumber as fault:
            cause = f'`{cell.text}`: {fault}' if cell.text else 'a number is missing'
            self.told.fault(row.number, column, cause)
            return None
        return Fraction(value), last_digit(f'{value:f}'), numeral.unit

    def measured(self, row: TableRow, column: int | None, kind: Kind) -> Entered | None:
        """A cell as a number of the program's unit; None where it is none, which is told as a fault."""
        number = self.number(row, column)
        if number is None or column is None:
            return None
        value, slack, own = number
        if own and not row.cell(column).unit and two_ends(row.cell(column).text):
            self.told.fault(row.number, column, f'`{row.cell(column).text}`: two numbers in one cell: a column of both '
                            'temperatures has the heading `T`, or `Tin -> Tout`; else each needs a column')
            return None
        text = self.unit_text(row, column, kind, own)
        if text is None:
            return None
        try:
            unit = unit_of(text, kind)
        except UnknownUnit:
            self.told.fault(row.number, column, open_unit(text) or f'the unit `{text}` is not known here: '
                            f'{EXAMPLES[kind]} and more are')
            return None
        if said_multiple(text):
            self.told.once(said_multiple(text))
        made = Entered(unit.exact(value), slack * unit.factor, written(row.cell(column), value, own, text))
        self.entered[row.number, column] = made
        return made

    def unit_text(self, row: TableRow, column: int, kind: Kind, own: str) -> str | None:
        """The unit of a cell: its own, else that of its column, else the usual one; None where two disagree."""
        headed, title = self.headed(row.number, column)
        if own and headed and not same_unit(own, headed, kind):
            self.told.fault(row.number, column, f'two units, `{headed}` in the heading and `{own}` here')
            return None
        if not own and not headed:
            where = f'the column `{title}`' if title else f'numbers of {kind.name.lower()}'
            self.told.once(f'no unit is given for {where}: {kind.default} is taken')
            self.taken.setdefault(kind, where)
        else:
            self.seen(row.number, kind, column, own or headed)
        return own or headed or kind.default

    def seen(self, row: int, kind: Kind, column: int, unit: str) -> None:
        """Keeps in mind that a number has a unit, and another one than is taken where there is none."""
        if not same_unit(unit, kind.default, kind):
            self.others.setdefault((kind, unit), (row, column))

    def settle_units(self) -> None:
        """Tells a fault for each kind of numbers without a unit where others of it, or of one that it is made of, have
        another unit than is taken."""
        for kind, where in self.taken.items():
            found = next(((unit, *place) for (other, unit), place in self.others.items()
                          if contradicts(unit, other, kind)), None)
            if found:
                unit, row, column = found
                cause = f'this number has the unit `{unit}`, and none is given for {where}: write it with all of them'
                self.told.fault(row, column, cause)

    @property
    def fahrenheit(self) -> bool:
        """Whether a number of the table has degrees of Fahrenheit."""
        return any(contradicts(unit, kind, Kind.DIFFERENCE) for kind, unit in self.others)

    def whole(self, row: TableRow, column: int | None, kind: Kind, scale: Fraction = Fraction(1)) -> int | None:
        """A cell as a whole number of the program's unit; what is rounded is told."""
        entered = self.measured(row, column, kind)
        return None if entered is None else self.rounded(row, column, kind, entered, scale)

    def rounded(self, row: TableRow, column: int | None, kind: Kind, entered: Entered, scale: Fraction) -> int:
        exact = entered.value * scale
        nearest = rounded(exact)
        if nearest != exact:
            self.told.rounding(row.number, column, f'{entered.text} is rounded to {kind.shown(nearest, scale)}')
        return nearest


def written(cell: Cell, value: Fraction, own: str, unit: str) -> str:
    """A number with its unit, as a message has it: `150 °C`, `16 x 1000 kcal/h`, and without marks of thousands."""
    number = cell.text.removesuffix(own).strip() if own and not cell.unit else cell.text
    if sum(not character.isdigit() for character in number) > 1 or abs(value) >= 1000:
        number = plain(Decimal(value.numerator) / value.denominator)
    return f'{number} x {unit}' if unit[:1].isdigit() else f'{number} {unit}'


def last_digit(text: str) -> Fraction:
    """Half of what the last digit of a number stands for."""
    decimals = len(text.partition('.')[2])
    return Fraction(1, 2 * 10 ** decimals)


def contradicts(text: str, kind: Kind, other: Kind) -> bool:
    """Whether a unit of a kind, which is not the one that is taken, leaves open which one another kind has."""
    try:
        unit = unit_of(text, kind)
    except UnknownUnit:
        return kind is other
    degrees = other is not Kind.HEAT and names_fahrenheit(unit, kind)
    heats = {kind, other} == {Kind.FLOW, Kind.HEAT} and not of_kilowatts(unit, kind)
    return kind is other or degrees or heats
