"""The case file: the only reader of it in the desk, and its printer (docs/FORMATS.md, *The case file*).

Numbers are whole, in the program's units: temperatures and contributions in tenths of °C, CPs in 10 W/K, heats in W,
prices per W; or, where the case has units of its own, in steps of its degree and parts of its unit of heats. What a
case cannot say for the program, it says for the desk in rows that begin with `#` and that the program passes over: the
scale, the units, those of prices and costs, and the names that a table had (`Basis`)."""
from __future__ import annotations

import csv
import enum
import io
import re
from collections.abc import Iterable, Iterator, Sequence
from dataclasses import dataclass, field, replace

from ..errors import Refused, refused_row
from .case_units import CaseUnits, read_units, units_row
from .comments import Basis as Basis
from .comments import basis_rows, noted
from .long_fields import long_fields
from .ranges import range_fault
from .segments import segment_fault

ANY_HEAT = 10 ** 12
SAID_UNITS = re.compile(rb'(?m)^((?:\xef\xbb\xbf)?)#units,[^\r\n]*')
NUMBER = re.compile(r'-?[0-9]{1,13}')


class Side(enum.Enum):
    """Whether a source gives heat or takes it."""

    HOT = 'hot'
    COLD = 'cold'


@dataclass(frozen=True)
class Stream:
    """A stream; it is latent where it has a load, and then its CP is 0 and its target its supply."""

    name: str
    side: Side
    supply: int
    target: int
    cp: int
    load: int
    contribution: int

    @property
    def latent(self) -> bool:
        return self.load > 0

    @property
    def heat(self) -> int:
        """What it gives or takes in all, in W."""
        return self.load or self.cp * abs(self.supply - self.target)

    @property
    def size(self) -> int:
        """What all its branches carry together: its CP, or its load where it is latent."""
        return self.load or self.cp

    @property
    def high(self) -> int:
        """The shifted temperature of its warmer end."""
        return shifted(self, max(self.supply, self.target))

    @property
    def low(self) -> int:
        """The shifted temperature of its colder end."""
        return shifted(self, min(self.supply, self.target))


@dataclass(frozen=True)
class Utility:
    """A heater (hot) or a cooler (cold) at one level; `invented` where the case has none of its side and `HOT` or
    `COLD` stands in."""

    name: str
    side: Side
    level: int
    least: int
    most: int
    price: int
    contribution: int
    invented: bool = False


Source = Stream | Utility


@dataclass(frozen=True)
class Forbid:
    """A hot and a cold source that may not exchange heat."""

    hot: str
    cold: str


@dataclass(frozen=True)
class Case:
    """A case as its file has it, each source with the contribution that it has in the end."""

    contribution: int
    streams: tuple[Stream, ...]
    utilities: tuple[Utility, ...] = ()
    forbids: tuple[Forbid, ...] = ()
    basis: Basis = field(default=Basis())

    @property
    def sources(self) -> tuple[Source, ...]:
        return (*self.streams, *self.utilities)

    def source(self, name: str) -> Source:
        """The stream or utility of this name; `KeyError` where there is none."""
        for source in self.sources:
            if source.name == name:
                return source
        raise KeyError(name)


def shifted(source: Source, temperature: int) -> int:
    """An actual temperature of a source on the shifted scale."""
    return temperature - source.contribution if source.side is Side.HOT else temperature + source.contribution


def actual(source: Source, temperature: int) -> int:
    """A shifted temperature as the source has it."""
    return temperature + source.contribution if source.side is Side.HOT else temperature - source.contribution


def parts_of_streams(case: Case) -> dict[str, tuple[Stream, ...]]:
    """The streams of the program that each stream of the plant is."""
    streams = {stream.name: stream for stream in case.streams}
    parts = {segmented.name: tuple(streams[name] for name in segmented.segments if name in streams)
             for segmented in case.basis.segments}
    within = {name for segmented in case.basis.segments for name in segmented.segments}
    return {**{name: (stream,) for name, stream in streams.items() if name not in within}, **parts}


def decoded(text: str | bytes) -> str:
    """A text without its byte order mark; bytes that are no UTF-8 can stand in comments alone."""
    characters = text.decode('utf-8', 'replace') if isinstance(text, bytes) else text
    return characters[1:] if characters.startswith('\ufeff') else characters


def records(text: str | bytes) -> Iterator[tuple[int, list[str]]]:
    """The rows of a case, a site or a study, counted from 1; empty lines give none."""
    with long_fields():
        rows = [row for row in csv.reader(io.StringIO(decoded(text), newline='')) if row]
    yield from enumerate(rows, 1)


def is_passed_over(row: Sequence[str]) -> bool:
    return row[0].startswith('#') or not any(row)


def number(role: str, row: int, text: str) -> int:
    """A whole number of a file; `Refused` where it is none."""
    if not NUMBER.fullmatch(text):
        raise refused_row(role, row, 'BadNumber')
    return int(text)


def own_contribution(row: int, text: str) -> int | None:
    return number('case', row, text) if text else None


class CaseReader:
    """Reads the rows of a case one by one."""

    def __init__(self) -> None:
        self.contribution: int | None = None
        self.streams: list[tuple[Stream, int | None]] = []
        self.utilities: list[tuple[Utility, int | None]] = []
        self.forbids: list[Forbid] = []
        self.basis = Basis()
        # The rows of segments and of utilities with a range by their names.
        self.segment_rows: dict[str, int] = {}
        self.range_rows: dict[str, int] = {}

    def take(self, at: int, row: Sequence[str]) -> None:
        """Reads a row; `Refused` where it can be no row of a case."""
        if len(row) != 7:
            raise refused_row('case', at, 'FieldCount')
        if is_passed_over(row):
            self.note(at, row)
        elif row[0] in ('hot', 'cold'):
            self.take_stream(at, row)
        elif row[0] in ('heater', 'cooler'):
            self.take_utility(at, row)
        elif row[0] == 'forbid':
            self.forbids.append(Forbid(row[1], row[2]))
        elif row[0] == 'contribution':
            self.contribution = number('case', at, row[2])
        else:
            raise refused_row('case', at, 'UnknownKind')

    def note(self, at: int, row: Sequence[str]) -> None:
        """Reads a comment of the desk; `Refused` where it says what cannot be."""
        try:
            self.basis = noted(self.basis, row)
        except ValueError as fault:
            place = f'case row {at}'
            raise Refused(3, place, 'comment', f'{place} {row[0]}: {fault}') from fault
        if row[0] == '#segment':
            self.segment_rows[row[2]] = at
        elif row[0] == '#utility':
            self.range_rows[row[1]] = at

    def take_stream(self, at: int, row: Sequence[str]) -> None:
        supply, target, cp = (number('case', at, text) for text in row[2:5])
        load = number('case', at, row[5]) if row[5] else 0
        self.streams.append((Stream(row[1], Side(row[0]), supply, target, cp, load, 0), own_contribution(at, row[6])))

    def take_utility(self, at: int, row: Sequence[str]) -> None:
        level, least, most, price = (number('case', at, text) for text in row[2:6])
        side = Side.HOT if row[0] == 'heater' else Side.COLD
        self.utilities.append((Utility(row[1], side, level, least, most, price, 0), own_contribution(at, row[6])))

    def made(self, rows: int) -> Case:
        """The case of the rows that were read."""
        if self.contribution is None:
            raise refused_row('case', rows + 1, 'NoContribution')
        share = self.contribution
        streams = tuple(replace(stream, contribution=share if own is None else own) for stream, own in self.streams)
        utilities = tuple(replace(utility, contribution=share if own is None else own)
                          for utility, own in self.utilities)
        case = Case(share, streams, utilities, tuple(self.forbids), self.basis)
        self.check_segments(case)
        self.check_ranges(case)
        return case

    def check_segments(self, case: Case) -> None:
        """`Refused` where the streams that are to be segments of one cannot be."""
        streams, names = {stream.name: stream for stream in case.streams}, {source.name for source in case.sources}
        for segmented in case.basis.segments:
            fault = segment_fault(segmented, streams, names)
            if fault:
                place = f'case row {self.segment_rows[fault.segment]}'
                raise Refused(3, place, 'segment', f'{place} #segment: {fault.cause}')

    def check_ranges(self, case: Case) -> None:
        """`Refused` where what is to be a utility with a range is no such stream."""
        parts = parts_of_streams(case)
        for utility in case.basis.ranges:
            fault = range_fault(utility, parts)
            if fault:
                place = f'case row {self.range_rows[utility.name]}'
                raise Refused(3, place, 'utility', f'{place} #utility: {fault}')


def read_case(text: str | bytes) -> Case:
    """The case of a file's text. `Refused` where it is none as far as this reader sees; all limits are for the program
    to check. Its numbers are tenths of °C and W, or steps and parts of its own units (`Basis.units`)."""
    reader, at = CaseReader(), 0
    for at, row in records(text):
        reader.take(at, row)
    return reader.made(at)


def is_case(content: bytes) -> bool:
    """Whether a file is a case; it is one too where only a comment of the desk is wrong."""
    try:
        read_case(content)
    except Refused as fault:
        return fault.cause in ('comment', 'segment', 'utility')
    return True


def units_of(text: str | bytes) -> CaseUnits | None:
    """The units of its own that a case says; None where it says none, or none that there can be."""
    try:
        return next((read_units(row) for _, row in records(text) if row[0] == '#units' and len(row) == 7), None)
    except (ValueError, csv.Error):
        return None


def rounding_of(text: str | bytes) -> str:
    """How far what its table rounded takes the targets of a case, as a comment of it says; empty where none does."""
    rows = (noted(Basis(), row).rounding for _, row in records(text)
            if row[0].startswith('# ') and len(row) == 7)
    return next((rounding for rounding in rows if rounding), '')


def said_in_si(content: bytes) -> bytes:
    """A case in units of its own with the same numbers, said in °C and kW: all but its row `#units` stays as it is."""
    units = units_of(content)
    if units is None:
        return content
    in_si = units.si
    said = SAID_UNITS.sub(lambda match: match[1] + ','.join(units_row(in_si)).encode(), content)
    if units_of(said) != in_si:
        raise Refused(3, 'case #units', 'units', 'case #units: this row has to stand alone in its line, without quotes')
    return said


def case_rows(case: Case) -> Iterator[list[str]]:
    """The rows of a case file, without the desk's comments."""
    yield ['contribution', '', str(case.contribution), '', '', '', '']
    for source in case.sources:
        own = '' if source.contribution == case.contribution else str(source.contribution)
        if isinstance(source, Stream):
            load = str(source.load) if source.latent else ''
            yield [source.side.value, source.name, str(source.supply), str(source.target), str(source.cp), load, own]
        elif not source.invented:
            kind = 'heater' if source.side is Side.HOT else 'cooler'
            yield [kind, source.name, str(source.level), str(source.least), str(source.most), str(source.price), own]
    for pair in case.forbids:
        yield ['forbid', pair.hot, pair.cold, '', '', '', '']


def print_case(case: Case) -> str:
    """The case as a file; reading it gives the same case, but for utilities that are invented."""
    case_file = io.StringIO(newline='')
    csv.writer(case_file, lineterminator='\n').writerows([*basis_rows(case.basis), *case_rows(case)])
    return case_file.getvalue()


def print_comments(texts: Iterable[str]) -> str:
    """Comments as rows of a case file, which the program passes over."""
    comment_rows = io.StringIO(newline='')
    csv.writer(comment_rows, lineterminator='\n').writerows([f'# {text.lstrip("# ")}', *[''] * 6] for text in texts)
    return comment_rows.getvalue()


def completed(case: Case) -> Case:
    """The case with `HOT`, as hot as the highest shifted stream end, where it has no heater, and with `COLD`, as cold
    as the lowest, where it has no cooler: price 1 and 0, the contribution of the case (docs/FORMATS.md, *The text of
    `flow`*)."""
    added: list[Utility] = []
    if not any(utility.side is Side.HOT for utility in case.utilities):
        level = max(stream.high for stream in case.streams) + case.contribution
        added.append(Utility('HOT', Side.HOT, level, 0, ANY_HEAT, 1, case.contribution, True))
    if not any(utility.side is Side.COLD for utility in case.utilities):
        level = min(stream.low for stream in case.streams) - case.contribution
        added.append(Utility('COLD', Side.COLD, level, 0, ANY_HEAT, 0, case.contribution, True))
    return replace(case, utilities=(*case.utilities, *added))
