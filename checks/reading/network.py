"""The statements of networks and reports as fields, and the grammar of networks."""
from __future__ import annotations
from collections.abc import Iterator
from dataclasses import dataclass, field
from fractions import Fraction
import re

from reading.case import Case, Source
from reading.rows import NAME, Refused

# How many statements and exchangers a network may have.
STATEMENTS, EXCHANGERS = 100000, 20000
DOTTED = re.compile(rb'\.?[A-Za-z0-9][A-Za-z0-9_-]{0,15}\Z')
RATIO = re.compile(rb'(-?[0-9]{1,24})(?:/([0-9]{1,24}))?\Z')
# How many fields a statement has, with its word.
COUNTS = {b'exchanger': 5, b'split': 5, b'pass': 4, b'mix': 4, b'end': 2}


@dataclass(eq=False)
class Branch:
    """A branch of a stream, with its size and its state once an audit has come to it."""
    stream: Source
    size: Fraction = Fraction(0)
    state: Fraction = Fraction(0)
    spent: bool = False


@dataclass(eq=False)
class Exchanger:
    """By side, hot or not, what it is passed by: the branch before it and the one behind it."""
    line: int
    name: bytes
    hot: Source
    cold: Source
    duty: Fraction
    passed: dict[bool, tuple[Branch, Branch]] = field(default_factory=dict)


@dataclass(eq=False)
class Split:
    line: int
    source: Branch
    first: Branch
    size: Fraction
    second: Branch


@dataclass(eq=False)
class Pass:
    line: int
    source: Branch
    exchanger: Exchanger
    to: Branch


@dataclass(eq=False)
class Mix:
    line: int
    first: Branch
    second: Branch
    to: Branch


@dataclass(eq=False)
class End:
    line: int
    source: Branch


Statement = Exchanger | Split | Pass | Mix | End


def statements_in(data: bytes) -> Iterator[list[bytes]]:
    """The fields of the lines that are statements. The last line has no line feed, so that a carriage return there is
    part of it."""
    lines = data.split(b'\n')
    for line in [raw.removesuffix(b'\r') for raw in lines[:-1]] + lines[-1:]:
        fields = [word for word in re.split(rb'[ \t]+', line) if word]
        if fields and not fields[0].startswith(b'#'):
            yield fields


def is_within(value: Fraction) -> bool:
    """Whether a number is within the limits of fractions."""
    return value.denominator <= 1 << 48 and abs(value.numerator) <= 1 << 76


def ratio_of(written: bytes, at: int) -> Fraction:
    parts = RATIO.match(written)
    if not parts or parts.group(2) is not None and int(parts.group(2)) == 0:
        raise Refused(at, 'BadNumber')
    value = Fraction(int(parts.group(1)), int(parts.group(2) or 1))
    if not is_within(value):
        raise Refused(at, 'BadNumber')
    if value <= 0:
        raise Refused(at, 'NotPositive')
    return value


class NetworkReader:
    """Takes the statements of a network of a completed case one after the other."""

    def __init__(self, case: Case) -> None:
        self.case, self.at = case, 0
        self.statements: list[Statement] = []
        self.exchangers: dict[bytes, Exchanger] = {}
        self.branches = {stream.name: Branch(stream, Fraction(stream.size()), Fraction(stream.states()[0]))
                         for stream in case.streams}

    def take(self, fields: list[bytes]) -> None:
        self.at += 1
        word = fields[0]
        if self.at > STATEMENTS:
            raise Refused(self.at, 'TooMany')
        if word not in COUNTS:
            raise Refused(self.at, 'UnknownWord')
        if len(fields) != COUNTS[word]:
            raise Refused(self.at, 'FieldCount')
        self.statements.append(getattr(self, 'take_' + word.decode())(*fields[1:]))

    def used(self, name: bytes) -> Branch:
        """A branch that is there, and from here on is not."""
        if name not in self.branches:
            raise Refused(self.at, 'UnknownBranch')
        if self.branches[name].spent:
            raise Refused(self.at, 'SpentBranch')
        self.branches[name].spent = True
        return self.branches[name]

    def made(self, name: bytes, stream: Source) -> Branch:
        if not DOTTED.match(name):
            raise Refused(self.at, 'BadName')
        if name in self.branches:
            raise Refused(self.at, 'SameName')
        self.branches[name] = Branch(stream)
        return self.branches[name]

    def take_exchanger(self, name: bytes, one: bytes, other: bytes, duty: bytes) -> Exchanger:
        if len(self.exchangers) >= EXCHANGERS:
            raise Refused(self.at, 'TooMany')
        if not NAME.match(name):
            raise Refused(self.at, 'BadName')
        if name in self.exchangers:
            raise Refused(self.at, 'SameName')
        hot, cold = self.case.source(one), self.case.source(other)
        if hot is None or cold is None:
            raise Refused(self.at, 'UnknownName')
        if not hot.hot or cold.hot:
            raise Refused(self.at, 'WrongSide')
        self.exchangers[name] = Exchanger(self.at, name, hot, cold, ratio_of(duty, self.at))
        return self.exchangers[name]

    def take_split(self, name: bytes, one: bytes, size: bytes, other: bytes) -> Split:
        source = self.used(name)
        first = self.made(one, source.stream)
        of_first = ratio_of(size, self.at)
        return Split(self.at, source, first, of_first, self.made(other, source.stream))

    def take_pass(self, name: bytes, passed: bytes, behind: bytes) -> Pass:
        source = self.used(name)
        if passed not in self.exchangers:
            raise Refused(self.at, 'UnknownName')
        exchanger, side = self.exchangers[passed], source.stream.hot
        if (exchanger.hot if side else exchanger.cold) is not source.stream or side in exchanger.passed:
            raise Refused(self.at, 'WrongPass')
        exchanger.passed[side] = source, self.made(behind, source.stream)
        return Pass(self.at, source, exchanger, exchanger.passed[side][1])

    def take_mix(self, one: bytes, other: bytes, behind: bytes) -> Mix:
        first, second = self.used(one), self.used(other)
        if first.stream is not second.stream:
            raise Refused(self.at, 'OtherStream')
        return Mix(self.at, first, second, self.made(behind, first.stream))

    def take_end(self, name: bytes) -> End:
        return End(self.at, self.used(name))

    def end(self) -> list[Statement]:
        for exchanger in self.exchangers.values():
            if any(side.stream and side.hot not in exchanger.passed for side in (exchanger.hot, exchanger.cold)):
                raise Refused(exchanger.line, 'MissingPass')
        return self.statements


def network_of(data: bytes, case: Case) -> list[Statement]:
    """The statements of a network for a completed case."""
    reader = NetworkReader(case)
    for fields in statements_in(data):
        reader.take(fields)
    return reader.end()
