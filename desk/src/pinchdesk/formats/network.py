"""The network text: the only reader of it in the desk, and its printer (docs/FORMATS.md, *The network text*).

Duties are in W; a size is a CP in 10 W/K, or of a latent stream a share of its load in W. Both are fractions."""
from __future__ import annotations

import re
from dataclasses import dataclass
from fractions import Fraction

from ..errors import refused_row

BLANKS = re.compile('[ \t]+')
RATIO = re.compile(r'(-?[0-9]{1,24})(?:/([0-9]{1,24}))?')
FIELDS = {'exchanger': 5, 'split': 5, 'pass': 4, 'mix': 4, 'end': 2}


@dataclass(frozen=True)
class Exchanger:
    """An exchanger between a hot and a cold source, with its duty."""

    name: str
    hot: str
    cold: str
    duty: Fraction


@dataclass(frozen=True)
class Split:
    """A branch is divided: `first` has this size, `second` the rest."""

    branch: str
    first: str
    size: Fraction
    second: str


@dataclass(frozen=True)
class Pass:
    """A branch is led through an exchanger; behind it, it is called `to`."""

    branch: str
    exchanger: str
    to: str


@dataclass(frozen=True)
class Mix:
    """Two branches of one stream are joined."""

    first: str
    second: str
    to: str


@dataclass(frozen=True)
class End:
    """A branch is where its stream ends."""

    branch: str


Statement = Exchanger | Split | Pass | Mix | End


@dataclass(frozen=True)
class Network:
    """The statements of a network, in their order; the program counts them from 1."""

    statements: tuple[Statement, ...]

    @property
    def exchangers(self) -> tuple[Exchanger, ...]:
        return tuple(statement for statement in self.statements if isinstance(statement, Exchanger))


def read_network(text: str | bytes) -> Network:
    """The network of a text. `Refused` where it is none as far as this reader sees; names, limits and passes are for
    the program to check."""
    network_text = text.decode('utf-8', 'replace') if isinstance(text, bytes) else text
    statements: list[Statement] = []
    for line in network_text.split('\n'):
        # Most lines of a long file are none.
        fields = [field for field in BLANKS.split(line.removesuffix('\r')) if field] if line else []
        if fields and not fields[0].startswith('#'):
            statements.append(statement_of(len(statements) + 1, fields))
    return Network(tuple(statements))


def statement_of(at: int, fields: list[str]) -> Statement:
    word, *rest = fields
    if word not in FIELDS:
        raise refused_row('network', at, 'UnknownWord')
    if len(fields) != FIELDS[word]:
        raise refused_row('network', at, 'FieldCount')
    if word == 'exchanger':
        return Exchanger(rest[0], rest[1], rest[2], ratio(at, rest[3]))
    if word == 'split':
        return Split(rest[0], rest[1], ratio(at, rest[2]), rest[3])
    if word == 'pass':
        return Pass(rest[0], rest[1], rest[2])
    return Mix(rest[0], rest[1], rest[2]) if word == 'mix' else End(rest[0])


def ratio(at: int, text: str) -> Fraction:
    match = RATIO.fullmatch(text)
    if not match or int(match[2] or '1') == 0:
        raise refused_row('network', at, 'BadNumber')
    return Fraction(int(match[1]), int(match[2] or '1'))


def print_network(network: Network) -> str:
    """The network as a text, with single spaces and fractions in lowest terms; reading it gives the same network."""
    return ''.join(' '.join(words_of(statement)) + '\n' for statement in network.statements)


def words_of(statement: Statement) -> list[str]:
    match statement:
        case Exchanger(name, hot, cold, duty):
            return ['exchanger', name, hot, cold, str(duty)]
        case Split(branch, first, size, second):
            return ['split', branch, first, str(size), second]
        case Pass(branch, exchanger, to):
            return ['pass', branch, exchanger, to]
        case Mix(first, second, to):
            return ['mix', first, second, to]
        case End(branch):
            return ['end', branch]
