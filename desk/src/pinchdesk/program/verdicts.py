"""What an audit says of a network, as plain data: duties, balances and penalties in W as fractions, the floor and
costs in price times W, temperatures in tenths of °C."""
from __future__ import annotations

import enum
from collections.abc import Iterable, Iterator, Mapping
from dataclasses import dataclass
from fractions import Fraction
from functools import cached_property

from ..errors import INFEASIBLE, REJECTED, Status
from .answers import Cut, Row, Rows, printed


class PlaceKind(enum.Enum):
    """Where an audit found a fault: a statement, a stream, an exchanger, a utility or the balance of the whole."""

    LINE = 'line'
    STREAM = 'stream'
    EXCHANGER = 'exchanger'
    UTILITY = 'utility'
    BALANCE = 'balance'


@dataclass(frozen=True)
class Place:
    """A place of a network: `name` is that of the source or exchanger, `line` the number of the statement."""

    kind: PlaceKind
    name: str = ''
    line: int = 0

    def __str__(self) -> str:
        return ' '.join(word for word in (self.kind.value, self.name, str(self.line or '')) if word)


@dataclass(frozen=True)
class Penalty:
    """What an exchanger or a mix loses, in W."""

    place: Place
    heat: Fraction


@dataclass(frozen=True)
class Accepted(Rows):
    """An accepted network. `place` is the reference place; `penalties` are none where a number was too fine, which
    `too_fine` then names."""

    hot: Fraction
    cold: Fraction
    excess: Fraction
    cost: Fraction
    floor: int
    place: int
    penalties: tuple[Penalty, ...]
    too_fine: TooFine | None = None
    text: str = printed()

    def penalty(self, place: Place) -> Fraction | None:
        """The penalty of an exchanger, or of the mix of a statement."""
        return self.heats.get(place)

    @cached_property
    def heats(self) -> Mapping[Place, Fraction]:
        """The penalties by their places."""
        return {penalty.place: penalty.heat for penalty in self.penalties}

    def rows(self) -> Iterator[Row]:
        return ({'place': str(penalty.place), 'penalty': penalty.heat} for penalty in self.penalties)


@dataclass(frozen=True)
class Rejected:
    """A rejected network: the first fault. `found` and `wanted` are None of a forbidden match; their units are those
    of the reason."""

    place: Place
    reason: str
    found: Fraction | None
    wanted: Fraction | None
    text: str = printed()


@dataclass(frozen=True)
class TooFine:
    """A number that is outside the limits of fractions: nothing is said about the network."""

    place: Place
    step: int
    text: str = printed()


Verdict = Accepted | Rejected | TooFine


def ending(verdicts: Iterable[Verdict], flows: Iterable[object] = ()) -> tuple[Status, str]:
    """How a word ends with such answers, and what a status of 1 says."""
    if any(isinstance(flow, Cut) for flow in flows):
        return Status.NO, INFEASIBLE
    kinds = {type(verdict) for verdict in verdicts}
    if Rejected in kinds:
        return Status.NO, REJECTED
    return Status.TOO_FINE if TooFine in kinds else Status.GOOD, REJECTED
