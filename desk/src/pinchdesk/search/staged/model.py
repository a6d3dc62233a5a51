"""A model of a network as it is built: the variables of a program, and what each of them is.

Temperatures are shifted, in tenths of °C. Duties are in the model's `unit`, a thousandth of the greatest heat."""
from __future__ import annotations

from collections.abc import Iterable
from dataclasses import dataclass, field
from fractions import Fraction

from ..solver.linear import Program, LinearRow, Terms
from .slots import Asked, Joint, Slot
from .windows import Window

ZERO, ONE = Fraction(0), Fraction(1)


@dataclass
class StagedModel:
    """What was asked for, and the variables: of each slot the duty and whether there is an exchanger, of each joint
    whether it is used, of each sensible stream its temperature at each boundary (window, name, boundary)."""

    asked: Asked
    unit: Fraction
    lows: list[Fraction | None] = field(default_factory=list)
    highs: list[Fraction | None] = field(default_factory=list)
    wholes: set[int] = field(default_factory=set)
    rows: list[LinearRow] = field(default_factory=list)
    duties: dict[Slot, int] = field(default_factory=dict)
    uses: dict[Slot, int] = field(default_factory=dict)
    joints: dict[Joint, int] = field(default_factory=dict)
    states: dict[tuple[int, str, int], int] = field(default_factory=dict)

    def variable(self, low: Fraction | None, high: Fraction | None, whole: bool = False) -> int:
        self.lows.append(low)
        self.highs.append(high)
        if whole:
            self.wholes.add(len(self.lows) - 1)
        return len(self.lows) - 1

    def row(self, terms: Iterable[tuple[int, Fraction | int]], low: Fraction | None, high: Fraction | None) -> None:
        self.rows.append(LinearRow(tuple((at, Fraction(factor)) for at, factor in terms), low, high))

    @property
    def aim(self) -> Terms:
        """The number of exchangers: a pair that is joined is one."""
        return (*((at, ONE) for at in self.uses.values()), *((at, -ONE) for at in self.joints.values()))

    def program(self, least: int | None = None, most: int | None = None) -> Program:
        """The program: as few exchangers as there may be, at least and at most so many."""
        ends = (None if least is None else Fraction(least), None if most is None else Fraction(most))
        rows = (*self.rows, LinearRow(self.aim, *ends)) if ends != (None, None) else tuple(self.rows)
        return Program(tuple(self.lows), tuple(self.highs), frozenset(self.wholes), rows, self.aim)


def unit_of(windows: Iterable[Window]) -> Fraction:
    """A thousandth of the greatest heat of a source whose heat is given, in W."""
    heats = (piece.most for window in windows for piece in window.pieces if not piece.is_loose)
    return Fraction(max(heats, default=1000), 1000)
