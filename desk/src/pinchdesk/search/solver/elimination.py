"""Linear equations in `Fraction`, taken one by one and solved as they come (Gauss and Jordan), with sparse rows."""
from __future__ import annotations

from collections.abc import Iterable
from fractions import Fraction


class Inconsistent(Exception):
    """An equation contradicts the earlier ones."""


class Elimination:
    """Equations that are independent. Each has a variable of its own, which stands in no other one."""

    def __init__(self, width: int) -> None:
        self.width = width
        self.rows: dict[int, tuple[dict[int, Fraction], Fraction]] = {}
        self.within: dict[int, set[int]] = {}

    def add(self, terms: Iterable[tuple[int, Fraction]], value: Fraction) -> bool:
        """Takes an equation; False where it follows from the earlier ones, `Inconsistent` where it contradicts them."""
        row, value = self.reduced(terms, value)
        if not row:
            if value:
                raise Inconsistent
            return False
        pivot = min(row, key=lambda at: (len(self.within.get(at, ())), at))
        factor = row.pop(pivot)
        self.take(pivot, {at: coefficient / factor for at, coefficient in row.items()}, value / factor)
        return True

    def add_if_free(self, terms: Iterable[tuple[int, Fraction]], value: Fraction) -> bool:
        """Takes an equation where it does not contradict the earlier ones."""
        try:
            return self.add(terms, value)
        except Inconsistent:
            return False

    def reduced(self, terms: Iterable[tuple[int, Fraction]], value: Fraction) -> tuple[dict[int, Fraction], Fraction]:
        """An equation with the solved variables put in."""
        row: dict[int, Fraction] = {}
        for at, factor in terms:
            if at not in self.rows:
                row[at] = row.get(at, Fraction(0)) + factor
                continue
            solved_row, constant = self.rows[at]
            value -= factor * constant
            for other, coefficient in solved_row.items():
                row[other] = row.get(other, Fraction(0)) - factor * coefficient
        return {at: factor for at, factor in row.items() if factor}, value

    def take(self, pivot: int, row: dict[int, Fraction], value: Fraction) -> None:
        """Puts a new equation, `pivot + row = value`, into the earlier ones."""
        for owner in self.within.pop(pivot, set()):
            owner_row, constant = self.rows[owner]
            factor = owner_row.pop(pivot)
            for at, coefficient in row.items():
                left = owner_row.get(at, Fraction(0)) - factor * coefficient
                self.put(owner, owner_row, at, left)
            self.rows[owner] = (owner_row, constant - factor * value)
        self.rows[pivot] = (row, value)
        for at in row:
            self.within.setdefault(at, set()).add(pivot)

    def put(self, owner: int, row: dict[int, Fraction], at: int, factor: Fraction) -> None:
        if factor:
            row[at] = factor
            self.within.setdefault(at, set()).add(owner)
        else:
            row.pop(at, None)
            self.within.get(at, set()).discard(owner)

    def point(self) -> tuple[Fraction, ...] | None:
        """The one solution; None where a variable is still free."""
        if len(self.rows) < self.width:
            return None
        return tuple(self.rows[at][1] for at in range(self.width))
