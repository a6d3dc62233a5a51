"""The cheapest networks that were found for each number of exchangers: one after another goes.

For each number a mixed-integer program says which exchangers of a structure stay at the least cost, where each stream
may end at each utility: so loops are broken, and what that costs is paid along paths (Linnhoff and Hindmarsh 1983).
Then structures with more pairs and places are tried in the same way, as long as there is time and it gains."""
from __future__ import annotations

import time
from collections.abc import Iterator
from dataclasses import dataclass, field
from fractions import Fraction
from random import Random

from ...formats.case import Case
from ..accepted import Judge, Judged
from .least_cost import cheapest_of
from .moves import with_ends
from .network_structure import Costed
from .shares import reshared
from .simplify import kinds, simplified, without_splits
from .structure import Structure
from .tradeoff import Telling, nobody, on_the_front
from .widen import pairs_of, widened

# How often a number is tried without a gain, and how many seconds one program may take.
TRIES, SLICE = 10, 5.0
# The parts of the time at which what costs no more, wider structures, and then shares are over; the least seconds for
# what comes first, where there are so many.
PLAIN, WIDE, SHARED, FIRST = 0.2, 0.75, 0.9, 10.0
# How many exchangers a wider structure has more: the fewest and the most.
MORE = (4, 10)


@dataclass
class Fewer:
    """A search of networks of fewer and fewer exchangers, from one that was judged."""

    judge: Judge
    begun: Judged
    seconds: float
    tell: Telling = nobody
    start: float = field(default_factory=time.monotonic)
    best: dict[int, Judged] = field(default_factory=dict)
    idle: dict[int, int] = field(default_factory=dict)
    chance: Random = field(default_factory=lambda: Random(1))

    def __post_init__(self) -> None:
        self.pairs = pairs_of(self.case)
        self.best[self.begun.count] = self.begun

    @property
    def case(self) -> Case:
        return self.judge.case

    @property
    def floor(self) -> int:
        return self.begun.verdict.floor

    def until(self, part: float, least: float = 0.0) -> float:
        """When so much of the time is over, or at least so many seconds from the start, where there are so many."""
        return self.start + max(self.seconds * part, min(least, self.seconds * SHARED))

    def left(self, part: float = 1.0, least: float = 0.0) -> float:
        return self.until(part, least) - time.monotonic()

    def offer(self, costed: Costed | None) -> bool:
        """Takes what was found where no network of so many exchangers is cheaper, and none of as much is simpler."""
        best_so_far = self.best.get(len(costed.duties)) if costed else None
        is_dearer = costed is None or best_so_far is not None and best_so_far.cost < costed.cost
        judged = None if is_dearer and not self.judge.sees_all else self.judge.of(costed)
        return judged is not None and not is_dearer and self.take(judged)

    def take(self, judged: Judged) -> bool:
        """Takes a network where none of so many exchangers is cheaper, or as cheap and as simple."""
        best_so_far = self.best.get(judged.count)
        if best_so_far and (best_so_far.cost, best_so_far.splits) <= (judged.cost, judged.splits):
            return False
        self.best[judged.count] = judged
        self.tell(judged)
        return True

    def run(self) -> None:
        """Searches until the time is over, or nothing more is gained."""
        self.down(self.begun.structure, self.begun.count, FIRST)
        plain = simplified(self.judge, self.begun, self.begun.cost, self.until(PLAIN))
        if self.take(plain):
            self.down(plain.structure, plain.count - 1, FIRST)
        while self.left(WIDE) > 0:
            count = min(self.open(), key=lambda number: (self.idle.get(number, 0), number), default=None)
            if count is None:
                break
            self.widen(count)
        for judged in self.rows():
            self.offer(reshared(self.case, Costed(judged.structure, judged.duties, judged.cost), self.until(SHARED)))

    def down(self, structure: Structure, count: int, least: float = 0.0) -> None:
        """Takes one exchanger after another from a structure, until none can go, or the time is over."""
        while count > 0 and self.left(WIDE, least) > 0:
            choices = [self.chosen(with_ends(self.case, kind), count) for kind in kinds(structure)]
            made = min((costed for costed in choices if costed), key=lambda costed: costed.cost, default=None)
            if made is None:
                return
            self.offer(made)
            structure = made.structure if len(made.duties) < count else structure
            count = min(count, len(made.duties)) - 1

    def chosen(self, structure: Structure, count: int, below: Fraction | None = None,
               earlier: Structure | None = None) -> Costed | None:
        """The cheapest with so many, below a cost; of equal ones one with few exchangers that are not held."""
        fresh = frozenset(structure.pairs).difference(earlier.pairs) if earlier else frozenset()
        return cheapest_of(self.case, structure, count, max(1.0, min(SLICE, self.left(WIDE))), below, fresh)

    def open(self) -> Iterator[int]:
        """The numbers of exchangers that may still be bettered: those of networks above the floor, and one at each end
        of them."""
        rows = self.rows()
        first = rows[0].count + (rows[0].cost > self.floor)
        for count in range(rows[-1].count - 1, first + 1):
            if count > 0 and self.idle.get(count, 0) < TRIES and not self.at_floor(count):
                yield count

    def at_floor(self, count: int) -> bool:
        return count in self.best and self.best[count].cost == self.floor

    def widen(self, count: int) -> None:
        """Tries a wider structure for a number of exchangers."""
        near = [self.best[number] for number in (count, count + 1, count - 1) if number in self.best]
        from_one = self.chance.choice(near or self.rows())
        wide = widened(self.case, from_one.structure, self.pairs, self.chance.randint(*MORE), self.chance)
        before = self.best.get(count)
        made = self.chosen(wide, count, before.cost if before else None)
        self.idle[count] = self.idle.get(count, 0) + 1
        if self.offer(made) and made and (before is None or made.cost < before.cost):
            # What is near may be bettered from here.
            self.idle.update({number: 0 for number in (count - 1, count, count + 1)})
            self.down(made.structure, len(made.duties) - 1)

    def rows(self) -> list[Judged]:
        """The networks of which none has both fewer exchangers and no higher cost, the most exchangers first."""
        return on_the_front(self.best)

    def near(self) -> list[Judged]:
        """The rows, each made from the one before where that costs no more: so that few things change."""
        rows = self.rows()
        end = self.until(1.0)
        for at, judged in enumerate(rows[1:], 1):
            if time.monotonic() > end:
                break
            earlier = rows[at - 1].structure
            made = [self.chosen(with_ends(self.case, kind), judged.count, None, earlier) for kind in kinds(earlier)]
            near = [costed for costed in made
                    if costed and (costed.cost, len(costed.duties)) <= (judged.cost, judged.count)]
            rows[at] = self.judge.of(near[0] if near else None) or judged
        # The network that was given stays as it is.
        return [row if row is self.begun else without_splits(self.judge, row, row.cost, end) for row in rows]
