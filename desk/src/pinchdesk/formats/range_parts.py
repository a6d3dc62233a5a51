"""Utilities with a range of temperature (`ranges`) as streams of a case: which they are, and with another size."""
from __future__ import annotations

from collections.abc import Sequence
from dataclasses import dataclass, replace
from fractions import Fraction

from .amounts import rounded
from .case import Case, Side, Stream, parts_of_streams
from .limits import CP, LOAD
from .ranges import RangedUtility
from .shown import Number, Shown


def range_parts(case: Case, utility: RangedUtility) -> tuple[Stream, ...]:
    """The streams of the program that a utility with a range is."""
    return parts_of_streams(case)[utility.name]


def range_names(case: Case) -> frozenset[str]:
    """The names of all streams of the program that are utilities with a range, or segments of one."""
    return frozenset(part.name for utility in case.basis.ranges for part in range_parts(case, utility))


def range_costs(case: Case) -> tuple[tuple[str, int], ...]:
    """What each utility with a range costs, price times heat, which the costs of the program do not have in them."""
    return tuple((utility.name, utility.price * heat_of_parts(range_parts(case, utility)))
                 for utility in case.basis.ranges)


def cost_of_ranges(case: Case) -> int:
    """What all of them cost."""
    return sum(cost for _, cost in range_costs(case))


def cost_told(costs: Sequence[tuple[str, int]], cost: Number, shown: Shown) -> str:
    """A cost of the program with its unit; beside utilities with a range the sum with what each of them costs."""
    if not costs:
        return shown.with_unit(cost)
    named = ''.join(f'{shown.with_unit(part)} of {name}, ' for name, part in costs)
    return f'{shown.with_unit(cost + sum(part for _, part in costs))}: {named}{shown.with_unit(cost)} by the program'


def leading(parts: Sequence[Stream]) -> Stream:
    """The segment whose CP counts the size of a utility: the largest one."""
    return max(parts, key=lambda part: part.cp)


def sized(parts: Sequence[Stream], cp: int) -> tuple[Stream, ...]:
    """A utility with this CP of its largest segment, and with the others in proportion, rounded and never nothing."""
    times = Fraction(cp, leading(parts).cp)
    return tuple(replace(part, cp=max(1, rounded(part.cp * times)) if part.cp else 0,
                         load=max(1, rounded(part.load * times)) if part.load else 0) for part in parts)


def one_less(parts: Sequence[Stream]) -> tuple[Stream, ...]:
    """A utility with one unit of CP less in its largest segment, and no more than in proportion in the others; none
    where that was the last one."""
    cp = leading(parts).cp
    return tuple(replace(part, cp=max(1, part.cp * (cp - 1) // cp) if part.cp else 0,
                         load=max(1, part.load * (cp - 1) // cp) if part.load else 0)
                 for part in parts) if cp > 1 else ()


def greatest_cp(parts: Sequence[Stream]) -> int:
    """The greatest CP of the largest segment with which all segments are within the limits of the program."""
    first = leading(parts)
    return min(limit.most * first.cp // size
               for part in parts for limit, size in ((CP, part.cp), (LOAD, part.load)) if size)


def heat_of_parts(parts: Sequence[Stream]) -> int:
    return sum(part.heat for part in parts)


@dataclass(frozen=True)
class UnsizedRange:
    """A utility with a range whose size is not found yet: its segments in their proportions, its price, and between
    what heats it may be."""

    name: str
    parts: tuple[Stream, ...]
    price: int
    least: int
    most: int

    @property
    def side(self) -> Side:
        return self.parts[0].side
