"""How far roundings take the targets of a case from those of its table, whose numbers are exact."""
from __future__ import annotations

from collections.abc import Iterator, Sequence
from dataclasses import dataclass
from fractions import Fraction

from ..formats.case import Side
from ..formats.comments import ROUNDED
from ..formats.shown import decimal


@dataclass(frozen=True)
class RoundingSpan:
    """A stream as the problem table sees it: what it gives or takes in W, evenly between two shifted temperatures, or
    at one."""

    side: Side
    low: Fraction
    high: Fraction
    heat: Fraction

    def above(self, place: Fraction, with_place: bool) -> Fraction:
        """Its heat above a place, or from the place on."""
        if self.low == self.high:
            return self.heat if self.low > place or with_place and self.low == place else Fraction(0)
        part = (self.high - place) / (self.high - self.low)
        return self.heat * min(max(part, Fraction(0)), Fraction(1))


def span_of(side: Side, ends: tuple[Fraction, Fraction], heat: Fraction, contribution: Fraction) -> RoundingSpan:
    shift = -contribution if side is Side.HOT else contribution
    return RoundingSpan(side, min(ends) + shift, max(ends) + shift, heat)


def deficits(spans: Sequence[RoundingSpan]) -> Iterator[Fraction]:
    """What the cold streams need above each place more than the hot ones give there; it is the most at one of these."""
    for place in sorted({end for span in spans for end in (span.low, span.high)}):
        for with_place in (False, True):
            yield sum((span.above(place, with_place) * (1 if span.side is Side.COLD else -1) for span in spans),
                      Fraction(0))


def exact_targets(spans: Sequence[RoundingSpan]) -> tuple[Fraction, Fraction]:
    """The least hot and cold utility in W of streams whose numbers are exact."""
    hot = max([Fraction(0), *deficits(spans)])
    surplus = sum((span.heat * (1 if span.side is Side.HOT else -1) for span in spans), Fraction(0))
    return hot, hot + surplus


def told(spans: Sequence[RoundingSpan], hot: int | Fraction, cold: int | Fraction, scale: Fraction,
         tolerance: Fraction = Fraction(0)) -> str:
    """How far the targets of a rounded case are from those of the table; empty where they are the same. The heats of
    the case are the table's so many times, and its pieces of heating curves within a tolerance in K."""
    exact = exact_targets(spans)
    parts = []
    for name, rounded, true in (('hot', hot, exact[0]), ('cold', cold, exact[1])):
        off = (rounded / scale - true) / 1000
        shown = decimal(abs(off), 6 if abs(off) < Fraction(1, 100) else 3)
        parts.append(f'the {name} target is {shown} kW too {"high" if off > 0 else "low"}' if off else
                     f'the {name} target stays')
    beside = f'and the tolerance of {decimal(tolerance, 3)} K ' if tolerance else ''
    return '' if (hot / scale, cold / scale) == exact else ROUNDED + beside + ', and '.join(parts)
