"""What changes from one network to another, taken apart into loops and paths (Linnhoff and Hindmarsh 1983).

Heat that is moved around a loop, more in one exchanger and less in the next, leaves each stream as it was. Along a path
from a utility to a utility it does so too, and is paid for at both ends. In each loop and path an exchanger gains or
loses as it does in all, so nothing is moved to and fro."""
from __future__ import annotations

from collections import deque
from collections.abc import Iterator, Mapping
from dataclasses import dataclass
from fractions import Fraction

Pairs = Mapping[str, tuple[str, str]]


@dataclass(frozen=True)
class Leg:
    """An exchanger of a loop or a path, and the source that comes behind it; `gains` where its duty rises."""

    exchanger: str
    gains: bool
    source: str


@dataclass(frozen=True)
class Shift:
    """So much heat, in W, moved along a path from a utility to a utility, or around a loop."""

    heat: Fraction
    source: str
    legs: tuple[Leg, ...]
    loop: bool

    @property
    def told(self) -> str:
        """The way: `HOT (+H3) S3 (-E4) S1 (+C1) COLD`."""
        legs = (f'({"+" if leg.gains else "-"}{leg.exchanger}) {leg.source}' for leg in self.legs)
        return ' '.join((self.source, *legs))


def turned(shift: Shift) -> Shift:
    """A shift told from its other end."""
    sources = [shift.source, *(leg.source for leg in shift.legs)]
    legs = tuple(Leg(leg.exchanger, leg.gains, source) for leg, source in zip(shift.legs, sources))
    return Shift(shift.heat, sources[-1], legs[::-1], shift.loop)


class Changes:
    """What is still to be taken apart: the change of each exchanger, in W, those without one left out."""

    def __init__(self, pairs: Pairs, changes: Mapping[str, Fraction], utilities: frozenset[str]) -> None:
        self.pairs, self.utilities = pairs, utilities
        self.left = {name: change for name, change in changes.items() if change}

    def beyond(self, exchanger: str, source: str) -> str:
        hot, cold = self.pairs[exchanger]
        return cold if source == hot else hot

    def onward(self, leg: Leg) -> Iterator[Leg]:
        """What can come behind a leg: an exchanger of its source whose change is the other way."""
        for name, change in self.left.items():
            if leg.source in self.pairs[name] and (change > 0) is not leg.gains:
                yield Leg(name, change > 0, self.beyond(name, leg.source))

    def begun(self) -> Iterator[tuple[str, Leg]]:
        """The legs from utilities."""
        for name, change in self.left.items():
            for source in self.pairs[name]:
                if source in self.utilities:
                    yield source, Leg(name, change > 0, self.beyond(name, source))

    def path(self) -> Shift | None:
        """A path of the fewest exchangers, told from its heater where it has one; None where no utility changes."""
        ways: deque[tuple[str, tuple[Leg, ...]]] = deque((source, (leg,)) for source, leg in self.begun())
        seen = {legs[0] for _, legs in ways}
        while ways:
            source, legs = ways.popleft()
            for leg in self.onward(legs[-1]):
                if leg.source in self.utilities:
                    shift = self.taken(source, (*legs, leg), False)
                    return turned(shift) if source == self.pairs[legs[0].exchanger][1] else shift
                if leg not in seen:
                    seen.add(leg)
                    ways.append((source, (*legs, leg)))
        return None

    def loop(self) -> Shift | None:
        """A loop; None where nothing is left."""
        if not self.left:
            return None
        name = next(iter(self.left))
        legs = [Leg(name, self.left[name] > 0, self.pairs[name][1])]
        while True:
            for at, leg in enumerate(legs[:-1]):
                if (leg.source, leg.gains) == (legs[-1].source, legs[-1].gains):
                    return self.taken(leg.source, tuple(legs[at + 1:]), True)
            legs.append(next(self.onward(legs[-1])))

    def taken(self, source: str, legs: tuple[Leg, ...], loop: bool) -> Shift:
        """A shift of as much as all of its exchangers change, taken off them."""
        heat = min(abs(self.left[leg.exchanger]) for leg in legs)
        for leg in legs:
            self.left[leg.exchanger] -= heat if leg.gains else -heat
            if not self.left[leg.exchanger]:
                del self.left[leg.exchanger]
        return Shift(heat, source, legs, loop)


def shifts(pairs: Pairs, before: Mapping[str, Fraction], after: Mapping[str, Fraction], utilities: frozenset[str],
           ) -> tuple[Shift, ...]:
    """The loops and paths along which the duties of one network become those of another; both let each stream reach
    its target, and exchangers of one name have one pair."""
    nothing = Fraction(0)
    changes = Changes(pairs, {name: after.get(name, nothing) - before.get(name, nothing) for name in pairs}, utilities)
    found: list[Shift] = []
    while True:
        shift = changes.path() or changes.loop()
        if shift is None:
            return tuple(sorted(found, key=lambda found_shift: (found_shift.loop, -found_shift.heat)))
        found.append(shift)
