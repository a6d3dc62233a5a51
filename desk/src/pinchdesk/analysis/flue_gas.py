"""The flue gas of a furnace against the grand composite curve (Linnhoff and others 1982; Smith 2005, chapter 16):
the least CP whose straight line touches the curve, the fuel, and what leaves by the stack. All of it is exact.

From the theoretical flame temperature down it gives the whole hot target. Down to each shifted temperature it has to
have given what the process needs above it, `hot target - curve`, so its CP is the greatest of these needs, each over
the degrees from the flame down to there; at one corner of the curve, or at the stack, it gives just that. It leaves
where it has given the hot target."""
from __future__ import annotations

from collections.abc import Iterator
from dataclasses import dataclass
from fractions import Fraction

from ..errors import WordsError
from ..formats.shown import Shown
from .grand_curve import GrandCurve


@dataclass(frozen=True)
class FlueGas:
    """What is given of a flue gas, in the program's units: the theoretical flame temperature, the temperature below
    which it must not be cooled, that of the air and the fuel, and its contribution to approaches."""

    flame: Fraction
    stack: Fraction
    ambient: Fraction
    contribution: Fraction


@dataclass(frozen=True)
class Furnace:
    """The least CP of a flue gas that is enough, and where its line touches: at this shifted temperature of the curve,
    or at the stack where there is none."""

    flue: FlueGas
    heat: int
    cp: Fraction
    touches: int | None

    @property
    def leaves(self) -> Fraction:
        """The actual temperature at which it has given the hot target."""
        return self.flue.flame - self.heat / self.cp

    @property
    def fuel(self) -> Fraction:
        """The heat that the fuel sets free, from the ambient temperature on."""
        return self.cp * (self.flue.flame - self.flue.ambient)

    @property
    def loss(self) -> Fraction:
        """What leaves by the stack."""
        return self.cp * (self.leaves - self.flue.ambient)

    @property
    def efficiency(self) -> Fraction:
        """The hot target over the fuel."""
        return self.heat / self.fuel


@dataclass(frozen=True)
class Touch:
    """The least CP that is enough for one place: a shifted temperature of the curve, or the stack."""

    cp: Fraction
    place: int | None


def furnace(curve: GrandCurve, flue: FlueGas, shown: Shown) -> Furnace:
    """The least flue gas that gives the hot target of the curve; `WordsError` where none does."""
    check(flue, shown)
    if not curve.hot:
        raise WordsError('the case needs no hot utility, so it needs no flue gas')
    flame = flue.flame - flue.contribution
    check_flame(curve, flame, flue, shown)
    touch = max(touches(curve, flue), key=lambda found: found.cp)
    return Furnace(flue, curve.hot, touch.cp, touch.place)


def touches(curve: GrandCurve, flue: FlueGas) -> Iterator[Touch]:
    """What CP each place needs: the stack for the whole hot target, where heat is needed down to it, and each corner
    above it for what is needed down to the corner."""
    flame, stack = flue.flame - flue.contribution, flue.stack - flue.contribution
    if stack > curve.zero:
        yield Touch(curve.hot / (flame - stack), None)
    for corner in curve.corners:
        if max(stack, Fraction(curve.zero)) <= corner.temperature < flame:
            yield Touch((curve.hot - corner.heat) / (flame - corner.temperature), corner.temperature)


def check(flue: FlueGas, shown: Shown) -> None:
    """`WordsError` where the temperatures are not those of a flue gas."""
    flame, stack, ambient = (shown.with_its_unit(number) for number in (flue.flame, flue.stack, flue.ambient))
    if flue.flame <= flue.stack:
        raise WordsError(f'the stack temperature {stack} has to be below the flame temperature {flame}')
    if flue.ambient > flue.stack:
        raise WordsError(f'the ambient temperature {ambient} is above the stack temperature {stack}')


def check_flame(curve: GrandCurve, flame: Fraction, flue: FlueGas, shown: Shown) -> None:
    """`WordsError` where heat is needed at the flame temperature or above it, which no flue gas gives."""
    hotter = (Fraction(corner.heat) for corner in curve.corners if corner.temperature >= flame)
    if min([curve.flows_out(flame), *hotter]) < curve.hot:
        raise WordsError(f'the flame temperature {shown.with_its_unit(flue.flame)} is too low: the process needs heat '
                         f'at {shown.with_its_unit(flame)} shifted or above')
