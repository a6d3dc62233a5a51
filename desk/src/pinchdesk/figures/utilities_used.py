"""What the curves are drawn from, in the program's units and exact: the utilities that the heat flow of least cost
uses, where they lie on the balanced composite curves, and where they stand on the grand composite curve."""
from __future__ import annotations

from collections.abc import Sequence
from dataclasses import dataclass
from fractions import Fraction

from ..analysis.follow import PinchPoint, pinches_of
from ..analysis.pinch_places import is_below, side_below
from ..formats.case import Case, Side, Utility, shifted
from ..formats.shown import Shown
from ..program.answers import Curves, Cut, HeatFlow, Point, Targets
from .style import COOLERS, HEATERS

Corner = tuple[Fraction, int]


@dataclass(frozen=True)
class Used:
    """A utility, the heat that it gives or takes, and its colour."""

    utility: Utility
    heat: int
    colour: str

    @property
    def hot(self) -> bool:
        return self.utility.side is Side.HOT

    @property
    def level(self) -> int:
        """Its level on the shifted scale."""
        return shifted(self.utility, self.utility.level)


@dataclass(frozen=True)
class DrawnSpan:
    """A utility on a curve: at one temperature, from one heat to another."""

    used: Used
    first: Fraction
    last: Fraction
    temperature: int


@dataclass(frozen=True)
class Drawn:
    """What is drawn of a completed case."""

    case: Case
    targets: Targets
    curves: Curves
    uses: tuple[Used, ...]
    feasible: bool

    @property
    def shown(self) -> Shown:
        return Shown(self.case.basis)

    @property
    def pinches(self) -> tuple[PinchPoint, ...]:
        return pinches_of(self.targets, self.curves)

    def used(self, side: Side) -> int:
        """How much utility of a side is used in all."""
        return sum(use.heat for use in self.uses if use.utility.side is side)

    @property
    def beyond(self) -> int:
        """How much more is used than the targets."""
        return self.used(Side.HOT) - self.targets.hot if self.feasible else 0

    def below(self, side: Side, pinch: PinchPoint) -> int:
        """The heat of the streams of a side below a pinch, where the cold curve begins at the cold target."""
        return side_below(self.case, side, pinch) + (self.targets.cold if side is Side.COLD else 0)

    def balanced_below(self, side: Side, pinch: PinchPoint) -> int:
        """The heat of the streams and utilities of a side below a pinch."""
        uses_below = [use for use in self.uses if use.utility.side is side and is_below(use.utility, pinch)]
        return side_below(self.case, side, pinch) + sum(use.heat for use in uses_below)


def drawn_of(case: Case, targets: Targets, curves: Curves, flow: HeatFlow | Cut) -> Drawn:
    """What is drawn of a completed case; without a heat flow no utility is."""
    if isinstance(flow, Cut):
        return Drawn(case, targets, curves, (), False)
    uses: list[Used] = []
    for side, colours in ((Side.HOT, HEATERS), (Side.COLD, COOLERS)):
        utilities = [utility for utility in case.utilities if utility.side is side and flow.use(utility.name)]
        utilities.sort(key=lambda utility: shifted(utility, utility.level), reverse=True)
        uses += [Used(utility, flow.use(utility.name), colours[at % len(colours)])
                 for at, utility in enumerate(utilities)]
    return Drawn(case, targets, curves, tuple(uses), True)


def below_and_upto(points: Sequence[Point], temperature: int) -> tuple[Fraction, Fraction]:
    """The heats of a rising curve below a temperature, and up to it with what stands there."""
    at = [point.heat for point in points if point.temperature == temperature]
    if at:
        return Fraction(at[0]), Fraction(at[-1])
    colder = [point for point in points if point.temperature < temperature]
    if not colder or len(colder) == len(points):
        heat = Fraction(colder[-1].heat if colder else 0)
        return heat, heat
    one, other = colder[-1], points[len(colder)]
    part = Fraction(temperature - one.temperature, other.temperature - one.temperature)
    heat = one.heat + part * (other.heat - one.heat)
    return heat, heat


def balanced(points: Sequence[Point], uses: Sequence[Used]) -> tuple[list[Corner], list[DrawnSpan]]:
    """The curve of a side with its utilities in it, rising from 0, and the utilities on it."""
    corners: list[Corner] = []
    spans: list[DrawnSpan] = []
    lower = Fraction(0)
    for temperature in sorted({*(point.temperature for point in points), *(used.utility.level for used in uses)}):
        below, upto = (heat + lower for heat in below_and_upto(points, temperature))
        corners.append((below, temperature))
        for use in (used for used in uses if used.utility.level == temperature):
            spans.append(DrawnSpan(use, upto, upto + use.heat, temperature))
            upto, lower = upto + use.heat, lower + use.heat
        if upto != below:
            corners.append((upto, temperature))
    return corners, spans


def stairs(drawn: Drawn) -> list[DrawnSpan]:
    """The utilities as they stand on the grand composite curve, the hottest first. The line of stairs leaves the top
    of the curve; a heater leads it to the left and a cooler to the right, each at its shifted level, to the bottom of
    the curve. What flows down between the utilities and the curve is the heat that lies between the two, so that the
    stairs are nowhere right of the curve."""
    made, at = [], Fraction(drawn.targets.hot)
    for use in sorted(drawn.uses, key=lambda used: (-used.level, not used.hot)):
        to = at - use.heat if use.hot else at + use.heat
        made.append(DrawnSpan(use, at, to, use.level))
        at = to
    return made


def on_curve(corners: Sequence[Corner], heat: Fraction, wanted: Fraction) -> Fraction | None:
    """The temperature of a rising curve at a heat; where it has several there, the one nearest to that wanted."""
    temperatures: list[Fraction] = []
    for one, other in zip(corners, corners[1:]):
        if one[0] == other[0] == heat:
            temperatures += [Fraction(one[1]), Fraction(other[1])]
        elif one[0] <= heat <= other[0]:
            temperatures.append(one[1] + (heat - one[0]) / (other[0] - one[0]) * (other[1] - one[1]))
    return max(min(temperatures), min(max(temperatures), wanted)) if temperatures else None
