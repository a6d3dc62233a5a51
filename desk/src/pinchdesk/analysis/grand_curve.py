"""The grand composite curve as utilities meet it: exact, from the corners that `pinch curves` prints."""
from __future__ import annotations

from collections.abc import Iterable
from dataclasses import dataclass
from fractions import Fraction

from ..program.answers import Point


@dataclass(frozen=True)
class GrandCurve:
    """The heat that flows down past each shifted temperature where just the targets are used, by its corners from the
    hottest down. Where streams are latent a temperature has two heats: the first flows in, the last flows out."""

    corners: tuple[Point, ...]

    @property
    def hot(self) -> int:
        """The hot target."""
        return self.corners[0].heat

    @property
    def cold(self) -> int:
        """The cold target."""
        return self.corners[-1].heat

    @property
    def zero(self) -> int:
        """The highest temperature past which no heat flows, the highest pinch or an end of the curve; the coldest
        where heat flows past all."""
        return next((corner.temperature for corner in self.corners if corner.heat == 0), self.corners[-1].temperature)

    @property
    def last_zero(self) -> int:
        """The lowest temperature past which no heat flows; the coldest where heat flows past all."""
        return next((corner.temperature for corner in reversed(self.corners) if corner.heat == 0),
                    self.corners[-1].temperature)

    def flows_in(self, temperature: Fraction) -> Fraction:
        """The heat that flows down to a temperature."""
        return self.heats_at(temperature)[0]

    def flows_out(self, temperature: Fraction) -> Fraction:
        """The heat that flows down from a temperature, with the loads that stand there."""
        return self.heats_at(temperature)[1]

    def heats_at(self, temperature: Fraction) -> tuple[Fraction, Fraction]:
        there = [corner.heat for corner in self.corners if corner.temperature == temperature]
        if there:
            return Fraction(there[0]), Fraction(there[-1])
        hotter = [corner for corner in self.corners if corner.temperature > temperature]
        if not hotter or len(hotter) == len(self.corners):
            heat = Fraction(hotter[-1].heat if hotter else self.hot)
            return heat, heat
        upper, lower = hotter[-1], self.corners[len(hotter)]
        part = (upper.temperature - temperature) / (upper.temperature - lower.temperature)
        heat = upper.heat + part * (lower.heat - upper.heat)
        return heat, heat

    def replaced_above(self, temperature: Fraction) -> Fraction:
        """How much heat a source at this shifted temperature can give in place of hot utility: what flows down to it
        from the hottest on, where that is least."""
        return least(self.flows_in(temperature), (corner for corner in self.corners
                                                  if corner.temperature > temperature))

    def taken_below(self, temperature: Fraction) -> Fraction:
        """How much heat can be taken out at this shifted temperature in place of cold utility: what flows down from it
        to the coldest, where that is least."""
        return least(self.flows_out(temperature), (corner for corner in self.corners
                                                   if corner.temperature < temperature))


def least(heat: Fraction, corners: Iterable[Point]) -> Fraction:
    return min([heat, *(Fraction(corner.heat) for corner in corners)])
