"""Exchangers of 1-2 shells: how many are needed so that each reaches a part X of the greatest effectiveness that it can
have, and by what their area is more than that of counter-current (Ahmad, Linnhoff and Smith 1988).

With P and R of the whole, s = √(R² + 1) and D = R + 1 + s the books have two formulas, for R = 1 and for other R; with
logarithmic means there is one, without cancellation. Hot and cold may be exchanged: R becomes 1/R and P becomes PR."""
from __future__ import annotations

from collections.abc import Sequence
from dataclasses import dataclass
from fractions import Fraction
from functools import lru_cache
from math import ceil

from .cost_data import EndTemperatures
from .enclosure import Enclosure, enclosed, exponential, logarithm, square_root, total
from .log_mean import log_mean, log_mean_between, over_log_mean

# So many ratios of flows are kept in mind: over the least difference those of a case stay the same.
RATIOS = 4096


@dataclass(frozen=True)
class Duty:
    """The four ends of an exchanger, or of an interval: temperatures in tenths of °C with differences above 0."""

    hot: EndTemperatures
    cold: EndTemperatures

    @property
    def flat(self) -> bool:
        """Whether a side has one temperature, so that the order of flow changes nothing."""
        return self.hot.high == self.hot.low or self.cold.high == self.cold.low

    @property
    def ratio(self) -> Fraction:
        """R: what the hot side cools down for each K that the cold one warms up."""
        return (self.hot.high - self.hot.low) / (self.cold.high - self.cold.low)

    @property
    def effectiveness(self) -> Fraction:
        """P: what the cold side warms up of what it could."""
        return (self.cold.high - self.cold.low) / (self.hot.high - self.cold.low)

    @property
    def differences(self) -> tuple[Fraction, Fraction]:
        """Those at its hot and at its cold end, in K."""
        return (self.hot.high - self.cold.high) / 10, (self.hot.low - self.cold.low) / 10

    @property
    def mean(self) -> Enclosure:
        """The logarithmic mean of its differences, in K."""
        return log_mean(*self.differences)


def shells_of(duty: Duty, part: Fraction) -> Enclosure:
    """How many shells are needed, a real number; 0 where a side is flat, since its order of flow changes nothing. It
    adds up along a straight piece, however that is cut."""
    if duty.flat:
        return enclosed(0)
    warmed = (duty.cold.high - duty.cold.low) / 10
    return shell_share(duty.ratio, part) * over_log_mean(warmed, *duty.differences)


@lru_cache(maxsize=RATIOS)
def root_of(ratio: Fraction) -> Enclosure:
    """s, the root of R² + 1."""
    return square_root(ratio ** 2 + 1)


@lru_cache(maxsize=RATIOS)
def shell_share(ratio: Fraction, part: Fraction) -> Enclosure:
    """How many shells are needed for each logarithmic mean that the cold side warms up."""
    base = ratio + 1 + root_of(ratio)
    return log_mean_between(base - 2 * ratio * part, base - 2 * part) / (2 * part)


def whole_shells(shells: Enclosure) -> int:
    """So many shells, and at least one. Where the number is whole as far as its digits tell it is taken as whole."""
    nearest = round(shells.middle)
    return max(1, nearest if nearest in shells else ceil(shells.high))


def correction(duty: Duty, shells: int | Enclosure) -> Enclosure | None:
    """Ft of so many shells in series, by which the logarithmic mean is multiplied; None where they cannot do it. A part
    of an exchanger may have a part of its shells, a real number."""
    if duty.flat:
        return enclosed(1)
    whole, ratio = duty.effectiveness, duty.ratio
    return factor_at(whole / (whole + (1 - whole) * ladder((1 - ratio * whole) / (1 - whole), shells)), ratio)


def ladder(gain: Fraction, shells: int | Enclosure) -> Enclosure:
    """1 + w + w² + .. of so many terms, by the `gain` that w to their number is: (gain - 1)/(w - 1), without
    cancellation where both are nearly 1."""
    if shells == 1:
        return enclosed(1)
    step = exponential(logarithm(gain) / shells)
    return shells * log_mean(gain, 1) / log_mean_between(step, enclosed(1))


def corrections(duties: Sequence[Duty], part: Fraction, shells: int) -> list[Enclosure] | None:
    """Ft of each part of an exchanger of so many shells in series, which its parts share as they need them; None where
    they cannot do it. Where no CP changes all are the same, however it is cut."""
    shares: list[int | Enclosure] = [shells]
    if len(duties) > 1:
        needs = [shells_of(duty, part) for duty in duties]
        whole = total(needs)
        shares = [need * shells / whole if need.high else 0 for need in needs]
    factors = [correction(duty, share) for duty, share in zip(duties, shares)]
    known = [factor for factor in factors if factor]
    return known if len(known) == len(factors) else None


@lru_cache(maxsize=RATIOS)
def correction_at(ratio: Fraction, part: Fraction) -> Enclosure:
    """Ft of a shell that reaches this part of the greatest effectiveness: that of a target, whose shells are real
    numbers, so that it does not depend on where curves are cut."""
    factor = factor_at(2 * part / (ratio + 1 + root_of(ratio)), ratio)
    assert factor is not None
    return factor


def factor_at(effectiveness: Enclosure, ratio: Fraction) -> Enclosure | None:
    """Ft of one shell; None where it cannot reach this effectiveness."""
    root = root_of(ratio)
    left, below = 2 - effectiveness * (ratio + 1 - root), 2 - effectiveness * (ratio + 1 + root)
    if below.low <= 0:
        return None
    mean = log_mean_between(1 - effectiveness, 1 - effectiveness * ratio)
    return root * effectiveness / (mean * logarithm(left / below))
