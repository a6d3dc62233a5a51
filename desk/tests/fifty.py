"""Numbers of more than fifty digits, beside enclosures."""
from __future__ import annotations

from fractions import Fraction
from typing import Any

import mpmath

from pinchdesk.costs.enclosure import Enclosure

FIFTY: Any = mpmath.mp.clone()
FIFTY.dps = 60


def digits(number: Fraction | int) -> Any:
    return FIFTY.mpf(number.numerator) / number.denominator


def holds(enclosure: Enclosure, number: Any) -> bool:
    return bool(digits(enclosure.low) <= number <= digits(enclosure.high))


def width(enclosure: Enclosure) -> Fraction:
    """How wide an enclosure is, as a part of its number."""
    return (enclosure.high - enclosure.low) / enclosure.low
