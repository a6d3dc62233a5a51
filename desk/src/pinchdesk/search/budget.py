"""How long a search may take."""
from __future__ import annotations

import math
import time
from collections.abc import Callable
from dataclasses import dataclass, field

Telling = Callable[[str], None]
# What of the time of a search is kept, as a share and at most in seconds, for making its last answer exact and for the
# last audit; and how long after the time its process is ended.
KEPT, MOST_KEPT, GRACE = 0.1, 1.0, 0.5


# Longer than any search takes, in seconds.
FOREVER = 1e6


@dataclass(frozen=True)
class SearchWay:
    """The way of a search: the seed of its chance; so many steps in place of a time, which find the same by any number
    of workers; how many workers (as many as there are processors); and after how many seconds without a gain it ends
    before its time."""

    seed: int = 1
    steps: int | None = None
    workers: int | None = None
    no_better: float | None = None


class TimeOver(Exception):
    """The time of a search is over."""


def nobody(text: str) -> None:
    del text


def for_search(seconds: float) -> float:
    """What of its time a search has for searching."""
    return seconds - min(KEPT * seconds, MOST_KEPT)


@dataclass
class Effort:
    """The time of a search, from a time by `time.monotonic` on."""

    seconds: float
    begun: float = field(default_factory=time.monotonic)

    @property
    def spent(self) -> float:
        return time.monotonic() - self.begun

    @property
    def left(self) -> float:
        return self.seconds - self.spent

    def slice(self, seconds: float) -> float:
        """So much time, or what is left; `TimeOver` where nothing is."""
        if self.left <= 0:
            raise TimeOver
        return max(0.2, min(seconds, self.left))


def rounded_up(bound: float) -> int:
    """A bound of the solver as a number of exchangers."""
    return max(0, math.ceil(bound - 1e-4)) if math.isfinite(bound) else 0
