"""Places where exchangers may stand in a staged network: a pair in a stage of a window, or at an end of a stream."""
from __future__ import annotations

import enum
from collections.abc import Iterator, Sequence
from dataclasses import dataclass
from fractions import Fraction

from .windows import WindowPiece, Window


class SlotEnd(enum.IntEnum):
    """Places of an exchanger that are no stage: at the hot end of a cold stream, at the cold end of a hot one, and
    between two levels."""

    TOP = -1
    BOTTOM = -2
    LEVELS = -3


@dataclass(frozen=True, order=True)
class Slot:
    """A place where an exchanger may stand: a pair in a stage (from 0) or at an `End`, in a window (from 0, the
    hottest)."""

    window: int
    stage: int
    hot: str
    cold: str

    @property
    def pair(self) -> tuple[str, str]:
        return (self.hot, self.cold)

    @property
    def step(self) -> tuple[int, int]:
        """Where it is from the hot end: its window, and in it the top, the stages, the bottom."""
        return (self.window, self.stage if self.stage >= 0 else 10 ** 6 if self.stage == SlotEnd.BOTTOM else -1)


@dataclass(frozen=True, order=True)
class Joint:
    """Two exchangers of a pair, in the last stage of a window and in the first of the one below, that are one. The
    stream `alone` has no other branch in both stages, so that the branch of the other stream has its CP."""

    upper: Slot
    lower: Slot
    alone: str

    @property
    def other(self) -> str:
        return self.upper.cold if self.alone == self.upper.hot else self.upper.hot


@dataclass(frozen=True)
class Asked:
    """What a model is asked for: windows, each with its number of stages; the slots that may be used (None for all);
    the most that the utilities may cost (None where their uses are fixed). Exchangers may be joined across the cuts
    between the windows. Without `ends`, exchangers of streams with levels stand in stages like all others."""

    windows: tuple[Window, ...]
    stages: tuple[int, ...]
    slots: frozenset[Slot] | None = None
    most_cost: Fraction | None = None
    ends: bool = True


def may_meet(hot: WindowPiece, cold: WindowPiece, window: Window) -> bool:
    """Whether a pair may exchange heat: it is not forbidden, and the hot one is hot enough."""
    if (hot.name, cold.name) in window.forbids:
        return False
    return hot.high > cold.low or hot.is_level and cold.is_level and hot.high == cold.low


def capacity(hot: WindowPiece, cold: WindowPiece) -> int:
    """The most that a pair can exchange: hot heat above the cold one's low end, cold heat below the hot one's high
    end."""
    given = hot.most if hot.is_level else hot.cp * (hot.high - max(hot.low, cold.low))
    taken = cold.most if cold.is_level else cold.cp * (min(cold.high, hot.high) - cold.low)
    return min(given, taken)


def places(hot: WindowPiece, cold: WindowPiece, stages: int, ends: bool = True) -> Sequence[int]:
    """Where exchangers of a pair may stand in a window."""
    if hot.is_level and cold.is_level:
        return (SlotEnd.LEVELS,)
    if not ends:
        return range(stages)
    if hot.is_level and hot.high >= cold.high:
        return (SlotEnd.TOP,)
    if cold.is_level and cold.low <= hot.low:
        return (SlotEnd.BOTTOM,)
    return range(stages)


def places_in(window: Window, at: int, stages: int, ends: bool) -> Iterator[tuple[Slot, WindowPiece, WindowPiece]]:
    """All slots of a window, each with its pieces."""
    for hot in window.hots:
        for cold in window.colds:
            if may_meet(hot, cold, window):
                for stage in places(hot, cold, stages, ends):
                    yield Slot(at, stage, hot.name, cold.name), hot, cold


def slots_of(asked: Asked) -> frozenset[Slot]:
    """All slots of some windows."""
    numbered_windows = enumerate(zip(asked.windows, asked.stages))
    return frozenset(slot for at, (window, stages) in numbered_windows
                     for slot, _, _ in places_in(window, at, stages, asked.ends))
