"""What is left of a window by its composite curves: heat goes straight down from the hot curve to the cold one.

Where the cascade is nowhere below 0 the hot curve is nowhere colder than the cold one, so this always comes to an end.
Between two kinks of the curves any pairs may meet; those that have met come first, so that there are few."""
from __future__ import annotations

from collections.abc import Sequence

from .window_courses import STRETCH, Tick
from .heat_left import HeatLeft

# A run of a curve: its upper and its lower temperature, and the slots that are there.
Run = tuple[float, float, list[int]]


def curve(left: HeatLeft, slots: Sequence[int]) -> list[Run]:
    """The composite curve of a side from its hot end, in runs between its kinks."""
    ends = sorted({end for slot in slots for end in (left.highs[slot], left.lows[slot])}, reverse=True)
    runs: list[Run] = []
    for upper, lower in zip(ends, ends[1:]):
        there = [slot for slot in slots if left.highs[slot] >= upper and left.lows[slot] <= lower]
        if there:
            runs.append((upper, lower, there))
    return runs


def stretches(left: HeatLeft) -> list[tuple[dict[int, float], dict[int, float]]]:
    """What each slot gives and takes between two kinks of the curves, from the hot end."""
    sides: list[list[tuple[float, float, dict[int, float]]]] = []
    for slots in (left.hots, left.colds):
        side: list[tuple[float, float, dict[int, float]]] = []
        above = 0.0
        for upper, lower, there in curve(left, slots):
            sizes = {slot: left.size(slot) for slot in there}
            heat = sum(sizes.values()) * (upper - lower)
            side.append((above, above + heat, sizes))
            above += heat
        sides.append(side)
    found: list[tuple[dict[int, float], dict[int, float]]] = []
    at, place = [0, 0], 0.0
    while at[0] < len(sides[0]) and at[1] < len(sides[1]):
        runs = [side[index] for side, index in zip(sides, at)]
        end = min(run[1] for run in runs)
        if end - place > left.none:
            shares = [(end - place) / sum(sizes.values()) for _, _, sizes in runs]
            given, taken = ({slot: size * share for slot, size in sizes.items()}
                            for (_, _, sizes), share in zip(runs, shares))
            found.append((given, taken))
        place = end
        at = [index + (run[1] - end <= left.none) for index, run in zip(at, runs)]
    return found


def matched(left: HeatLeft, given: dict[int, float], taken: dict[int, float], met: set[tuple[int, int]],
            ) -> dict[tuple[int, int], float] | None:
    """Who exchanges how much in one stretch: pairs that have met first, then large ones; None where those that may
    meet do not do."""
    duties: dict[tuple[int, int], float] = {}
    given, taken = dict(given), dict(taken)
    least = left.none + 1e-9 * sum(given.values())
    while given and taken:
        pairs = [(hot, cold) for hot in given for cold in taken if left.may_meet(hot, cold)]
        if not pairs:
            return None
        hot, cold = max(pairs, key=lambda pair: (pair in met, min(given[pair[0]], taken[pair[1]]), -pair[0], -pair[1]))
        duty = min(given[hot], taken[cold])
        duties[hot, cold] = duty
        met.add((hot, cold))
        for side, slot in ((given, hot), (taken, cold)):
            side[slot] -= duty
            if side[slot] <= least:
                del side[slot]
    return duties


def completion(left: HeatLeft) -> list[Tick] | None:
    """The exchangers that finish what is left, from the hot end; None where forbidden pairs stand in the way. A pair
    that is alone on both sides goes on from one stretch to the next."""
    met: set[tuple[int, int]] = set()
    ticks: list[Tick] = []
    alone: dict[tuple[int, int], int] = {}
    for number, (given, taken) in enumerate(stretches(left)):
        duties = matched(left, given, taken, met)
        if duties is None:
            return None
        before, alone = alone, {}
        for (hot, cold), duty in duties.items():
            is_alone = sum(hot == pair[0] for pair in duties) == 1 == sum(cold == pair[1] for pair in duties)
            if is_alone and (hot, cold) in before:
                at = before[hot, cold]
                ticks[at] = ticks[at]._replace(duty=ticks[at].duty + duty)
            else:
                at = len(ticks)
                ticks.append(Tick(hot, cold, STRETCH, -1 - number, duty))
            if is_alone:
                alone[hot, cold] = at
    return ticks
