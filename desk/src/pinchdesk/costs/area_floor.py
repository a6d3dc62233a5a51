"""The *floor* of the area: what no network with these uses of the utilities has less than, counter-current or not.

Each source is cut into slices of temperature. A watt that passes from a hot to a cold slice needs at least its film
resistance over the largest difference of the two (Saboo, Morari and Colberg 1986); splits, bypasses and mixing only
lower hot and raise cold temperatures, so the least plan of all watts is under the area of every network. That least is
a linear program. A solver gives prices of the slices, in floats; they are rounded to whole parts and lowered until no
pair of slices is above its cost, in whole numbers, so what they prove is exact, whatever the solver did. Only the pairs
that may count are given to it, and more where the prices say so.

Where all films are equal, or all pairs have one coefficient, the vertical plan is the least, since 1/x is convex:
formula and floor are one."""
from __future__ import annotations

from collections.abc import Mapping
from dataclasses import dataclass
from fractions import Fraction
from math import ceil, floor
from time import monotonic
from typing import TYPE_CHECKING, Any

from ..formats.case import Side, Source
from .area_target import area_target
from .balanced import Carrier, carriers
from .cost_data import CostData

if TYPE_CHECKING:
    import numpy
    from numpy.typing import NDArray
    Whole = NDArray[numpy.int64]
    Floats = NDArray[numpy.float64]

# Parts of a kelvin in which temperatures of slices are whole, parts of m²/kW in which prices are, and how close to the
# solver's optimum the proof has to come.
STEPS, PARTS, CLOSE = 1000, 1 << 30, 1e-4
FIRST_SLICE, MOST_SLICES, MOST_ROUNDS, MORE_PAIRS = 40, 4000, 40, 3
# A pair that may not exchange heat has a cost that no plan pays; what a plan has less than this of, in kW, it has not.
BARRED, NEVER, LEAST_FLOW = 1 << 61, 1 << 40, 1e-9
# No price of a solver is taken for more than this, in m² a kW, so that whole numbers hold all sums.
MOST_PRICE, FIRST_SECONDS = 1 << 20, 600


@dataclass(frozen=True)
class AreaFloor:
    """No network with these uses has less area than this, in m². `slice` is the widest of the slices in K; None where
    the formula is the floor, so that no slices are needed."""

    area: Fraction
    slice: Fraction | None
    slices: int


@dataclass(frozen=True)
class Slice:
    """A slice of a carrier: its ends in thousandths of a K, outwards, and its heat in kW."""

    carrier: Carrier
    high: int
    low: int
    heat: Fraction


@dataclass
class Plan:
    """A transport of slices: costs of all pairs in whole parts, those that the solver has, and the best proof."""

    hot: list[Slice]
    cold: list[Slice]
    costs: Whole
    pairs: set[tuple[int, int]]
    proved: Fraction = Fraction(0)


def area_floor(data: CostData, uses: Mapping[str, int | Fraction], seconds: float = 10.0,
               widest: Fraction | None = None) -> AreaFloor:
    """The floor at these uses, with slices that are halved until the time is up, or until the widest is at most so many
    K. `Refused` where a coefficient is missing, or where the balanced curves touch."""
    target, members = area_target(data, uses), carriers(data, uses, bool(data.overalls))
    if target.bound:
        return AreaFloor(target.area.low, None, 0)
    end, width, best = monotonic() + seconds, Fraction(FIRST_SLICE), AreaFloor(Fraction(0), None, 0)
    pairs: list[tuple[Slice, Slice]] = []
    while True:
        began = monotonic()
        hot, cold = (sliced(members, side, width) for side in (Side.HOT, Side.COLD))
        plan = planned(data, hot, cold, pairs)
        used = improved(plan, end if best.slices else began + FIRST_SECONDS)
        if plan.proved >= best.area:
            best = AreaFloor(plan.proved, width_of(hot + cold), len(hot) + len(cold))
        pairs = [(hot[above], cold[below]) for above, below in used]
        done = widest is not None and width_of(hot + cold) <= widest
        narrower = narrower_than(width, members)
        # The next one has twice the slices, and takes some six times as long.
        if (done or narrower is None or monotonic() + 6 * (monotonic() - began) > end
                or 2 * (len(hot) + len(cold)) > MOST_SLICES):
            return best
        width = narrower


def sliced(members: tuple[Carrier, ...], side: Side, width: Fraction) -> list[Slice]:
    """The slices of a side, none wider than this many K; those of half the width lie in them."""
    slices: list[Slice] = []
    for carrier in members:
        if carrier.source.side is not side:
            continue
        low, count = carrier.ends.low / 10, count_of(carrier, width)
        step = span_of(carrier) / count
        for at in range(count):
            slices.append(Slice(carrier, ceil((low + (at + 1) * step) * STEPS), floor((low + at * step) * STEPS),
                                carrier.heat / 1000 / count))
    return sorted(slices, key=lambda part: (part.high, part.low))


def span_of(carrier: Carrier) -> Fraction:
    return carrier.ends.high / 10 - carrier.ends.low / 10


def count_of(carrier: Carrier, width: Fraction) -> int:
    """How many slices a carrier has, of which none is wider than this."""
    count = 1
    while span_of(carrier) / count > width:
        count *= 2
    return count


def narrower_than(width: Fraction, members: tuple[Carrier, ...]) -> Fraction | None:
    """The next half of a width at which a slice is halved; None where all carriers are levels, and none ever is."""
    widest = max(span_of(carrier) / count_of(carrier, width) for carrier in members)
    while 0 < widest <= width:
        width /= 2
    return width if widest else None


def width_of(slices: list[Slice]) -> Fraction:
    return Fraction(max(part.high - part.low for part in slices), STEPS)


def planned(data: CostData, hot: list[Slice], cold: list[Slice], coarse: list[tuple[Slice, Slice]]) -> Plan:
    """The transport of slices with the pairs to begin with: those of the vertical plan, and those that lie in the pairs
    of a coarser plan."""
    pairs = set(vertical(hot, cold))
    uppers, lowers = by_source(hot), by_source(cold)
    for above, below in coarse:
        pairs |= {(upper, lower) for upper in inside(uppers, above) for lower in inside(lowers, below)}
    return Plan(hot, cold, costs_of(data, hot, cold), pairs)


def by_source(slices: list[Slice]) -> dict[str, list[tuple[int, Slice]]]:
    """The slices of each source with their places."""
    found: dict[str, list[tuple[int, Slice]]] = {}
    for at, part in enumerate(slices):
        found.setdefault(part.carrier.source.name, []).append((at, part))
    return found


def inside(slices: dict[str, list[tuple[int, Slice]]], whole: Slice) -> list[int]:
    """The places of the slices that lie in one of a coarser plan."""
    return [at for at, part in slices[whole.carrier.source.name]
            if part.low >= whole.low - 1 and part.high <= whole.high + 1]


def vertical(hot: list[Slice], cold: list[Slice]) -> list[tuple[int, int]]:
    """The pairs that meet where both sides are laid along one axis, the coldest first."""
    pairs: list[tuple[int, int]] = []
    above = below = 0
    left = [hot[0].heat, cold[0].heat]
    while True:
        pairs.append((above, below))
        part = min(left)
        left = [left[0] - part, left[1] - part]
        if not left[0]:
            above += 1
        if not left[1]:
            below += 1
        if above == len(hot) or below == len(cold):
            return pairs
        left = [left[0] or hot[above].heat, left[1] or cold[below].heat]


def costs_of(data: CostData, hot: list[Slice], cold: list[Slice]) -> Whole:
    """What a kW of each pair of slices costs at least, in whole parts of m²; `BARRED` where the two may not meet."""
    import numpy
    sources = [list({part.carrier.source.name: part.carrier.source for part in side}.values()) for side in (hot, cold)]
    places = [[names.index(part.carrier.source) for part in side] for names, side in zip(sources, (hot, cold))]
    chosen = numpy.ix_(*places)
    resisting = numpy.array([[resistance_parts(data, above, below) for below in sources[1]] for above in sources[0]])
    least = numpy.array([[least_difference(data, above, below) for below in sources[1]] for above in sources[0]])
    differences = numpy.array([part.high for part in hot])[:, None] - numpy.array([part.low for part in cold])[None, :]
    meet = differences >= least[chosen]
    costs: Whole = numpy.where(meet, resisting[chosen] // numpy.where(meet, differences, 1), BARRED)
    return costs


def resistance_parts(data: CostData, hot: Source, cold: Source) -> int:
    """The resistance of a kW of a pair in whole parts, rounded down, and of no more than what a whole number holds."""
    return min(BARRED >> 2, floor(1000 * STEPS * PARTS / data.coefficient(hot, cold)))


def least_difference(data: CostData, hot: Source, cold: Source) -> int:
    """How close the two may come, in thousandths of a K; more than any difference where they may not meet. The audit
    knows nothing of the real ends of a utility: that has to be warmer, or colder, alone."""
    if any((pair.hot, pair.cold) == (hot.name, cold.name) for pair in data.case.forbids):
        return NEVER
    ranged = hot.name in data.ranges or cold.name in data.ranges
    return 1 if ranged else max(1, floor(data.kelvins(hot.contribution + cold.contribution) * STEPS))


def improved(plan: Plan, end: float) -> list[tuple[int, int]]:
    """Solves the plan, with more pairs where its prices are above their cost, until the proof is as good as the plan;
    the pairs that the plan uses."""
    used: list[tuple[int, int]] = []
    for _ in range(MOST_ROUNDS):
        value, prices, used = solved(plan)
        reduced = proof_of(plan, prices)
        if float(plan.proved) >= value * (1 - CLOSE) or monotonic() > end:
            break
        if not add_pairs(plan, reduced):
            break
    return used


def solved(plan: Plan) -> tuple[float, Floats, list[tuple[int, int]]]:
    """The least of the plan with the pairs that it has, the prices of its cold slices, and the pairs that are used."""
    import numpy
    from scipy.optimize import linprog
    from scipy.sparse import coo_matrix
    pairs = numpy.array(sorted(plan.pairs))
    above, below = pairs[:, 0], pairs[:, 1]
    whole = plan.costs[above, below]
    largest = float(whole[whole < BARRED].max(initial=PARTS)) / PARTS
    costs = numpy.where(whole < BARRED, whole / PARTS, 100 * largest)
    count = numpy.arange(len(pairs))
    ones = numpy.ones(len(pairs))
    rows = coo_matrix((numpy.concatenate((ones, ones)), (numpy.concatenate((above, below + len(plan.hot))),
                                                         numpy.concatenate((count, count)))))
    heats = [float(part.heat) for part in plan.hot + plan.cold]
    found: Any = linprog(costs, A_eq=rows.tocsr(), b_eq=heats, method='highs')
    if found.x is None:
        return float('inf'), numpy.zeros(len(plan.cold)), sorted(plan.pairs)
    used = [pair for pair, flow in zip(sorted(plan.pairs), found.x.tolist()) if flow > LEAST_FLOW]
    prices: Floats = numpy.asarray(found.eqlin.marginals, dtype=numpy.float64)[len(plan.hot):]
    return float(found.fun), prices, used


def proof_of(plan: Plan, prices: Floats) -> Whole:
    """Keeps what the prices of the cold slices prove, in whole numbers: each hot slice gets the most that no pair
    forbids, and then each cold one. How much each pair is above or below its cost at the prices of the solver."""
    import numpy
    bounded = numpy.clip(numpy.nan_to_num(prices), -MOST_PRICE, MOST_PRICE)
    cold = numpy.round(bounded * PARTS).astype(numpy.int64)
    gaps: Whole = plan.costs - cold[None, :]
    hot = gaps.min(axis=1)
    lifted = (plan.costs - hot[:, None]).min(axis=0)
    value = sum((int(price) * part.heat for price, part in zip(hot, plan.hot)), Fraction(0)) + \
        sum((int(price) * part.heat for price, part in zip(lifted, plan.cold)), Fraction(0))
    plan.proved = max(plan.proved, value / PARTS)
    return gaps


def add_pairs(plan: Plan, gaps: Whole) -> bool:
    """Gives the solver, for each slice, the pairs that are farthest below its price; False where there is none."""
    import numpy
    before = len(plan.pairs)
    pairs = numpy.array(sorted(plan.pairs))
    least = numpy.full(len(plan.hot), BARRED)
    numpy.minimum.at(least, pairs[:, 0], gaps[pairs[:, 0], pairs[:, 1]])
    below = gaps - least[:, None]
    for axis in (0, 1):
        order = numpy.argsort(below, axis=axis, kind='stable')
        for nearest in order.take(range(min(MORE_PAIRS, below.shape[axis])), axis=axis).swapaxes(0, axis):
            for at, other in enumerate(nearest.tolist()):
                pair = (other, at) if axis == 0 else (at, other)
                if below[pair] < 0:
                    plan.pairs.add(pair)
    return len(plan.pairs) > before
