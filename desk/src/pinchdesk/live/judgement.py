"""What `pinch` says of a plan: what can still be reached, how it stands, and what is wrong with it."""
from __future__ import annotations

from collections.abc import Mapping
from dataclasses import dataclass, replace
from fractions import Fraction

from ..analysis.follow import Branch, PinchPoint, follow, pinches_of
from ..analysis.joined import placed_count
from ..analysis.open_branches import Left, Rounding, Scale, is_exact, rest_case, scale_of
from ..errors import Refused
from ..formats.case import ANY_HEAT, Case, Side, Utility
from ..formats.network import Exchanger, Network
from ..formats.shown import Shown
from ..program.answers import Curves, Cut, Targets
from ..program.run import Pinch
from ..program.verdicts import Accepted, Verdict
from ..tables.names import apart
from .network_lines import TextLayout, LineWriter
from .pieces import HandPlan, pair_with


@dataclass(frozen=True)
class Reachable:
    """The hot utility that a network can still reach: what is placed and the target of what is open. Where a case
    cannot hold a number of the rest it lies between two bounds; `least` is then no more than it is. Where a side has
    more than one utility `cost` is the least cost, in price times W, of the whole then; `is_servable` is false where no
    heat flow is left."""

    least: Fraction
    most: Fraction
    cost: Fraction | None = None
    is_servable: bool = True

    @property
    def exact(self) -> bool:
        return self.least == self.most


@dataclass(frozen=True)
class Whole:
    """What `pinch` says of the case alone."""

    case: Case
    targets: Targets
    curves: Curves
    pinches: tuple[PinchPoint, ...]


def asked_whole(pinch: Pinch, case: Case, text: str | bytes) -> Whole:
    """What `pinch` says of a case whose text this is."""
    targets, curves = pinch.targets(text), pinch.curves(text)
    return Whole(case, targets, curves, pinches_of(targets, curves))


def lefts_of(plan: HandPlan) -> list[Left]:
    """The open pieces of a plan as streams of what is left."""
    taken = {source.name for source in plan.case.sources} | {'HOT', 'COLD'}
    pieces = [(name, plan.piece(name)) for name in plan.open]
    made: list[Left] = []
    for name, reach in pieces:
        alone = sum(other.stream.name == reach.stream.name for _, other in pieces) == 1
        left_name = reach.stream.name if alone else apart(name.replace('/', '-'), taken)
        taken.add(left_name)
        made.append(Left(left_name, Branch(name, reach.stream, reach.size, reach.before, 0), reach.behind))
    return made


def left_case(plan: HandPlan, rounding: Rounding = Rounding.HARDER) -> tuple[Case, Scale, bool]:
    """What is left of a plan as a case, how it holds the numbers, and whether all of them are exact."""
    lefts, used = lefts_of(plan), plan.used(True)
    scale = scale_of(lefts, plan.case, used)
    return rest_case(plan.case, lefts, used, scale, rounding), scale, is_exact(lefts, plan.case, used, scale)


def left_key(plan: HandPlan) -> tuple[object, ...]:
    """What is the same of all plans of a case that leave the same over, and so can reach the same."""
    pieces = [(name, plan.piece(name)) for name in plan.open]
    return (*plan.used(True).values(), *((name, reach.size, reach.before, reach.behind) for name, reach in pieces))


def reachable(pinch: Pinch, plan: HandPlan) -> Reachable | None:
    """What a plan can still reach; None where what is left is more than a case can hold."""
    used = plan.used(True)
    hot = sum((used[utility.name] for utility in plan.case.utilities if utility.side is Side.HOT), Fraction(0))
    paid = sum((utility.price * used[utility.name] for utility in plan.case.utilities), Fraction(0))
    if not plan.open:
        return Reachable(hot, hot, paid if has_levels(plan.case) else None)
    try:
        case, scale, exact = left_case(plan)
        most = hot + hot_target(pinch, case, scale)
        least = most if exact else hot + hot_target(pinch, left_case(plan, Rounding.EASIER)[0], scale)
        if not exact or not has_levels(plan.case) or not case.streams:
            return Reachable(least, most)
        flow = pinch.uses(case)
    except Refused:
        return None
    if isinstance(flow, Cut):
        return Reachable(least, most, None, False)
    return Reachable(least, most, paid + Fraction(flow.cost, scale.factor))


def has_levels(case: Case) -> bool:
    """Whether a side has more than one utility, so that it matters which one is used."""
    return any(sum(utility.side is side for utility in case.utilities) > 1 for side in Side)


def money(shown: Shown, cost: Fraction | int) -> str:
    """A cost with its unit; of a case whose prices have none it is a price times a heat."""
    return shown.with_unit(cost) if shown.basis.cost_unit else f'{shown.cost(cost)} price × W'


def hot_target(pinch: Pinch, case: Case, scale: Scale) -> Fraction:
    return Fraction(pinch.targets(case).hot, scale.factor) if case.streams else Fraction(0)


@dataclass(frozen=True)
class Stand:
    """How a network stands. `verdict` is the audit of the text itself; `placed` that of what is placed, where something
    is open: the open pieces are then led to their ends by utilities of any level, which is no proposal."""

    verdict: Verdict
    placed: Verdict

    @property
    def accepted(self) -> Accepted | None:
        """The verdict of the text itself, where it is accepted."""
        return self.verdict if isinstance(self.verdict, Accepted) else None


def judged_stand(pinch: Pinch, plan: HandPlan, verdict: Verdict) -> Stand:
    """How a plan stands whose text has this verdict."""
    if not plan.open or isinstance(verdict, Accepted):
        return Stand(verdict, verdict)
    case, network = with_stand_ins(plan)
    return Stand(verdict, pinch.audit(case, network))


def with_stand_ins(plan: HandPlan) -> tuple[Case, Network]:
    """The case with a utility on each side that reaches everything, at which no utility has a least heat, and the
    network with its open pieces at these."""
    taken = {source.name for source in plan.case.sources} | {'HOT', 'COLD'}
    names: dict[Side, str] = {}
    utilities = [replace(utility, least=0) for utility in plan.case.utilities if not utility.invented]
    used = plan.used(True)
    for side in Side:
        if not any(utility.side is side for utility in utilities):
            names[side] = 'HOT' if side is Side.HOT else 'COLD'
            continue
        names[side] = apart('any-hot' if side is Side.HOT else 'any-cold', taken)
        taken.add(names[side])
        utilities.append(Utility(names[side], side, extreme(plan.case, side), 0, ANY_HEAT, 0, 0))
    kept = [utility for utility in utilities if used.get(utility.name, 1) or utility.name in names.values()]
    known = {stream.name for stream in plan.case.streams} | {utility.name for utility in kept}
    forbids = tuple(pair for pair in plan.case.forbids if {pair.hot, pair.cold} <= known)
    pairs = {name: pair_with(plan.streams_of(name)[0], names[other_of(plan.streams_of(name)[0].side)])
             for name in plan.open}
    return replace(plan.case, utilities=tuple(kept), forbids=forbids), with_pairs(plan, pairs)


def count_placed(plan: HandPlan) -> int:
    """How many exchangers of the plant stand: one that goes on across a kink is one."""
    if not plan.case.basis.segments:
        return len(plan.placed)
    return placed_count(follow(plan.case, Network(tuple(LineWriter(plan, TextLayout()).written()))))


def other_of(side: Side) -> Side:
    return Side.COLD if side is Side.HOT else Side.HOT


def extreme(case: Case, side: Side) -> int:
    """A level that reaches each stream of the other side."""
    served = [stream for stream in case.streams if stream.side is not side]
    if side is Side.HOT:
        return max((stream.target + stream.contribution for stream in served), default=0)
    return min((stream.target - stream.contribution for stream in served), default=0)


def with_pairs(plan: HandPlan, pairs: Mapping[str, tuple[str, str]]) -> Network:
    """The network of a plan with other pairs of some exchangers."""
    statements = LineWriter(plan, TextLayout()).written()
    return Network(tuple(Exchanger(statement.name, *pairs[statement.name], statement.duty)
                         if isinstance(statement, Exchanger) and statement.name in pairs else statement
                         for statement in statements))
