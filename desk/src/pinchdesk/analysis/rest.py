"""What is left of a network with open branches: the remaining problem (Linnhoff and Hindmarsh 1983; Kemp 2007).

Every open branch is a stream of what is left of it: its size, from its state to the target of its stream. `pinch` says
the targets of these streams; with the heat of the exchangers that stand already they are what the whole needs after
this choice, and what that is above the whole's own target the choice costs.

What stands so far is judged by `pinch audit`: every open branch is led to its target by a utility of any level, which
is no proposal, and the network that this makes is audited. Where a case cannot hold a number of the rest (`leftover`),
`pinch` is asked for the rest as it is harder and as it is easier, and the exact targets lie between."""
from __future__ import annotations

from collections.abc import Iterable, Iterator, Mapping, Sequence
from dataclasses import dataclass, replace
from fractions import Fraction

from ..errors import Refused
from ..formats.case import ANY_HEAT, Case, Side, Utility, completed, read_case
from ..formats.network import End, Exchanger, Mix, Network, Pass, Statement, read_network
from ..program.answers import Cut, HeatFlow, Targets
from ..program.run import CaseText, NetworkText, Pinch, case_bytes, network_bytes
from ..program.verdicts import Accepted, PlaceKind, Rejected, Verdict
from ..tables.names import apart
from .follow import Followed, PinchPoint, follow, pinches_of
from .open_branches import Left, Rounding, Scale, is_exact, left_of, open_branches, rest_case, scale_of, used_heats
from .unfinished import open_exchangers, placed


@dataclass(frozen=True)
class Posed:
    """The rest as a case with the answers of `pinch`, and how it holds the numbers of the whole."""

    case: Case
    scale: Scale
    targets: Targets
    flow: HeatFlow | Cut
    pinches: tuple[PinchPoint, ...]

    @property
    def hot(self) -> Fraction:
        """The hot target in the heats of the whole."""
        return Fraction(self.targets.hot, self.scale.factor)

    @property
    def cold(self) -> Fraction:
        return Fraction(self.targets.cold, self.scale.factor)

    @property
    def cost(self) -> Fraction | None:
        return None if isinstance(self.flow, Cut) else Fraction(self.flow.cost, self.scale.factor)


@dataclass(frozen=True)
class Rest:
    """What is left of a network, of a completed case.

    `followed` is the network as it is written, `finished` the one that was audited, with every open branch led to its
    target, and `verdict` is the audit's. `left` are the open branches; `harder` and `easier` are the rest, one and the
    same where nothing is rounded, and None where nothing is left that a case can hold, or the verdict is not good."""

    followed: Followed
    finished: Followed
    verdict: Verdict
    left: tuple[Left, ...]
    whole: Targets
    whole_flow: HeatFlow | Cut
    used: Mapping[str, Fraction]
    harder: Posed | None = None
    easier: Posed | None = None

    @property
    def exact(self) -> bool:
        return self.harder is self.easier

    @property
    def hot_used(self) -> Fraction:
        """The hot utility of the exchangers that stand already, in W."""
        return self.used_on(Side.HOT)

    @property
    def cold_used(self) -> Fraction:
        return self.used_on(Side.COLD)

    def used_on(self, side: Side) -> Fraction:
        return sum((self.used[utility.name] for utility in self.followed.case.utilities if utility.side is side),
                   Fraction(0))

    @property
    def cost_used(self) -> Fraction:
        """What the utilities cost that are used already."""
        return sum((utility.price * self.used[utility.name] for utility in self.followed.case.utilities), Fraction(0))

    @property
    def excess(self) -> tuple[Fraction, Fraction]:
        """What the choice costs above the hot target of the whole, in W: at least and at most. Below 0 stands nothing,
        since no network has less than the target."""
        least, most = (self.hot_used + (rest.hot if rest else 0) - self.whole.hot
                       for rest in (self.easier, self.harder))
        return max(Fraction(0), least), most

    @property
    def good(self) -> bool:
        """Whether the audit takes what stands, and there is a heat flow for what is left."""
        return isinstance(self.verdict, Accepted) and not (self.harder and isinstance(self.harder.flow, Cut))


def remaining(case: CaseText, network: NetworkText, pinch: Pinch | None = None) -> Rest:
    """What is left of a network. `Refused` where the program refuses a file, where a branch is beyond its target, or
    where the rest is more than a case can hold."""
    asked = pinch or Pinch()
    content, text = case_bytes(case), network_bytes(network)
    verdict = asked.audit(content, text)
    followed = follow(completed(read_case(content)), read_network(text))
    pieces = open_pieces(followed)
    left = (*left_of(followed.case, open_branches(followed)), *pieces)
    whole, flow = asked.targets(content), asked.flow(content)
    used = used_heats(followed.case, Network(tuple(passage.exchanger for passage in placed(followed))))
    if not left or not ends_early(verdict) and not pieces or is_elsewhere(verdict, followed):
        return Rest(followed, followed, verdict, left, whole, flow, used)
    check_ways(left)
    finished, verdict = judged(asked, followed, left)
    rest = Rest(followed, finished, verdict, left, whole, flow, used)
    if not isinstance(verdict, Accepted) or not any(open_branch.heat for open_branch in left):
        return rest
    return posed_rest(asked, rest)


def open_pieces(followed: Followed) -> tuple[Left, ...]:
    """The exchangers that stand for what is not served yet, each from where it begins to where it ends."""
    taken = {source.name for source in followed.case.sources} | {'HOT', 'COLD'}
    standing = {passage.exchanger.name for passage in placed(followed)}
    sides = [(passage.exchanger.name, passage.hot if passage.hot.before else passage.cold)
             for passage in followed.passages if passage.exchanger.name not in standing]
    return tuple(Left(fresh(name, taken), side.before, side.behind.state) for name, side in sides
                 if side.before and side.behind and side.before.state is not None)


def is_elsewhere(verdict: Verdict, followed: Followed) -> bool:
    """Whether the audit found a fault that is none of what is open."""
    if not isinstance(verdict, Rejected) or ends_early(verdict):
        return False
    names = {exchanger.name for exchanger in open_exchangers(followed.case, followed.network.exchangers)}
    return verdict.place.kind is not PlaceKind.UTILITY and verdict.place.name not in names


def ends_early(verdict: Verdict) -> bool:
    """Whether the audit found no fault but a stream that does not end."""
    return isinstance(verdict, Rejected) and verdict.place.kind is PlaceKind.STREAM


def check_ways(lefts: Iterable[Left]) -> None:
    """`Refused` where a branch is beyond its target: only a mix brings it back, and which one is not for the desk to
    say."""
    for left in lefts:
        if left.step < 0:
            place = f'branch {left.branch.name}'
            cause = 'is beyond the target of its stream: mix it with a branch that brings it back'
            raise Refused(4, f'network {place}', 'beyond', f'network {place} of {left.stream.name} {cause}')


def judged(pinch: Pinch, followed: Followed, lefts: Sequence[Left]) -> tuple[Followed, Verdict]:
    """The network with its open branches led to their targets, and what the audit says of it. Where nothing is left to
    lead it is audited for the case itself."""
    case = finishing_case(followed, lefts) if any(left.heat for left in lefts) else followed.case
    statements = with_stand_ins(completed(case), followed)
    network = Network((*statements, *finishing(completed(case), followed, lefts)))
    return follow(completed(case), network), pinch.audit(case, network)


def finishing_case(followed: Followed, lefts: Sequence[Left]) -> Case:
    """The case with the utilities that the network uses, of which none has to give a least heat, and with one more on a
    side that has such, at a level that reaches every branch. A side without any has `HOT` or `COLD` by itself."""
    case = followed.case
    used = {name for passage in placed(followed) for name in (passage.exchanger.hot, passage.exchanger.cold)}
    kept = [replace(utility, least=0) for utility in case.utilities if utility.name in used and not utility.invented]
    taken = {source.name for source in case.sources}
    ends = {side: [(stream.target, stream.contribution) for stream in case.streams if stream.side is not side]
            for side in Side}
    if any(utility.side is Side.HOT for utility in kept):
        level = max((target + share for target, share in ends[Side.HOT]), default=0)
        kept.append(Utility(apart('HOT', taken), Side.HOT, level, 0, ANY_HEAT, 0, 0))
    if any(utility.side is Side.COLD for utility in kept):
        level = min((target - share for target, share in ends[Side.COLD]), default=0)
        kept.append(Utility(apart('COLD', taken), Side.COLD, level, 0, ANY_HEAT, 0, 0))
    names = {stream.name for stream in case.streams} | {utility.name for utility in kept}
    forbids = tuple(forbid for forbid in case.forbids if {forbid.hot, forbid.cold} <= names)
    return replace(case, utilities=tuple(kept), forbids=forbids)


def with_stand_ins(case: Case, followed: Followed) -> Iterator[Statement]:
    """The statements of a network, in which what stands for something open has the utility that reaches every
    branch."""
    last = {utility.side: utility.name for utility in case.utilities}
    streams = {stream.name for stream in case.streams}
    names = {exchanger.name for exchanger in open_exchangers(followed.case, followed.network.exchangers)}
    for statement in followed.network.statements:
        if isinstance(statement, Exchanger) and statement.name in names:
            hot = statement.hot if statement.hot in streams else last[Side.HOT]
            cold = statement.cold if statement.cold in streams else last[Side.COLD]
            yield Exchanger(statement.name, hot, cold, statement.duty)
        else:
            yield statement


def finishing(case: Case, followed: Followed, lefts: Sequence[Left]) -> Iterator[Statement]:
    """The statements that lead every open branch to its target, mix those of a stream and end it. The utility that
    stands last on its side reaches every branch."""
    last = {utility.side: utility.name for utility in case.utilities}
    exchangers = {exchanger.name for exchanger in followed.network.exchangers}
    branches = set(followed.branches)
    for stream in case.streams:
        at = ''
        for left in (branch for branch in lefts if branch.stream.name == stream.name and branch.until is None):
            ready = left.branch.name
            if left.heat:
                hot = stream.side is Side.HOT
                pair = (stream.name, last[Side.COLD]) if hot else (last[Side.HOT], stream.name)
                made, ready = fresh('rest', exchangers), fresh('.rest', branches)
                yield Exchanger(made, *pair, left.heat)
                yield Pass(left.branch.name, made, ready)
            if at:
                mixed = fresh('.rest', branches)
                yield Mix(at, ready, mixed)
                ready = mixed
            at = ready
        if at:
            yield End(at)


def fresh(name: str, taken: set[str]) -> str:
    made = apart(name, taken)
    taken.add(made)
    return made


def posed_rest(pinch: Pinch, rest: Rest) -> Rest:
    """The rest with its case, or both of them, and their answers."""
    case = rest.followed.case
    lefts = [left for left in rest.left if left.heat]
    scale = scale_of(lefts, case, rest.used)
    harder = posed(pinch, rest_case(case, lefts, rest.used, scale, Rounding.HARDER), scale)
    if is_exact(lefts, case, rest.used, scale):
        return replace(rest, harder=harder, easier=harder)
    easier = posed(pinch, rest_case(case, lefts, rest.used, scale, Rounding.EASIER), scale)
    return replace(rest, harder=harder, easier=easier)


def written_case(rest: Rest) -> Case | None:
    """The case of the rest in °C as the whole has them, rounded to the harder side; None where nothing is left that it
    can hold, or the network is rejected."""
    if rest.harder is None:
        return None
    lefts = [left for left in rest.left if left.heat]
    case = rest_case(rest.followed.case, lefts, rest.used, Scale(rest.harder.scale.sizes), Rounding.HARDER)
    return case if case.streams else None


def posed(pinch: Pinch, case: Case, scale: Scale) -> Posed | None:
    """A rest with its answers, None where rounding leaves no stream; `Refused` where it is more than a case can
    hold."""
    if not case.streams:
        return None
    try:
        targets = pinch.targets(case)
        return Posed(case, scale, targets, pinch.flow(case), pinches_of(targets, pinch.curves(case)))
    except Refused as fault:
        cause = f'network with more open branches than a case can hold ({fault.text}): mix some of them'
        raise Refused(4, 'network', fault.cause, cause) from fault
