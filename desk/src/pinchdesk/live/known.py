"""What is known of two texts: the case and the network as the desk reads them, and all that `pinch` says of both. It is
worked out once for the same bytes."""
from __future__ import annotations

from collections import OrderedDict
from concurrent.futures import ThreadPoolExecutor
from dataclasses import dataclass, field, replace

from ..analysis.least_units import rule_between_pinches
from ..errors import DeskError, Refused
from ..formats.case import Case, completed, print_case, read_case
from ..program.answers import HeatFlow
from ..program.causes import lines_of
from ..program.remembered import RememberingPinch
from ..program.run import Pinch
from ..program.verdicts import PlaceKind, Rejected, Verdict
from .areas import areas_of_network
from .judgement import Reachable, Stand, Whole, asked_whole, judged_stand, left_case, reachable
from .network_lines import TextLayout, begun_plan, read_plan, write_plan
from .network_view import Standing
from .pieces import HandPlan, cut

MOST_KEPT, ASKED_AT_ONCE = 200, 4


@dataclass(frozen=True)
class Snapshot:
    """Both texts."""

    case: str
    network: str

    @property
    def case_bytes(self) -> bytes:
        return as_content(self.case)

    @property
    def network_bytes(self) -> bytes:
        return as_content(self.network)


def as_content(text: str) -> bytes:
    """A text as the bytes that it was read from, be they UTF-8 or not: those that are not can stand in comments
    alone."""
    return text.encode('utf-8', 'surrogateescape')


def as_text(content: bytes) -> str:
    return content.decode('utf-8', 'surrogateescape')


@dataclass(frozen=True)
class Known:
    """What is known of a snapshot. `case` is None where the case cannot be read, `whole` where `pinch` refuses it;
    `fault` says why, with its place. `plan` is None where the network is refused (`network_fault`), or where it is one
    that is changed by its text alone (`read_only`, with the `verdict` of the audit)."""

    snapshot: Snapshot
    case: Case | None = None
    whole: Whole | None = None
    fault: str = ''
    network_fault: str = ''
    read_only: str = ''
    verdict: Verdict | None = None
    plan: HandPlan | None = None
    layout: TextLayout = field(default_factory=TextLayout)
    standing: Standing | None = None

    @property
    def reach(self) -> Reachable | None:
        return self.standing.reach if self.standing else None

    @property
    def stand(self) -> Stand | None:
        return self.standing.stand if self.standing else None

    def cut_plan(self) -> HandPlan:
        """The plan with its open pieces cut at the pinches, as the page shows it."""
        assert self.plan is not None and self.whole is not None
        return cut(self.plan, self.whole.pinches)


class Knowing:
    """Asks `pinch`, several runs side by side, and keeps what it said."""

    def __init__(self, pinch: Pinch) -> None:
        self.pinch = RememberingPinch(pinch)
        self.kept: OrderedDict[Snapshot, Known] = OrderedDict()
        self.wholes: OrderedDict[str, Whole] = OrderedDict()
        self.rules: OrderedDict[str, int] = OrderedDict()
        self.pool = ThreadPoolExecutor(ASKED_AT_ONCE)

    def of(self, snapshot: Snapshot) -> Known:
        """What is known of both texts."""
        if snapshot not in self.kept:
            self.kept[snapshot] = self.asked(snapshot)
            while len(self.kept) > MOST_KEPT:
                self.kept.popitem(last=False)
        return self.kept[snapshot]

    def asked(self, snapshot: Snapshot) -> Known:
        try:
            case = completed_live(snapshot.case)
        except DeskError as fault:
            return Known(snapshot, None, fault=told(fault))
        try:
            whole = self.whole(case, snapshot.case)
        except DeskError as fault:
            return Known(snapshot, case, fault=told(fault))
        return self.with_network(snapshot, case, whole)

    def whole(self, case: Case, text: str) -> Whole:
        """What `pinch` says of a case."""
        if text not in self.wholes:
            self.wholes[text] = asked_whole(self.pinch, case, as_content(text))
            while len(self.wholes) > MOST_KEPT:
                self.wholes.popitem(last=False)
        return self.wholes[text]

    def with_network(self, snapshot: Snapshot, case: Case, whole: Whole) -> Known:
        try:
            verdict = self.pinch.audit(snapshot.case_bytes, snapshot.network_bytes)
        except DeskError as fault:
            return Known(snapshot, case, whole, network_fault=told(fault))
        try:
            plan, layout = read_plan(case, snapshot.network)
        except Refused as fault:
            why = f'The network can be changed by its text alone: {fault.text}.'
            return Known(snapshot, case, whole, read_only=why, verdict=verdict)
        if isinstance(verdict, Rejected) and verdict.place.kind is PlaceKind.STREAM:
            verdict = self.pinch.audit(snapshot.case_bytes, as_content(write_plan(plan, layout)))
        return Known(snapshot, case, whole, verdict=verdict, plan=plan, layout=layout,
                     standing=self.standing(whole, plan, snapshot, verdict))

    def standing(self, whole: Whole, plan: HandPlan, snapshot: Snapshot, verdict: Verdict) -> Standing:
        """How a plan stands: what `pinch` has to be asked for is asked side by side."""
        reach = self.pool.submit(reachable, self.pinch, plan)
        stand = self.pool.submit(judged_stand, self.pinch, plan, verdict)
        rule = self.pool.submit(self.rule, snapshot.case, whole.case)
        left = self.pool.submit(self.of_left, plan)
        known = Standing(whole, plan, stand.result(), reach.result(), rule.result(), *left.result())
        if plan.open or known.stand.accepted is None:
            return known
        return replace(known, areas=areas_of_network(whole.case, snapshot.network_bytes, known.stand.accepted))

    def rule(self, text: str, case: Case) -> int:
        """The rule's number of exchangers between the pinches of a case; 0 where it has no heat flow."""
        if text not in self.rules:
            self.rules[text] = rule_of(self.pinch, case, as_content(text))
            while len(self.rules) > MOST_KEPT:
                self.rules.popitem(last=False)
        return self.rules[text]

    def of_left(self, plan: HandPlan) -> tuple[int, Whole | None]:
        """The rule's number for what is open, and what `pinch` says of that as a case; None where nothing is placed, or
        where its temperatures are not those of the whole."""
        if not plan.open:
            return 0, None
        try:
            case, scale, _ = left_case(plan)
            if not case.streams:
                return 0, None
            rule = rule_of(self.pinch, completed(case), case)
            seen = plan.placed and scale.degrees == 1
            return rule, asked_whole(self.pinch, completed(case), print_case(case)) if seen else None
        except DeskError:
            return len(plan.open), None


def rule_of(pinch: Pinch, case: Case, text: Case | bytes) -> int:
    flow = pinch.flow(text)
    if not isinstance(flow, HeatFlow):
        return 0
    return rule_between_pinches(case, pinch.targets(text), flow)


def completed_live(text: str) -> Case:
    """A case in its own units, completed; a case without a stream has nothing that could stand in."""
    case = read_case(text)
    return completed(case) if case.streams else case


def told(fault: DeskError) -> str:
    return ' '.join(lines_of(fault))


def begun(text: str) -> str:
    """The network text in which nothing is placed; empty where the case cannot be read or has no stream."""
    try:
        case = completed_live(text)
        return write_plan(begun_plan(case), TextLayout()) if case.streams else ''
    except DeskError:
        return ''
