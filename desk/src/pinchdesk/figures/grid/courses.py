"""The order in which exchangers, splits and mixes stand on the streams of a network, for the grid diagram: nothing is
drawn here.

In the diagram hot streams run from left to right and cold ones from right to left, so that the left is the hot end of
all. A node is what stands at one place on a stream: one side of an exchanger, a split with all branches that begin
there, a mix with all that end there."""
from __future__ import annotations

from collections.abc import Iterator
from dataclasses import dataclass, field
from fractions import Fraction

from ...analysis.follow import Followed, Passage, PinchPoint, SideState
from ...formats.case import Side, Stream, shifted
from ...formats.network import Mix, Pass, Split, Statement

Key = tuple[str, str]


@dataclass(eq=False)
class Node:
    """A place on a stream; each key has one. `zone` counts from the hot end: 2 k is between the pinches k and k + 1,
    and 2 k + 1 on the pinch k + 1. `warmth` is the shifted temperature of its hotter end."""

    key: Key
    stream: Stream
    zone: int | None = None
    warmth: Fraction = Fraction(0)
    behind: list[Node] = field(default_factory=list)

    @property
    def exchanger(self) -> str | None:
        return self.key[1] if self.key[0] in ('hot', 'cold') else None


@dataclass
class Course:
    """The nodes of a network: `made` and `used` have for each branch the node where it begins and where it ends."""

    nodes: dict[Key, Node] = field(default_factory=dict)
    made: dict[str, Node] = field(default_factory=dict)
    used: dict[str, Node] = field(default_factory=dict)


def inputs_of(statement: Statement) -> tuple[str, ...]:
    match statement:
        case Split(branch) | Pass(branch):
            return (branch,)
        case Mix(first, second):
            return (first, second)
    return ()


def outputs_of(statement: Statement) -> tuple[str, ...]:
    match statement:
        case Split(_, first, _, second):
            return (first, second)
        case Pass(_, _, to) | Mix(_, _, to):
            return (to,)
    return ()


def key_of(statement: Statement, at: int, stream: Stream, made: dict[str, Node]) -> Key:
    """The node of a statement: a split of a branch that was just split off is the same split, and so with mixes."""
    if isinstance(statement, Pass):
        return (stream.side.value, statement.exchanger)
    kind = 'split' if isinstance(statement, Split) else 'mix'
    before = [made[branch] for branch in inputs_of(statement) if branch in made and made[branch].key[0] == kind]
    return before[0].key if before else (kind, str(at))


def course_of(followed: Followed, pinches: tuple[PinchPoint, ...]) -> Course:
    """The nodes of all streams, each behind those that its stream passes before it."""
    course = Course()
    passages = {passage.exchanger.name: passage for passage in followed.passages}
    for at, statement in enumerate(followed.network.statements, 1):
        inputs = inputs_of(statement)
        if inputs:
            stream = followed.branches[inputs[0]].stream
            node = join(course, key_of(statement, at, stream, course.made), stream, statement)
            place(node, passages, pinches)
    draw_near(course)
    return course


def draw_near(course: Course) -> None:
    """Puts each split as near to its branches as may be: one at a pinch stands on their side of it."""
    after: dict[Key, list[Node]] = {}
    for node in course.nodes.values():
        for before in node.behind:
            after.setdefault(before.key, []).append(node)
    for node in reversed(list(course.nodes.values())):
        zones = [next_node.zone for next_node in after.get(node.key, ()) if next_node.zone is not None]
        if node.key[0] == 'split' and zones:
            node.zone = min(zones) if node.stream.side is Side.HOT else max(zones)


def join(course: Course, key: Key, stream: Stream, statement: Statement) -> Node:
    """The node of a statement, with its branches."""
    node = course.nodes.setdefault(key, Node(key, stream))
    for branch in inputs_of(statement):
        course.used[branch] = node
        before = course.made.get(branch)
        if before is not None and before is not node and before not in node.behind:
            node.behind.append(before)
            if before.key[0] == key[0] == 'mix':
                merge(course, before, node)
    for branch in outputs_of(statement):
        course.made[branch] = node
    return node


def merge(course: Course, gone: Node, node: Node) -> None:
    """Two mixes of which one feeds the other stand at one place."""
    node.behind.remove(gone)
    node.behind.extend(before for before in gone.behind if before not in node.behind)
    for table in (course.made, course.used):
        for branch, branch_node in table.items():
            if branch_node is gone:
                table[branch] = node
    del course.nodes[gone.key]


def place(node: Node, passages: dict[str, Passage], pinches: tuple[PinchPoint, ...]) -> None:
    """Puts a node into its zone: where its side works, but never back against the course of its stream."""
    zones = [before.zone for before in node.behind if before.zone is not None]
    if node.exchanger:
        passage = passages[node.exchanger]
        side = passage.hot if node.key[0] == 'hot' else passage.cold
        own = zone_of(passage, side, pinches)
        ends = [temperature for temperature in (side.inlet, side.outlet) if temperature is not None]
        node.warmth = max(ends, default=Fraction(0)) + shifted(node.stream, 0)
        zones += [] if own is None else [own]
    elif node.behind:
        node.warmth = max(before.warmth for before in node.behind)
    hot = node.stream.side is Side.HOT
    fallback = begin_zone(node.stream, pinches)
    node.zone = (max if hot else min)([*zones, *([] if zones else [fallback])])


def begin_zone(stream: Stream, pinches: tuple[PinchPoint, ...]) -> int:
    """The zone in which a stream begins."""
    start = shifted(stream, stream.supply)
    if stream.side is Side.HOT:
        return 2 * sum(start <= pinch.temperature for pinch in pinches)
    return 2 * sum(start < pinch.temperature for pinch in pinches)


def zone_of(passage: Passage, side: SideState, pinches: tuple[PinchPoint, ...]) -> int | None:
    """The zone in which a side works; None where the network cannot be followed."""
    zone, duty = 0, passage.exchanger.duty
    for pinch in pinches:
        above = passage.above(side, pinch)
        if above is None:
            return None
        if above == duty:
            return zone
        if above > 0:
            return zone + 1
        zone += 2
    return zone


def left_of(node: Node) -> Iterator[tuple[Node, Node]]:
    """Pairs of which the first stands left of the second."""
    for before in node.behind:
        yield (before, node) if node.stream.side is Side.HOT else (node, before)
