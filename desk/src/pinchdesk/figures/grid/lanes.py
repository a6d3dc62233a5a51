"""The lanes of a stream in a grid diagram: its branches run side by side where it is split; nothing is drawn here."""
from __future__ import annotations

from collections.abc import Iterable, Mapping, Sequence
from fractions import Fraction

from ...analysis.follow import Followed, PinchPoint
from ...formats.case import Side, Stream
from .columns import Columns
from .courses import Course, Key, Node


def branches_of(followed: Followed, stream: Stream) -> list[str]:
    return [name for name, branch in followed.branches.items() if branch.stream.name == stream.name]


def lanes_of(followed: Followed, course: Course, columns: Columns, stream: Stream) -> dict[str, int]:
    """The lane of each branch of a stream: the first one of a split goes on in its lane, the others take the lowest
    that are free there."""
    nodes = [stream_node for stream_node in course.nodes.values() if stream_node.stream.name == stream.name]
    nodes.sort(key=lambda stream_node: columns.of[stream_node.key], reverse=stream.side is Side.COLD)
    own = branches_of(followed, stream)
    ending, beginning = at_nodes(course.used, own), at_nodes(course.made, own)
    lanes, taken = {stream.name: 0}, {0}
    for node in nodes:
        inputs, outputs = ending.get(node.key, []), beginning.get(node.key, [])
        freed = sorted({lanes[branch] for branch in inputs if branch in lanes}) or [0]
        taken -= set(freed)
        # Branches that begin and end at one place are not drawn.
        for name in (branch for branch in outputs if branch not in inputs):
            lane = freed.pop(0) if freed else next(at for at in range(len(own) + 1) if at not in taken)
            lanes[name] = lane
            taken.add(lane)
    return lanes


def at_nodes(nodes: Mapping[str, Node], branches: Iterable[str]) -> dict[Key, list[str]]:
    """The branches at each node."""
    branches_at: dict[Key, list[str]] = {}
    for branch in branches:
        if branch in nodes:
            branches_at.setdefault(nodes[branch].key, []).append(branch)
    return branches_at


def share_of(followed: Followed, branch: str) -> Fraction:
    """The part of its stream that a branch is."""
    followed_branch = followed.branches[branch]
    return followed_branch.size / followed_branch.stream.size


def drawn_branches(course: Course, names: Iterable[str]) -> list[str]:
    """Those that do not end where they begin."""
    return [name for name in names if course.made.get(name) is None or course.made[name] is not course.used.get(name)]


def count_of(lanes: Mapping[str, int]) -> int:
    return 1 + max(lanes.values(), default=0)


def node_at(course: Course, branch: str) -> tuple[Node | None, Node | None]:
    """Where a branch begins and where it ends; None at the ends of the stream."""
    return course.made.get(branch), course.used.get(branch)


def stream_columns(course: Course, columns: Columns, pinches: Sequence[PinchPoint], stream: Stream,
                   ) -> tuple[float, float]:
    """From which to which column a stream is drawn: one that begins or ends at a pinch, or before it, is drawn as far
    as that."""
    left, right = -0.75, columns.count - 0.25
    high, low = stream.high, stream.low
    for at, pinch in enumerate(pinches):
        above = pinch.takes_level if stream.latent and low == pinch.temperature else None
        if high < pinch.temperature or high == pinch.temperature and above is not True:
            left = columns.lines[at]
    for at, pinch in reversed(list(enumerate(pinches))):
        above = pinch.takes_level if stream.latent and low == pinch.temperature else None
        if low > pinch.temperature or low == pinch.temperature and above is not False:
            right = columns.lines[at]
    nodes = [columns.of[key] for key, node in course.nodes.items() if node.stream.name == stream.name]
    return min([left, *(node - 0.75 for node in nodes)]), max([right, *(node + 0.75 for node in nodes)])
