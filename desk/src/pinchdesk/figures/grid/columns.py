"""The columns of a grid diagram: each exchanger has one, in which no other bar stands; nothing is drawn here."""
from __future__ import annotations

from collections.abc import Iterator, Sequence
from dataclasses import dataclass
from heapq import heappop, heappush

from ...analysis.follow import Followed
from .courses import Course, Key, Node, left_of

Span = tuple[int, int]


@dataclass
class Tracks:
    """Rows of the diagram from the top: hot utilities and streams, a band for the exchangers' labels, a band for
    slanted bars, cold streams and utilities. What stands `alone` has no bar to a utility."""

    rows: dict[str, int]
    labels: int
    alone: frozenset[str] = frozenset()

    @property
    def slants(self) -> int:
        return self.labels + 1


@dataclass
class Block:
    """Nodes that share a column: both sides of an exchanger, or one node alone. `waits` counts the nodes left of them
    that have no column yet."""

    nodes: list[Node]
    span: Span
    zone: int
    order: tuple[float, int]
    column: int | None = None
    waits: int = 0


@dataclass
class Columns:
    """The column of each node, how many there are, from where to where each pinch has its own ones, and the one of
    these in which its line stands alone."""

    of: dict[Key, int]
    count: int
    pinches: list[Span]
    lines: list[int]


class Placer:
    """Places blocks from left to right, zone by zone: of those that wait for no other the one with the hottest end."""

    def __init__(self, followed: Followed, course: Course, tracks: Tracks) -> None:
        self.course, self.tracks = course, tracks
        self.exchangers = {exchanger.name: exchanger for exchanger in followed.network.exchangers}
        self.streams = {stream.name for stream in followed.case.streams}
        self.blocks: list[Block] = []
        self.block_of: dict[Key, int] = {}
        self.busy: list[list[Span]] = []
        self.before, self.behind = neighbours(course)
        self.free: dict[int, list[tuple[tuple[float, int], int]]] = {}
        self.make()

    def make(self) -> None:
        """Both sides of an exchanger are one block where they are in one zone."""
        for node in self.course.nodes.values():
            other = self.course.nodes.get(('cold' if node.key[0] == 'hot' else 'hot', node.key[1])) \
                if node.exchanger else None
            if other and other.key in self.block_of and other.zone == node.zone:
                block = self.blocks[self.block_of[other.key]]
                block.nodes.append(node)
                block.span = self.span(block.nodes)
                self.block_of[node.key] = self.block_of[other.key]
            else:
                self.add([node])
        for at in range(len(self.blocks)):
            self.count(at)

    def add(self, nodes: list[Node]) -> None:
        order = (-float(max(block_node.warmth for block_node in nodes)), len(self.blocks))
        self.blocks.append(Block(nodes, self.span(nodes), nodes[0].zone or 0, order))
        for node in nodes:
            self.block_of[node.key] = len(self.blocks) - 1

    def span(self, nodes: Sequence[Node]) -> Span:
        """The tracks through which the bar of a block goes."""
        first, rows = nodes[0], self.tracks.rows
        row = rows[first.stream.name]
        if first.exchanger is None or first.exchanger in self.tracks.alone:
            return (row, row)
        exchanger = self.exchangers[first.exchanger]
        both = sorted((rows[exchanger.hot], rows[exchanger.cold]))
        if len(nodes) == 2 or not {exchanger.hot, exchanger.cold} <= self.streams:
            return (both[0], both[1])
        return (row, self.tracks.labels) if first.key[0] == 'hot' else (self.tracks.slants, row)

    def left(self, block: Block) -> Iterator[Block]:
        """The blocks left of this one, once for each node."""
        return (self.blocks[self.block_of[one.key]] for node in block.nodes for one in self.before[node.key])

    def count(self, at: int) -> None:
        """Counts what a block waits for; one that waits for nothing may be placed."""
        block = self.blocks[at]
        block.waits = sum(left_block.column is None for left_block in self.left(block))
        if not block.waits:
            heappush(self.free.setdefault(block.zone, []), (block.order, at))

    def place(self, block: Block, base: int) -> None:
        """Takes the first column that is free for the bar; what waited for it may wait for nothing now."""
        at = max([base, *((left_block.column or 0) + 1 for left_block in self.left(block))])
        while at < len(self.busy) and any(meets(block.span, span) for span in self.busy[at]):
            at += 1
        while len(self.busy) <= at:
            self.busy.append([])
        self.busy[at].append(block.span)
        block.column = at
        for other in (self.block_of[other.key] for node in block.nodes for other in self.behind[node.key]):
            waiting_block = self.blocks[other]
            waiting_block.waits -= 1
            if not waiting_block.waits:
                heappush(self.free.setdefault(waiting_block.zone, []), (waiting_block.order, other))

    def apart(self, waiting: list[int]) -> None:
        """Where streams pass exchangers in contrary orders, one of these gets a column for each side."""
        for at in waiting:
            block = self.blocks[at]
            for node in block.nodes:
                if len(block.nodes) == 2 and all(self.blocks[self.block_of[left_node.key]].column is not None
                                                 for left_node in self.before[node.key]):
                    block.nodes.remove(node)
                    block.span = self.span(block.nodes)
                    self.add([node])
                    self.count(at)
                    self.count(len(self.blocks) - 1)
                    return
        raise AssertionError('a stream that comes before itself')

    def zone(self, zone: int, base: int) -> None:
        """Places the blocks of a zone."""
        free = self.free.setdefault(zone, [])
        while True:
            while free:
                self.place(self.blocks[heappop(free)[1]], base)
            waiting = [at for at, block in enumerate(self.blocks) if block.zone == zone and block.column is None]
            if not waiting:
                return
            self.apart(waiting)

    def insert(self, column: int) -> None:
        """An empty column, before which stands what stood before it."""
        self.busy.insert(column, [])
        for block in self.blocks:
            if block.column is not None and block.column >= column:
                block.column += 1


def neighbours(course: Course) -> tuple[dict[Key, list[Node]], dict[Key, list[Node]]]:
    """The nodes that stand left and those that stand right of each."""
    before: dict[Key, list[Node]] = {key: [] for key in course.nodes}
    behind: dict[Key, list[Node]] = {key: [] for key in course.nodes}
    for node in course.nodes.values():
        for one, other in left_of(node):
            before[other.key].append(one)
            behind[one.key].append(other)
    return before, behind


def meets(one: Span, other: Span) -> bool:
    return one[0] <= other[1] and other[0] <= one[1]


def columns_of(followed: Followed, course: Course, tracks: Tracks, pinches: int) -> Columns:
    """The columns of all nodes. Each pinch has columns of its own, in which only what works across it stands, with its
    line in the middle."""
    placer = Placer(followed, course, tracks)
    spans: list[Span] = []
    lines: list[int] = []
    for zone in range(2 * pinches + 1):
        base = len(placer.busy)
        placer.zone(zone, base)
        if zone % 2:
            lines.append(base + (len(placer.busy) - base + 1) // 2)
            placer.insert(lines[-1])
            spans.append((base, len(placer.busy) - 1))
        elif len(placer.busy) == base:
            placer.busy.append([])
    column_of = {key: placer.blocks[at].column or 0 for key, at in placer.block_of.items()}
    # What no stream passes, as between two utilities, stands behind all else.
    unpassed = [name for name in placer.exchangers if not {('hot', name), ('cold', name)} & column_of.keys()]
    column_of |= {('hot', name): len(placer.busy) + at for at, name in enumerate(unpassed)}
    return Columns(column_of, len(placer.busy) + len(unpassed), spans, lines)
