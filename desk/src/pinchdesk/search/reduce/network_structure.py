"""From a network text to its structure and duties, and back."""
from __future__ import annotations

from collections.abc import Mapping
from dataclasses import dataclass
from fractions import Fraction

from ...formats.case import Case, Stream
from ...formats.network import End, Exchanger, Mix, Network, Pass, Split, Statement
from .structure import Course, Lane, OddCourse, Parting, Structure, Through, parted, throughs

Duties = Mapping[str, Fraction]
LONGEST = 16


@dataclass(frozen=True)
class Costed:
    """A structure with duties above 0 and what its utilities cost, in price times W. No audit has seen it yet."""

    structure: Structure
    duties: Duties
    cost: Fraction


@dataclass(frozen=True)
class Edge:
    """What a branch passes between two places where it is divided or joined."""

    start: int
    end: int
    size: Fraction
    course: Course


class Reader:
    """Reads the statements of one network into the edges of each stream."""

    def __init__(self, case: Case) -> None:
        self.places = 0
        self.edges: dict[str, list[Edge]] = {stream.name: [] for stream in case.streams}
        self.ends: dict[str, int] = {}
        self.starts = {stream.name: self.place() for stream in case.streams}
        self.branches: dict[str, tuple[str, int, Fraction, Course]] = {
            stream.name: (stream.name, self.starts[stream.name], Fraction(stream.size), ()) for stream in case.streams}

    def place(self) -> int:
        self.places += 1
        return self.places

    def take(self, statement: Statement) -> None:
        match statement:
            case Split(branch, first, size, second):
                stream, start, whole, course = self.branches[branch]
                place = self.led(branch, self.place())
                self.branches[first] = (stream, place, size, ())
                self.branches[second] = (stream, place, whole - size, ())
            case Pass(branch, exchanger, to):
                stream, start, size, course = self.branches[branch]
                self.branches[to] = (stream, start, size, (*course, Through(exchanger)))
            case Mix(first, second, to):
                place = self.led(second, self.led(first, self.place()))
                stream, _, size, _ = self.branches[first]
                self.branches[to] = (stream, place, size + self.branches[second][2], ())
            case End(branch):
                self.ends[self.branches[branch][0]] = self.led(branch, self.place())

    def led(self, branch: str, place: int) -> int:
        """Leads a branch to a place."""
        stream, start, size, course = self.branches[branch]
        self.edges[stream].append(Edge(start, place, size, course))
        return place

    def course(self, stream: str) -> Course:
        if stream not in self.ends:
            return ()
        return course_of(stream, self.edges[stream], self.starts[stream], self.ends[stream])


def structure_of(case: Case, network: Network) -> Structure:
    """The structure of an accepted network of a case; `Refused` where a stream has none."""
    reader = Reader(case)
    for statement in network.statements:
        reader.take(statement)
    pairs = {exchanger.name: (exchanger.hot, exchanger.cold) for exchanger in network.exchangers}
    return Structure(pairs, {stream.name: reader.course(stream.name) for stream in case.streams})


def duties_of(network: Network) -> Duties:
    return {exchanger.name: exchanger.duty for exchanger in network.exchangers}


def course_of(stream: str, edges: list[Edge], start: int, end: int) -> Course:
    """The edges of a stream as one course: what is in a row becomes one edge, and what is side by side too."""
    while len(edges) > 1:
        made = contracted(edges, start, end) or in_a_row(edges, start, end) \
            or side_by_side(edges, start, end)
        if made is None:
            raise OddCourse(stream)
        edges, start, end = made
    return edges[0].course


Reduced = tuple[list[Edge], int, int]


def contracted(edges: list[Edge], start: int, end: int) -> Reduced | None:
    """Without an edge on which nothing stands, where nothing else leaves its start or comes to its end: its two places
    are one."""
    for edge in edges:
        if edge.course:
            continue
        alone = sum(any_edge.start == edge.start for any_edge in edges) == 1 \
            or sum(any_edge.end == edge.end for any_edge in edges) == 1
        if not alone:
            continue
        left = [Edge(edge.start if other.start == edge.end else other.start,
                     edge.start if other.end == edge.end else other.end, other.size, other.course)
                for other in edges if other is not edge]
        return left, start, edge.start if end == edge.end else end
    return None


def in_a_row(edges: list[Edge], start: int, end: int) -> Reduced | None:
    """With two edges in a row as one."""
    for first in edges:
        behind = [edge for edge in edges if edge.start == first.end]
        before = [edge for edge in edges if edge.end == first.end]
        if len(behind) == 1 and len(before) == 1:
            made = Edge(first.start, behind[0].end, first.size, (*first.course, *behind[0].course))
            return [made, *(edge for edge in edges if edge is not first and edge is not behind[0])], start, end
    return None


def side_by_side(edges: list[Edge], start: int, end: int) -> Reduced | None:
    """With all edges between two places as one, a parting."""
    for first in edges:
        lanes = [edge for edge in edges if (edge.start, edge.end) == (first.start, first.end)]
        if len(lanes) > 1:
            size = sum((lane.size for lane in lanes), Fraction(0))
            course = parted(tuple(Lane(lane.course, lane.size / size) for lane in lanes))
            made = Edge(first.start, first.end, size, course)
            return [made, *(edge for edge in edges if (edge.start, edge.end) != (first.start, first.end))], start, end
    return None


class StructureWriter:
    """Writes the statements of one stream."""

    def __init__(self, stream: Stream, duties: Duties, taken: set[str]) -> None:
        self.stream, self.duties, self.taken = stream, duties, taken
        self.statements: list[Statement] = []
        self.made = 0

    def name(self) -> str:
        """A new branch, after its stream; its dot keeps it off the names of streams."""
        while True:
            self.made += 1
            ending = f'-{self.made}'
            name = '.' + self.stream.name[:LONGEST - len(ending)] + ending
            if name not in self.taken:
                self.taken.add(name)
                return name

    def written(self, course: Course) -> list[Statement]:
        self.statements.append(End(self.led(self.stream.name, Fraction(self.stream.size), course)))
        return self.statements

    def led(self, branch: str, size: Fraction, course: Course) -> str:
        """Leads a branch through a course; the branch that is then there."""
        for step in course:
            if isinstance(step, Through):
                to = self.name()
                self.statements.append(Pass(branch, step.exchanger, to))
                branch = to
            else:
                branch = self.divided(branch, size, step)
        return branch

    def divided(self, branch: str, size: Fraction, parting: Parting) -> str:
        shares = shares_of(parting, self.duties)
        begun: list[str] = []
        for share in shares[:-1]:
            first, rest = self.name(), self.name()
            self.statements.append(Split(branch, first, size * share, rest))
            begun.append(first)
            branch = rest
        lanes = zip((*begun, branch), shares, parting.lanes)
        ended = [self.led(lane_branch, size * share, lane.course) for lane_branch, share, lane in lanes]
        joined = ended[0]
        for other in ended[1:]:
            to = self.name()
            self.statements.append(Mix(joined, other, to))
            joined = to
        return joined


def shares_of(parting: Parting, duties: Duties) -> tuple[Fraction, ...]:
    """The share of each lane: in proportion to the duties where the parting is level."""
    if not parting.level:
        return tuple(lane.share for lane in parting.lanes)
    lane_duties = [sum((duties[exchanger] for exchanger in throughs(lane.course)), Fraction(0))
                   for lane in parting.lanes]
    whole = sum(lane_duties, Fraction(0))
    return tuple(duty / whole for duty in lane_duties)


def network_of(case: Case, structure: Structure, duties: Duties) -> Network:
    """A structure with its duties, none of which is 0, as a network."""
    statements: list[Statement] = [Exchanger(name, hot, cold, duties[name])
                                   for name, (hot, cold) in structure.pairs.items()]
    taken: set[str] = set()
    for stream in case.streams:
        statements.extend(StructureWriter(stream, duties, taken).written(structure.courses[stream.name]))
    return Network(tuple(statements))
