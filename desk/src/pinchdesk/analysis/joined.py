"""A network with the streams of the plant in place of their segments: each is one stream, and an exchanger that goes on
across a kink is one exchanger.

In the program's network a segment ends where the next one begins. Two exchangers are one where they follow one another
on both sides, against each other's course, without a split or a mix between them that the plant needs (`crossings`),
and at least one side passes a kink there. A network that does not end each segment of a stream at its target has that
stream in its segments, as the program has it."""
from __future__ import annotations

from collections.abc import Iterable, Iterator, Mapping, Sequence
from dataclasses import dataclass, replace
from fractions import Fraction

from ..formats.case import Case, Side, Stream
from ..formats.network import End, Exchanger, Mix, Network, Pass, Split, Statement
from ..formats.shown import Shown
from ..formats.whole_streams import WholeStream, parts_of, whole_streams
from .crossings import Crossing, CrossingFinder
from .findings import Finding
from .follow import Branch, Followed, Passage, PinchPoint, SideState, StreamEnd, follow
from .unfinished import placed


@dataclass(frozen=True)
class JoinedPassage(Passage):
    """An exchanger of the plant with those of the program that it is, from its hot end on."""

    joined: tuple[Passage, ...] = ()

    @property
    def parts(self) -> tuple[Passage, ...]:
        return self.joined

    @property
    def least_difference(self) -> Fraction | None:
        differences = [part.least_difference for part in self.joined]
        known = [difference for difference in differences if difference is not None]
        return min(known) if len(known) == len(differences) else None

    def above(self, side: SideState, pinch: PinchPoint) -> Fraction | None:
        is_hot = side.source.side is Side.HOT
        heats = [part.above(part.hot if is_hot else part.cold, pinch) for part in self.joined]
        known = [heat for heat in heats if heat is not None]
        return sum(known, Fraction(0)) if len(known) == len(heats) else None


@dataclass(frozen=True)
class Kink:
    """Where the CP of a stream changes: on a branch, or within an exchanger; the other one is empty."""

    stream: WholeStream
    temperature: int
    branch: str
    exchanger: str


@dataclass(frozen=True)
class Joined:
    """A network as the plant has it, with its kinks, and what is said of the places where it is as the program has
    it."""

    followed: Followed
    kinks: tuple[Kink, ...] = ()
    notes: tuple[str, ...] = ()

    def finding(self, finding: Finding) -> Finding:
        """A finding with the exchanger and the stream of the plant that it is about."""
        exchanger = next((passage.exchanger.name for passage in self.followed.passages
                          if any(part.exchanger.name == finding.exchanger for part in passage.parts)), None)
        stream = next((stream.name for stream in self.followed.case.streams
                       if any(part.name == finding.stream for part in parts_of(stream))), None)
        return replace(finding, exchanger=exchanger or finding.exchanger, stream=stream or finding.stream)


def exchanger_count(followed: Followed) -> int:
    """How many exchangers of the plant a network has, or a beginning of one."""
    wholes = wholes_of(followed.case)
    return len(list(Joiner(followed, wholes).chains())) if wholes else len(followed.passages)


def placed_count(followed: Followed) -> int:
    """The same without what stands for open pieces."""
    standing = {passage.exchanger.name for passage in placed(followed)}
    wholes = wholes_of(followed.case)
    if not wholes:
        return len(standing)
    return sum(any(passage.exchanger.name in standing for passage in chain)
               for chain in Joiner(followed, wholes).chains())


def network_count(case: Case, network: Network) -> int:
    """How many exchangers of the plant a network of a completed case has."""
    return exchanger_count(follow(case, network)) if case.basis.segments else len(network.exchangers)


def joined(followed: Followed) -> Joined:
    """A network that was followed, as the plant has it; the same where the case has no segments."""
    wholes = wholes_of(followed.case)
    if not wholes:
        return Joined(followed)
    kept = [whole for whole in wholes if not open_segment(whole, followed)]
    notes = [f'{whole.name} is shown in its segments, since {open_segment(whole, followed)} does not end at its target'
             for whole in wholes if whole not in kept]
    joiner = Joiner(followed, kept)
    return Joined(joiner.made(), tuple(joiner.all_kinks()), (*notes, *joiner.notes()))


def wholes_of(case: Case) -> list[WholeStream]:
    """The streams of a case that are in segments."""
    return [stream for stream in whole_streams(case) if isinstance(stream, WholeStream)]


def open_segment(whole: WholeStream, followed: Followed) -> str:
    """The first segment that does not end at its target with all of it; empty where there is none."""
    return next((segment.name for segment in whole.segments if not is_done(segment, followed.ends[segment.name])), '')


def is_done(stream: Stream, ends: Sequence[StreamEnd]) -> bool:
    """Whether a stream ends once, with all of it, at its target."""
    target = Fraction(stream.side is Side.COLD) if stream.latent else Fraction(stream.target)
    return len(ends) == 1 and ends[0].branch.size == stream.size and ends[0].branch.state == target


class Joiner:
    """Joins the segments of some streams where the one ends at its target and the next one begins."""

    def __init__(self, followed: Followed, wholes: Sequence[WholeStream]) -> None:
        self.followed, self.wholes = followed, wholes
        self.whole_of = {segment.name: whole for whole in wholes for segment in whole.segments}
        # The names of branches: that with which a segment begins is that with which the one before it ends.
        self.renamed: dict[str, str] = {}
        self.kinks: dict[str, tuple[WholeStream, int]] = {}
        # Mixes and splits at kinks that branches pass side by side, with what they have beside these branches.
        self.dropped: set[Statement] = set()
        self.gone: set[str] = set()
        self.name_branches()
        self.passages = [self.passage(passage) for passage in followed.passages]

    def name_branches(self) -> None:
        names = {whole.name for whole in self.wholes}
        for branch in self.followed.branches:
            if branch in names:
                self.renamed[branch] = free_name(branch, {*self.followed.branches, *names})
        finder = CrossingFinder(self.followed, {name: whole.name for name, whole in self.whole_of.items()})
        for whole in self.wholes:
            self.renamed[whole.segments[0].name] = whole.name
            for before, segment in zip(whole.segments, whole.segments[1:]):
                if is_done(before, self.followed.ends[before.name]):
                    self.name_kink(whole, before, segment, finder.crossing(before, segment))

    def name_kink(self, whole: WholeStream, before: Stream, segment: Stream, crossing: Crossing | None) -> None:
        """Gives the branches with which a segment begins the names of those with which the one before it ends."""
        pairs = ((self.followed.ends[before.name][0].branch.name, segment.name),)
        for last, first in crossing.pairs if crossing else pairs:
            name = self.named(last)
            self.renamed[first] = name
            self.kinks[name] = (whole, before.target)
        if crossing:
            self.dropped |= crossing.statements
            self.gone |= crossing.branches

    def named(self, branch: str) -> str:
        return self.renamed.get(branch, branch)

    def branch(self, branch: Branch) -> Branch:
        """A branch with its stream of the plant: its size is then its part of that, its state a temperature."""
        whole = self.whole_of.get(branch.stream.name)
        if whole is None:
            return replace(branch, name=self.named(branch.name))
        part = branch.size / branch.stream.size
        state = branch.temperature if branch.state is not None else None
        return Branch(self.named(branch.name), whole, part, state, branch.statement)

    def side(self, side: SideState) -> SideState:
        source = self.whole_of.get(side.source.name) or side.source
        before, behind = (branch and self.branch(branch) for branch in (side.before, side.behind))
        return SideState(source, before, behind)

    def passage(self, passage: Passage) -> JoinedPassage:
        hot, cold = self.side(passage.hot), self.side(passage.cold)
        exchanger = replace(passage.exchanger, hot=hot.source.name, cold=cold.source.name)
        return JoinedPassage(exchanger, hot, cold, passage.approach, (passage,))

    def made(self) -> Followed:
        """The network as the plant has it."""
        chains = list(self.chains())
        inner = {name for chain in chains for name in inner_branches(chain)}
        passages = tuple(one_passage(chain) for chain in chains)
        names = {part.exchanger.name: passage.exchanger.name for passage in passages for part in passage.parts}
        branches = {self.named(name): self.branch(branch) for name, branch in self.followed.branches.items()
                    if self.named(name) not in inner and name not in self.gone}
        case = replace(self.followed.case, streams=self.streams())
        statements = (*(passage.exchanger for passage in passages), *self.led(passages, names, inner))
        ends = {stream.name: self.ends(stream) for stream in case.streams}
        return Followed(case, Network(statements), branches, passages, ends)

    def streams(self) -> tuple[Stream, ...]:
        first = {whole.segments[0].name: whole for whole in self.wholes}
        return tuple(first.get(stream.name, stream) for stream in self.followed.case.streams
                     if stream.name in first or stream.name not in self.whole_of)

    def ends(self, stream: Stream) -> tuple[StreamEnd, ...]:
        last = parts_of(stream)[-1].name
        return tuple(StreamEnd(end.statement, self.branch(end.branch)) for end in self.followed.ends[last])

    def chains(self) -> Iterator[list[JoinedPassage]]:
        """The exchangers of the program that are one in the plant, each from its hot end on."""
        pairs: dict[tuple[str, str], list[JoinedPassage]] = {}
        for passage in self.passages:
            pairs.setdefault((passage.exchanger.hot, passage.exchanger.cold), []).append(passage)
        following = {before.exchanger.name: behind for same in pairs.values() for before in same for behind in same
                     if before is not behind and self.goes_on(before, behind)}
        followers = {behind.exchanger.name for behind in following.values()}
        for passage in self.passages:
            if passage.exchanger.name in followers:
                continue
            chain = [passage]
            while chain[-1].exchanger.name in following:
                chain.append(following[chain[-1].exchanger.name])
            yield chain

    def goes_on(self, before: Passage, behind: Passage) -> bool:
        """Whether the second exchanger, of the same sources, is what the first one goes on as at a kink, seen from the
        hot end."""
        joints = [(before.hot.behind, behind.hot.before), (behind.cold.behind, before.cold.before)]
        led = [(last.name, first.name) for last, first in joints if last and first]
        return bool(led) and all(last == first for last, first in led) and any(last in self.kinks for last, _ in led)

    def led(self, passages: Sequence[JoinedPassage], names: Mapping[str, str],
            inner: set[str]) -> Iterator[Statement]:
        """The statements that lead branches, stream by stream, a segment after the one before it."""
        order = [segment.name for stream in self.streams() for segment in parts_of(stream)]
        by_stream: dict[str, list[Statement]] = {name: [] for name in order}
        for statement in self.followed.network.statements:
            if not isinstance(statement, Exchanger) and statement not in self.dropped:
                branch = statement.first if isinstance(statement, Mix) else statement.branch
                by_stream[self.followed.branches[branch].stream.name].append(statement)
        ways = {(passage.exchanger.name, side.source.name): side for passage in passages
                for side in (passage.hot, passage.cold)}
        for name in order:
            whole = self.whole_of.get(name)
            for statement in by_stream[name]:
                if isinstance(statement, Pass):
                    side = ways[names[statement.exchanger], whole.name if whole else name]
                    assert side.before and side.behind
                    if side.before.name == self.named(statement.branch):
                        yield Pass(side.before.name, names[statement.exchanger], side.behind.name)
                elif not (isinstance(statement, End) and whole and name != whole.segments[-1].name):
                    yield self.renamed_statement(statement)

    def renamed_statement(self, statement: Statement) -> Statement:
        match statement:
            case Split(branch, first, size, second):
                stream = self.followed.branches[branch].stream
                part = size / stream.size if stream.name in self.whole_of else size
                return Split(self.named(branch), self.named(first), part, self.named(second))
            case Mix(first, second, to):
                return Mix(self.named(first), self.named(second), self.named(to))
            case End(branch):
                return End(self.named(branch))
        return statement

    def all_kinks(self) -> Iterator[Kink]:
        """The kinks of all streams, each on its branch or within its exchanger."""
        within = {name: one_passage(chain).exchanger.name for chain in self.chains() for name in inner_branches(chain)}
        for branch, (whole, temperature) in self.kinks.items():
            exchanger = within.get(branch, '')
            yield Kink(whole, temperature, '' if exchanger else branch, exchanger)

    def notes(self) -> Iterator[str]:
        """The kinks at which branches are mixed and split again: none of them passes."""
        shown = Shown(self.followed.case.basis)
        mixed = {statement.to for statement in self.followed.network.statements if isinstance(statement, Mix)}
        split = {statement.branch for statement in self.followed.network.statements if isinstance(statement, Split)}
        for whole in self.wholes:
            places = [shown.temperature(before.target) for before, segment in zip(whole.segments, whole.segments[1:])
                      if self.followed.ends[before.name][0].branch.name in mixed and segment.name in split
                      and segment.name not in self.gone]
            if places:
                yield f'{whole.name} is mixed and split again at {enumerated(places)} {shown.temperature_unit}, as ' \
                      'the program has it: an exchanger of a branch that goes on there is shown as two'


def enumerated(texts: Iterable[str]) -> str:
    """`75, 125 and 170`."""
    *others, last = texts
    return f'{", ".join(others)} and {last}' if others else last


def free_name(name: str, taken: set[str]) -> str:
    while name in taken:
        name += '.'
    return name


def inner_branches(chain: Sequence[JoinedPassage]) -> Iterator[str]:
    """The branches between the parts of an exchanger."""
    for before, behind in zip(chain, chain[1:]):
        for branch in (before.hot.behind, behind.cold.behind):
            if branch:
                yield branch.name


def one_passage(chain: Sequence[JoinedPassage]) -> JoinedPassage:
    """The exchanger of the plant that some of the program are, from its hot end on."""
    first, last = chain[0], chain[-1]
    name = '+'.join(part.exchanger.name for part in chain)
    duty = sum((part.exchanger.duty for part in chain), Fraction(0))
    exchanger = replace(first.exchanger, name=name, duty=duty)
    hot = replace(first.hot, behind=last.hot.behind)
    cold = replace(first.cold, before=last.cold.before)
    parts = tuple(part for passage in chain for part in passage.parts)
    return JoinedPassage(exchanger, hot, cold, max(part.approach for part in parts), parts)
