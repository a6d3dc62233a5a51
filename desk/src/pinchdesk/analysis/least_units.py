"""The least number of exchangers by the books' rule, before any network is made: sources less independent sets, for the
whole and on each side of each pinch (Hohmann 1971; Linnhoff, Mason and Wardle 1979; Kemp 2007).

Streams are cut at the pinch, and utilities have the heats that `pinch flow` printed. The rule counts heats alone: it
leaves out what matches are forbidden and whether temperatures let a set be joined, so that a network may want more; and
a network without a cut at the pinch, or with another use of utilities, may want fewer than both sides together."""
from __future__ import annotations

from collections.abc import Iterable, Mapping, Sequence
from dataclasses import dataclass

from ..formats.case import Case, Side, Stream, Utility, completed, read_case
from ..formats.whole_streams import whole_names, whole_of
from ..program.answers import Cut, HeatFlow, Targets
from ..program.run import CaseText, Pinch, case_bytes
from .cuts import Crossed, Piece, CutPlace, Region, crossed, places, regions, whole_pieces
from .independent_sets import Member, Partition, joinable_partition, partition


@dataclass(frozen=True)
class IndependentSet:
    """Pieces whose heats balance. `parts` are the groups into which forbidden matches and temperatures part it: more
    than one where it balances and cannot be joined."""

    pieces: tuple[Piece, ...]
    parts: tuple[tuple[str, ...], ...]

    @property
    def joinable(self) -> bool:
        return len(self.parts) < 2


@dataclass(frozen=True)
class RegionUnits:
    """A region with its independent sets. `least` is the rule's number where the partition is exact; else it is one
    that the rule's number is not below. Where a set cannot be joined `joined` is the partition into the most sets that
    can; it is None where all can, or where it is not known."""

    region: Region
    sets: tuple[IndependentSet, ...]
    partition: Partition
    joined: tuple[IndependentSet, ...] | None = None

    @property
    def exact(self) -> bool:
        return self.partition.exact

    @property
    def sources(self) -> int:
        return self.partition.members

    @property
    def least(self) -> int:
        return self.partition.least_exchangers

    @property
    def least_joined(self) -> int | None:
        """Sources less the most sets that can be joined; None where that is not known."""
        if all(independent_set.joinable for independent_set in self.sets) and self.exact:
            return self.least
        return None if self.joined is None else self.sources - len(self.joined)


@dataclass(frozen=True)
class Units:
    """The rule's numbers of a completed case: of the whole without a cut, between the pinches, and between all places
    where no heat crosses, the utility pinches among them. `crossed` are pinches across which heat goes at the uses of
    least cost: there is no cut at them."""

    case: Case
    targets: Targets
    flow: HeatFlow
    whole: RegionUnits
    at_pinches: tuple[RegionUnits, ...]
    at_all: tuple[RegionUnits, ...]
    crossed: tuple[Crossed, ...]

    @property
    def levels(self) -> tuple[tuple[RegionUnits, ...], ...]:
        """Both ways to cut, where they cut something and differ."""
        pinch_levels = [self.at_pinches] if len(self.at_pinches) > 1 else []
        return (*pinch_levels, self.at_all) if len(self.at_all) > max(1, len(self.at_pinches)) else tuple(pinch_levels)


def least_units(case: CaseText, pinch: Pinch | None = None) -> Units | Cut:
    """The rule's numbers of a case, or the proof that there is no heat flow whose uses could be counted. `Refused`
    where the program refuses the case."""
    asked = pinch or Pinch()
    content = case_bytes(case)
    targets, flow = asked.targets(content), asked.flow(content)
    return flow if isinstance(flow, Cut) else units_of(completed(read_case(content)), targets, flow)


def units_of(case: Case, targets: Targets, flow: HeatFlow) -> Units:
    """The rule's numbers of a completed case with its answers."""
    pieces = whole_pieces(case, flow)
    cuts = places(pieces, targets)
    whole = counted(case, Region(None, None, pieces))
    at_pinches = each_counted(case, pieces, [cut for cut in cuts if cut.process])
    return Units(case, targets, flow, whole, at_pinches, each_counted(case, pieces, cuts), crossed(pieces, targets))


def rule_between_pinches(case: Case, targets: Targets, flow: HeatFlow) -> int:
    """The rule's number between the pinches of a completed case alone."""
    pieces = whole_pieces(case, flow)
    cuts = [cut for cut in places(pieces, targets) if cut.process]
    return sum(partition(list(members_of(case, region))).least_exchangers for region in regions(pieces, cuts))


def members_of(case: Case, region: Region) -> dict[Member, Piece]:
    return {Member(piece.source.name, piece.signed, isinstance(piece.source, Utility)): piece
            for piece in whole_pieces_of(case, region.pieces)}


def each_counted(case: Case, pieces: Sequence[Piece], cuts: Sequence[CutPlace]) -> tuple[RegionUnits, ...]:
    return tuple(counted(case, region) for region in regions(pieces, cuts))


def counted(case: Case, region: Region) -> RegionUnits:
    members = members_of(case, region)
    parted = partition(list(members))
    sets = independent(case, members, parted)
    if all(independent_set.joinable for independent_set in sets):
        return RegionUnits(region, sets, parted)
    can = joinable_partition(list(members), near_of(case, list(members.values())))
    joined_sets = independent(case, members, can) if can else None
    if joined_sets is not None and parted.exact and len(joined_sets) == len(sets):
        return RegionUnits(region, joined_sets, parted)
    return RegionUnits(region, sets, parted, joined_sets)


def whole_pieces_of(case: Case, pieces: Sequence[Piece]) -> list[Piece]:
    """The pieces of a region, those of one stream of the plant as one."""
    names = whole_names(case)
    grouped: dict[str, list[Piece]] = {}
    for piece in pieces:
        grouped.setdefault(names.get(piece.source.name, piece.source.name), []).append(piece)
    return [piece_of(name, group) if name != group[0].source.name else group[0] for name, group in grouped.items()]


def piece_of(name: str, pieces: Sequence[Piece]) -> Piece:
    """The pieces of the segments of a stream as one."""
    segments = tuple(piece.source for piece in pieces if isinstance(piece.source, Stream))
    return Piece(whole_of(name, segments), max(piece.high for piece in pieces), min(piece.low for piece in pieces),
                 sum(piece.heat for piece in pieces), tuple(pieces))


def independent(case: Case, pieces: Mapping[Member, Piece], parted: Partition) -> tuple[IndependentSet, ...]:
    made = [tuple(pieces[member] for member in members) for members in parted.sets]
    return tuple(IndependentSet(set_pieces, tuple(joined(case, set_pieces))) for set_pieces in made)


def near_of(case: Case, pieces: Sequence[Piece]) -> list[int]:
    """For each piece the bits of those with which it may exchange heat."""
    return [sum(1 << at for at, other in enumerate(pieces) if allowed(case, piece, other)) for piece in pieces]


def joined(case: Case, pieces: Sequence[Piece]) -> Iterable[tuple[str, ...]]:
    """The groups of a set that allowed matches join, the first names first."""
    left = list(pieces)
    while left:
        group = [left.pop(0)]
        for piece in group:
            near = [other for other in left if allowed(case, piece, other)]
            group += near
            left = [other for other in left if other not in near]
        yield tuple(piece.source.name for piece in group)


def allowed(case: Case, one: Piece, other: Piece) -> bool:
    """Whether two pieces may exchange some heat: of streams in segments one of these with one of those."""
    return any(may_exchange(case, part, opposite) for part in one.parts for opposite in other.parts)


def may_exchange(case: Case, one: Piece, other: Piece) -> bool:
    """Whether the pieces of two sources of the program may: one gives and the other takes, no row forbids it, they are
    no two utilities, and the hot one is somewhere as warm as the cold one."""
    hot, cold = (one, other) if one.source.side is Side.HOT else (other, one)
    if hot.source.side is cold.source.side or all(isinstance(piece.source, Utility) for piece in (hot, cold)):
        return False
    if any((forbid.hot, forbid.cold) == (hot.source.name, cold.source.name) for forbid in case.forbids):
        return False
    levels = hot.high == hot.low and cold.high == cold.low
    return hot.high > cold.low or levels and hot.high == cold.low
