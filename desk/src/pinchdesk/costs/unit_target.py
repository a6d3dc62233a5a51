"""The least units of a target: on each side of each pinch across which no heat goes, sources less independent sets
(`analysis/least_units` has them in all ways to cut, with what can be joined)."""
from __future__ import annotations

from collections.abc import Sequence
from dataclasses import dataclass

from ..analysis.cuts import CutPlace, Piece, Region, cascade, regions, whole_pieces
from ..analysis.independent_sets import Member, partition
from ..analysis.least_units import whole_pieces_of
from ..formats.case import Case, Utility
from ..program.answers import HeatFlow, Targets

# In a larger region the most sets would take longer than all the rest.
MOST_IN_REGION = 30


@dataclass(frozen=True)
class UnitTarget:
    """The regions between the pinches with the least units of all of them together. The number is `exact` where the
    most sets are known; else it is sources less the sets that are."""

    regions: tuple[Region, ...]
    units: int
    exact: bool


def unit_target(case: Case, targets: Targets, flow: HeatFlow, by_sets: bool = True) -> UnitTarget:
    """The least units of a completed case at the uses of a heat flow; where not `by_sets`, sources less one in each
    region, which takes no time."""
    between = cut_regions(case, targets, flow)
    wholes = [whole_pieces_of(case, region.pieces) for region in between]
    if not by_sets:
        return UnitTarget(between, sum(len(pieces) - 1 for pieces in wholes), True)
    counted = [units_in(pieces) for pieces in wholes]
    return UnitTarget(between, sum(units for units, _ in counted), all(exact for _, exact in counted))


def units_in(pieces: Sequence[Piece]) -> tuple[int, bool]:
    """The units of a region, and whether the most sets are known."""
    if len(pieces) > MOST_IN_REGION:
        return len(pieces) - 1, False
    sets = partition([Member(piece.source.name, piece.signed, isinstance(piece.source, Utility)) for piece in pieces])
    return sets.found_exchangers, sets.exact


def cut_regions(case: Case, targets: Targets, flow: HeatFlow) -> tuple[Region, ...]:
    """What lies between the pinches across which no heat goes."""
    pieces = whole_pieces(case, flow)
    places = [CutPlace(pinch, takes, True) for pinch in sorted(targets.pinches, reverse=True)
              for takes in (False, True)]
    return regions(pieces, [place for place in places if cascade(pieces, place) == 0])
