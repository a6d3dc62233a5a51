"""Areas and annual costs beside a network and beside the slider, where the case gives coefficients and costs
(`costs.areas_beside`)."""
from __future__ import annotations

from collections.abc import Mapping
from dataclasses import dataclass, field

from ..analysis.follow import follow
from ..formats.case import Case
from ..formats.network import read_network
from ..program.run import Pinch
from ..program.verdicts import Accepted
from ..text import printable
from .judgement import Whole


@dataclass(frozen=True)
class Areas:
    """The area of each exchanger in m², and sums in words; empty where they are not known. `missing` says why, where
    the case gives some of what they need."""

    of: Mapping[str, str] = field(default_factory=dict)
    area: str = ''
    cost: str = ''
    missing: str = ''


def areas_of_network(case: Case, text: bytes, verdict: Accepted) -> Areas:
    """Those of an accepted network."""
    if not case.basis.cost_rows:
        return Areas()
    from ..costs.areas_beside import NO_TARGET, areas_beside
    found = areas_beside(follow(case, read_network(text)), verdict, NO_TARGET)
    if found.areas is None:
        return Areas(missing=f'no areas: {found.lacking}')
    cost = '' if found.costs is None else \
        f'{found.costs.cost.whole.shown(0)} {printable(found.costs.data.capital.currency)}/a'
    return Areas({exchanger.name: exchanger.area.shown(2) for exchanger in found.areas.exchangers},
                 f'{found.areas.area.shown(1)} m²', cost, *[str(fault) for fault in found.faults[:1]])


def area_targets(pinch: Pinch, whole: Whole) -> Areas:
    """The targets of a case: of its area alone where it gives no costs."""
    if not whole.case.basis.cost_rows:
        return Areas()
    from ..costs.areas_beside import target_beside_flow
    found = target_beside_flow(whole.case, whole.targets, pinch.uses(whole.case))
    if found.area is None:
        return Areas(missing=f'no area: {found.lacking}')
    cost = '' if found.cost is None else \
        f'{found.cost.cost.whole.shown(0)} {printable(found.cost.data.capital.currency)}/a'
    return Areas(area=f'{found.area.area.shown(1)} m²', cost=cost)
