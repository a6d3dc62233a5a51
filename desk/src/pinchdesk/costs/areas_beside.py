"""Areas and money beside answers that are about heat: as far as the case says enough for them, and what it does not
say. Nothing is refused here: the answer beside stands without them."""
from __future__ import annotations

from collections.abc import Callable
from dataclasses import dataclass
from functools import partial
from typing import TypeVar

from ..analysis.follow import Followed
from ..errors import Refused
from ..formats.case import Case
from ..program.answers import Cut, HeatFlow, Targets
from ..program.run import Pinch
from ..program.verdicts import Accepted
from .area_target import AreaTarget, area_target
from .cost_data import CostData
from .cost_target import CostTarget, priced_target
from .network_areas import ApproachFault, NetworkAreas, areas_of, faults_of, passages_of
from .network_costs import NetworkCosts, costs_of
from .unit_target import unit_target

Result = TypeVar('Result')


@dataclass(frozen=True)
class TargetBeside:
    """The area target of a case and its target of cost, each None where the case does not say enough for it, or has no
    heat flow; `lacking` says what the first that is None needs."""

    area: AreaTarget | None
    cost: CostTarget | None
    lacking: str


NO_TARGET = TargetBeside(None, None, '')


@dataclass(frozen=True)
class AreasBeside:
    """The areas and the costs of an accepted network beside the targets of its case. `faults` is where the real ends of
    a utility leave no approach, which is known without any coefficient."""

    target: TargetBeside
    areas: NetworkAreas | None
    costs: NetworkCosts | None
    lacking: str
    faults: tuple[ApproachFault, ...]


def target_beside_flow(case: Case, targets: Targets, flow: HeatFlow | Cut) -> TargetBeside:
    """The targets of area and cost of a completed case with its answers."""
    if isinstance(flow, Cut):
        return TargetBeside(None, None, 'there is no heat flow')
    data, uses = CostData(case), {use.name: use.heat for use in flow.uses}
    area, lacking = tried(lambda: area_target(data, uses))
    if area is None:
        return TargetBeside(None, None, lacking)
    cost, lacking = tried(partial(asked_cost, data, targets, flow, area))
    return TargetBeside(area, cost, lacking)


def asked_cost(data: CostData, targets: Targets, flow: HeatFlow, area: AreaTarget) -> CostTarget:
    return priced_target(data, flow, area, unit_target(data.case, targets, flow))


def areas_beside(followed: Followed, verdict: Accepted, target: TargetBeside) -> AreasBeside:
    """The areas and costs of an accepted network beside the targets of its completed case."""
    data, passages = CostData(followed.case), passages_of(followed)
    faults, lacking = tried(lambda: faults_of(data, passages))
    areas, needed = tried(lambda: areas_of(data, passages, verdict))
    if areas is None:
        return AreasBeside(target, None, None, lacking or needed, faults or ())
    costs, needed = tried(partial(costs_of, areas, passages))
    return AreasBeside(target, areas, costs, needed, areas.faults)


def asked_beside(pinch: Pinch, followed: Followed, verdict: Accepted) -> AreasBeside:
    """The same with the targets asked for."""
    case = followed.case
    return areas_beside(followed, verdict, target_beside_flow(case, pinch.targets(case), pinch.uses(case)))


def tried(asking: Callable[[], Result]) -> tuple[Result | None, str]:
    """What is asked for, or what is missing for it."""
    try:
        return asking(), ''
    except Refused as fault:
        return None, fault.text
