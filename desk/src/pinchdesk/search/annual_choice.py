"""Of networks that were found, the one of least annual cost. It is a choice among them and no search: another network
may cost less a year."""
from __future__ import annotations

from collections.abc import Iterable, Iterator
from dataclasses import dataclass

from ..analysis.follow import follow
from ..costs.annual import AnnualCost
from ..costs.cost_data import MISSING, CostData
from ..costs.network_areas import areas_of, faults_of, passages_of
from ..costs.network_costs import NetworkCosts, cost_in_year, costs_of
from ..errors import Refused
from ..formats.case import Case
from ..formats.network import Network
from ..text import printable
from .accepted import AcceptedNetwork


@dataclass(frozen=True)
class AnnualChoice:
    """The network of least annual cost with its costs, and among how many it was chosen: such as differ in their cost
    only by the names of exchangers and branches are one."""

    found: AcceptedNetwork
    costs: NetworkCosts
    among: int

    @property
    def told(self) -> str:
        """The area and the annual cost, what they are the least of, and where an approach is not there."""
        currency = printable(self.costs.data.capital.currency)
        area, annual = self.costs.areas.area.shown(2), self.costs.cost.whole.shown(2)
        least = 'the only network that was found' if self.among == 1 else \
            f'the least of {self.among} networks that were found'
        told = f'area {area} m2, annual cost {annual} {currency}/a: {least}, which is no proof that no other costs less'
        return '; '.join((told, *map(str, self.costs.areas.faults)))


@dataclass(frozen=True)
class CostedNetwork:
    """A network with its annual cost. `too_close` where the real ends of a utility leave less than the approach."""

    found: AcceptedNetwork
    annual: AnnualCost
    too_close: bool


def costs_in(case: Case, found: AcceptedNetwork) -> NetworkCosts:
    """The costs of an accepted network of a completed case; `Refused` where something is missing that they need."""
    passages = passages_of(follow(case, found.network))
    return costs_of(areas_of(CostData(case), passages, found.verdict), passages)


class AnnualChooser:
    """Sees networks of a completed case as they are found. `Refused` where the case does not say what costs need."""

    def __init__(self, case: Case) -> None:
        CostData(case).check()
        self.case = case
        self.networks: dict[Network, AcceptedNetwork] = {}

    def see(self, found: AcceptedNetwork) -> None:
        self.networks.setdefault(found.network, found)

    def choice(self) -> AnnualChoice:
        return least_a_year(self.case, self.networks.values())


def least_a_year(case: Case, networks: Iterable[AcceptedNetwork]) -> AnnualChoice:
    """The choice among networks of a completed case. One with an exchanger that no area is large enough for is left
    out, and one in which a utility comes too close comes last; `Refused` where the former is so of all, or where
    something is missing that costs need."""
    faults: list[Refused] = []
    costed = list(costed_networks(CostData(case), networks, faults))
    if not costed:
        raise faults[0] if faults else ValueError('there is no network to choose')
    least = min(costed, key=lambda network: (network.too_close, network.annual.whole.middle, network.found.rank))
    among = {(network.found.count, network.annual.energy, network.annual.capital.told) for network in costed}
    return AnnualChoice(least.found, costs_in(case, least.found), len(among))


def costed_networks(data: CostData, networks: Iterable[AcceptedNetwork],
                    faults: list[Refused]) -> Iterator[CostedNetwork]:
    """Networks with their annual costs; what is wrong with those that have none goes to the faults."""
    for found in networks:
        passages = passages_of(follow(data.case, found.network))
        try:
            annual = cost_in_year(data, passages, found.verdict)
        except Refused as refused:
            if refused.cause == MISSING:
                raise
            faults.append(refused)
        else:
            yield CostedNetwork(found, annual, bool(faults_of(data, passages)))
