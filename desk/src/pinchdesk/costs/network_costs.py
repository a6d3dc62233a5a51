"""What the exchangers of a network cost: their prices, what of them is a cost of a year, and which of them would gain
most by a kelvin."""
from __future__ import annotations

from collections.abc import Sequence
from dataclasses import dataclass

from ..analysis.follow import Passage
from ..formats.case import Case, completed, read_case
from ..formats.cost_rows import Flow
from ..program.run import CaseText, NetworkText, Pinch
from ..program.verdicts import Accepted
from .annual import AnnualCost, annual_cost, price_of, priced_parts
from .cost_data import CostData, refused_exchanger
from .enclosure import Enclosure, total
from .network_areas import ExchangerArea, NetworkAreas, accepted_network, areas_of, exchanger_area, passages_of

# Of so many of the costliest exchangers it is said what a kelvin would gain.
COSTLIEST = 5


@dataclass(frozen=True)
class ExchangerPrice:
    """What an exchanger costs, installed. `gain` is by how much its cost of a year would fall with 1 K more at both of
    its ends; None of one that is none of the costliest."""

    exchanger: ExchangerArea
    price: Enclosure
    gain: Enclosure | None


@dataclass(frozen=True)
class NetworkCosts:
    """The areas of an accepted network with the prices of its exchangers, in their order, and what it costs a year."""

    areas: NetworkAreas
    prices: tuple[ExchangerPrice, ...]
    cost: AnnualCost

    @property
    def data(self) -> CostData:
        return self.areas.data

    @property
    def costliest(self) -> tuple[ExchangerPrice, ...]:
        """The exchangers of which it is said what a kelvin would gain, the costliest first."""
        gaining = [priced for priced in self.prices if priced.gain]
        return tuple(sorted(gaining, key=lambda priced: -priced.price.middle))


def network_costs(case: CaseText, network: NetworkText, pinch: Pinch | None = None) -> NetworkCosts:
    """The areas and costs of a network; `NoAreas` where it is not accepted, `Refused` where something is missing that
    they need."""
    whole = completed(case if isinstance(case, Case) else read_case(case))
    followed, verdict = accepted_network(pinch or Pinch(), whole, network)
    passages = passages_of(followed)
    return costs_of(areas_of(CostData(whole), passages, verdict), passages)


def costs_of(areas: NetworkAreas, passages: Sequence[Passage]) -> NetworkCosts:
    """The costs of the exchangers of an accepted network."""
    data = areas.data
    prices = [price_in(data, passage, exchanger) for passage, exchanger in zip(passages, areas.exchangers)]
    costliest = sorted(range(len(prices)), key=lambda at: -prices[at].middle)[:COSTLIEST]
    gains = {at: gain_of(data, passages[at], areas.exchangers[at], prices[at]) for at in costliest}
    priced = tuple(ExchangerPrice(exchanger, price, gains.get(at))
                   for at, (exchanger, price) in enumerate(zip(areas.exchangers, prices)))
    return NetworkCosts(areas, priced, annual_cost(data, total(prices), areas.verdict.cost))


def cost_in_year(data: CostData, passages: Sequence[Passage], verdict: Accepted) -> AnnualCost:
    """The annual cost alone of the exchangers of an accepted network: for many of them."""
    prices = [price_in(data, passage, exchanger_area(data, passage)) for passage in passages]
    return annual_cost(data, total(prices), verdict.cost)


def price_in(data: CostData, passage: Passage, exchanger: ExchangerArea) -> Enclosure:
    """The installed price of an exchanger; `Refused` where parts of it are of other materials than the rest."""
    materials = sorted({data.materials(part.hot.source, part.cold.source) for part in passage.parts})
    if len(materials) > 1:
        told = ' and '.join(material or 'no material' for material in materials)
        raise refused_exchanger(exchanger.name, f'its parts are of {told}, and it has one price: enter one row '
                                '`#material,STREAM,MATERIAL,,,,` for the whole stream')
    law = data.law(exchanger.service, materials[0])
    parts = priced_parts(data.build(exchanger.service), 1, exchanger.shells)
    return price_of(data, law, exchanger.area, parts)


def gain_of(data: CostData, passage: Passage, now: ExchangerArea, price: Enclosure) -> Enclosure:
    """By how much the cost of a year would fall with 1 K more at both ends. Where fewer 1-2 shells would be enough
    then, it keeps those that it has if that is cheaper: fewer have a lower Ft."""
    wider = [exchanger_area(data, passage, 1)]
    if wider[0].shells < now.shells and data.build(now.service).flow is Flow.ONE_TWO:
        wider.append(exchanger_area(data, passage, 1, now.shells))
    cheapest = min((price_in(data, passage, exchanger) for exchanger in wider), key=lambda other: other.middle)
    return (price - cheapest) * data.annual_factor
