"""Exchangers against cost as tables, and the networks as texts."""
from __future__ import annotations

from collections.abc import Sequence
from decimal import Decimal
from typing import TYPE_CHECKING

from ..analysis.joined import network_count
from ..formats.network import Exchanger, Network, print_network
from ..formats.range_parts import cost_told, range_costs
from ..formats.shown import Number, Shown
from .facts import Fact, FactRow, FactTable
from .sheet import Sheet

if TYPE_CHECKING:
    from ..search.accepted import AcceptedNetwork
    from ..search.reduce.tradeoff import TradeOffRow, TradeOff


def tradeoff_sheets(traded: TradeOff, marked: AcceptedNetwork | None = None) -> list[Sheet]:
    """The networks from the floor up, what changed from one to the next, and what of it is proved."""
    return [*(table.sheet() for table in tradeoff_tables(traded, marked)),
            Sheet('What is proved', (), ((proved(traded),),))]


def tradeoff_tables(traded: TradeOff, marked: AcceptedNetwork | None = None) -> list[FactTable]:
    """The networks from the floor up, and the heat that was moved from one to the next, where some was. The row of one
    of the networks may be marked; where it has none it gets the last one."""
    shown, begun = Shown(traded.case.basis), [traded.begun] if traded.left_begun else []
    beside = [marked] if marked and not has_row(traded, marked) else []
    shown_networks = [None, *begun, *(row.judged for row in traded.rows), *beside]
    areas = areas_of_rows(traded, shown_networks)
    floor = (*cost_facts('floor', traded.floor, traded, shown), Fact('excess', None, shown.heat_unit),
             Fact('splits', None),
             *([Fact('in the plant', None)] if traded.case.basis.segments else []), *areas[0],
             Fact('gone', 'no network costs less'))
    networks = (floor, *((*row_beside(f'from {found.count}', found, traded, shown), *areas[1]) for found in begun),
                *(network_row(row, traded, shown, areas[at]) for at, row in enumerate(traded.rows, 1 + len(begun))),
                *((*row_beside(f'{found.count}, least a year', found, traded, shown), *areas[-1]) for found in beside))
    rows_marked = frozenset(at for at, found in enumerate(shown_networks)
                            if marked and found and found.network == marked.network)
    moved = tuple((Fact('exchangers', Decimal(row.exchangers)),
                   Fact('', Decimal(shown.heat(shift.heat)), shown.heat_unit),
                   Fact('along', 'loop' if shift.loop else 'path'), Fact('way', shift.told))
                  for row in traded.rows for shift in row.shifts)
    changes = [FactTable('Heat moved from one network to the next', moved)] if moved else []
    return [FactTable('Exchangers against cost', networks, rows_marked), *changes]


def areas_of_rows(traded: TradeOff, networks: Sequence[AcceptedNetwork | None]) -> Sequence[FactRow]:
    """The area and the annual cost of each row; nothing where the case says nothing of them."""
    if not traded.case.basis.cost_rows:
        return [()] * len(networks)
    # It is slow to load, and few cases have areas.
    from .row_areas import facts_of_rows
    return facts_of_rows(traded.case, networks)


def cost_facts(exchangers: str | Decimal, cost: Number, traded: TradeOff, shown: Shown) -> FactRow:
    """How many exchangers there are at a cost."""
    return (Fact('exchangers', exchangers), Fact('cost', Decimal(shown.cost(cost)), shown.cost_unit),
            Fact('above the floor', Decimal(shown.cost(cost - traded.floor)), shown.cost_unit))


def has_row(traded: TradeOff, found: AcceptedNetwork) -> bool:
    """Whether a network is one of the rows, or the one from which the search went out."""
    return any(network == found.network for network in (traded.begun.network, *(row.network for row in traded.rows)))


def row_beside(exchangers: str, found: AcceptedNetwork, traded: TradeOff, shown: Shown) -> FactRow:
    """A network that is none of the steps: from which the search went out, or of least annual cost."""
    return (*cost_facts(exchangers, found.cost, traded, shown),
            Fact('excess', Decimal(shown.heat(found.verdict.excess)), shown.heat_unit),
            Fact('splits', Decimal(found.splits)), *joined_facts(found.network, traded))


def network_row(row: TradeOffRow, traded: TradeOff, shown: Shown, areas: FactRow) -> FactRow:
    return (*cost_facts(Decimal(row.exchangers), row.cost, traded, shown),
            Fact('excess', Decimal(shown.heat(row.excess)), shown.heat_unit),
            Fact('splits', Decimal(row.judged.splits)),
            *joined_facts(row.network, traded), *areas, Fact('gone', listed(row.gone, shown)),
            Fact('new', listed(row.come, shown)))


def joined_facts(network: Network, traded: TradeOff) -> FactRow:
    """How many exchangers of the plant a network has, where its streams have segments."""
    if not traded.case.basis.segments:
        return ()
    return (Fact('in the plant', Decimal(network_count(traded.case, network))),)


def listed(exchangers: tuple[Exchanger, ...], shown: Shown) -> str:
    """Exchangers with their sources and duties."""
    return ', '.join(f'{exchanger.name} {exchanger.hot}-{exchanger.cold} {shown.heat(exchanger.duty)} '
                     f'{shown.heat_unit}' for exchanger in exchangers)


def proved(traded: TradeOff) -> str:
    """What of the networks is proved, and what is not."""
    last = traded.rows[-1].exchangers
    ended = 'the search was stopped; ' if traded.stopped else ''
    segments = ' Each segment of a stream is counted as a stream, but in the column `in the plant`.' \
        if traded.case.basis.segments else ''
    return (f'Each network was accepted by the audit, and none costs less than the floor; {ended}no cheaper networks '
            f'were found, and none of fewer than {last} exchangers, which does not prove that there are none.'
            f'{segments}')


def network_texts(traded: TradeOff, marked: AcceptedNetwork | None = None, told: str = '') -> dict[str, str]:
    """The networks as texts, by their numbers of exchangers; where one is marked it is `annual` too, with what is told
    of it."""
    texts = {str(row.exchangers): network_text(row.judged, traded) for row in traded.rows}
    return {**texts, 'annual': network_text(marked, traded, told)} if marked else texts


def network_text(found: AcceptedNetwork, traded: TradeOff, told: str = '') -> str:
    """A network as a text, with what it is in comments."""
    shown = Shown(traded.case.basis)
    costs = range_costs(traded.case)
    numbers = (f'cost {cost_told(costs, found.cost, shown)}', f'floor {cost_told(costs, traded.floor, shown)}',
               f'excess {shown.heat(found.verdict.excess)} {shown.heat_unit}')
    head = (f'# {found.count} exchangers, {found.splits} splits', f'# {("; " if costs else ", ").join(numbers)}',
            *([f'# {told}'] if told else []), *(f'# {remark}' for remark in shown.scale_remarks()))
    return '\n'.join(head) + '\n' + print_network(found.network)
