"""The word `cost`."""
from __future__ import annotations

from dataclasses import dataclass, replace
from fractions import Fraction

from ..errors import about
from ..formats.amounts import seconds_of
from ..formats.case import Case
from ..formats.shown import Shown
from ..program.answers import Cut
from ..program.run import Pinch
from ..report.answer_sheets import cut_table
from ..report.facts import lines_sheet
from ..search.budget import Telling, nobody
from .shared import CASE, FILM, NETWORK, SHOWN_IN, CaseShown, case_with_film, open_notes
from .word import Answer, Files, Option, Role, TextFile, Word, feasibility

MEASURED = Role(NETWORK.name, 'a network, whose exchangers have their areas and costs', needed=False)
FLOOR = Option('floor', 'also the area that no network with the same utilities is under, with slices as fine as these '
               'seconds allow', ('--floor',), seconds_of, metavar='SECONDS')


@dataclass(frozen=True)
class CostOptions(CaseShown):
    """How long the floor of the area may take, in seconds; None where it is not asked for. A film coefficient for the
    sources that have none."""

    floor: Fraction | None = None
    film: str | None = None


def cost(files: Files, options: CostOptions = CostOptions(), tell: Telling = nobody) -> Answer:
    file, network = files.one('case'), files.get('network')
    with about(case=file.name, network=network.name if network else ''):
        case, notes = case_with_film(file, options.film)
        answer = of_network(case, network) if network else of_case(case, options)
    return replace(answer, notes=(*notes, *answer.notes))


def of_case(case: Case, options: CostOptions) -> Answer:
    """The targets, or that there is no heat flow."""
    from ..costs.area_floor import area_floor
    from ..costs.cost_target import cost_target
    from ..report.cost_sheets import notes_sheets, target_facts, target_notes
    target = cost_target(case, Pinch())
    if isinstance(target, Cut):
        table = cut_table(target, Shown(case.basis))
        return Answer((table.sheet(),), facts=table.rows, status=feasibility(False))
    uses = {use.name: use.heat for use in target.flow.uses}
    floor = area_floor(target.data, uses, float(options.floor)) if options.floor is not None else None
    facts = target_facts(target, floor)
    return Answer((lines_sheet('Targets', facts), *notes_sheets(target_notes(target))), facts=(facts,))


def of_network(case: Case, network: TextFile) -> Answer:
    """The exchangers of an accepted network, and their sums."""
    from ..analysis.follow import follow
    from ..costs.network_costs import network_costs
    from ..formats.network import read_network
    from ..report.area_sheets import exchangers_table, network_facts, network_notes
    from ..report.cost_sheets import notes_sheets
    costs = network_costs(case, network.content, Pinch())
    areas = costs.areas
    facts = network_facts(areas, costs)
    sheets = (exchangers_table(areas, costs).sheet(), lines_sheet('All', facts), *notes_sheets(network_notes(areas)))
    return Answer(sheets, facts=(facts,), headline='; '.join(map(str, areas.faults)),
                  notes=open_notes(network, follow(case, read_network(network.content))))


COST = Word('cost', 'area, units, shells, capital and annual cost: targets, or of a network',
            'pinchdesk cost examples/reactors-cost.csv --floor 1', (CASE, MEASURED), CostOptions, cost,
            (FLOOR, FILM, SHOWN_IN))
