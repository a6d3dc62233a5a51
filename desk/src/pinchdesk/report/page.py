"""The page for the reviewer: one HTML file that needs no other.

Every target, cost, price, verdict, excess, penalty and floor on it is what `pinch` printed in this run; the printed
texts stand at its end. Pictures are images inside the page, so that neither style reaches the other."""
from __future__ import annotations

import base64
from collections.abc import Sequence
from concurrent.futures import ThreadPoolExecutor
from dataclasses import dataclass, field, replace
from decimal import Decimal
from fractions import Fraction
from functools import cached_property
from typing import TYPE_CHECKING, Any

from ..analysis.findings import headline
from ..analysis.follow import Followed, PinchPoint, follow, pinches_of
from ..analysis.joined import placed_count
from ..analysis.range_checks import checked_ranges, without_ranges
from ..analysis.unfinished import unfinished_told
from ..analysis.utility_targets import UtilityTargets
from ..errors import Status, WordsError, about
from ..formats.case import ANY_HEAT, Case, Side, completed, read_case
from ..formats.network import read_network
from ..formats.range_parts import cost_of_ranges
from ..formats.shown import Shown, decimal
from ..formats.whole_streams import whole_streams
from ..program.answers import Curves, Cut, HeatFlow, Targets
from ..program.digests import Digests, digests
from ..program.run import Pinch
from ..program.verdicts import Accepted, Rejected, Verdict, ending
from .answer_sheets import audit_sheets, flow_sheets, targets_sheets
from .exchangers import exchangers_sheet, flow_of, mixes_sheets, segments_of, streams_sheets, sums_sheet
from .page_head import PageHead, digests_sheet, head_sheet, made_again
from .range_sheets import plant_sheets, range_sheets
from .sheet import Cell, Sheet
from .utility_sheets import asked_sheets

if TYPE_CHECKING:
    from matplotlib.figure import Figure

    from ..costs.areas_beside import TargetBeside


@dataclass(frozen=True)
class Given:
    """A file of the page: its name as it is shown, its path, its content."""

    name: str
    path: str
    content: bytes

    @property
    def text(self) -> str:
        """What is shown of it: signs that would steer a terminal or a page are `?`."""
        text = self.content.decode('utf-8', 'replace').replace('\r\n', '\n').replace('\r', '\n')
        return ''.join(sign if sign.isprintable() or sign in '\n\t' else '?' for sign in text)


@dataclass(frozen=True)
class Answered:
    """What `pinch` answered of a case."""

    case: Case
    targets: Targets
    curves: Curves
    flow: HeatFlow | Cut

    @cached_property
    def areas(self) -> TargetBeside | None:
        """The targets of area and cost; None where the case says nothing of them."""
        if not self.case.basis.cost_rows:
            return None
        from ..costs.areas_beside import target_beside_flow
        return target_beside_flow(self.case, self.targets, self.flow)

    @property
    def pinches(self) -> tuple[PinchPoint, ...]:
        return pinches_of(self.targets, self.curves)


@dataclass(frozen=True)
class Picture:
    """A picture on the page: what it shows, its address, and how wide it is at least, in dots of a screen, so that it
    can be read: where there is less room it scrolls in its own box."""

    name: str
    address: str
    width: int


@dataclass(frozen=True)
class Reviewed:
    """A network on the page: its verdict, tables, and picture, or why there is none."""

    given: Given
    followed: Followed
    verdict: Verdict
    sheets: list[Sheet]
    more: list[Sheet]
    picture: Picture | None
    note: str
    areas: list[Sheet] = field(default_factory=list)
    driving: list[Picture] = field(default_factory=list)

    @property
    def good(self) -> bool:
        return isinstance(self.verdict, Accepted)

    @property
    def headline(self) -> str:
        return headline(self.followed, self.verdict)


def imaged(figure: Figure) -> tuple[str, int]:
    """A picture as an address that holds it, and its width in dots of a screen."""
    from ..figures import readable_width, rendered
    content = rendered(figure, 'svg', letters_as_shapes=True)
    return 'data:image/svg+xml;base64,' + base64.b64encode(content).decode('ascii'), readable_width(figure)


def answers_of(pinch: Pinch, case: Given, networks: Sequence[Given]) -> tuple[Answered, list[Verdict]]:
    """Asks all at once."""
    content = case.content
    with ThreadPoolExecutor(4) as pool:
        targets, curves = pool.submit(pinch.targets, content), pool.submit(pinch.curves, content)
        flow = pool.submit(pinch.flow, content)
        audits = [pool.submit(pinch.audit, content, network.content) for network in networks]
        with about(case=case.path):
            answered = Answered(completed(read_case(content)), targets.result(), curves.result(), flow.result())
        verdicts = []
        for network, audit in zip(networks, audits):
            with about(case=case.path, network=network.path):
                verdicts.append(audit.result())
    return answered, verdicts


def reviewed(answered: Answered, given: Given, verdict: Verdict) -> Reviewed:
    """A network with its tables and its picture."""
    followed = follow(answered.case, read_network(given.content))
    pinches = answered.pinches
    more = [*streams_sheets(followed, verdict), sums_sheet(followed)]
    sheets = [exchangers_sheet(followed, pinches, verdict), *mixes_sheets(followed, verdict)]
    picture, note = grid_of(given.name, followed, pinches, verdict)
    balance = audit_sheets(followed, verdict)[:1]
    return with_areas(answered, Reviewed(given, followed, verdict, [*balance, *sheets], more, picture, note))


def with_areas(answered: Answered, network: Reviewed) -> Reviewed:
    """A network with its areas and costs, where the case says something of them."""
    if answered.areas is None:
        return network
    from .page_areas import beside_network, network_area_figures, network_areas_sheets
    beside = beside_network(answered.areas, network.followed, network.verdict)
    figures = network_area_figures(network.given.name, network.followed, beside)
    return replace(network, areas=network_areas_sheets(beside),
                   driving=[Picture(name, *imaged(figure)) for name, figure in figures])


def areas_of_case(answered: Answered) -> tuple[list[Sheet], list[Picture]]:
    """The targets of area and cost with their picture; nothing where the case says nothing of them."""
    if answered.areas is None:
        return [], []
    from .page_areas import case_area_figures, case_areas
    pictures = [Picture(name, *imaged(figure)) for name, figure in case_area_figures(answered.areas)]
    return case_areas(answered.areas), pictures


def curves_of(answered: Answered) -> list[Picture]:
    """The diagrams of the curves; without a heat flow nothing is balanced."""
    from ..figures import balanced_figure, composite_figure, grand_figure
    chosen = [('Composite curves', composite_figure), ('Balanced composite curves', balanced_figure),
              ('Grand composite curve', grand_figure)]
    if isinstance(answered.flow, Cut):
        del chosen[1]
    return [Picture(name, *imaged(drawing(answered.case, answered.targets, answered.curves, answered.flow)))
            for name, drawing in chosen]


def beside_curve(found: UtilityTargets | None) -> Picture | None:
    """The picture of a flue gas and a heat pump, where one was asked for."""
    if found is None or not found.furnace and not found.pumped:
        return None
    from ..figures import beside_curve_figure
    return Picture('Grand composite curve with what was asked', *imaged(beside_curve_figure(found)))


def grid_of(name: str, followed: Followed, pinches: tuple[PinchPoint, ...],
            verdict: Verdict) -> tuple[Picture | None, str]:
    """The grid diagram, or why there is none."""
    from ..figures import grid_figure
    try:
        return Picture(f'Grid diagram of {name}', *imaged(grid_figure(followed, pinches, verdict))), ''
    except WordsError as fault:
        return None, str(fault)


def case_streams(case: Case) -> Sheet:
    """The streams in engineers' units, with the names that their table had."""
    shown, ranged = Shown(case.basis), {utility.name for utility in case.basis.ranges}
    rows: list[tuple[Cell, ...]] = []
    for stream in whole_streams(case):
        rows.append((stream.name, stream.side.value, Decimal(shown.temperature(stream.supply)),
                     Decimal(shown.temperature(stream.target)), flow_of(stream, shown),
                     Decimal(shown.heat(stream.heat)),
                     Decimal(shown.difference(stream.contribution)),
                     'utility' if stream.name in ranged else 'latent' if stream.latent else ''))
    degree, difference, heat = shown.temperature_unit, shown.difference_unit, shown.heat_unit
    headings = ('stream', 'side', f'supply {degree}', f'target {degree}', f'CP {shown.flow_unit}', f'load {heat}',
                f'contribution {difference}', '')
    return with_names(Sheet('Streams', headings, tuple(rows)), case)


def with_names(sheet: Sheet, case: Case) -> Sheet:
    """A sheet of sources with the names that their table had, where one of them had another."""
    old = {new: name for name, new in case.basis.names}
    if not any(row[0] in old for row in sheet.rows):
        return sheet
    rows = tuple((*row, old.get(str(row[0]), '')) for row in sheet.rows)
    return replace(sheet, headings=(*sheet.headings, 'in the table'), rows=rows)


def case_utilities(case: Case, flow: HeatFlow | Cut) -> Sheet:
    """The utilities, with what the heat flow of least cost uses of utility and what that costs."""
    shown = Shown(case.basis)
    rows: list[tuple[Cell, ...]] = []
    for utility in case.utilities:
        used = None if isinstance(flow, Cut) else flow.use(utility.name)
        most: Cell = 'any' if utility.most >= ANY_HEAT else Decimal(shown.heat(utility.most))
        rows.append((utility.name, 'heater' if utility.side is Side.HOT else 'cooler',
                     None if utility.invented else Decimal(shown.temperature(utility.level)),
                     Decimal(shown.heat(utility.least)), most, Decimal(shown.price(utility.price)),
                     Decimal(shown.difference(utility.contribution)),
                     None if used is None else Decimal(shown.heat(used)),
                     None if used is None else Decimal(shown.cost(used * utility.price))))
    if not isinstance(flow, Cut):
        rows.append(('least cost', '', None, None, None, None, None, None, Decimal(shown.cost(flow.cost))))
    heat = shown.heat_unit
    headings = ('utility', '', f'level {shown.temperature_unit}', f'least {heat}', f'most {heat}',
                f'price, {shown.price_unit}', f'contribution {shown.difference_unit}', f'used {heat}',
                f'cost, {shown.cost_unit}')
    return with_names(Sheet('Utilities, and what a heat flow of least cost uses', headings, tuple(rows)), case)


def case_sheets(answered: Answered) -> list[Sheet]:
    case = answered.case
    forbids = tuple((forbid.hot, forbid.cold) for forbid in case.forbids)
    return [case_streams(case), *segments_of(whole_streams(case), Shown(case.basis)),
            case_utilities(case, answered.flow),
            *([Sheet('May not exchange heat', ('hot', 'cold'), forbids)] if forbids else [])]


HEATS = ('hot utility', 'cold utility', 'excess over the hot target', 'sum of the penalties')
COSTS = ('cost', 'floor: no network costs less', 'cost above the floor')
COMPARED = ('verdict', 'exchangers', *HEATS[:3], *COSTS, HEATS[3])


def compared(networks: Sequence[Reviewed], shown: Shown, case: Case) -> Sheet:
    """The networks side by side, each in a column; the cost also with that of the utilities with a range."""
    columns: list[list[Cell]] = []
    for network in networks:
        verdict, count = network.verdict, Decimal(placed_count(network.followed))
        word = 'unfinished' if unfinished_told(network.followed) else 'accepted' if network.good else \
            'rejected' if isinstance(verdict, Rejected) else 'too fine'
        cells: list[Cell] = [word, count]
        if isinstance(verdict, Accepted):
            lost = sum((penalty.heat for penalty in verdict.penalties), start=verdict.excess * 0)
            cells += [Decimal(shown.heat(heat)) for heat in (verdict.hot, verdict.cold, verdict.excess)]
            costs: tuple[Fraction | int, ...] = (verdict.cost, verdict.floor, verdict.cost - verdict.floor)
            cells += [Decimal(shown.cost(cost)) for cost in costs]
            cells.append('too fine' if verdict.too_fine else Decimal(shown.heat(lost)))
        columns.append([*cells, *[None] * (len(COMPARED) - len(cells))])
    names = [f'{name}, {shown.cost_unit}' if name in COSTS else f'{name} {shown.heat_unit}' if name in HEATS else name
             for name in COMPARED]
    rows = [(name, *(column[at] for column in columns)) for at, name in enumerate(names)]
    if case.basis.ranges:
        verdicts = [network.verdict for network in networks]
        rows.append((f'cost with the utilities with a range, {shown.cost_unit}', *(
            Decimal(shown.cost(verdict.cost + cost_of_ranges(case))) if isinstance(verdict, Accepted) else None
            for verdict in verdicts)))
    return Sheet('Networks side by side', ('', *(network.given.name for network in networks)), tuple(rows))


@dataclass(frozen=True)
class Review:
    """A case and its networks, answered and judged, as the page has them, and who did it; `table` is that of the case,
    where it is given, and `understood` how it was; `ranges` is about utilities with a range, `utilities` what was
    asked of them."""

    case: Given
    answered: Answered
    networks: tuple[Reviewed, ...]
    digests: Digests
    table: Given | None = None
    understood: Sheet | None = None
    ranges: tuple[Sheet, ...] = ()
    utilities: UtilityTargets | None = None

    @property
    def ending(self) -> tuple[Status, str]:
        """How a word ends with it: by its heat flow and its networks."""
        return ending((network.verdict for network in self.networks), [self.answered.flow])


def review_of(pinch: Pinch, case: Given, networks: Sequence[Given]) -> Review:
    answered, verdicts = answers_of(pinch, case, networks)
    cost = None if isinstance(answered.flow, Cut) else answered.flow.cost
    ranges = range_sheets(answered.case, checked_ranges(pinch, answered.case), cost)
    alone = without_ranges(answered.case) if answered.case.basis.ranges else None
    ranges += plant_sheets(alone, pinch.targets(alone)) if alone else []
    judged = tuple(reviewed(answered, network, verdict) for network, verdict in zip(networks, verdicts))
    return Review(case, answered, judged, digests(pinch.path), ranges=tuple(ranges))


def page_of(review: Review, unfolded: bool = False, head: PageHead = PageHead()) -> str:
    """The page. `unfolded` where what is folded shall be seen, as on paper."""
    answered, networks = review.answered, review.networks
    shown = Shown(answered.case.basis)
    files = [('case', review.case), *(('network', network.given) for network in networks)]
    files += [('table', review.table)] if review.table else []
    areas, area_pictures = areas_of_case(answered)
    values = {
        'case': review.case, 'answered': answered, 'networks': networks, 'shown': shown, 'unfolded': unfolded,
        'targets': [*targets_sheets(answered.case, answered.targets), *review.ranges], 'tables': case_sheets(answered),
        'flow': flow_sheets(answered.case, answered.flow), 'cut': isinstance(answered.flow, Cut),
        'curves': curves_of(answered), 'areas': areas, 'area_pictures': area_pictures,
        'compared': compared(networks, shown, answered.case) if networks else None, 'bars': bars,
        'title': head.titled(review.case.name), 'head': head_sheet(head, answered.case),
        'again': made_again(head, [(what, file.name) for what, file in files]),
        'digests': digests_sheet(review.digests, [(what, file.name, file.content) for what, file in files]),
        'understood': review.understood, 'utilities': list(asked_sheets(review.utilities)) if review.utilities else [],
        'beside': beside_curve(review.utilities), 'of_ranges': cost_of_ranges(answered.case),
    }
    page: str = template().render(values)
    return page


def bars(network: Reviewed) -> list[tuple[str, str, str]]:
    """The penalties of a network that are not 0: place, kW, and the length of its bar in percent."""
    if not isinstance(network.verdict, Accepted):
        return []
    shown = Shown(network.followed.case.basis)
    penalties = [penalty for penalty in network.verdict.penalties if penalty.heat]
    most = max((abs(penalty.heat) for penalty in penalties), default=network.verdict.excess)
    return [(str(penalty.place), shown.heat(penalty.heat), decimal(abs(penalty.heat) / most * 100, 1))
            for penalty in penalties]


def is_number(cell: Cell) -> bool:
    return isinstance(cell, Decimal)


def template() -> Any:
    """The page's template; what is written into it is escaped."""
    from jinja2 import Environment, PackageLoader, StrictUndefined
    environment = Environment(loader=PackageLoader('pinchdesk.report'), autoescape=True, undefined=StrictUndefined,
                              trim_blocks=True, lstrip_blocks=True)
    environment.tests['number'] = is_number
    return environment.get_template('page.html')
