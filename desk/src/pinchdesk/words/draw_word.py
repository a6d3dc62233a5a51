"""The words of `draw`: pictures."""
from __future__ import annotations

from collections.abc import Callable
from dataclasses import dataclass, replace
from typing import TYPE_CHECKING, Any

from ..analysis.audited import asked_pinches, audited
from ..analysis.sweep_request import asked_range
from ..errors import about
from ..formats.amounts import whole
from ..formats.case import units_of
from ..formats.shown import Shown
from ..formats.site import read_site
from ..program.answers import Cut
from ..program.run import Pinch
from ..search.budget import Telling, nobody
from .forms import PICTURE
from .prices_word import STUDY, answered_study
from .shared import (CASE, FILM, NETWORK, RANGE, SHOWN_IN, SITE, USUAL_WORKERS, WORKERS, CaseShown, SweepOptions,
                     completed_case, ended, rounding_told, told_of)
from .supertarget_word import SupertargetOptions, found_over_difference
from .utilities_word import BESIDE_CURVE, BesideCurveOptions, found_utilities
from .word import Answer, Files, NoOptions, Option, Role, Word, WordGroup, feasibility

if TYPE_CHECKING:
    from matplotlib.figure import Figure

MOST = Option('most', 'how many exchangers are drawn at most: up to 60 can be read on A3', ('--most',), whole, 60,
              metavar='N')
UTILITY = Option('utility', 'of several spans only those of this utility', ('--utility',), metavar='NAME')
BESIDE_CURVES = Role(NETWORK.name, 'a network, whose exchangers are drawn too', needed=False)
SPANS = Role(STUDY.name, 'a price study with a span (docs/FORMATS.md), in the unit of the prices of the case')


@dataclass(frozen=True)
class GridOptions(CaseShown):
    """How many exchangers a grid diagram may have."""

    most: int = 60


@dataclass(frozen=True)
class SpanOptions(CaseShown):
    """Whose spans are drawn, and by how many workers the study is answered."""

    utility: str | None = None
    workers: int = USUAL_WORKERS


def picture(figure: Figure, feasible: bool = True) -> Answer:
    from ..figures import rendered
    return Answer(in_form=lambda form: rendered(figure, form), status=feasibility(feasible))


def curves_by(name: str) -> Callable[[Files, CaseShown, Telling], Answer]:
    """What draws curves by this function of `figures`."""
    def run(files: Files, _: CaseShown = CaseShown(), tell: Telling = nobody) -> Answer:
        file = files.one('case')
        with about(case=file.name):
            pinch = Pinch()
            targets, points, flow = (ask(file.content) for ask in (pinch.targets, pinch.curves, pinch.flow))
        from .. import figures
        case = completed_case(file.content)
        figure = getattr(figures, name)(case, targets, points, flow)
        return replace(picture(figure, not isinstance(flow, Cut)), notes=rounding_told(file, case))
    return run


def grid(files: Files, options: GridOptions = GridOptions(), tell: Telling = nobody) -> Answer:
    case, network = files.one('case'), files.one('network')
    with about(case=case.name, network=network.name):
        pinch = Pinch()
        followed, verdict = audited(pinch, case.content, network.content)
        pinches = asked_pinches(pinch, case.content)
    from ..figures import grid_figure
    drawn = picture(grid_figure(followed, pinches, verdict, options.most))
    return ended(replace(drawn, notes=rounding_told(case, followed.case)), [verdict])


def site(files: Files, _: NoOptions = NoOptions(), tell: Telling = nobody) -> Answer:
    file = files.one('site')
    with about(site=file.name):
        printed, plants = Pinch().site(file.content), read_site(file.content)
    from ..figures import site_figure
    return picture(site_figure(plants, printed), printed.feasible)


def area(files: Files, _: CaseShown = CaseShown(), tell: Telling = nobody) -> Answer:
    file = files.one('case')
    with about(case=file.name):
        from ..costs.area_target import asked_area
        case = completed_case(file.content)
        target = asked_area(Pinch(), case)
    from ..figures.area_curves import area_figure
    return replace(picture(area_figure(target, Shown(case.basis))), notes=rounding_told(file, case))


def driving(files: Files, _: CaseShown = CaseShown(), tell: Telling = nobody) -> Answer:
    case, network = files.one('case'), files.get('network')
    with about(case=case.name, network=network.name if network else ''):
        from ..costs.area_target import asked_area
        from ..costs.network_areas import asked_duties
        pinch, whole = Pinch(), completed_case(case.content)
        target = asked_area(pinch, whole)
        duties = asked_duties(pinch, whole, network.content) if network else {}
    from ..figures.area_curves import driving_forces_figure
    return replace(picture(driving_forces_figure(target, duties, Shown(whole.basis))), notes=rounding_told(case, whole))


def over_difference(files: Files, options: SweepOptions, tell: Telling = nobody) -> Answer:
    from ..figures.cost_curves import supertarget_figure
    found, told = found_over_difference(files, options)
    return replace(picture(supertarget_figure(found)), notes=told)


def beside_curve(files: Files, options: BesideCurveOptions, tell: Telling = nobody) -> Answer:
    from ..figures import beside_curve_figure
    found = found_utilities(files, options)
    assert not isinstance(found, Cut), 'a flue gas and a heat pump need no heat flow'
    return picture(beside_curve_figure(found))


def sweep(files: Files, options: SweepOptions, tell: Telling = nobody) -> Answer:
    file = files.one('case')
    asked = asked_range(options.first, options.last, options.step, options.workers, units_of(file.content))
    with about(case=file.name):
        printed = Pinch().sweep(file.content, *asked, options.workers)
    from ..figures import sweep_figure
    case = completed_case(file.content)
    return replace(picture(sweep_figure(case, printed), printed.feasible), notes=rounding_told(file, case))


def prices(files: Files, options: SpanOptions = SpanOptions(), tell: Telling = nobody) -> Answer:
    answered = answered_study(files, options.workers)
    from ..figures import prices_figure
    figure = prices_figure(answered.case, answered.prices, options.utility)
    return replace(picture(figure, answered.prices.feasible), notes=told_of(files.one('study'), answered.notes))


def part(name: str, summary: str, example: str, roles: tuple[Role, ...], options: type[Any],
         run: Callable[[Files, Any, Telling], Answer], declared: tuple[Option, ...] = ()) -> Word[Any]:
    return Word(name, summary, f'pinchdesk draw {name} {example}', roles, options, run, declared, PICTURE, to_file=True,
                ending='svg')


PARTS = (
    part('curves', 'all curves on one sheet, with targets, pinches and utilities',
         'examples/four-stream.csv -o curves.svg', (CASE,), CaseShown, curves_by('curves_figure'), (SHOWN_IN,)),
    part('composite', 'the composite curves at the targets', 'examples/four-stream.csv -o composite.svg', (CASE,),
         CaseShown, curves_by('composite_figure'), (SHOWN_IN,)),
    part('balanced', 'the balanced composite curves: streams and the utilities that are used',
         'examples/three-levels.csv -o balanced.svg', (CASE,), CaseShown, curves_by('balanced_figure'), (SHOWN_IN,)),
    part('grand', 'the grand composite curve, and the utilities on it',
         'examples/three-levels.csv -o grand.svg', (CASE,), CaseShown, curves_by('grand_figure'), (SHOWN_IN,)),
    part('utilities', 'the grand composite curve with a flue gas and a heat pump',
         'examples/four-stream.csv --flame 1000 --stack 80 -o flue.svg', (CASE,), BesideCurveOptions, beside_curve,
         (*BESIDE_CURVE, SHOWN_IN)),
    part('grid', 'the grid diagram of a network', 'examples/tc3.csv examples/tc3-network.txt -o grid.svg',
         (CASE, NETWORK), GridOptions, grid, (MOST, SHOWN_IN)),
    part('site', 'the profiles of a site', 'examples/three-plants.csv -o site.svg', (SITE,), NoOptions, site),
    part('sweep', 'targets and least cost over the least difference', 'examples/four-stream.csv 0 20 0.4 -o sweep.svg',
         (CASE,), SweepOptions, sweep, (*RANGE, WORKERS, SHOWN_IN)),
    part('prices', 'the least cost over the price of a utility',
         'examples/two-steam-levels.csv examples/steam-prices.csv --utility LP -o prices.svg', (CASE, SPANS),
         SpanOptions, prices, (UTILITY, WORKERS, SHOWN_IN)),
    part('area', 'the balanced composite curves with the area of each interval', 'examples/reactors-cost.csv -o a.svg',
         (CASE,), CaseShown, area, (SHOWN_IN,)),
    part('driving', 'the differences of the balanced composite curves, and of exchangers',
         'examples/reactors-cost.csv examples/reactors-cost-network.txt -o driving.svg', (CASE, BESIDE_CURVES),
         CaseShown, driving, (SHOWN_IN,)),
    part('supertarget', 'energy, capital and annual cost over the least difference',
         'examples/reactors-cost.csv 4 20 4 -o costs.svg', (CASE,), SupertargetOptions, over_difference,
         (*RANGE, WORKERS, FILM, SHOWN_IN)))
DRAW = WordGroup('draw', 'a picture: curves, a grid, a site, a sweep or prices, as .svg, .png or .pdf',
                 'pinchdesk draw curves examples/four-stream.csv -o curves.svg', PARTS)
