"""A plant: a case with what was reported when it was read, and the words of the desk as methods. It asks `pinch` once
for what several answers share."""
from __future__ import annotations

import os
from dataclasses import dataclass, field, replace
from functools import cached_property
from typing import TYPE_CHECKING, TypeVar

from ..analysis.audited import audited
from ..analysis.change_table import CaseScenarios, read_changes
from ..analysis.findings import headline
from ..analysis.follow import Followed, PinchPoint, follow, pinches_of
from ..analysis.least_units import least_units
from ..analysis.price_study import study_answer
from ..analysis.rest import remaining
from ..analysis.sweep_request import as_it_is, asked_range, check_workers
from ..analysis.what_if import AskedCase, compared
from ..errors import Refused, WordsError, about, of_file
from ..formats.amounts import seconds_of
from ..formats.case import Case, completed, read_case, said_in_si, units_of
from ..formats.plain_files import read_bytes
from ..formats.shown import Shown
from ..program.answers import Curves, Cut, HeatFlow, Targets
from ..program.run import Pinch
from ..program.verdicts import Accepted, Verdict
from ..report.page import Given, case_streams, page_of, review_of
from ..report.page_head import PageHead
from ..report.range_sheets import with_ranges_sheet
from ..search.find import find_network, in_place_of, unseen
from ..tables.convert import is_case
from ..tables.cost_words import cost_of, percent_of
from ..tables.wanted import wanted_by
from ..words.case_word import case_text, converted
from ..words.shared import USUAL_WORKERS, annual_chooser
from ..words.tradeoff_word import chosen_of
from ..words.word import TextFile
from .given import FileGiven, Number, as_text, file_of
from .network_answers import PlantAudit, PlantNetwork, PlantRest, plant_audit, plant_network, plant_rest, plant_table
from .plant_answer import PlantAnswer
from .target_answers import (PlantFlow, PlantPrices, PlantSweep, PlantTargets, plant_flow, plant_prices, plant_sweep,
                             plant_targets)
from .tradeoff_answer import PlantTradeoff, PlantUnits, PlantWhatIf, plant_tradeoff, plant_units, plant_what_if

if TYPE_CHECKING:
    from ..figures import ShownFigure
    from .cost_answers import PlantAreas, PlantCosts, PlantSupertarget
    from .utility_answers import PlantUtilities

Noted = TypeVar('Noted', bound=PlantAnswer)


@dataclass(frozen=True)
class Plant:
    """A plant with its case: `text` is the case as a file, `notes` what was reported when it was read."""

    name: str
    text: str = field(repr=False)
    notes: tuple[str, ...] = ()
    pinch: Pinch = field(default_factory=Pinch, repr=False, compare=False)

    @cached_property
    def case(self) -> Case:
        """The case as its file has it."""
        return read_case(self.text)

    @cached_property
    def completed(self) -> Case:
        """The case with the utilities that are added where it has none of a side."""
        return completed(self.case)

    @cached_property
    def asked_targets(self) -> Targets:
        """The targets as `pinch` printed them, in its own units."""
        with about(case=self.name):
            return self.pinch.targets(self.text)

    @cached_property
    def asked_curves(self) -> Curves:
        return self.pinch.curves(self.text)

    @cached_property
    def asked_flow(self) -> HeatFlow | Cut:
        return self.pinch.flow(self.text)

    @property
    def pinches(self) -> tuple[PinchPoint, ...]:
        return pinches_of(self.asked_targets, self.asked_curves)

    @property
    def rounding(self) -> tuple[str, ...]:
        """How far what its table rounded takes the targets, where it does."""
        return (self.case.basis.rounding,) if self.case.basis.rounding else ()

    def noted(self, answer: Noted) -> Noted:
        """An answer that says first how far its numbers may be off, with its utilities with a range and their costs
        behind it."""
        return replace(answer, notes=(*self.rounding, *answer.notes),
                       sheets=with_ranges_sheet(answer.sheets, self.text.encode()))

    def _repr_html_(self) -> str:
        return PlantAnswer(sheets=(case_streams(self.completed),), notes=self.notes)._repr_html_()

    def in_si(self) -> Plant:
        """The plant shown in °C and kW, where its case has units of its own."""
        return replace(self, text=said_in_si(self.text.encode()).decode())

    def targets(self) -> PlantTargets:
        """The least hot and cold utility, and the pinches."""
        return self.noted(plant_targets(self.completed, self.asked_targets))

    def flow(self) -> PlantFlow:
        """A heat flow of least cost with its proof, or the proof that there is none."""
        return self.noted(plant_flow(self.completed, self.asked_flow))

    def sweep(self, first: Number, last: Number, step: Number, workers: int = USUAL_WORKERS) -> PlantSweep:
        """Targets and least cost at each least difference from the first to the last one, in K."""
        asked = asked_range(as_text(first), as_text(last), as_text(step), workers, self.case.basis.units)
        printed = self.pinch.sweep(self.text, *asked, workers)
        return self.noted(plant_sweep(self.completed, printed, as_it_is(self.pinch, self.text, self.completed)))

    def audit(self, network: FileGiven) -> PlantAudit:
        """Whether a network is valid, what it costs, and where it loses heat."""
        return self.noted(plant_audit(*self.judged(network)))

    def table(self, network: FileGiven) -> PlantAudit:
        """The exchangers of a network: temperatures, differences, duties, side of the pinch, penalties."""
        followed, verdict = self.judged(network)
        return self.noted(plant_table(followed, self.pinches, verdict))

    def judged(self, network: FileGiven) -> tuple[Followed, Verdict]:
        """A network that was followed, and what the audit says of it."""
        file = file_of(network, 'network')
        with about(case=self.name, network=file.path):
            return audited(self.pinch, self.text, file.content)

    def network(self, above: Number | None = None, cost: Number | None = None, seconds: Number = 60,
                start: FileGiven | None = None, annual: bool = False) -> PlantNetwork:
        """A network with few exchangers at the least cost; or so many percent above it, or at most at this cost in the
        unit of the case's costs. `start` is a network to improve on. With `annual` the one of least annual cost of all
        that were accepted on the way; the case needs coefficients and cost laws."""
        if above is not None and cost is not None:
            raise WordsError('a network has a highest cost, or a percentage above the least one, not both')
        most = None if cost is None else cost_of(as_text(cost), Shown(self.case.basis))
        percent = None if above is None else percent_of(as_text(above))
        file = None if start is None else file_of(start, 'network')
        with about(case=self.name, network=file.path if file else ''):
            chooser = annual_chooser(self.case) if annual else None
            found = find_network(self.text, most, percent, seconds_of(as_text(seconds)),
                                 file.content if file else None, pinch=self.pinch,
                                 seen=chooser.see if chooser else unseen)
            choice = chooser.choice() if chooser else None
        if choice:
            found = in_place_of(found, self.completed, choice.found, choice.told)
        judged = plant_audit(follow(self.completed, found.network), found.verdict)
        return self.noted(plant_network(found, list(judged.sheets), choice))

    def tradeoff(self, network: FileGiven | None = None, seconds: Number = 30, annual: bool = False) -> PlantTradeoff:
        """Exchangers against cost: networks of fewer and fewer exchangers, from one that is given or searched for. With
        `annual` the one of least annual cost is marked of all that were accepted on the way; the case needs
        coefficients and cost laws."""
        # It needs scipy, which is slow to load.
        from ..search.reduce.tradeoff import tradeoff
        file = None if network is None else file_of(network, 'network')
        with about(case=self.name, network=file.path if file else ''):
            chooser = annual_chooser(self.case) if annual else None
            traded = tradeoff(self.case, file.content if file else None, self.pinch,
                              float(seconds_of(as_text(seconds))), seen=chooser.see if chooser else unseen)
            return self.noted(plant_tradeoff(traded, chosen_of(traded, chooser) if chooser else None))

    def units(self, network: FileGiven | None = None) -> PlantUnits:
        """The least number of exchangers by the books' rule, beside those of a network."""
        followed: Followed | None = None
        notes: tuple[str, ...] = ()
        if network is not None:
            followed, verdict = self.judged(network)
            notes = () if isinstance(verdict, Accepted) else (headline(followed, verdict),)
        return self.noted(plant_units(self.completed, least_units(self.text, self.pinch), followed, notes))

    def rest(self, network: FileGiven) -> PlantRest:
        """What is left of a network with open branches, and what the choice so far costs."""
        file = file_of(network, 'network')
        with about(case=self.name, network=file.path):
            return self.noted(plant_rest(remaining(self.text, file.content, self.pinch)))

    def areas(self, network: FileGiven) -> PlantAreas:
        """The exchangers of an accepted network with their areas, and what they cost where the case has cost laws."""
        # What is of areas is slow to load.
        from .cost_answers import asked_areas
        file = file_of(network, 'network')
        with about(case=self.name, network=file.path):
            return asked_areas(self.pinch, self.completed, file.content)

    def costs(self, floor: Number | None = None) -> PlantCosts:
        """The targets of area, units, shells, capital and annual cost; with the area that no network with the same
        utilities is under, as far as so many seconds go."""
        from .cost_answers import asked_costs
        with about(case=self.name):
            return asked_costs(self.pinch, self.completed, floor)

    def supertarget(self, first: Number, last: Number, step: Number, workers: int = USUAL_WORKERS) -> PlantSupertarget:
        """Energy, area, capital and annual cost at each least difference from the first to the last one, in K."""
        from ..costs.supertarget import supertarget
        from .cost_answers import plant_supertarget
        asked = asked_range(as_text(first), as_text(last), as_text(step), workers)
        with about(case=self.name):
            return plant_supertarget(supertarget(self.completed, *asked, self.pinch, workers))

    def utilities(self, *, flame: Number | None = None, stack: Number | None = None,
                  flue_contribution: Number | None = None, ambient: Number | None = None,
                  pump_from: Number | None = None, pump_to: Number | None = None,
                  pump_efficiency: Number | None = None, refrigeration: Number | None = None,
                  isentropic: Number | None = None, exergetic: Number | None = None, mains: str | None = None,
                  inlet: Number | None = None) -> PlantUtilities:
        """What is asked of a flue gas, a heat pump, refrigeration and steam turbines beside the grand composite curve:
        the options of the word `utilities`."""
        from ..analysis.utility_targets import utility_targets
        from ..words.utilities_word import UtilitiesOptions
        from .utility_answers import plant_utilities
        numbers = (flame, stack, flue_contribution, ambient, pump_from, pump_to, pump_efficiency, refrigeration,
                   isentropic, exergetic, mains, inlet)
        options = UtilitiesOptions(*(None if number is None else as_text(number) for number in numbers))
        with about(case=self.name):
            found = utility_targets(self.text.encode(), options.asked(self.completed), self.pinch)
        return self.noted(plant_utilities(self.completed, found))

    def prices(self, study: FileGiven, workers: int = USUAL_WORKERS) -> PlantPrices:
        """The least cost at other prices, in the unit of the case's prices."""
        check_workers(workers)
        file = file_of(study, 'study')
        with about(case=self.name, study=file.path):
            answer = study_answer(self.pinch, self.case, file.content, workers)
        return self.noted(plant_prices(answer.case, answer.prices, answer.notes))

    def what_if(self, changes: FileGiven | None = None, sheet: str | None = None, decimal: str | None = None,
                workers: int = USUAL_WORKERS) -> PlantWhatIf:
        """Scenarios of a table of changes beside the case as it is, and what a little more of each stream would do."""
        check_workers(workers)
        file = None if changes is None else file_of(changes, 'changes')
        with of_file(file.path if file else self.name):
            scenarios = CaseScenarios(()) if file is None else \
                read_changes(file.content, file.path, self.case.basis, sheet, decimal)
            answered = compared(AskedCase(self.case, self.asked_targets), scenarios.variants, self.pinch, workers)
        return self.noted(plant_what_if(answered, scenarios.notes))

    def curves(self) -> ShownFigure:
        """Composite, balanced and grand composite curves."""
        from ..figures import ShownFigure, curves_figure
        return ShownFigure(curves_figure(self.completed, self.asked_targets, self.asked_curves, self.asked_flow),
                           self.rounding)

    def grid(self, network: FileGiven, most: int = 60) -> ShownFigure:
        """The grid diagram of a network of at most so many exchangers."""
        from ..figures import ShownFigure, grid_figure
        followed, verdict = self.judged(network)
        return ShownFigure(grid_figure(followed, self.pinches, verdict, most), self.rounding)

    def page(self, *networks: FileGiven, title: str | None = None, plant: str | None = None, author: str | None = None,
             revision: str | None = None, date: str | None = None) -> str:
        """The page for the reviewer with these networks side by side, as HTML. The rest is what stands at its head; the
        date is today's unless it is said."""
        head = PageHead(title, plant, author, revision, date)
        files = [file_of(network, f'network {at}') for at, network in enumerate(networks, 1)]
        return page_of(review_of(self.pinch, Given(self.name, self.name, self.text.encode()), files), head=head)


def read(source: str | os.PathLike[str] | bytes, name: str = '', *, difference: Number | None = None,
         sheet: str | None = None, separator: str | None = None, decimal: str | None = None, scale: Number = 1,
         hours: Number | None = None, tolerance: Number = 0, units: str = 'SI', ranges: str = 'stream') -> Plant:
    """A plant from the file of its table (.xlsx, or text with separators), or from a case file; of bytes `name` is what
    the file is called. The options are those of the word `case`. `Refused` where something is not understood, or is
    ambiguous."""
    if isinstance(source, bytes) and not name:
        raise WordsError('bytes need a name, as read(content, "plant.xlsx")')
    path = name if isinstance(source, bytes) else os.fspath(source)
    content = source if isinstance(source, bytes) else read_bytes(path)
    asked = wanted_by(None if difference is None else as_text(difference), sheet, separator, decimal, as_text(scale),
                      None if hours is None else as_text(hours), as_text(tolerance))
    if is_case(content):
        options = [option for option in (difference, sheet, separator, decimal, hours) if option is not None]
        if options or asked.scale != 1 or asked.tolerance:
            raise Refused(3, '', 'a case already', 'this is a case already, in the program\'s numbers, and options are '
                          'of tables. If it is a table in °C, give it headings', path)
        own = units_of(content)
        said = f'in its own units, {own.temperature} and {own.heat}' if own else 'in tenths of °C, 10 W/K and W'
        plant = Plant(path, content.decode('utf-8', 'replace'), (f'read as a case file, {said}',))
        return plant if plant.asked_targets else plant
    pinch = Pinch()
    asked = replace(asked, own_units=units == 'table', levels=ranges == 'level')
    table = converted(pinch, TextFile(path, content), asked)
    return Plant(path, case_text(table), table.notes, pinch)
