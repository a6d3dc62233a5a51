"""Audits, networks that are searched, and what is left of one that was begun: what `pinch` says of networks."""
from __future__ import annotations

from dataclasses import dataclass, field
from decimal import Decimal
from fractions import Fraction
from typing import TYPE_CHECKING

from ..analysis.findings import headline
from ..analysis.follow import Followed, PinchPoint
from ..analysis.joined import exchanger_count
from ..analysis.rest import Rest, written_case
from ..formats.case import Case, print_case
from ..formats.shown import Number, Shown
from ..program.verdicts import Accepted, Verdict
from ..report.answer_sheets import audit_sheets
from ..report.exchangers import exchangers_sheet, mixes_sheets, streams_sheets, sums_sheet
from ..report.rest_sheets import rest_sheets, rounding_notes
from ..report.sheet import Sheet
from ..search.find import FewExchangers
from .given import Written
from .plant_answer import PlantAnswer, cost, cost_if_any, kilowatts

if TYPE_CHECKING:
    from ..costs.enclosure import Enclosure
    from ..search.annual_choice import AnnualChoice


@dataclass(frozen=True)
class ExactBalance:
    """The balance of an accepted network in fractions."""

    hot_kw: Fraction
    cold_kw: Fraction
    excess_kw: Fraction
    cost: Fraction
    floor: Fraction


def balance_of(verdict: Accepted, shown: Shown) -> ExactBalance:
    return ExactBalance(shown.si.in_heat(verdict.hot), shown.si.in_heat(verdict.cold),
                        shown.si.in_heat(verdict.excess), shown.in_cost(verdict.cost), shown.in_cost(verdict.floor))


@dataclass(frozen=True, kw_only=True)
class PlantAudit(PlantAnswer):
    """What the audit says of a network; the numbers are None where it is not accepted. `headline` is what it says in a
    line; costs are in `cost_unit`."""

    exact: ExactBalance | None
    exchangers: int
    headline: str
    cost_unit: str

    @property
    def accepted(self) -> bool:
        return self.exact is not None

    @property
    def hot_kw(self) -> Decimal | None:
        return kilowatts(self.exact.hot_kw) if self.exact else None

    @property
    def cold_kw(self) -> Decimal | None:
        return kilowatts(self.exact.cold_kw) if self.exact else None

    @property
    def excess_kw(self) -> Decimal | None:
        return kilowatts(self.exact.excess_kw) if self.exact else None

    @property
    def cost(self) -> Decimal | None:
        return cost_if_any(self.exact.cost if self.exact else None)

    @property
    def floor(self) -> Decimal | None:
        return cost_if_any(self.exact.floor if self.exact else None)


def plant_audit(followed: Followed, verdict: Verdict) -> PlantAudit:
    return audited(followed, verdict, audit_sheets(followed, verdict))


def plant_table(followed: Followed, pinches: tuple[PinchPoint, ...], verdict: Verdict) -> PlantAudit:
    """The same with the exchangers, the streams and the sums as its tables."""
    return audited(followed, verdict, [exchangers_sheet(followed, pinches, verdict), *mixes_sheets(followed, verdict),
                                       *streams_sheets(followed, verdict), sums_sheet(followed)])


def audited(followed: Followed, verdict: Verdict, sheets: list[Sheet]) -> PlantAudit:
    shown = Shown(followed.case.basis)
    exact = balance_of(verdict, shown) if isinstance(verdict, Accepted) else None
    return PlantAudit(sheets=tuple(sheets), text=verdict.text, exact=exact, exchangers=exchanger_count(followed),
                      headline=headline(followed, verdict), cost_unit=shown.cost_unit)


@dataclass(frozen=True, kw_only=True)
class PlantNetwork(PlantAnswer, Written):
    """A network that was searched, and that the audit accepted: `text` is the network. `bounds` says what is known of
    fewer exchangers; costs are in `cost_unit`. `choice` is that by annual cost, None where it was not asked for."""

    exact: ExactBalance
    exchangers: int
    bounds: str
    cost_unit: str
    choice: AnnualChoice | None = field(default=None, repr=False)

    @property
    def annual_cost(self) -> Enclosure | None:
        return self.choice.costs.cost.whole if self.choice else None

    @property
    def hot_kw(self) -> Decimal:
        return kilowatts(self.exact.hot_kw)

    @property
    def cold_kw(self) -> Decimal:
        return kilowatts(self.exact.cold_kw)

    @property
    def excess_kw(self) -> Decimal:
        return kilowatts(self.exact.excess_kw)

    @property
    def cost(self) -> Decimal:
        return cost(self.exact.cost)

    @property
    def floor(self) -> Decimal:
        return cost(self.exact.floor)


def plant_network(found: FewExchangers, sheets: list[Sheet], choice: AnnualChoice | None) -> PlantNetwork:
    shown = Shown(found.basis)
    notes = (found.told, *shown.scale_remarks(), *([found.annual] if choice else []), *found.remarks())
    return PlantNetwork(sheets=tuple(sheets), notes=notes, text=found.text,
                        exact=balance_of(found.verdict, shown), exchangers=found.exchangers, bounds=found.bounds,
                        cost_unit=shown.cost_unit, choice=choice)


@dataclass(frozen=True)
class ExactRest:
    """What a network uses so far, and what the choice costs above the hot target, at least and at most."""

    hot_used_kw: Fraction
    cold_used_kw: Fraction
    excess_least_kw: Fraction
    excess_most_kw: Fraction


@dataclass(frozen=True, kw_only=True)
class PlantRest(PlantAnswer):
    """What is left of a network with open branches. `case` is that of the rest; None where nothing is left, or the
    network is rejected. `text` is it as a file. The numbers are None where the audit does not accept it."""

    exact: ExactRest | None
    case: Case | None
    good: bool

    @property
    def hot_used_kw(self) -> Decimal | None:
        return kilowatts(self.exact.hot_used_kw) if self.exact else None

    @property
    def cold_used_kw(self) -> Decimal | None:
        return kilowatts(self.exact.cold_used_kw) if self.exact else None

    @property
    def excess_least_kw(self) -> Decimal | None:
        return kilowatts(self.exact.excess_least_kw) if self.exact else None

    @property
    def excess_most_kw(self) -> Decimal | None:
        return kilowatts(self.exact.excess_most_kw) if self.exact else None


def plant_rest(rest: Rest) -> PlantRest:
    shown, case = Shown(rest.followed.case.basis), written_case(rest)
    heats: list[Number] = [rest.hot_used, rest.cold_used, *rest.excess]
    exact = ExactRest(*map(shown.si.in_heat, heats)) if isinstance(rest.verdict, Accepted) else None
    return PlantRest(sheets=tuple(rest_sheets(rest)), notes=tuple(rounding_notes(rest)), exact=exact, case=case,
                     good=rest.good, text='' if case is None else print_case(case))
