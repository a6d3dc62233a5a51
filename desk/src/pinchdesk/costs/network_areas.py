"""Areas of the exchangers of a network, beside the target at its own uses of the utilities (what they cost is in
`network_costs`).

Only an accepted network has them. A utility that the case has at one level, and a comment with its real ends, is taken
with these: where an exchanger then comes closer than its approach, that is said beside the verdict."""
from __future__ import annotations

from collections.abc import Iterator, Sequence
from dataclasses import dataclass
from fractions import Fraction
from functools import cached_property

from ..analysis.findings import headline
from ..analysis.follow import Followed, Passage, SideState, follow
from ..analysis.joined import joined
from ..errors import DeskError, Refused
from ..formats.case import Case, Side, Utility, completed, read_case
from ..formats.cost_rows import Build, Flow, Service
from ..formats.network import Network, read_network
from ..formats.shown import Shown, decimal
from ..program.run import CaseText, NetworkText, Pinch
from ..program.verdicts import Accepted, Rejected, TooFine, ending
from .annual import at_most
from .area_target import AreaTarget, area_target
from .cost_data import CostData, EndTemperatures, refused_exchanger
from .enclosure import Enclosure, enclosed, total
from .log_mean import log_mean
from .shells import Duty, corrections, shells_of, whole_shells


# An exchanger that needs more 1-2 shells in series is refused.
MOST_SHELLS = 1000


class NoAreas(DeskError):
    """The network is not accepted: what is said of it, and its verdict."""

    def __init__(self, told: str, verdict: Rejected | TooFine) -> None:
        super().__init__(f'the network is {told}: only an accepted one has areas')
        self.status, self.no = ending([verdict])


@dataclass(frozen=True)
class ApproachFault:
    """An exchanger that comes closer than its approach once its utilities have their real ends: in K."""

    exchanger: str
    end: str
    found: Fraction
    wanted: Fraction
    shown: Shown = Shown()

    def __str__(self) -> str:
        found, wanted = (f'{self.shown.kelvin(number)} {self.shown.difference_unit}'
                         for number in (self.found, self.wanted))
        return f'exchanger {self.exchanger}: at its {self.end} end the difference is {found} with the real ends of ' \
               f'its utility, and {wanted} are needed'


@dataclass(frozen=True)
class ExchangerArea:
    """An exchanger with its area in m². `duty` is in W of the plant, `coefficient` in W/(m² K), `mean` in K; `factor`
    is Ft, 1 where the flow is counter-current or a side is flat. Where streams are in segments it may have several
    parts; its area is the sum of theirs, and the coefficient is None where they have several."""

    name: str
    service: Service
    ends: Duty
    duty: Fraction
    coefficient: Fraction | None
    mean: Enclosure
    factor: Enclosure
    shells: int
    area: Enclosure


@dataclass(frozen=True)
class NetworkAreas:
    """The exchangers of an accepted network, in their order, with their sum; `target` is the formula's area at the uses
    of this network, None where the case has no coefficients for it."""

    data: CostData
    verdict: Accepted
    exchangers: tuple[ExchangerArea, ...]
    target: AreaTarget | None
    faults: tuple[ApproachFault, ...]

    @cached_property
    def area(self) -> Enclosure:
        return total(exchanger.area for exchanger in self.exchangers)

    @property
    def shells(self) -> int:
        return sum(exchanger.shells for exchanger in self.exchangers)

    @property
    def efficiency(self) -> Enclosure | None:
        """The target's area over that of the network, at the same uses."""
        return self.target.area / self.area if self.target else None


def network_areas(case: CaseText, network: NetworkText, pinch: Pinch | None = None) -> NetworkAreas:
    """The areas of a network; `NoAreas` where it is not accepted, `Refused` where something is missing that they
    need."""
    whole = completed(case if isinstance(case, Case) else read_case(case))
    followed, verdict = accepted_network(pinch or Pinch(), whole, network)
    return areas_of(CostData(whole), passages_of(followed), verdict)


def asked_duties(pinch: Pinch, case: Case, network: NetworkText) -> dict[str, Duty]:
    """The ends of the exchangers of an accepted network by their names; `NoAreas` where it is not accepted."""
    followed, _ = accepted_network(pinch, case, network)
    return duties_of(CostData(case), followed.passages)


def accepted_network(pinch: Pinch, case: Case, network: NetworkText) -> tuple[Followed, Accepted]:
    """A network of a completed case, followed, with its verdict; `NoAreas` where that is not that it is accepted."""
    statements = network if isinstance(network, Network) else read_network(network)
    verdict, followed = pinch.audit(case, statements), follow(case, statements)
    if not isinstance(verdict, Accepted):
        raise NoAreas(headline(followed, verdict), verdict)
    return followed, verdict


def passages_of(followed: Followed) -> tuple[Passage, ...]:
    """The exchangers as the plant has them: one that goes on across a kink of a stream in segments is one."""
    return joined(followed).followed.passages


def areas_of(data: CostData, passages: Sequence[Passage], verdict: Accepted) -> NetworkAreas:
    """The areas of the exchangers of an accepted network."""
    exchangers = tuple(exchanger_area(data, passage) for passage in passages)
    return NetworkAreas(data, verdict, exchangers, target_beside(data, passages), faults_of(data, passages))


def duties_of(data: CostData, passages: Sequence[Passage]) -> dict[str, Duty]:
    """The ends of exchangers by their names."""
    return {passage.exchanger.name: duty_of(data, passage) for passage in passages}


def duty_of(data: CostData, passage: Passage) -> Duty:
    return Duty(side_ends(data, passage.hot), side_ends(data, passage.cold))


def side_ends(data: CostData, side: SideState, shares: tuple[Fraction, Fraction] = (Fraction(0), Fraction(1)),
              ) -> EndTemperatures:
    """Where a side enters and leaves, of a utility with real ends between these shares of its duty, from the hot end
    on."""
    if isinstance(side.source, Utility):
        ends = data.ends(side.source)
        high, low = (ends.high - share * (ends.high - ends.low) for share in shares)
        return EndTemperatures(high, low) if side.source.side is Side.HOT else EndTemperatures(low, high)
    assert side.inlet is not None and side.outlet is not None
    return EndTemperatures(data.tenths(side.inlet), data.tenths(side.outlet))


def differences(duty: Duty) -> tuple[tuple[str, Fraction], tuple[str, Fraction]]:
    """The differences at the hot and at the cold end, in K."""
    return (('hot', (duty.hot.inlet - duty.cold.outlet) / 10), ('cold', (duty.hot.outlet - duty.cold.inlet) / 10))


def faults_of(data: CostData, passages: Sequence[Passage]) -> tuple[ApproachFault, ...]:
    return tuple(fault for passage in passages for fault in approach_faults(data, passage))


def approach_faults(data: CostData, passage: Passage) -> Iterator[ApproachFault]:
    """Where the real ends of a utility come closer than the approach."""
    wanted = data.kelvins(passage.approach)
    if any(side.source.name in data.ranges for side in (passage.hot, passage.cold)):
        for duty in part_duties(data, passage):
            for end, found in differences(duty):
                if found < wanted:
                    yield ApproachFault(passage.exchanger.name, end, found, wanted, Shown(data.case.basis))


def part_duties(data: CostData, passage: Passage) -> Iterator[Duty]:
    """The ends of the parts of an exchanger, from its hot end on; a utility with real ends runs through all of them."""
    done, whole = Fraction(0), passage.exchanger.duty
    for part in passage.parts:
        shares = done / whole, (done + part.exchanger.duty) / whole
        yield Duty(side_ends(data, part.hot, shares), side_ends(data, part.cold, shares))
        done += part.exchanger.duty


@dataclass(frozen=True)
class PartOfArea:
    """An exchanger, or a part of it between two kinks: its heat in W, its ends, U in W/(m² K), its mean in K."""

    heat: Fraction
    ends: Duty
    coefficient: Fraction
    mean: Enclosure

    @property
    def counter_current(self) -> Enclosure:
        """Its area in m² where the flow is counter-current."""
        return self.heat / (self.coefficient * self.mean)


def exchanger_area(data: CostData, passage: Passage, warmer: int = 0, at_least: int = 1) -> ExchangerArea:
    """An exchanger with its area. `warmer` is by how many K both differences are taken larger, `at_least` how many 1-2
    shells it has at least."""
    name, service = passage.exchanger.name, service_of(data, passage)
    parts = [part_of_area(data, name, part, duty, warmer)
             for part, duty in zip(passage.parts, part_duties(data, passage))]
    build = data.build(service)
    if build.flow is Flow.ONE_TWO:
        shells, factors = in_series(build, name, parts, at_least)
    else:
        shells, factors = at_most(build, total(part.counter_current for part in parts)), [enclosed(1)] * len(parts)
    heat, area = sum((part.heat for part in parts), Fraction(0)), area_with(parts, factors)
    coefficients = {part.coefficient for part in parts}
    mean, factor = parts[0].mean, factors[0]
    if len(parts) > 1:
        mean = heat / total(part.heat / part.mean for part in parts)
        factor = total(part.counter_current for part in parts) / area
    return ExchangerArea(name, service, duty_of(data, passage), heat, coefficients.pop() if len(coefficients) == 1
                         else None, mean, factor, shells, area)


def part_of_area(data: CostData, name: str, passage: Passage, duty: Duty, warmer: int) -> PartOfArea:
    """A part of an exchanger, or the whole of it; `name` is that of the whole."""
    for end, found in differences(duty):
        if found <= 0:
            ranged = any(side.source.name in data.ranges for side in (passage.hot, passage.cold))
            real, or_other = (' with the real ends of its utility', ', or other real ends') if ranged else ('', '')
            raise refused_exchanger(name, f'at its {end} end the difference is {decimal(found, 2)} K{real}: no area is '
                                    f'large enough. It needs a smaller duty{or_other}')
    wide = Duty(EndTemperatures(duty.hot.inlet + 10 * warmer, duty.hot.outlet + 10 * warmer), duty.cold)
    return PartOfArea(data.watts(passage.exchanger.duty), wide,
                      data.coefficient(passage.hot.source, passage.cold.source),
                      log_mean(*(difference for _, difference in differences(wide))))


def area_with(parts: Sequence[PartOfArea], factors: Sequence[Enclosure]) -> Enclosure:
    """The area of an exchanger in m² with these Ft of its parts."""
    return total(part.counter_current / factor for part, factor in zip(parts, factors))


def in_series(build: Build, name: str, parts: Sequence[PartOfArea],
              at_least: int) -> tuple[int, Sequence[Enclosure]]:
    """The least number of 1-2 shells in series of which none is larger than the most, with Ft of each part."""
    assert build.part is not None
    shells = max(at_least, whole_shells(total(shells_of(part.ends, build.part) for part in parts)))
    factors = corrections([part.ends for part in parts], build.part, shells) if shells <= MOST_SHELLS else None
    if factors is None:
        raise refused_exchanger(name, f'{shells} shells of 1-2 flow cannot do its duty: build it counter-current by a '
                                'row `#build`, or with a larger X')
    enough = at_most(build, area_with(parts, factors))
    return series_of(build, parts, shells, enough) if shells < enough else (shells, factors)


def series_of(build: Build, parts: Sequence[PartOfArea], shells: int, enough: int) -> tuple[int, Sequence[Enclosure]]:
    """The least number between two, found by halving, since more shells in series have less area."""
    while shells < enough:
        middle = (shells + enough) // 2
        if at_most(build, area_with(parts, factors_of(build, parts, middle))) <= middle:
            enough = middle
        else:
            shells = middle + 1
    return shells, factors_of(build, parts, shells)


def factors_of(build: Build, parts: Sequence[PartOfArea], shells: int) -> list[Enclosure]:
    """Ft of the parts of an exchanger of so many shells, which can do its duty."""
    assert build.part is not None
    factors = corrections([part.ends for part in parts], build.part, shells)
    assert factors is not None
    return factors


def service_of(data: CostData, passage: Passage) -> Service:
    """What an exchanger does; a stream that is a utility with a range is a utility."""
    if is_utility(data, passage.hot):
        return Service.HEATER
    return Service.COOLER if is_utility(data, passage.cold) else Service.EXCHANGER


def is_utility(data: CostData, side: SideState) -> bool:
    return isinstance(side.source, Utility) or bool(data.ranged.intersection(data.names_of(side.source)))


def uses_in(passages: Sequence[Passage]) -> dict[str, Fraction]:
    """What these exchangers have of each utility, in W of the case."""
    uses: dict[str, Fraction] = {}
    for passage in passages:
        for side in (passage.hot, passage.cold):
            if isinstance(side.source, Utility):
                name = side.source.name
                uses[name] = uses.get(name, Fraction(0)) + passage.exchanger.duty
    return uses


def target_beside(data: CostData, passages: Sequence[Passage]) -> AreaTarget | None:
    """The formula's area at the uses of these exchangers; None where a coefficient that it needs is not given, or where
    the real ends of a utility make the curves touch."""
    try:
        return area_target(data, uses_in(passages))
    except Refused:
        return None
