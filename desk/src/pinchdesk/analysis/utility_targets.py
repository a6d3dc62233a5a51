"""What is asked of the utilities of a case beside its grand composite curve, and the answers together."""
from __future__ import annotations

from collections.abc import Sequence
from dataclasses import dataclass, replace
from fractions import Fraction

from ..errors import WordsError
from ..formats.case import Case, Side, completed, read_case
from ..formats.range_parts import range_parts
from ..formats.ranges import RangedUtility
from ..formats.shown import Shown
from ..program.answers import Cut, HeatFlow, Targets
from ..program.run import Pinch
from .flue_gas import FlueGas, Furnace, furnace
from .grand_curve import GrandCurve
from .heat_pump import HeatPump, PumpedHeat, pumped_heat
from .range_checks import STANDING, without_ranges
from .refrigeration import Refrigeration, refrigeration
from .steam_turbine import Cogeneration, Turbines, cogeneration


@dataclass(frozen=True)
class UtilitiesAsked:
    """What is asked, in the program's units; the efficiency of refrigeration is one of Carnot's work. None is not
    asked for."""

    ambient: Fraction
    flue: FlueGas | None = None
    pump: HeatPump | None = None
    refrigeration: Fraction | None = None
    turbines: Turbines | None = None

    @property
    def of_flow(self) -> bool:
        """Whether the uses of the utilities are needed."""
        return self.refrigeration is not None or self.turbines is not None


@dataclass(frozen=True)
class UtilityTargets:
    """The grand composite curve of a completed case with what was asked. Utilities with a range, which the case has as
    streams, are not in the curve; `ranges` are their names."""

    case: Case
    targets: Targets
    curve: GrandCurve
    asked: UtilitiesAsked
    furnace: Furnace | None
    pumped: PumpedHeat | None
    refrigeration: Refrigeration | None
    cogeneration: Cogeneration | None
    ranges: tuple[str, ...] = ()

    @property
    def shown(self) -> Shown:
        return Shown(self.case.basis)

    @property
    def estimated(self) -> bool:
        """Whether something rests on an efficiency."""
        return any(part is not None for part in (self.pumped, self.refrigeration, self.cogeneration))


def utility_targets(content: bytes, asked: UtilitiesAsked, pinch: Pinch) -> UtilityTargets | Cut:
    """What is asked of a case, or that there is no heat flow where the uses of its utilities are needed."""
    whole = completed(read_case(content))
    plant, ranges = without_ranges(whole), tuple(utility.name for utility in whole.basis.ranges)
    alone: Case | bytes = plant if ranges else content
    targets, curves = pinch.targets(alone), pinch.curves(alone)
    flow = pinch.uses(content) if asked.of_flow else None
    if isinstance(flow, Cut):
        return flow
    shown, curve = Shown(whole.basis), GrandCurve(curves.net)
    cold, turned = of_flow(whole, flow, asked, shown) if flow else (None, None)
    return UtilityTargets(plant, targets, curve, asked, furnace(curve, asked.flue, shown) if asked.flue else None,
                          pumped_heat(curve, asked.pump, shown) if asked.pump else None, cold, turned, ranges)


def of_flow(case: Case, flow: HeatFlow, asked: UtilitiesAsked,
            shown: Shown) -> tuple[Refrigeration | None, Cogeneration | None]:
    """What rests on the uses of the utilities, but those that stand in for what ones with a range leave."""
    ranges = {side: [utility for utility in case.basis.ranges if range_parts(case, utility)[0].side is side]
              for side in Side}
    own = replace(case, utilities=tuple(utility for utility in case.utilities
                                        if utility.name != STANDING[utility.side] or not ranges[utility.side]))
    if asked.refrigeration is not None:
        check_levels(case, ranges[Side.COLD], asked.ambient, shown)
    cold = None if asked.refrigeration is None \
        else refrigeration(own, flow, asked.ambient, asked.refrigeration, shown)
    return cold, None if asked.turbines is None else cogeneration(own, flow, asked.turbines, shown)


def check_levels(case: Case, ranges: Sequence[RangedUtility], ambient: Fraction, shown: Shown) -> None:
    """`WordsError` where a cold utility with a range begins below the surroundings: it has no level of its own."""
    for utility in ranges:
        begins = range_parts(case, utility)[0].supply
        if begins < ambient:
            raise WordsError(f'{utility.name} has a range of temperature from {shown.with_its_unit(begins)} on, below '
                             f'the surroundings at {shown.with_its_unit(ambient)}: the work of refrigeration is that '
                             'of levels, so make the case with --ranges level, or say with --ambient what they are')
