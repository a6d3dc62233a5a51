"""What stands at the ends of a stream in a grid diagram: its supply, and what the network really reaches there."""
from __future__ import annotations

from dataclasses import dataclass
from fractions import Fraction

from ...analysis.joined import enumerated
from ...formats.case import Side, Stream, Utility
from ...formats.shown import Shown
from ...formats.whole_streams import parts_of
from .layout import GridLayout, percent

KINK = '◇'
# Of more segments a row has the first and the last CP.
MOST_FLOWS = 3


@dataclass(frozen=True)
class DrawnEnd:
    """The texts of a row: at its left and right end, its CP, its load; `missed` where the network misses the target."""

    left: str
    right: str
    flow: str
    load: str
    missed: bool = False


def end_of(plan: GridLayout, row: Stream | Utility) -> DrawnEnd:
    shown = plan.shown
    if isinstance(row, Utility):
        duties = [exchanger.duty for exchanger in plan.followed.network.exchangers
                  if row.name in (exchanger.hot, exchanger.cold)]
        level = '' if row.invented else shown.temperature(row.level)
        ends = (level, '') if row.side is Side.HOT else ('', level)
        return DrawnEnd(*ends, '', shown.heat(sum(duties, Fraction(0))))
    reached, missed = reached_by(plan, row)
    supply = shown.temperature(row.supply)
    flows = ['latent' if part.latent else shown.flow(part.cp) for part in parts_of(row)]
    flow = ' / '.join(flows if len(flows) <= MOST_FLOWS else [flows[0], '..', flows[-1]])
    ends = (supply, reached) if row.side is Side.HOT else (reached, supply)
    return DrawnEnd(ends[0], ends[1], flow, shown.heat(row.heat), missed)


def reached_by(plan: GridLayout, stream: Stream) -> tuple[str, bool]:
    """What the network does at the end of a stream, and whether that is not what is wanted."""
    shown, target = plan.shown, plan.shown.temperature(stream.target)
    ends = plan.followed.ends[stream.name]
    if len(ends) != 1:
        return f'{len(ends) or "no"} end{"s" if len(ends) else ""}, target {target}', True
    branch = ends[0].branch
    if branch.state is None:
        return f'?, target {target}', True
    if branch.size != stream.size:
        return f'{shown.temperature(branch.temperature or 0)} of {percent(branch.size / stream.size)}', True
    wanted = Fraction(stream.target) if not stream.latent else Fraction(stream.side is Side.COLD)
    if branch.state == wanted:
        return target, False
    if stream.latent:
        done = branch.state if stream.side is Side.COLD else 1 - branch.state
        return f'{target}, {percent(done)} of its load', True
    return f'{away(branch.state, stream.target, shown)}, target {target}', True


def away(state: Fraction, target: int, shown: Shown) -> str:
    """A temperature with as many decimals as tell it from the target, up to six."""
    wanted = shown.temperature(target)
    return next((text for text in (shown.temperature(state, places) for places in range(3, 7)) if text != wanted),
                f'near {wanted}')


def reading(row: Stream | Utility, side: str) -> bool:
    """Whether a row ends on this side: `right` is the alignment of what stands left of it."""
    return (row.side is Side.COLD) == (side == 'right')


def end_texts(plan: GridLayout) -> str:
    told = f'temperatures in {plan.shown.temperature_unit}, duties in {plan.shown.heat_unit}; at a split the part of ' \
           'the stream that each branch has'
    invented = any(isinstance(row, Utility) and row.invented for row in plan.rows)
    told += '; HOT and COLD stand for a heater and a cooler of any level' if invented else ''
    return '; '.join([told, *kink_texts(plan), *plan.notes])


def kink_texts(plan: GridLayout) -> list[str]:
    """Where the CP of each stream changes."""
    kinks: dict[str, list[str]] = {}
    for kink in plan.kinks:
        kinks.setdefault(kink.stream.name, []).append(plan.shown.temperature(kink.temperature))
    unit = plan.shown.temperature_unit
    places = '; '.join(f'{name} at {enumerated(dict.fromkeys(ends))} {unit}' for name, ends in kinks.items())
    return [f'{KINK} is where the CP of a stream changes: {places}'] if places else []
