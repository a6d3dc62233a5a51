"""The grid diagram of a network (Linnhoff and Flower 1978): hot streams above from left to right, cold ones below from
right to left, a bar for each exchanger, each pinch, and what the network really does at each end."""
from __future__ import annotations

import textwrap
from matplotlib.figure import Figure

from ...analysis.findings import Finding, finding_of
from ...analysis.follow import Followed, Passage, PinchPoint, PinchSide
from ...analysis.joined import joined
from ...analysis.unfinished import open_exchangers, unfinished_told
from ...errors import WordsError
from ...formats.case import Side, Utility
from ...formats.shown import Shown
from ...program.verdicts import Accepted, Rejected, Verdict
from ..paper import Look, Paper
from ..style import ABOVE, ACROSS, BELOW, BETWEEN, FAULT, INK, NEUTRAL, PALE, styled
from ..text_widths import width
from .canvas import Canvas, ends_at
from .end_numbers import margins, put_numbers
from .ends import end_texts
from .layout import PinchText, GridLayout, lane_heights, pinch_texts, plan_of
from .streams import put_streams

# How many exchangers have room; the order of their bars among what lies above and below them; the room around texts.
MOST, BARS, PAD = 60, 4, 0.034
LEGEND = ((ABOVE, 'above the pinch'), (BETWEEN, 'between pinches'), (BELOW, 'below the pinch'),
          (ACROSS, 'on both sides of a pinch (↯ {heat} that cross it)'))


def grid_figure(followed: Followed, pinches: tuple[PinchPoint, ...], verdict: Verdict, most: int = MOST) -> Figure:
    """The diagram of a network that was followed, with what the audit said of it. `WordsError` where it has more
    exchangers than can be read on a sheet of A3."""
    plant = joined(followed)
    count = len(plant.followed.passages)
    if count > most:
        raise WordsError(f'the network has {count} exchangers, and a grid diagram can be read up to {most}: '
                         '`pinchdesk table` lists them')
    plan = plan_of(plant.followed, pinches, plant.kinks, plant.notes)
    finding = plant.finding(finding_of(followed, verdict, plan.shown)) if isinstance(verdict, Rejected) else None
    heights, labels, slants, deep = lane_heights(plan)
    numbers = margins(plan)
    title = headline(followed, verdict, finding, plan)
    wide = max(plan.edges[1] + numbers[-1], 7.0)
    notes = textwrap.wrap(end_texts(plan), int(wide / 0.068))
    pinched = pinch_texts(plan, wide)
    levels = max((pinch_text.level for pinch_text in pinched), default=0)
    top, bottom = 0.34 + 0.17 * len(title) + 0.35 + 0.15 * levels, 0.5 + 0.14 * len(notes)
    high = deep + top + bottom
    with styled():
        heights = {name: [high - top - depth for depth in depths] for name, depths in heights.items()}
        sheet = Canvas(Paper(wide, high), plan, heights, high - top - labels, high - top - slants, finding, verdict)
        put_title(sheet, title, high)
        put_pinches(sheet, pinched, high - top, bottom)
        put_exchangers(sheet)
        put_streams(sheet)
        put_numbers(sheet, numbers, high - top)
        put_legend(sheet, notes)
        return sheet.paper.done()


def headline(followed: Followed, verdict: Verdict, finding: Finding | None, plan: GridLayout) -> list[str]:
    """What the audit said, in lines that the picture holds."""
    shown = Shown(followed.case.basis)
    if isinstance(verdict, Accepted):
        unfinished = unfinished_told(followed)
        begun = f'{unfinished[0].upper()}{unfinished[1:]}; with utilities there' if unfinished else 'Accepted'
        hot, cold, excess = (f'{shown.heat(heat)} {shown.heat_unit}'
                             for heat in (verdict.hot, verdict.cold, verdict.excess))
        told = f'{begun}: hot utility {hot}, cold utility {cold}, excess {excess}'
    elif finding:
        told = f'Rejected at {finding.place}: {finding.sentence}'
    else:
        told = f'Too fine at {verdict.place}: nothing is said about the network'
    room = max(plan.x(plan.columns.count) + 1, 6.6)
    return textwrap.wrap(told, int(room / 0.086)) or ['']


def put_title(sheet: Canvas, lines: list[str], high: float) -> None:
    colour = INK if isinstance(sheet.verdict, Accepted) else FAULT
    for at, line in enumerate(lines):
        sheet.write(0.25, high - 0.24 - 0.17 * at, line, fontsize=10, ha='left', color=colour, fontweight='bold')


def put_pinches(sheet: Canvas, texts: list[PinchText], top: float, bottom: float) -> None:
    """A line at each pinch, a band where exchangers work across it; its temperature on both scales above it."""
    plan = sheet.plan
    for at, pinch_text in enumerate(texts):
        first, last = plan.columns.pinches[at]
        if last > first:
            sheet.paper.band(plan.x(first - 0.5), plan.x(last + 0.5), bottom, top + 0.03, '#eeeeee')
        x, y = plan.pinch_x(at), top + 0.12 + 0.15 * pinch_text.level
        sheet.paper.dashed(((x, bottom), (x, y - 0.08)), color=PALE, linestyle=(0, (6, 4)), linewidth=1, zorder=1)
        sheet.bars.append((x, bottom, top))
        sheet.paper.ground(pinch_text.middle, y, width(pinch_text.text, pinch_text.size) + PAD, 0.14)
        sheet.write(pinch_text.middle, y, pinch_text.text, color=PALE, fontsize=pinch_text.size)


def colour_of(passage: Passage, pinches: tuple[PinchPoint, ...]) -> str:
    """The colour of an exchanger by its side of the pinches."""
    sides = {passage.side_of(pinch) for pinch in pinches}
    if not sides or None in sides:
        return NEUTRAL
    if PinchSide.ACROSS in sides:
        return ACROSS
    return BETWEEN if len(sides) > 1 else ABOVE if sides == {PinchSide.ABOVE} else BELOW


def put_exchangers(sheet: Canvas) -> None:
    """The bar of each exchanger with a circle at both ends, its name, duty, and what it carries across; one that
    stands for what is still open is dashed."""
    left = open_names(sheet.plan)
    circles: dict[tuple[str, str, float], list[tuple[float, float]]] = {}
    for passage in sheet.plan.followed.passages:
        (x, y), (u, v) = ends_at(sheet, passage)
        colour = colour_of(passage, sheet.plan.pinches)
        bad = bool(sheet.finding and sheet.finding.exchanger == passage.exchanger.name)
        ink, weight = (FAULT, 2.4) if bad else (colour, 1.2)
        bend = [y, v] if x == u else [y, sheet.slants + 0.12, sheet.slants - 0.12, v]
        across = [x, u] if x == u else [x, x, u, u]
        sheet.paper.line(tuple(zip(across, bend)), Look(ink, weight, BARS, is_dashed=passage.exchanger.name in left))
        sheet.bars += [(across[at], bend[at], bend[at + 1]) for at in range(0, len(bend), 2)]
        for at, source in (((x, y), passage.hot.source), ((u, v), passage.cold.source)):
            heated = '#f5b7b1' if source.side is Side.HOT else '#aed6f1'
            fill = heated if isinstance(source, Utility) else 'white'
            circles.setdefault((fill, ink, weight), []).append(at)
        put_label(sheet, passage.exchanger.name, x, ink, bad)
    for (fill, ink, weight), centres in circles.items():
        sheet.paper.points(centres, 'o', markersize=sheet.plan.type.size * 0.8, markerfacecolor=fill,
                           markeredgecolor=ink, markeredgewidth=weight, zorder=6)


def open_names(plan: GridLayout) -> set[str]:
    """The exchangers that stand for what is not served yet."""
    followed = plan.followed
    return {exchanger.name for exchanger in open_exchangers(followed.case, followed.network.exchangers)}


def put_label(sheet: Canvas, name: str, x: float, ink: str, bad: bool) -> None:
    """The name of an exchanger and its duties on its bar, which is broken there."""
    lines, upright, size = sheet.plan.labels[name], sheet.plan.type.upright, sheet.plan.type.size
    lines = ('   '.join(lines),) if upright else lines
    wide, high = max(width(line, size, True) for line in lines) + PAD, len(lines) * size * 1.36 / 72 + PAD
    box = (x, sheet.labels, high, wide) if upright else (x, sheet.labels, wide, high)
    sheet.paper.ground(*box)
    if bad:
        sheet.paper.frame(*box, FAULT)
    sheet.write(x, sheet.labels, '\n'.join(lines), rotation=90 if upright else 0, color=ink, linespacing=1.15,
                fontweight='bold', zorder=7)


def put_legend(sheet: Canvas, notes: list[str]) -> None:
    """What the colours say, where there is a pinch, and the units."""
    plan, x, y = sheet.plan, 0.25, 0.22 + 0.14 * len(notes)
    used = {colour_of(passage, plan.pinches) for passage in plan.followed.passages}
    looks = [(Look(colour, 2, 2, 'projecting'), text) for colour, text in LEGEND if colour in used]
    looks += [(Look(NEUTRAL, 1.2, 2, is_dashed=True), 'still open')] if open_names(plan) else []
    for look, text in looks:
        sheet.paper.line(((x, y), (x + 0.25, y)), look)
        sheet.write(x + 0.32, y, text, ha='left', fontsize=7.5)
        x += 0.55 + width(text, 7.5)
    for at, line in enumerate(notes):
        sheet.write(0.25, y - 0.17 - 0.14 * at, line, ha='left', fontsize=7.5, color=PALE)
