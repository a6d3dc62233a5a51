"""The streams of a grid diagram: their branches, splits and mixes, and the temperatures between exchangers."""
from __future__ import annotations

from collections.abc import Mapping

from ...analysis.follow import Branch
from ...analysis.joined import Kink
from ...formats.case import Side, Stream, Utility
from ...formats.network import End
from ..paper import Look
from ..style import COLD, FAULT, HOT
from .canvas import Canvas, utility_reach
from .courses import Node
from .lanes import drawn_branches, node_at, share_of
from .layout import percent, reach

STREAM = 1.8
# How far the marks of kinks are from the exchanger in which they are, in inches, and from each other.
FIRST, NEXT = 0.09, 0.07


def put_streams(sheet: Canvas) -> None:
    """All rows of the diagram, and the kinks of streams."""
    for row in sheet.plan.rows:
        if isinstance(row, Utility):
            put_utility(sheet, row)
        else:
            put_stream(sheet, row)
    put_kinks(sheet)


def put_kinks(sheet: Canvas) -> None:
    """A mark where the CP of a stream changes: on its line, or beside the exchanger in which it is."""
    plan = sheet.plan
    beside: dict[tuple[str, str], int] = {}
    for kink in plan.kinks:
        name, hot = kink.stream.name, kink.stream.side is Side.HOT
        if kink.exchanger:
            at = beside[name, kink.exchanger] = beside.get((name, kink.exchanger), 0) + 1
            key = ('hot' if hot else 'cold', kink.exchanger)
            # Where the stream comes from, since an arrow may stand where it goes to.
            x = plan.x(plan.columns.of[key]) + (FIRST + (at - 1) * NEXT) * (-1 if hot else 1)
            lane = passed_lane(sheet, kink)
        else:
            made, used = (plan.x(plan.columns.of[node.key]) if node else None
                          for node in node_at(plan.course, kink.branch))
            ends = reach(plan, kink.stream)
            first, last = ends if hot else (ends[1], ends[0])
            x = ((first if made is None else made) + (last if used is None else used)) / 2
            lane = plan.lanes[name].get(kink.branch, 0)
        colour = HOT if hot else COLD
        sheet.paper.points([(x, sheet.heights[name][lane])], 'D', markersize=plan.type.size * 0.45,
                           markerfacecolor='white', markeredgecolor=colour, zorder=6)


def passed_lane(sheet: Canvas, kink: Kink) -> int:
    """The lane in which a stream passes the exchanger of a kink."""
    passage = sheet.plan.followed.passage(kink.exchanger)
    side = passage.hot if kink.stream.side is Side.HOT else passage.cold
    return sheet.plan.lanes[kink.stream.name].get(side.before.name, 0) if side.before else 0


def put_utility(sheet: Canvas, row: Utility) -> None:
    y, colour = sheet.heights[row.name][0], FAULT if sheet.is_fault(row.name) else HOT if row.side is Side.HOT else COLD
    first, last = utility_reach(sheet, row)
    sheet.paper.dashed(((first, y), (last, y)), color=colour, linewidth=1.4, linestyle='--', zorder=3)


def put_stream(sheet: Canvas, stream: Stream) -> None:
    """The branches of a stream, and an arrow at its end."""
    plan, lanes = sheet.plan, sheet.plan.lanes[stream.name]
    colour = FAULT if sheet.is_fault(stream.name) else HOT if stream.side is Side.HOT else COLD
    first, last = reach(plan, stream)
    begin, finish = (first, last) if stream.side is Side.HOT else (last, first)
    ended = {statement.branch for statement in plan.followed.network.statements if isinstance(statement, End)}
    for name in drawn_branches(plan.course, lanes):
        branch, y = plan.followed.branches[name], sheet.heights[stream.name][lanes[name]]
        made, used = node_at(plan.course, name)
        x = begin if made is None else column(sheet, made)
        if used is not None:
            u = column(sheet, used)
        else:
            u = finish if name in ended else x + (0.6 if stream.side is Side.HOT else -0.6) * plan.type.pitch
        sheet.paper.line(((x, y), (u, y)), Look(colour, STREAM, 3, 'round'))
        if name in ended:
            tip = '>' if stream.side is Side.HOT else '<'
            sheet.paper.points([(u, y)], tip, markersize=6, color=colour, zorder=5)
        put_state(sheet, branch, made, x, y, name in ended)
    put_joints(sheet, stream, lanes, colour)


def column(sheet: Canvas, node: Node) -> float:
    return sheet.plan.x(sheet.plan.columns.of[node.key])


def put_state(sheet: Canvas, branch: Branch, made: Node | None, x: float, y: float, ended: bool) -> None:
    """Behind an exchanger or a mix the temperature, behind a split the share of the stream."""
    plan, way = sheet.plan, 1 if branch.stream.side is Side.HOT else -1
    style = {'rotation': 90.0} if plan.type.upright else {}
    far = plan.type.number / 2 + 0.05 if plan.type.upright else plan.type.line * 0.72
    if made is None:
        return
    if made.key[0] == 'split':
        text = percent(share_of(plan.followed, branch.name), 2 - plan.type.places)
        far = far if plan.type.upright else -far
        sheet.write(x + way * plan.type.pitch / 2, y + far, text, fontsize=plan.type.size - 1, color='#555555', **style)
    elif not ended and not branch.stream.latent:
        text = '?' if branch.temperature is None else plan.shown.temperature(branch.temperature, 2 - plan.type.places)
        sheet.write(x + way * plan.type.pitch / 2, y + far, text, fontsize=plan.type.size - 0.5, color='#444444',
                    **style)


def put_joints(sheet: Canvas, stream: Stream, lanes: Mapping[str, int], colour: str) -> None:
    """The upright line at each split and mix, from the first to the last of its lanes."""
    course = sheet.plan.course
    drawn = drawn_branches(course, lanes)
    for node in course.nodes.values():
        if node.exchanger or node.stream.name != stream.name:
            continue
        joined_lanes = [lanes[name] for name in drawn if node in (course.made.get(name), course.used.get(name))]
        x, heights = column(sheet, node), [sheet.heights[stream.name][lane] for lane in joined_lanes]
        if heights:
            sheet.paper.line(((x, min(heights)), (x, max(heights))), Look(colour, STREAM, 3, 'projecting'))
