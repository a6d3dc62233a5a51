"""The grid of a plan as the page shows it: the layout of the grid diagram in columns and lanes, with open pieces in
their places."""
from __future__ import annotations

from collections.abc import Mapping, Sequence
from dataclasses import dataclass, field
from fractions import Fraction
from itertools import pairwise

from ..analysis.follow import Followed, PinchPoint, PinchSide, follow
from ..analysis.pinch_places import temperatures_at
from ..figures.grid.columns import Columns, Tracks, columns_of
from ..figures.grid.courses import Course, Key, Node, course_of
from ..figures.grid.lanes import count_of, drawn_branches, lanes_of, node_at, share_of, stream_columns
from ..formats.case import Side, Stream, Utility
from ..formats.network import End, Network
from ..formats.shown import Shown, decimal
from ..formats.whole_streams import parts_of, whole_name, whole_streams
from .gestures import joint_names
from .network_lines import TextLayout, LineWriter
from .pieces import HandPlan, reaches, side_at, utilities_for
from .view import BranchLine, ExchangerBar, GridPicture, GridRow, JointLine, OpenPill, PinchLine


@dataclass(frozen=True)
class Lines:
    """Where everything stands: columns, the lanes of each stream, from where to where it goes, and the first line of
    each row, from the top. The segments of a stream are one behind the other in one row."""

    plan: HandPlan
    followed: Followed
    pinches: tuple[PinchPoint, ...]
    course: Course
    columns: Columns
    lanes: Mapping[str, Mapping[str, int]]
    rows: Sequence[Stream | Utility]
    reach: Mapping[str, tuple[float, float]]
    tops: Mapping[str, int]
    band: int
    count: int
    faults: Mapping[str, str]
    # Where each exchanger works, once it was asked for.
    places: dict[str, tuple[str, str]] = field(default_factory=dict)

    @property
    def shown(self) -> Shown:
        return Shown(self.plan.case.basis)

    def line(self, stream: str, branch: str) -> int:
        return self.tops[stream] + self.lanes[stream].get(branch, 0)

    def column(self, node: Node) -> float:
        return float(self.columns.of[node.key])


def laid_out(plan: HandPlan, layout: TextLayout, pinches: tuple[PinchPoint, ...], faults: Mapping[str, str]) -> Lines:
    """The layout of a plan that is cut at its pinches."""
    followed = follow(plan.case, Network(tuple(LineWriter(plan, layout).written())))
    hot, cold = (sources_of(plan, side) for side in Side)
    rows = [*hot, *cold]
    tracks = {part.name: at if at < len(hot) else at + 2 for at, row in enumerate(rows) for part in parts_in(row)}
    course = course_of(followed, pinches)
    ends = chained(plan, followed, course)
    columns = columns_of(followed, course, Tracks(tracks, len(hot), frozenset(plan.open)), len(pinches))
    lanes = {stream.name: lanes_of(followed, course, columns, stream) for stream in plan.case.streams}
    tops: dict[str, int] = {}
    line = 0
    for at, row in enumerate(rows):
        line += at == len(hot)
        tops |= {part.name: line for part in (row, *parts_in(row))}
        line += max(count_of(lanes.get(part.name, {})) for part in parts_in(row))
    band = tops[cold[0].name] - 1 if cold else line
    reach = {name: end for row in rows if isinstance(row, Stream)
             for name, end in reaches_of(row, course, columns, pinches, ends).items()}
    return Lines(plan, followed, pinches, course, columns, lanes, rows, reach, tops, band, line, faults)


def parts_in(row: Stream | Utility) -> tuple[Stream | Utility, ...]:
    """The sources of the program in a row."""
    if isinstance(row, Utility):
        return (row,)
    return parts_of(row)


def chained(plan: HandPlan, followed: Followed, course: Course) -> dict[str, tuple[Node, Node]]:
    """Puts each segment of a stream behind the one before it. By the name of a segment that another one follows, where
    it ends and where that begins."""
    last = {followed.branches[statement.branch].stream.name: course.made.get(statement.branch)
            for statement in followed.network.statements if isinstance(statement, End)}
    found: dict[str, tuple[Node, Node]] = {}
    for whole in whole_streams(plan.case):
        for one, other in pairwise(parts_of(whole)):
            before, behind = last.get(one.name), course.used.get(other.name)
            if before is not None and behind is not None:
                behind.behind.append(before)
                found[one.name] = before, behind
    return found


def reaches_of(row: Stream, course: Course, columns: Columns, pinches: tuple[PinchPoint, ...],
               ends: Mapping[str, tuple[Node, Node]]) -> dict[str, tuple[float, float]]:
    """From which to which column a stream and each of its segments goes, in its direction."""
    parts = parts_of(row)
    spans = {part.name: stream_columns(course, columns, pinches, part) for part in parts}
    left, right = min(span[0] for span in spans.values()), max(span[1] for span in spans.values())
    first, last = (left, right) if row.side is Side.HOT else (right, left)
    kinks = [sum(columns.of[node.key] for node in ends[part.name]) / 2 for part in parts if part.name in ends]
    marks = [first, *kinks, last] if len(kinks) == len(parts) - 1 else [first, *[last] * len(parts)]
    return {row.name: (first, last)} | {part.name: span for part, span in zip(parts, pairwise(marks))}


def sources_of(plan: HandPlan, side: Side) -> list[Stream | Utility]:
    """The rows of a side from the top: utilities stand outside."""
    streams: list[Stream | Utility] = [stream for stream in whole_streams(plan.case) if stream.side is side]
    utilities: list[Stream | Utility] = [utility for utility in plan.case.utilities if utility.side is side]
    return [*utilities, *streams] if side is Side.HOT else [*streams, *utilities]


def grid_picture(lines: Lines) -> GridPicture:
    rows = tuple(row_of(lines, row) for row in lines.rows)
    drawn = tuple(line for stream in lines.plan.case.streams for line in lines_of(lines, stream))
    exchangers = tuple(bar_of(lines, name) for name in lines.plan.placed)
    pieces = tuple(pill_of(lines, name) for name in lines.plan.open)
    return GridPicture(lines.columns.count, lines.count, lines.band, rows, drawn, joints_of(lines), exchangers, pieces,
                       pinch_lines(lines))


def row_of(lines: Lines, source: Stream | Utility) -> GridRow:
    """A stream with its ends, or a utility with what it gives or takes."""
    shown, side, top = lines.shown, source.side.value, lines.tops[source.name]
    if isinstance(source, Utility):
        used = lines.plan.used(True)[source.name]
        heat = f'{shown.heat(used)} {shown.heat_unit}' if used else ''
        level = '' if source.invented else f'{shown.temperature(source.level)} {shown.temperature_unit}'
        kind = 'hot' if source.side is Side.HOT else 'cold'
        text = ', '.join(part for part in (f'{kind} utility {source.name}', level, heat or 'not used') if part)
        return GridRow(source.name, 'utility', side, top, 1, -0.75, lines.columns.count - 0.25, '', heat, level, text)
    begin, end = sorted(lines.reach[source.name])
    supply, target = shown.temperature(source.supply), shown.temperature(source.target)
    hot = source.side is Side.HOT
    parts = parts_of(source)
    detail = f'{len(parts)} segments' if len(parts) > 1 else \
        f'{shown.heat(source.load)} {shown.heat_unit}' if source.latent else f'CP {shown.flow(source.cp)}'
    unit = shown.temperature_unit
    text = f'{side} stream {source.name}, {supply} to {target} {unit}, {detail}, ' \
           f'{shown.heat(source.heat)} {shown.heat_unit}'
    count = max(count_of(lines.lanes[part.name]) for part in parts)
    return GridRow(source.name, 'stream', side, top, count, begin, end, supply if hot else target,
                   target if hot else supply, detail, text)


def lines_of(lines: Lines, stream: Stream) -> list[BranchLine]:
    """The branches of a stream from node to node; its own name stands for where it begins."""
    first, last = lines.reach[stream.name]
    row = whole_name(lines.plan.case, stream.name)
    is_last = lines.reach[row][1] == last
    ended = {statement.branch for statement in lines.followed.network.statements if isinstance(statement, End)}
    made: list[BranchLine] = []
    for name in drawn_branches(lines.course, lines.lanes[stream.name]):
        start, stop = node_at(lines.course, name)
        x = first if start is None else lines.column(start)
        until = last if stop is None else lines.column(stop)
        label, kind = label_of(lines, name, start, name in ended)
        left, right = min(x, until), max(x, until)
        made.append(BranchLine(row, name, lines.line(stream.name, name), left, right, name in ended and is_last, label,
                               x + (0.5 if stream.side is Side.HOT else -0.5), kind))
    return made


def label_of(lines: Lines, name: str, start: Node | None, ended: bool) -> tuple[str, str]:
    """Behind an exchanger or a mix the temperature, behind a split the share of the stream."""
    if start is None:
        return '', ''
    if start.key[0] == 'split':
        return decimal(share_of(lines.followed, name) * 100, 2) + ' %', 'share'
    branch = lines.followed.branches[name]
    if ended or branch.stream.latent or branch.temperature is None:
        return '', ''
    return lines.shown.temperature(branch.temperature), 'temperature'


def joints_of(lines: Lines) -> tuple[JointLine, ...]:
    """The upright lines of splits and mixes; both of one parting have its name."""
    made: list[JointLine] = []
    named, heights = joint_names(lines.plan), heights_of(lines)
    names = {stream.name: [joint for joint, (name, _) in named.items() if name == stream.name]
             for stream in lines.plan.case.streams}
    partings = {joint: parting for joint, (_, parting) in named.items()}
    nodes = [node for node in lines.course.nodes.values() if not node.exchanger]
    same: dict[tuple[str, str], list[Node]] = {}
    for node in nodes:
        same.setdefault((node.key[0], node.stream.name), []).append(node)
    for node in nodes:
        stream = node.stream.name
        joint = joint_at(node, same[node.key[0], stream], names[stream])
        shares = tuple(decimal(lane.share * 100, 2) for lane in partings[joint].lanes) if joint else ()
        if node.key in heights:
            row, beside = whole_name(lines.plan.case, stream), heights[node.key]
            made.append(JointLine(joint, row, lines.column(node), min(beside), max(beside), shares))
    return tuple(made)


def heights_of(lines: Lines) -> dict[Key, list[int]]:
    """The lines of the branches that begin or end at each node."""
    found: dict[Key, list[int]] = {}
    for stream, lanes in lines.lanes.items():
        for name in drawn_branches(lines.course, lanes):
            for node in node_at(lines.course, name):
                if node is not None:
                    found.setdefault(node.key, []).append(lines.line(stream, name))
    return found


def joint_at(node: Node, same: Sequence[Node], joints: Sequence[str]) -> str:
    """The name of the parting that begins or ends at a node: splits in their order have the partings in theirs."""
    at = next(at for at, other in enumerate(same) if other is node)
    return joints[at] if len(same) == len(joints) else ''


def bar_of(lines: Lines, name: str) -> ExchangerBar:
    """An exchanger with both of its ends; at a utility it stands on the row of that."""
    plan, shown = lines.plan, lines.shown
    hot, cold = plan.pairs[name]
    (hot_x, hot_y), (cold_x, cold_y) = (end_at(lines, name, side) for side in Side)
    kind = 'heater' if hot in plan.utilities else 'cooler' if cold in plan.utilities else 'match'
    where, carried = place_of(lines, name)
    way = 'up across' if carried.startswith('-') else 'down across'
    duty = shown.heat(plan.duties[name])
    fault = lines.faults.get(name, '')
    text = ', '.join(part for part in (
        f'{"exchanger" if kind == "match" else kind} {name}', f'{hot} to {cold}', f'{duty} {shown.heat_unit}',
        words_for(where), f'carries {carried.removeprefix("-")} {shown.heat_unit} {way} it' if carried else '', fault)
        if part)
    return ExchangerBar(name, kind, hot, cold, duty, hot_x, hot_y, cold_x, cold_y, where, carried, fault, text)


def words_for(where: str) -> str:
    return {'above': 'above the pinch', 'below': 'below the pinch', 'across': 'across the pinch'}.get(where, '')


def place_of(lines: Lines, name: str) -> tuple[str, str]:
    """The side of the pinches, and the most that is carried down across one."""
    if name not in lines.places:
        lines.places[name] = placed_at(lines, name)
    return lines.places[name]


def placed_at(lines: Lines, name: str) -> tuple[str, str]:
    passage = lines.followed.passage(name)
    sides: set[PinchSide] = set()
    heats: list[Fraction] = []
    for pinch in lines.pinches:
        given, taken = passage.above(passage.hot, pinch), passage.above(passage.cold, pinch)
        if given is None or taken is None:
            continue
        heats.append(given - taken)
        sides.add(PinchSide.ABOVE if given == taken == passage.exchanger.duty else
                  PinchSide.BELOW if given == taken == 0 else PinchSide.ACROSS)
    most = max(heats, key=abs, default=Fraction(0))
    carried = lines.shown.heat(most) if most else ''
    if PinchSide.ACROSS in sides:
        return PinchSide.ACROSS.value, carried
    where = PinchSide.ABOVE if PinchSide.ABOVE in sides else PinchSide.BELOW
    return (where.value, carried) if sides else ('', carried)


def end_at(lines: Lines, name: str, side: Side) -> tuple[float, int]:
    """The column and the line of one end of an exchanger."""
    of, other = lines.columns.of, 'cold' if side is Side.HOT else 'hot'
    source = lines.plan.pairs[name][side is Side.COLD]
    passage = lines.followed.passage(name)
    state = passage.hot if side is Side.HOT else passage.cold
    if state.before is None:
        return float(of[other, name]), lines.tops[source]
    return float(of[side.value, name]), lines.line(source, state.before.name)


def pill_of(lines: Lines, name: str) -> OpenPill:
    """An open piece of a stream."""
    plan, shown = lines.plan, lines.shown
    reach = plan.piece(name)
    stream = reach.stream
    x, y = end_at(lines, name, stream.side)
    side = side_at(plan, name, lines.pinches)
    duty = shown.heat(plan.duties[name])
    first, last = shown.temperature(reach.inlet), shown.temperature(reach.outlet)
    fault = '' if any(reaches(utility, stream, reach.outlet) for utility in utilities_for(plan.case, stream)) \
        else f'No utility of the case reaches {last} {shown.temperature_unit} on {stream.name}.'
    where = side.value if side else ''
    unit = shown.temperature_unit
    parts = (f'open piece of {stream.name}', f'{first} to {last} {unit}', f'{duty} {shown.heat_unit}', words_for(where),
             fault)
    text = ', '.join(part for part in parts if part)
    row = whole_name(plan.case, stream.name)
    return OpenPill(name, row, stream.side.value, duty, first, last, x, y, where, fault, text)


def pinch_lines(lines: Lines) -> tuple[PinchLine, ...]:
    shown, case = lines.shown, lines.plan.case
    made: list[PinchLine] = []
    for at, pinch in enumerate(lines.pinches):
        hot, cold = (temperatures_at(case, side, pinch.temperature).told(shown) for side in Side)
        first, last = lines.columns.pinches[at]
        unit = shown.temperature_unit
        made.append(PinchLine(float(lines.columns.lines[at]), first - 0.45, last + 0.45,
                              f'pinch: hot {hot} {unit}, cold {cold} {unit}'))
    return tuple(made)
