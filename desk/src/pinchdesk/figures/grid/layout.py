"""The plan of a grid diagram: every row, column and width in inches, and what is written where; nothing is drawn
here."""
from __future__ import annotations

from dataclasses import dataclass
from fractions import Fraction

from ...analysis.follow import Followed, PinchPoint
from ...analysis.joined import Kink
from ...analysis.pinch_places import temperatures_at
from ...formats.case import Side, Stream, Utility
from ...formats.network import Split
from ...formats.shown import Shown, decimal
from ..text_widths import shape, width
from .columns import Columns, Tracks, columns_of
from .courses import Course, course_of
from .lanes import count_of, lanes_of, share_of, stream_columns

# An A3 sheet is 16.5 inches wide; names and columns of numbers take the rest.
ROOM, SIZES = 13.4, (8.5, 7.5, 6.5, 5.5, 5.0)


@dataclass(frozen=True)
class Type:
    """How large letters are, how far columns stand apart, whether texts in columns stand upright, how many decimals
    temperatures do without, and the length of the longest."""

    size: float
    pitch: float
    upright: bool
    places: int
    number: float

    @property
    def line(self) -> float:
        """The height of a line of text in inches."""
        return self.size * 1.3 / 72


@dataclass
class GridLayout:
    """All that is known before a line is drawn. Lengths are in inches, heights from the bottom."""

    followed: Followed
    pinches: tuple[PinchPoint, ...]
    course: Course
    columns: Columns
    lanes: dict[str, dict[str, int]]
    rows: list[Stream | Utility]
    labels: dict[str, tuple[str, ...]]
    type: Type
    kinks: tuple[Kink, ...] = ()
    notes: tuple[str, ...] = ()
    left: float = 0.0
    right: float = 0.0

    @property
    def shown(self) -> Shown:
        return Shown(self.followed.case.basis)

    def x(self, column: float) -> float:
        return self.left + (column + 1) * self.type.pitch

    @property
    def edges(self) -> tuple[float, float]:
        """The left and the right end of streams that go through all columns."""
        return self.x(-0.75), self.x(self.columns.count - 0.25)

    def pinch_x(self, at: int) -> float:
        return self.x(self.columns.lines[at])


def labels_of(followed: Followed, pinches: tuple[PinchPoint, ...]) -> dict[str, tuple[str, ...]]:
    """The lines at each exchanger: its name, its duty, and what it carries across the pinch."""
    shown, made = Shown(followed.case.basis), {}
    for passage in followed.passages:
        crossings = [crossing for crossing in (passage.crossing(pinch) for pinch in pinches) if crossing]
        lines = [passage.exchanger.name, shown.heat(passage.exchanger.duty)]
        if crossings:
            lines.append(f'↯ {shown.heat(max(crossings, key=abs))}')
        made[passage.exchanger.name] = tuple(lines)
    return made


def rows_of(followed: Followed) -> tuple[list[Stream | Utility], int]:
    """Hot utilities that are used, hot streams, cold streams, cold utilities that are used; and how many are hot."""
    used = {name for exchanger in followed.network.exchangers for name in (exchanger.hot, exchanger.cold)}
    case = followed.case
    rows_by_side: list[list[Stream | Utility]] = []
    for side in (Side.HOT, Side.COLD):
        streams = [stream for stream in case.streams if stream.side is side]
        utilities = [utility for utility in case.utilities if utility.side is side and utility.name in used]
        rows_by_side.append([*utilities, *streams] if side is Side.HOT else [*streams, *utilities])
    return [*rows_by_side[0], *rows_by_side[1]], len(rows_by_side[0])


def type_of(columns: int, labels: dict[str, tuple[str, ...]], numbers: list[tuple[str, str]]) -> Type:
    """The largest letters with which all columns have room on the sheet: labels lie where they can, else they stand."""
    lines = {shape(line) for label in labels.values() for line in label}
    states = [{shape(number[places]) for number in numbers} for places in (0, 1)]
    for upright in (False, True):
        for size in SIZES[:3] if not upright else SIZES[1:]:
            flat = max((width(line, size, True) for line in lines), default=0.3)
            for places in (0, 1):
                warm = max((width(state, size - 0.5) for state in states[places]), default=0.2)
                # What stands upright is as wide as a line is high, and there are two in each column.
                pitch = max(2 * size * 1.3 / 72, 0.2) if upright else max(warm + 0.05, flat + 0.06, 0.2)
                if (columns + 1) * pitch <= ROOM or upright and size == SIZES[-1] and places:
                    return Type(size, pitch, upright, places, warm)
    raise AssertionError('no size of letters')


def numbers_of(followed: Followed) -> list[tuple[str, str]]:
    """What is written between columns, in two and in one decimals: temperatures, and shares behind splits."""
    shown = Shown(followed.case.basis)
    temperatures = [branch.temperature for branch in followed.branches.values()]
    made = [(shown.temperature(temperature), shown.temperature(temperature, 1))
            for temperature in temperatures if temperature is not None]
    for statement in followed.network.statements:
        if isinstance(statement, Split):
            parts = [share_of(followed, name) for name in (statement.first, statement.second)]
            made += [(percent(part, 2), percent(part, 1)) for part in parts]
    return made


def percent(part: Fraction, places: int = 2) -> str:
    """A part of a stream in percent."""
    return decimal(part * 100, places) + ' %'


def plan_of(followed: Followed, pinches: tuple[PinchPoint, ...], kinks: tuple[Kink, ...] = (),
            notes: tuple[str, ...] = ()) -> GridLayout:
    """The plan of a network, with the kinks of its streams and what is said of these."""
    rows, hot = rows_of(followed)
    tracks = Tracks({row.name: at if at < hot else at + 2 for at, row in enumerate(rows)}, hot)
    course = course_of(followed, pinches)
    columns = columns_of(followed, course, tracks, len(pinches))
    lanes = {stream.name: lanes_of(followed, course, columns, stream) for stream in followed.case.streams}
    labels = labels_of(followed, pinches)
    type_ = type_of(columns.count, labels, numbers_of(followed))
    return GridLayout(followed, pinches, course, columns, lanes, rows, labels, type_, kinks, notes)


def reach(plan: GridLayout, stream: Stream) -> tuple[float, float]:
    """From where to where a stream is drawn."""
    left, right = stream_columns(plan.course, plan.columns, plan.pinches, stream)
    return plan.x(left), plan.x(right)


def lane_heights(plan: GridLayout) -> tuple[dict[str, list[float]], float, float, float]:
    """The height of each lane of each row, of the band of labels (its middle), of the slanted bars (its middle), and of
    the first row's top, all counted down from 0."""
    line, heights, down = plan.type.line, {}, 0.0
    labels, slants, tall = 0.0, 0.0, plan.type.number
    # What stands upright stands above its lane, be it a temperature or a share.
    above, gap = (tall + 0.16, tall + 0.2) if plan.type.upright else (line * 2.0, line * 2.9)
    for at, row in enumerate(plan.rows):
        if row.side is Side.COLD and (at == 0 or plan.rows[at - 1].side is Side.HOT):
            deep = band(plan)
            labels, slants = down + deep / 2, down + deep + 0.15
            down += deep + (0.3 if is_slanted(plan) else 0.0)
        count = count_of(plan.lanes.get(row.name, {}))
        heights[row.name] = [down + above + gap * lane for lane in range(count)]
        down += above + gap * (count - 1) + line * 1.4
    return heights, labels, slants, down


def is_slanted(plan: GridLayout) -> bool:
    """Whether an exchanger has a column for each side."""
    column_of = plan.columns.of
    return any(('cold', key[1]) in column_of and column_of['cold', key[1]] != at
               for key, at in column_of.items() if key[0] == 'hot')


def band(plan: GridLayout) -> float:
    """How tall the labels of exchangers are."""
    if not plan.type.upright:
        return max((len(lines) for lines in plan.labels.values()), default=2) * plan.type.line + 0.16
    return max((width('   '.join(lines), plan.type.size, True) for lines in plan.labels.values()), default=0.5) + 0.2


@dataclass(frozen=True)
class PinchText:
    """What stands above a pinch, how large, where its middle is, and how many lines above the lowest it stands."""

    text: str
    size: float
    middle: float
    level: int


def pinch_texts(plan: GridLayout, wide: float) -> list[PinchText]:
    """The texts above the pinches on a sheet of this width; those that are near lie above one another."""
    case, shown, size = plan.followed.case, plan.shown, max(plan.type.size, 6.5)
    made: list[PinchText] = []
    taken: list[float] = []
    for at, pinch in enumerate(plan.pinches):
        hot, cold = (temperatures_at(case, side, pinch.temperature).told(shown) for side in (Side.HOT, Side.COLD))
        text = f'pinch {shown.temperature(pinch.temperature)} {shown.temperature_unit} shifted: hot {hot}, cold {cold}'
        half = width(text, size) / 2
        middle = max(min(plan.pinch_x(at), wide - half - 0.1), half + 0.1)
        level = next((row for row, right in enumerate(taken) if right < middle - half), len(taken))
        taken[level:level + 1] = [middle + half + 0.1]
        made.append(PinchText(text, size, middle, level))
    return made
