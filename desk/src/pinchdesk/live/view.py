"""The contract of the live desk: all that the page shows, and all that it asks. The page computes no engineering.

Each dataclass here becomes a JSON object with its fields as keys (`asdict`). Numbers that are read are finished texts
in the case's own units without their unit (`Units` has that); numbers that only place something in a picture are floats
or whole numbers.

What the page asks, below `/TOKEN/`:

- `GET .` the page, `GET page/NAME` its files, `GET view` a `View`.
- `POST gesture {"version": n, "gesture": {"kind": ..}}` answers `{"view": View}`, or with the status 200 too
  `{"refused": Refusal, "view": View}` where the gesture cannot be done: then nothing has changed. Another version than
  the present one is answered by 409 with `{"view": View}`.
- `POST offers {"version": n, "piece": id, "most"?: text}` answers `{"offers": [Offer, ..]}` of no more than this heat,
  the best first, or `{"refused": Refusal, "view": View}`; a drop on a partner takes the first offer with this
  `partner`, and the page sends its `gesture` as it is. The same for 409.
- `POST ways {"version": n, "exchanger"?: name}` answers a `WaysFound`; of too many ways it is those through the
  exchanger. The same for 409.
- `POST slider {"version": n, "difference": text}` answers a `Slider`, or `{"refused": Refusal}`; nothing is written.
- `POST search {"version": n, "seconds"?: text, "above"?: text}` searches a network of few exchangers for so long (10
  unless said), at most so many percent above the least cost, from the present one where that is accepted; it answers as
  a gesture does, when the time is over. `POST tradeoff {"version": n, "seconds"?: text}` answers a `TradeoffTable`, or
  `{"refused": Refusal, "view": View}`; nothing is written. `GET report` is the page for the reviewer,
  `GET picture/NAME.svg` are pictures, each for a window of its own: the `links` of the view. `POST close {}` ends the
  desk.
- `GET history` answers `[StepKept, ..]`. `POST history {"version": n, "steps": [{text, case, network}, ..], "at": n}`
  gives a desk that was just opened the steps of one that ended, where that is what both files hold; it answers as a
  gesture does.
- `POST moves {"version": n, "exchanger": name}` answers `{"offers": [Offer, ..]}`: where its ends can be moved to, one
  or both (`other` of the gesture), the best first. The same for 409.
- WebSocket `changes`: a JSON number, the version, whenever it has changed (and once at the beginning).

All POSTs want `Content-Type: application/json`. Whatever is wrong with the address is 404. The gestures stand at the
head of `asked`."""
from __future__ import annotations

from collections.abc import Mapping
from dataclasses import dataclass


@dataclass(frozen=True)
class UnitNames:
    """The units of the case as they are written."""

    temperature: str
    difference: str
    heat: str
    flow: str
    price: str
    cost: str


@dataclass(frozen=True)
class FileNames:
    """The names of both files as they are shown, and whether they are saved: `saved`, or why not. `offered` are names
    for the case of a table, where it is not said yet where it is kept; else there are none."""

    case: str
    network: str
    saved: str
    offered: tuple[str, ...] = ()


@dataclass(frozen=True)
class Mark:
    """Where something is marked. `kind` is `exchanger`, `piece`, `stream`, `utility` or `cell`; of a cell `name` is the
    `row` of the stream or utility, and `field` the name of the field."""

    kind: str
    name: str
    field: str = ''


@dataclass(frozen=True)
class Refusal:
    """A gesture that is not done: why, and where."""

    text: str
    places: tuple[Mark, ...] = ()


@dataclass(frozen=True)
class Judgement:
    """`kind` is `nothing-placed`, `unfinished`, `accepted`, `rejected` or `faulty` (a text that is none)."""

    kind: str
    title: str
    text: str
    places: tuple[Mark, ...] = ()


@dataclass(frozen=True)
class ScoreView:
    """Targets, what can still be reached and what stands, as texts, empty where that is not known; `bar` has the
    target, the reachable and what stands as parts of 1. `units` reads `4 + 3 = 7; the rule: 7`."""

    target_hot: str
    target_cold: str
    reach_hot: str
    reach_cold: str
    stands_hot: str
    stands_cold: str
    above: str
    bar: tuple[float, float, float]
    placed: int
    left: int
    rule: int
    units: str
    cost: str
    floor: str
    notes: tuple[str, ...] = ()


@dataclass(frozen=True)
class StreamRow:
    """A stream; of a latent one `target` and `flow` are empty. `contribution` is empty where it has the case's. `row`
    names it in gestures. A stream of several segments has them in it, and no numbers of its own but its ends."""

    row: str
    name: str
    side: str
    supply: str
    target: str
    flow: str
    load: str
    heat: str
    contribution: str
    segments: tuple[StreamRow, ...] = ()


@dataclass(frozen=True)
class UtilityRow:
    """A utility; `most` is empty where it is not bounded. An `invented` one stands in, is in no file and has no cell
    that can be edited. `uses` is what its exchangers give or take so far, open pieces left out."""

    row: str
    name: str
    side: str
    level: str
    least: str
    most: str
    price: str
    contribution: str
    uses: str
    invented: bool


@dataclass(frozen=True)
class ForbidRow:
    """Two sources that may not exchange heat."""

    row: str
    hot: str
    cold: str


@dataclass(frozen=True)
class CurvePicture:
    """Composite curves over heat (x) and temperature (y), and the grand one, as points in the units that are shown.
    `hot_from` to `hot_to` is where the heater's arrow stands at the top of the composite curves, and likewise for cold.
    `pinches` are pairs of the shifted temperature and the heat at which both curves come close, with the actual
    temperatures of both curves there."""

    hot: tuple[tuple[float, float], ...]
    cold: tuple[tuple[float, float], ...]
    grand: tuple[tuple[float, float], ...]
    pinches: tuple[PinchMark, ...]
    hot_utility: str
    cold_utility: str
    hot_from: float
    hot_to: float
    cold_from: float
    cold_to: float
    heat_axis: str
    temperature_axis: str
    shifted_axis: str


@dataclass(frozen=True)
class PinchMark:
    """A pinch on the curves: where, and in words."""

    heat: float
    hot: float
    cold: float
    shifted: float
    text: str


@dataclass(frozen=True)
class GridRow:
    """A row of the grid: a stream or a utility. `y` is the line of its first lane, counted from the top in lanes, and
    `lanes` how many it has. A hot row runs from `begin` (left) to `end` (right), a cold one from right to left; both in
    columns. `kind` is `stream` or `utility`; `side` `hot` or `cold`. `detail` is what stands below the name (`CP 2`).
    `first` and `last` are the texts at the left and at the right end."""

    name: str
    kind: str
    side: str
    y: int
    lanes: int
    begin: float
    end: float
    first: str
    last: str
    detail: str
    text: str


@dataclass(frozen=True)
class BranchLine:
    """A level line of a stream: one branch in its lane. `label` stands above it at `label_x`: a temperature, or behind
    a split the share (`kind` is `temperature` or `share`). `arrow` where the stream ends there."""

    stream: str
    branch: str
    y: int
    begin: float
    end: float
    arrow: bool
    label: str
    label_x: float
    kind: str


@dataclass(frozen=True)
class JointLine:
    """The upright line of a split or a mix, from lane to lane. `id` names both ends of the same parting in gestures;
    `shares` are those of its lanes in percent, from the first lane down."""

    id: str
    stream: str
    x: float
    first: int
    last: int
    shares: tuple[str, ...]


@dataclass(frozen=True)
class ExchangerBar:
    """An exchanger of the grid: its two ends, which are in one column as a rule. `kind` is `match`, `heater` or
    `cooler`; `where` is `above`, `below`, `across` (a pinch) or empty (no pinch). `fault` is why it is rejected, else
    empty. `text` is its whole name for a screen reader."""

    name: str
    kind: str
    hot: str
    cold: str
    duty: str
    hot_x: float
    hot_y: int
    cold_x: float
    cold_y: int
    where: str
    crossing: str
    fault: str
    text: str


@dataclass(frozen=True)
class OpenPill:
    """An open piece of a stream, cut at each pinch. `fault` says that no utility of the case reaches its end, else it
    is empty; `duty` is what it has to give or to take, `first` and `last` are its temperatures from the stream's supply
    side on."""

    id: str
    stream: str
    side: str
    duty: str
    first: str
    last: str
    x: float
    y: int
    where: str
    fault: str
    text: str


@dataclass(frozen=True)
class PinchLine:
    """A pinch on the grid: its line, the columns of what works across it, and what stands above it."""

    x: float
    begin: float
    end: float
    text: str


@dataclass(frozen=True)
class GridPicture:
    """The grid in columns (x, from the left, the hot end) and lanes (y, from the top). `band` is the line between hot
    and cold rows where nothing stands but labels. Rows with utilities that are not used are here too."""

    columns: int
    lanes: int
    band: int
    rows: tuple[GridRow, ...]
    lines: tuple[BranchLine, ...]
    joints: tuple[JointLine, ...]
    exchangers: tuple[ExchangerBar, ...]
    pieces: tuple[OpenPill, ...]
    pinches: tuple[PinchLine, ...]


@dataclass(frozen=True)
class ExchangerRow:
    """An exchanger as a line of the table. `difference` is the least one of both ends, `wanted` what it has to keep."""

    name: str
    hot: str
    cold: str
    duty: str
    hot_in: str
    hot_out: str
    cold_in: str
    cold_out: str
    difference: str
    wanted: str
    where: str
    loss: str
    area: str
    fault: str


@dataclass(frozen=True)
class StepMade:
    """A step that was made: in words, and whether it is the present one. `id` names it as long as the desk is open."""

    id: int
    text: str
    present: bool


@dataclass(frozen=True)
class StepKept:
    """A step with both of its texts, as the page keeps it for a desk that is opened anew."""

    id: int
    text: str
    case: str
    network: str


@dataclass(frozen=True)
class PictureLink:
    """What is shown in a window of its own: its address below that of the page, and its name."""

    name: str
    text: str


@dataclass(frozen=True)
class Texts:
    """Both texts, as they are saved."""

    case: str
    network: str


@dataclass(frozen=True)
class Difference:
    """The least approach of the case: twice its contribution. `own` says what moves with it where sources have their
    own, else it is empty. The slider goes from `least` to `most` (floats in the unit of differences) by `step`, about a
    degree; what is finer is typed."""

    text: str
    value: float
    least: float
    most: float
    step: float
    own: str


@dataclass(frozen=True)
class View:
    """All that the page shows. `read_only` is empty, or why nothing can be placed: then texts and cells alone are
    edited, and `hold` says what of it would be open where it is made one for the hand. `grid` is None then, and where
    the network is none."""

    version: int
    files: FileNames
    units: UnitNames
    difference: Difference
    verdict: Judgement
    score: ScoreView
    streams: tuple[StreamRow, ...]
    utilities: tuple[UtilityRow, ...]
    forbids: tuple[ForbidRow, ...]
    curves: CurvePicture | None
    curves_left: CurvePicture | None
    grid: GridPicture | None
    exchangers: tuple[ExchangerRow, ...]
    steps: tuple[StepMade, ...]
    can_undo: bool
    can_redo: bool
    texts: Texts
    links: tuple[PictureLink, ...]
    read_only: str = ''
    hold: str = ''


@dataclass(frozen=True)
class Offer:
    """What an open piece may be matched with: `partner` is the id of a piece or the name of a utility (`kind` `piece`
    or `utility`). `words` reads `135 kW, finishes S4`, `cost` reads `costs nothing (S2 split)`; `free` where it costs
    nothing; `whole` where it finishes a piece. `gesture` is what is sent to do it."""

    partner: str
    kind: str
    stream: str
    duty: str
    words: str
    cost: str
    free: bool
    whole: bool
    gesture: Mapping[str, object]


@dataclass(frozen=True)
class WayLeg:
    """An exchanger of a way, and whether its duty rises."""

    exchanger: str
    gains: bool


@dataclass(frozen=True)
class WayOffer:
    """A loop or a path (`kind`). `text` is the way in words. Heat from `least` to `most` can be moved, both empty where
    none can; `ends` says what stops it at the upper end. `mends` names the exchangers and utilities that are right
    then, `leaves` those that are wrong then as now. `breaks` reads `E4 goes (20 kW), costs nothing`, else it is empty.
    `first` is the heat that is proposed, where it mends or saves something; `cost` is what moving costs."""

    id: str
    kind: str
    text: str
    legs: tuple[WayLeg, ...]
    least: str
    most: str
    ends: str
    mends: tuple[str, ...]
    leaves: tuple[str, ...]
    breaks: str
    first: str
    cost: str


@dataclass(frozen=True)
class WaysFound:
    """Loops and paths, those that mend first. `more` says which ones these are where there are more, else it is
    empty."""

    ways: tuple[WayOffer, ...]
    more: str


@dataclass(frozen=True)
class Slider:
    """Targets and curves at another least approach, while the slider moves. `network` says what the network would then
    be; `area` and `cost` are targets, empty where the case gives no films and costs."""

    difference: Difference
    target_hot: str
    target_cold: str
    pinches: str
    curves: CurvePicture
    area: str = ''
    cost: str = ''
    network: str = ''


@dataclass(frozen=True)
class TradeoffLine:
    """A network of a trade-off, or the floor; `gesture` takes it, and is empty where there is none to take."""

    cells: tuple[str, ...]
    gesture: Mapping[str, object]


@dataclass(frozen=True)
class TradeoffTable:
    """Networks of fewer and fewer exchangers with their costs, and what of them is proved."""

    headings: tuple[str, ...]
    lines: tuple[TradeoffLine, ...]
    proved: str
