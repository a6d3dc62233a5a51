"""What the page asks for, as the desk does it: each kind of gesture with its fields, which are checked, and the words
with which the step is told.

The gestures (`exchanger`, `piece`, `stream`, `utility` are the `name`s or `id`s of the view; a heat is a text as typed,
in the heat unit of the case; `?` may be left out):

- `place {piece, partner, duty?, hot_seat?, cold_seat?}`: `partner` is another piece or a utility; an `Offer` has all.
- `take {exchanger}`: it becomes open. `grow {exchanger}`: as large as it can be. `duty {exchanger, heat}`.
- `utility {piece, utility?}`: the piece is served by that utility, or by the cheapest that reaches; `finish {by?}`: all
  are; with `by` `parts` by the cheapest at each temperature, so that a piece may take several.
- `change {exchanger, utility}`: a heater or a cooler takes another utility.
- `split {piece, share?}`: a lane of this share in percent (50 unless said) beside the piece; `shares {joint, shares}`:
  the shares of all lanes of a joint in percent, as texts; `join {joint}`: the lanes of a joint, without exchangers but
  for one lane, are one again.
- `move {exchanger, piece, other?}`: the end of the exchanger on the side of the piece is moved to there, and the other
  end to another piece.
- `rename {exchanger, name}`. `hold {}`: a network that can be changed by its text alone becomes one for the hand.
- `shift {way, heat}` along a way, `break {way}`: so far that its smallest exchanger goes.
- `difference {difference}`: the least approach, as the slider has it.
- `cell {row, field, text}`: a field of a stream, utility or forbidden match; `row` is its `row`.
- `add {what, ..fields}` with `what` `stream` (`name, side, supply, target, flow` or `load, contribution?`), `utility`
  (`name, side, level, price, least?, most?, contribution?`) or `forbid` (`hot, cold`); `remove {row}`.
- `texts {case?, network?, told?}`: the texts themselves, as typed, and what the step is called.
- `keep {name}`: where the case of a table is kept, by a name alone; before it nothing else is done.
- `undo {}`, `redo {}`, `step {at}`: back or forth to a step."""
from __future__ import annotations

from collections.abc import Callable, Mapping
from dataclasses import dataclass
from fractions import Fraction

from ..formats.amounts import exact
from ..formats.case import Case
from ..formats.shown import Shown
from ..formats.whole_streams import whole_name
from . import gestures, serving
from .adapting import adapted
from .case_lines import added, removed, with_cell, with_difference
from .gestures import NotDone
from .known import Known, Snapshot, begun, completed_live
from .mending import mended
from .moving import move_end, moved_told
from .network_lines import write_plan
from .pieces import HandPlan
from .seats import Seat
from .ways import break_way, shift, way_named

LONGEST, LONGEST_STEP = 8_000_000, 200


@dataclass(frozen=True)
class Made:
    """What a gesture makes: both texts, and the step in words, with its number among all that were made."""

    snapshot: Snapshot
    told: str
    number: int = 0


@dataclass(frozen=True)
class Fields:
    """The fields of a gesture: texts, or a list of them."""

    fields: Mapping[str, object]

    def text(self, name: str) -> str:
        value = self.fields.get(name)
        if not isinstance(value, str):
            raise NotDone(f'The gesture has no {name}.')
        return value

    def maybe(self, name: str) -> str | None:
        return self.text(name) if self.fields.get(name) not in (None, '') else None

    def texts(self, name: str) -> list[str]:
        value = self.fields.get(name)
        if not isinstance(value, list) or not all(isinstance(part, str) for part in value):
            raise NotDone(f'The gesture has no {name}.')
        return list(value)

    def all_texts(self) -> dict[str, str]:
        return {name: value for name, value in self.fields.items() if isinstance(value, str)}


def number(text: str) -> Fraction:
    """A number as typed; `NotDone` where it is none."""
    try:
        return exact(text.replace(',', '.').replace('−', '-'))
    except ValueError as fault:
        raise NotDone(f'{text[:40] or "Nothing"} is not a number.') from fault


def heat_of(plan: HandPlan, text: str, near: Fraction | None = None) -> Fraction:
    """A heat as typed, in W of the program. What is shown of a number that is finer stands for that number."""
    shown = Shown(plan.case.basis)
    value = number(text) * shown.units.parts * plan.case.basis.scale
    return near if near is not None and shown.heat(near) == shown.heat(value) else value


def share_of(text: str) -> Fraction:
    return number(text) / 100


def planned(known: Known, cut: bool = False) -> HandPlan:
    """The plan of both texts; `NotDone` where there is none."""
    if known.plan is None:
        raise NotDone(known.read_only or known.network_fault or known.fault or 'There is no network.')
    return known.cut_plan() if cut else known.plan


PlanGesture = Callable[[Known, Fields], tuple[HandPlan, str]]


def place(known: Known, fields: Fields) -> tuple[HandPlan, str]:
    plan = planned(known, True)
    piece, partner = fields.text('piece'), fields.text('partner')
    names = fields.maybe('hot_seat'), fields.maybe('cold_seat')
    seats = None
    if names[0] is not None and names[1] is not None:
        try:
            seats = Seat(names[0]), Seat(names[1])
        except ValueError as fault:
            raise NotDone('There is no such place on a piece.') from fault
    typed = fields.maybe('duty')
    pinches = known.whole.pinches if known.whole else ()
    made = gestures.place(plan, piece, partner, seats, None if typed is None else heat_of(plan, typed), pinches)
    return made, placed_told(plan, made)


def placed_told(before: HandPlan, after: HandPlan) -> str:
    """What is placed by a gesture, in words."""
    shown = Shown(after.case.basis)
    parts: dict[str, list[str]] = {}
    for name in after.placed:
        if name not in before.pairs:
            pair = '–'.join(whole_name(after.case, source) for source in after.pairs[name])
            parts.setdefault(pair, []).append(name)
    heats = {pair: sum((after.duties[name] for name in names), Fraction(0)) for pair, names in parts.items()}
    return ', '.join(f'{names[0]}: {pair}, {shown.heat(heats[pair])} {shown.heat_unit}'
                     for pair, names in parts.items()) or 'placed'


def take(known: Known, fields: Fields) -> tuple[HandPlan, str]:
    name = fields.text('exchanger')
    return gestures.take_away(planned(known), name), f'{name} taken away'


def grow(known: Known, fields: Fields) -> tuple[HandPlan, str]:
    name = fields.text('exchanger')
    made = gestures.grown(planned(known), name, known.whole.pinches if known.whole else ())
    return made, duty_told(made, name)


def duty(known: Known, fields: Fields) -> tuple[HandPlan, str]:
    plan, name = planned(known), fields.text('exchanger')
    heat = heat_of(plan, fields.text('heat'), plan.duties.get(name))
    made = gestures.with_duty(plan, name, heat, known.whole.pinches if known.whole else ())
    return made, duty_told(made, name)


def duty_told(plan: HandPlan, name: str) -> str:
    shown = Shown(plan.case.basis)
    return f'{name} has {shown.heat(plan.duties[name])} {shown.heat_unit}'


def utility(known: Known, fields: Fields) -> tuple[HandPlan, str]:
    plan = planned(known, True)
    made = serving.serve(plan, fields.text('piece'), fields.maybe('utility'))
    return made, placed_told(plan, made)


def finish(known: Known, fields: Fields) -> tuple[HandPlan, str]:
    if fields.maybe('by') == 'parts':
        return serving.finish_in_parts(planned(known)), 'the rest by utilities, each as far as it reaches'
    return serving.finish(planned(known)), 'the rest by utilities'


def change(known: Known, fields: Fields) -> tuple[HandPlan, str]:
    name, other = fields.text('exchanger'), fields.text('utility')
    return serving.change_utility(planned(known), name, other), f'{name} by {other}'


def split(known: Known, fields: Fields) -> tuple[HandPlan, str]:
    plan, piece = planned(known, True), fields.text('piece')
    made = gestures.split(plan, piece, share_of(fields.maybe('share') or '50'))
    return made, f'{plan.piece(piece).stream.name} split'


def shares(known: Known, fields: Fields) -> tuple[HandPlan, str]:
    plan, joint = planned(known), fields.text('joint')
    typed = [share_of(text) for text in fields.texts('shares')]
    return gestures.with_shares(plan, joint, typed), f'shares of {joint.partition("/")[0]}'


def join(known: Known, fields: Fields) -> tuple[HandPlan, str]:
    joint = fields.text('joint')
    return gestures.join(planned(known), joint), f'{joint.partition("/")[0]} in one lane'


def move(known: Known, fields: Fields) -> tuple[HandPlan, str]:
    name, piece = fields.text('exchanger'), fields.text('piece')
    pinches = known.whole.pinches if known.whole else ()
    made = move_end(planned(known, True), name, piece, fields.maybe('other'), pinches)
    return made, moved_told(made, name)


def rename(known: Known, fields: Fields) -> tuple[HandPlan, str]:
    old, new = fields.text('exchanger'), fields.text('name')
    return gestures.rename(planned(known), old, new), f'{old} is {new}'


def shifted_along(known: Known, fields: Fields) -> tuple[HandPlan, str]:
    plan, way = planned(known), fields.text('way')
    found = way_named(plan, way)
    heat = heat_of(plan, fields.text('heat'))
    shown = Shown(plan.case.basis)
    # What was shown of an end of the range stands for that end.
    heat = next((end for end in (found.least, found.most) if end and shown.heat(end) == shown.heat(heat)), heat)
    names = '–'.join(leg.exchanger for leg in found.way.legs)
    return shift(plan, way, heat), f'{shown.heat(heat)} {shown.heat_unit} along {names}'


def broken(known: Known, fields: Fields) -> tuple[HandPlan, str]:
    plan, way = planned(known), fields.text('way')
    found, shown = way_named(plan, way), Shown(plan.case.basis)
    heat = plan.duties[found.goes]
    names = '–'.join(leg.exchanger for leg in found.way.legs)
    return break_way(plan, way), f'{shown.heat(heat)} {shown.heat_unit} along {names}: {found.goes} goes'


ON_PLAN: dict[str, PlanGesture] = {
    'place': place, 'take': take, 'grow': grow, 'duty': duty, 'utility': utility, 'finish': finish, 'change': change,
    'split': split, 'shares': shares, 'join': join, 'move': move, 'rename': rename, 'shift': shifted_along,
    'break': broken}


def cell(known: Known, fields: Fields) -> Made:
    row, field, text = fields.text('row'), fields.text('field'), fields.text('text')
    case = case_of(known)
    made = with_cell(known.snapshot.case, case, row, field, text)
    name = row.partition(' ')[2]
    if field == 'name' and row.startswith(('stream', 'utility')):
        network = renamed_source(known.snapshot.network, name, text)
        return Made(Snapshot(made, network), f'{name} is {text}')
    return Made(with_case(known, made), f'{name}: {field} {text.strip() or "none"}')


def case_of(known: Known) -> Case:
    if known.case is None:
        raise NotDone(f'The case cannot be read: {known.fault}')
    return known.case


def renamed_source(text: str, old: str, new: str) -> str:
    """A network text with another name of a stream or a utility; branches of that name are a stream's beginning."""
    lines: list[str] = []
    for line in text.split('\n'):
        fields = line.split()
        if not fields or fields[0].startswith('#') or old not in fields[1:]:
            lines.append(line)
            continue
        places = (2, 3) if fields[0] == 'exchanger' else (1, 3) if fields[0] == 'pass' else range(1, len(fields))
        lines.append(' '.join(new if at in places and field == old else field for at, field in enumerate(fields)))
    return '\n'.join(lines)


def with_case(known: Known, text: str) -> Snapshot:
    """Both texts with another case, to which the plan is adapted; a network that is no plan stays as it is."""
    case = completed_live(text)
    if not case.streams:
        return Snapshot(text, '')
    if known.plan is None:
        return Snapshot(text, known.snapshot.network or begun(text))
    plan = adapted(known.plan, case)
    same = plan == HandPlan(case, known.plan.structure, known.plan.duties)
    return Snapshot(text, known.snapshot.network if same else write_plan(plan, known.layout))


def difference(known: Known, fields: Fields) -> Made:
    text = fields.text('difference')
    case = case_of(known)
    made = with_difference(known.snapshot.case, case, text)
    shown = Shown(case.basis)
    return Made(with_case(known, made), f'least approach {text.strip()} {shown.units.difference}')


def add(known: Known, fields: Fields) -> Made:
    case = case_of(known)
    what = fields.text('what')
    made = added(known.snapshot.case, case, what, fields.all_texts())
    name = fields.maybe('name') or f'{fields.maybe("hot")} and {fields.maybe("cold")}'
    return Made(with_case(known, made), f'{name} added' if what != 'forbid' else f'{name} forbidden')


def remove(known: Known, fields: Fields) -> Made:
    row = fields.text('row')
    return Made(with_case(known, removed(known.snapshot.case, row)), f'{row.partition(" ")[2]} removed')


def texts(known: Known, fields: Fields) -> Made:
    case, network = fields.fields.get('case'), fields.fields.get('network')
    typed = [text for text in (case, network) if isinstance(text, str)]
    if not typed or any(len(text) > LONGEST for text in typed):
        raise NotDone('There is no text, or it is too long.')
    snapshot = Snapshot(case if isinstance(case, str) else known.snapshot.case,
                        network if isinstance(network, str) else known.snapshot.network)
    return Made(snapshot, (fields.maybe('told') or 'text edited')[:LONGEST_STEP])


def hold(known: Known, fields: Fields) -> Made:
    del fields
    if known.plan is not None or not known.read_only:
        raise NotDone('This network can be changed here already, or is none.')
    made = mended(case_of(known), known.snapshot.network)
    return Made(Snapshot(known.snapshot.case, write_plan(made.plan, made.layout)), made.told)


ON_TEXTS: dict[str, Callable[[Known, Fields], Made]] = {
    'cell': cell, 'difference': difference, 'add': add, 'remove': remove, 'texts': texts,
    'hold': hold}


def made_by(known: Known, kind: str, fields: Fields) -> Made:
    """What a gesture makes of both texts; `NotDone` where it cannot be done."""
    if kind in ON_PLAN:
        plan, told = ON_PLAN[kind](known, fields)
        return Made(Snapshot(known.snapshot.case, write_plan(plan, known.layout)), told)
    if kind in ON_TEXTS:
        return ON_TEXTS[kind](known, fields)
    raise NotDone(f'There is no gesture {kind[:40]}.')
