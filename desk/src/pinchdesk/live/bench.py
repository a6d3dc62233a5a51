"""The state of the live desk: two texts and the steps that led to them. Nothing else is kept; each gesture writes both
files before it counts."""
from __future__ import annotations

import threading
from collections import OrderedDict
from collections.abc import Mapping, Sequence
from dataclasses import dataclass, replace
from itertools import count

from ..errors import DeskError, OutputError
from ..formats.amounts import seconds_of
from ..program.run import Pinch
from ..program.verdicts import TooFine
from .areas import area_targets
from .asked import Fields, Made, heat_of, made_by
from .case_lines import with_difference
from .gestures import NotDone
from .judgement import Whole, judged_stand
from .keeping import Keeper
from .known import Knowing, Known, Snapshot, as_content, as_text, begun, completed_live, told
from .offers import moves_of, offers_of
from .network_view import Standing, judgement_of
from .own_files import ChangedOutside, OwnFile
from .seen import seen, slid
from .view import FileNames, Mark, Offer, Refusal, Slider, StepKept, StepMade, TradeoffTable, View, WaysFound
from .way_words import Outdated, WayWords
from .ways import ways_of

MOST_STEPS, MOST_VIEWS, LONGEST_SEARCH = 500, 50, 300
EMPTY_CASE = 'contribution,,50,,,,\n'


@dataclass(frozen=True)
class GestureDone:
    """What became of a gesture: the view then, and why it was not done, or that it was for another version."""

    view: View
    refused: Refusal | None = None
    stale: bool = False


class Bench:
    """Both files with their steps; one gesture at a time."""

    def __init__(self, pinch: Pinch, case_file: OwnFile, network_file: OwnFile, case: bytes | None = None,
                 keeper: Keeper | None = None) -> None:
        """Opens both files. A case that was made of a table is given by its text: it is written with the first
        gesture, or where it is not said yet where, once the page has said it to the keeper."""
        self.knowing = Knowing(pinch)
        self.case_file, self.network_file = case_file, network_file
        self.lock = threading.RLock()
        self.version = 1
        self.views: OrderedDict[Snapshot, View] = OrderedDict()
        self.keeper, self.is_kept = keeper, keeper is None
        self.saved = 'saved' if self.is_kept else 'not kept yet'
        kept = case_file.taken()
        text = as_text(case if case is not None else kept if kept is not None else EMPTY_CASE.encode())
        self.numbers = count(1)
        self.steps = [Made(Snapshot(text, self.network_of(text)), 'opened', next(self.numbers))]
        self.at = 0

    def network_of(self, case: str) -> str:
        """What the network file holds; where it holds nothing, the text in which nothing is placed."""
        content = self.network_file.taken()
        return as_text(content) if content and content.strip() else begun(case)

    @property
    def now(self) -> Known:
        return self.knowing.of(self.steps[self.at].snapshot)

    def view(self) -> View:
        """All that the page shows."""
        with self.lock:
            self.look()
            return self.shown()

    def shown(self) -> View:
        """The view now; what it shows of both texts is worked out once."""
        snapshot = self.steps[self.at].snapshot
        if snapshot not in self.views:
            self.views[snapshot] = seen(self.now)
            while len(self.views) > MOST_VIEWS:
                self.views.popitem(last=False)
        steps = tuple(StepMade(step.number, step.told, place == self.at) for place, step in enumerate(self.steps))
        offered = self.keeper.names() if self.keeper and not self.is_kept else ()
        return replace(self.views[snapshot], version=self.version, files=FileNames(*self.titles, self.saved, offered),
                       steps=steps, can_undo=self.at > 0, can_redo=self.at < len(self.steps) - 1)

    def gesture(self, version: object, gesture: Mapping[str, object]) -> GestureDone:
        """Does a gesture on what the page saw."""
        with self.lock:
            self.look()
            if version != self.version:
                return GestureDone(self.shown(), stale=True)
            try:
                self.do(str(gesture.get('kind', '')), Fields(gesture))
            except NotDone as fault:
                return GestureDone(self.shown(), Refusal(str(fault), tuple(Mark(*place) for place in fault.places)))
            except DeskError as fault:
                return GestureDone(self.shown(), Refusal(told(fault)))
            return GestureDone(self.shown())

    def do(self, kind: str, fields: Fields) -> None:
        if kind == 'keep':
            self.keep(fields.text('name'))
            return
        if not self.is_kept:
            raise NotDone('Say first where the case is kept.')
        if kind in ('undo', 'redo', 'step'):
            self.go(self.target_of(kind, fields))
            return
        made = made_by(self.now, kind, fields)
        if made.snapshot == self.now.snapshot:
            raise NotDone('That changes nothing.')
        self.check(made)
        self.write(made.snapshot)
        self.step(made)

    def step(self, made: Made) -> None:
        """One step more, in the place of those that were taken back."""
        self.steps[self.at + 1:] = [replace(made, number=next(self.numbers))]
        if len(self.steps) > MOST_STEPS:
            del self.steps[1]
        self.at = len(self.steps) - 1
        self.version += 1

    def history(self) -> tuple[StepKept, ...]:
        """All steps with their texts, for a page that keeps them."""
        with self.lock:
            return tuple(StepKept(step.number, step.told, step.snapshot.case, step.snapshot.network)
                         for step in self.steps)

    def go_on(self, version: object, steps: Sequence[Made], at: int) -> GestureDone:
        """Takes the steps of a desk that ended: what both files hold is one of them, and here nothing was done yet."""
        with self.lock:
            self.look()
            if version != self.version or len(self.steps) > 1:
                return GestureDone(self.shown(), stale=True)
            if not 0 <= at < len(steps) <= MOST_STEPS or steps[at].snapshot != self.steps[0].snapshot:
                return GestureDone(self.shown(), Refusal('The steps that were kept are those of other files.'))
            self.steps = [replace(step, number=next(self.numbers)) for step in steps]
            self.at = at
            self.version += 1
            return GestureDone(self.shown())

    def keep(self, name: str) -> None:
        """Writes both files beside the table, the case by this name, and keeps them from now on."""
        keeper, before = self.keeper, (self.case_file, self.network_file)
        if keeper is None or self.is_kept:
            raise NotDone('It is said already where the case is kept.')
        self.case_file, self.network_file = keeper.files(name)
        try:
            self.write(self.steps[self.at].snapshot)
        except NotDone:
            keeper.let_go()
            self.case_file, self.network_file = before
            raise
        self.is_kept = True
        self.version += 1

    def target_of(self, kind: str, fields: Fields) -> int:
        """The step to which a gesture goes back or forth."""
        at = fields.fields.get('at')
        target = self.at - 1 if kind == 'undo' else self.at + 1 if kind == 'redo' else at
        if not isinstance(target, int) or isinstance(target, bool) or not 0 <= target < len(self.steps):
            raise NotDone('There is no step to go to.')
        return target

    def go(self, target: int) -> None:
        self.write(self.steps[target].snapshot)
        self.at = target
        self.version += 1

    def check(self, made: Made) -> None:
        """`NotDone` where `pinch` would refuse what a gesture makes, or its numbers are too fine."""
        known = self.knowing.of(made.snapshot)
        fault = known.fault if not self.now.fault else ''
        if fault and known.case is not None and not known.case.streams:
            return
        if fault or known.network_fault and not fault:
            raise NotDone(fault or known.network_fault)
        if known.stand and isinstance(known.stand.placed, TooFine):
            raise NotDone('A number would have more digits than can be judged: choose rounder duties or shares.')

    def write(self, snapshot: Snapshot) -> None:
        """Writes both files, or neither; `NotDone` where one cannot be written, or is not what it was."""
        before = self.case_file.content
        try:
            self.case_file.save(snapshot.case_bytes)
            try:
                self.network_file.save(snapshot.network_bytes)
            except (ChangedOutside, OutputError):
                self.case_file.take_back(before)
                raise
        except (ChangedOutside, OutputError) as fault:
            self.saved = f'not saved: {fault}'
            raise NotDone(f'Nothing was changed: {fault}') from fault
        self.saved = 'saved'

    def look(self) -> bool:
        """Takes what somebody else wrote as a step; whether there was something. Not while this desk writes."""
        with self.lock:
            try:
                changed = self.case_file.is_changed() or self.network_file.is_changed()
            except DeskError as fault:
                self.saved = f'cannot be read: {fault}'
                return False
            if changed:
                self.take_over()
            return changed

    def take_over(self) -> None:
        """A step with what both files hold now."""
        now = self.steps[self.at].snapshot
        case, network = self.case_file.taken(), self.network_file.taken()
        text = as_text(case) if case is not None else now.case
        made = Snapshot(text, as_text(network) if network is not None and network.strip() else begun(text))
        if made != now:
            self.step(Made(made, 'changed outside'))
        else:
            self.version += 1

    def moves(self, version: object, exchanger: str) -> tuple[Offer, ...] | GestureDone:
        """Where the ends of an exchanger of what the page saw can be moved to."""
        with self.lock:
            if version != self.version:
                return GestureDone(self.shown(), stale=True)
            known = self.now
        try:
            pinches = known.whole.pinches if known.whole else ()
            return moves_of(self.knowing.pinch, known.cut_plan(), exchanger, known.reach, pinches) if known.plan else ()
        except NotDone as fault:
            return GestureDone(self.view(), Refusal(str(fault)))

    def offers(self, version: object, piece: str, most: str = '') -> tuple[Offer, ...] | GestureDone:
        """The offers for a piece of what the page saw, of no more than a heat as typed."""
        with self.lock:
            if version != self.version:
                return GestureDone(self.shown(), stale=True)
            known = self.now
        if known.plan is None:
            return ()
        try:
            pinches, limit = known.whole.pinches if known.whole else (), heat_of(known.plan, most) if most else None
            if limit is not None and limit <= 0:
                raise NotDone('A duty has to be above 0.')
            return offers_of(self.knowing.pinch, known.cut_plan(), piece, known.reach, pinches, limit)
        except NotDone as fault:
            return GestureDone(self.view(), Refusal(str(fault)))

    def ways(self, version: object, exchanger: str | None = None) -> WaysFound | GestureDone:
        """The loops and paths of what the page saw; of too many those through an exchanger."""
        with self.lock:
            if version != self.version:
                return GestureDone(self.shown(), stale=True)
            known = self.now
        if known.plan is None:
            return WaysFound((), '')
        words = WayWords(self.knowing.pinch, known.plan, known.reach, lambda: version == self.version)
        try:
            return words.told(ways_of(known.plan, exchanger))
        except Outdated:
            return GestureDone(self.view(), stale=True)

    def network_at(self, known: Known, whole: Whole, case: str) -> str:
        """What the network would be with another least approach, in words: as much of it as an audit says."""
        if known.plan is None or not known.plan.placed:
            return ''
        pinch, plan = self.knowing.pinch, known.plan.with_contributions(whole.case)
        stand = judged_stand(pinch, plan, pinch.audit(as_content(case), known.snapshot.network_bytes))
        judged = judgement_of(Standing(whole, plan, stand, None, 0, 0))
        return f'{judged.title}: {judged.text}'

    @property
    def titles(self) -> tuple[str, str]:
        return self.case_file.name, self.network_file.name

    def report(self) -> str:
        """The page for the reviewer, of both texts as they are."""
        from .other_words import report
        return report(self.known_now(), self.titles)

    def picture(self, name: str) -> str:
        """A picture as an SVG; `KeyError` where there is none of this name."""
        from .other_words import picture
        return picture(self.known_now(), name, self.titles)

    def known_now(self) -> Known:
        with self.lock:
            return self.now

    def search(self, version: object, options: dict[str, str]) -> GestureDone:
        """A network that is searched from what the page saw, as a step; meanwhile the desk goes on, and where something
        has changed then, nothing is done."""
        from .other_words import searched
        with self.lock:
            if version != self.version:
                return GestureDone(self.shown(), stale=True)
            known = self.now
        try:
            text, told_of = searched(known, self.titles, timed(options))
        except DeskError as fault:
            return GestureDone(self.view(), Refusal(told(fault)))
        return self.gesture(version, {'kind': 'texts', 'network': text, 'told': f'searched: {told_of}'.rstrip(': ')})

    def tradeoff(self, version: object, options: dict[str, str]) -> TradeoffTable | GestureDone:
        """Exchangers against cost, from what the page saw; nothing is written."""
        from .other_words import traded
        with self.lock:
            if version != self.version:
                return GestureDone(self.shown(), stale=True)
            known = self.now
        try:
            return traded(known, self.titles, timed(options))
        except DeskError as fault:
            return GestureDone(self.view(), Refusal(told(fault)))

    def slider(self, version: object, difference: str) -> Slider | GestureDone:
        """Targets and curves at another least approach; nothing is written."""
        with self.lock:
            if version != self.version:
                return GestureDone(self.shown(), stale=True)
            known = self.now
        try:
            if known.case is None:
                raise NotDone(f'The case cannot be read: {known.fault}')
            text = with_difference(known.snapshot.case, known.case, difference)
            whole = self.knowing.whole(completed_live(text), text)
            return slid(whole, area_targets(self.knowing.pinch, whole), self.network_at(known, whole, text))
        except DeskError as fault:
            return GestureDone(self.view(), Refusal(told(fault)))


def timed(options: dict[str, str]) -> dict[str, str]:
    """The options of a search, which takes 10 s unless they say it; `NotDone` where that is too long."""
    if seconds_of(options.get('seconds', '10')) > LONGEST_SEARCH:
        raise NotDone(f'Here a search takes at most {LONGEST_SEARCH} seconds.')
    return {'seconds': '10', **options}
