"""The view of what is known, and what a slider shows."""
from __future__ import annotations

from ..formats.case import Case
from ..formats.shown import Shown
from ..program.answers import Targets
from ..program.verdicts import Accepted, Rejected
from .areas import Areas
from .case_view import (curve_picture, difference_of, forbid_rows, pinch_marks, stream_rows, unit_names, utility_rows)
from .faults import faults_of, marks_of, sentence_of
from .grid_view import Lines, grid_picture, laid_out
from .gestures import NotDone
from .judgement import Whole
from .known import Known
from .mending import mended
from .network_view import exchanger_rows, judgement_of, score_of
from .other_words import links
from .view import Difference, FileNames, Judgement, ScoreView, Slider, Texts, UnitNames, View

NO_UNITS = UnitNames('°C', 'K', 'kW', 'kW/K', '', '')
NO_DIFFERENCE = Difference('', 0.0, 0.0, 0.0, 0.0, '')


def seen(known: Known) -> View:
    """All that the page shows of both texts; what it shows of files and steps is not in it."""
    case, plan, standing = known.case, known.plan, known.standing
    lines = lines_of_known(known)
    return View(
        0, FileNames('', '', ''), unit_names(case) if case else NO_UNITS,
        difference_of(case) if case else NO_DIFFERENCE, judgement(known),
        score_of(standing) if standing else score_of_case(known),
        stream_rows(case) if case else (), utility_rows(plan or case) if case else (),
        forbid_rows(case) if case else (),
        curve_picture(known.whole) if known.whole else None,
        curve_picture(standing.of_left) if standing and standing.of_left else None,
        grid_picture(lines) if lines else None,
        exchanger_rows(lines, standing) if lines and standing else (),
        (), False, False, Texts(known.snapshot.case, known.snapshot.network), links(known), known.read_only,
        holding_told(known))


def holding_told(known: Known) -> str:
    """What would be open where a network is made one for the hand; empty where that is not needed, or cannot be."""
    if not known.read_only or known.case is None:
        return ''
    try:
        return mended(known.case, known.snapshot.network).told
    except NotDone:
        return ''


def lines_of_known(known: Known) -> Lines | None:
    """The layout of the grid; None where there is no plan."""
    if known.plan is None or known.whole is None or known.stand is None:
        return None
    return laid_out(known.cut_plan(), known.layout, known.whole.pinches, faults_of(known.stand, known.plan))


def judgement(known: Known) -> Judgement:
    """The verdict, or why there is none."""
    if known.fault:
        empty = known.case is not None and not known.case.streams
        return Judgement('nothing-placed', 'No streams', 'Add the first stream.') if empty else \
            Judgement('faulty', 'The case is refused', known.fault)
    if known.network_fault:
        return Judgement('faulty', 'The network is refused', known.network_fault)
    if known.standing:
        return judgement_of(known.standing)
    assert known.case is not None
    shown = Shown(known.case.basis)
    if isinstance(known.verdict, Accepted):
        excess = f'{shown.heat(known.verdict.excess)} {shown.heat_unit} above the target'
        return Judgement('accepted', 'Accepted', f'{excess}. {known.read_only}')
    if isinstance(known.verdict, Rejected):
        return Judgement('rejected', 'Rejected', f'{sentence_of(known.verdict, shown)}. {known.read_only}',
                         marks_of(known.verdict))
    return Judgement('faulty', 'Too fine', f'A number has more digits than can be judged. {known.read_only}')


def score_of_case(known: Known) -> ScoreView:
    """The score where no plan is known: the targets."""
    hot, cold = targets_told(known.case, known.whole.targets) if known.whole and known.case else ('', '')
    return ScoreView(hot, cold, '', '', '', '', '', (0.0, 0.0, 0.0), 0, 0, 0, '', '', '')


def targets_told(case: Case, targets: Targets) -> tuple[str, str]:
    shown = Shown(case.basis)
    return shown.heat(targets.hot), shown.heat(targets.cold)


def slid(whole: Whole, areas: Areas, network: str) -> Slider:
    """What the slider shows of a case, and what the network would be there."""
    hot, cold = targets_told(whole.case, whole.targets)
    pinches = '; '.join(mark.text for mark in pinch_marks(whole)) or 'no pinch'
    return Slider(difference_of(whole.case), hot, cold, pinches, curve_picture(whole), areas.area,
                  areas.cost, network)
