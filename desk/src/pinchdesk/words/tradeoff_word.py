"""The word `tradeoff`."""
from __future__ import annotations

from collections.abc import Callable
from dataclasses import dataclass
from typing import TYPE_CHECKING

from ..analysis.joined import network_count
from ..errors import about
from ..formats.amounts import seconds_of
from ..formats.case import Case, read_case
from ..formats.shown import Shown
from ..program.run import Pinch
from ..report.facts import rows_of_tables
from ..report.sheet import Sheet, rendered
from ..report.tradeoff_sheets import network_texts, proved, tradeoff_sheets, tradeoff_tables
from ..search.budget import Telling, nobody
from .forms import PICTURES, TABLE_OR_PICTURE
from .shared import CASE, NETWORK, SHOWN_IN, CaseShown, annual_chooser
from .word import Answer, Files, FurtherFiles, FurtherOutput, Option, Role, Word

if TYPE_CHECKING:
    from ..search.accepted import Judged
    from ..search.annual_choice import AnnualChoice, AnnualChooser
    from ..search.reduce.tradeoff import TradeOff

BEGUN = Role(NETWORK.name, 'a network text to begin with; otherwise one is searched for', needed=False)
NETWORKS = FurtherOutput('networks', '--networks', 'where the networks are written, one file for each row, and with '
                         '--annual one for the network of least annual cost', folder=True)
SECONDS = Option('seconds', 'how long it takes at most, but for a moment; it ends earlier where nothing more is '
                 'gained, and Control-C ends it with what was found', ('--seconds',), default='30', metavar='S')
ANNUAL = Option('annual', 'marks the network of least annual cost among all that were accepted on the way; the case '
                'needs coefficients and cost laws',
                ('--annual',), default=False, switch=True)
STOPPED = 'the search was stopped: these are the networks that were found so far'


@dataclass(frozen=True)
class TradeoffOptions(CaseShown):
    """How long networks may be searched, from a time by `time.monotonic` on, else from the call."""

    seconds: str = '30'
    begun: float | None = None
    annual: bool = False


def tradeoff(files: Files, options: TradeoffOptions = TradeoffOptions(), tell: Telling = nobody) -> Answer:
    case, network = files.one('case'), files.get('network')
    seconds = float(seconds_of(options.seconds))
    from ..search.find import unseen
    from ..search.reduce.tradeoff import tradeoff as searched
    with about(case=case.name, network=network.name if network else ''):
        pinch = Pinch()
        pinch.targets(case.content)
        read = read_case(case.content)
        chooser = annual_chooser(read) if options.annual else None
        traded = searched(read, network.content if network else None, pinch, seconds, told_on(read, tell),
                          options.begun, chooser.see if chooser else unseen)
        choice = chosen_of(traded, chooser) if chooser else None
    marked = choice.found if choice else None
    sheets = tuple(tradeoff_sheets(traded, marked))
    told = (counted(traded.case, choice),) if choice else ()
    texts = network_texts(traded, marked, choice.told if choice else '')
    return Answer(sheets, in_form(traded, sheets), rows_of_tables(tradeoff_tables(traded, marked)),
                  '; '.join((*told, proved(traded))), notes=(*told, *((STOPPED,) if traded.stopped else ())),
                  further={NETWORKS.name: FurtherFiles(texts)})


def counted(case: Case, choice: AnnualChoice) -> str:
    """What is said of the network of least annual cost."""
    return f'{network_count(case, choice.found.network)} exchangers: {choice.told}'


def chosen_of(traded: TradeOff, chooser: AnnualChooser) -> AnnualChoice:
    """The network of least annual cost among those that a trade-off saw and those of its rows."""
    for found in ([traded.begun] if traded.left_begun else []) + [row.judged for row in traded.rows]:
        chooser.see(found)
    return chooser.choice()


def told_on(case: Case, tell: Telling) -> Callable[[Judged], None]:
    """Tells what was found last."""
    shown = Shown(case.basis)
    return lambda judged: tell(f'{judged.count} exchangers at {shown.with_unit(judged.cost)}')


def in_form(traded: TradeOff, sheets: tuple[Sheet, ...]) -> Callable[[str], str | bytes]:
    """A picture, or tables."""
    def content(form: str) -> str | bytes:
        if form not in PICTURES:
            return rendered(sheets, form)
        from .. import figures
        return figures.rendered(figures.tradeoff_figure(traded), form)
    return content


TRADEOFF = Word('tradeoff', 'exchangers against cost: networks of fewer and fewer exchangers, as a table or a picture',
                'pinchdesk tradeoff examples/tc3.csv examples/tc3-network.txt --seconds 1 -o tc3.svg', (CASE, BEGUN),
                TradeoffOptions, tradeoff, (SECONDS, ANNUAL, SHOWN_IN), TABLE_OR_PICTURE, (NETWORKS,))
