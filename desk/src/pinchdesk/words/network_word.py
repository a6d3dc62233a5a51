"""The word `network`."""
from __future__ import annotations

from dataclasses import dataclass
from decimal import Decimal
from typing import TYPE_CHECKING

from ..errors import WordsError, about
from ..formats.amounts import seconds_of, whole
from ..formats.case import Case, completed, read_case
from ..formats.shown import Shown
from ..program.run import Pinch
from ..report.facts import Fact, FactRow
from ..search.budget import SearchWay, Telling, nobody
from ..search.find import FewExchangers, find_network, in_place_of, unseen
from ..search.wishes import Wishes
from ..tables.cost_words import cost_of, percent_of
from .forms import TEXT
from .shared import CASE, SHOWN_IN, CaseShown, annual_chooser
from .word import Answer, Files, Option, Role, Word

if TYPE_CHECKING:
    from ..search.annual_choice import AnnualChooser

START = Role('start', 'a network to improve on', needed=False, flag='--start', metavar='NETWORK')
DECLARED = (
    Option('cost', 'what it may cost at most, in the unit of the costs of the case, which may follow: 90 or "90 EUR/h" '
           '(the least cost unless given)', ('--cost',), metavar='MOST', one_of='cost'),
    Option('above', 'how far above the least cost it may be', ('--above',), metavar='PERCENT', one_of='cost'),
    Option('seconds', 'how long it takes at most, but for a moment (60 unless given)', ('--seconds',), default='60',
           metavar='S'),
    Option('annual', 'of all networks that are accepted on the way the one of least annual cost, in place of the '
           'fewest exchangers; the case needs coefficients and cost laws', ('--annual',), default=False, switch=True),
    Option('no_better', 'it ends where nothing better was found for so long', ('--until-no-better',), metavar='S'),
    Option('steps', 'how many steps it takes, in place of seconds: then the network is the same each time',
           ('--steps',), whole, metavar='N'),
    Option('seed', 'a number with which another search begins (1 unless given)', ('--seed',), whole, 1, metavar='N'),
    Option('workers', 'by how many workers it is searched, 1 to 8 (as many as there are processors)', ('--workers',),
           whole, metavar='N', in_many=1),
    Option('most_splits', 'how many splits it has at most', ('--most-splits',), whole, metavar='N', one_of='splits'),
    Option('no_splits', 'it has no split', ('--no-splits',), default=False, one_of='splits', switch=True),
    Option('forbid_crossing', 'no exchanger works through a place where no heat crosses', ('--forbid-crossing',),
           default=False, switch=True),
    Option('keep', 'exchangers of the network of --start that stay, each with its streams and its duty', ('--keep',),
           metavar='E1,E2'),
    SHOWN_IN)
MOST_STEPS, MOST_WORKERS, ANY_SPLITS = 10 ** 6, 8, 10 ** 4


@dataclass(frozen=True)
class NetworkOptions(CaseShown):
    """What a network may cost, at most or above the least cost; how long it may be searched, from a time by
    `time.monotonic` on, else from the call; in which way; and what it has to be beside."""

    cost: str | None = None
    above: str | None = None
    seconds: str = '60'
    begun: float | None = None
    no_better: str | None = None
    steps: int | None = None
    seed: int = 1
    workers: int | None = None
    annual: bool = False
    most_splits: int | None = None
    no_splits: bool = False
    forbid_crossing: bool = False
    keep: str | None = None

    @property
    def wishes(self) -> Wishes:
        """What the network has to be; `WordsError` where a number or a name is none."""
        if self.most_splits is not None and not 0 <= self.most_splits <= ANY_SPLITS:
            raise WordsError(f'--most-splits {self.most_splits}: a whole number from 0 to {ANY_SPLITS} is needed')
        # An exchanger across a kink is shown as `E1+E2`, by the names of its parts.
        names = () if self.keep is None else tuple(name.strip() for name in self.keep.replace('+', ',').split(','))
        if not all(names):
            raise WordsError(f'--keep {self.keep}: the names of exchangers are needed, with commas between them')
        return Wishes(0 if self.no_splits else self.most_splits, not self.forbid_crossing, names)

    @property
    def way(self) -> SearchWay:
        """The way of the search; `WordsError` where a number is not one that it can have."""
        for name, value, most in (('steps', self.steps, MOST_STEPS), ('workers', self.workers, MOST_WORKERS)):
            if value is not None and not 1 <= value <= most:
                raise WordsError(f'--{name} {value}: a whole number from 1 to {most} is needed')
        no_better = None if self.no_better is None else float(seconds_of(self.no_better, '--until-no-better'))
        return SearchWay(self.seed, self.steps, self.workers, no_better)


def network(files: Files, options: NetworkOptions = NetworkOptions(), tell: Telling = nobody) -> Answer:
    case, start = files.one('case'), files.get('start')
    seconds = seconds_of(options.seconds)
    above = None if options.above is None else percent_of(options.above)
    wishes = options.wishes
    with about(case=case.name, network=start.name if start else 'network'):
        pinch = Pinch()
        pinch.targets(case.content)
        chooser = annual_chooser(read_case(case.content)) if options.annual else None
        most = None if options.cost is None else cost_of(options.cost, Shown(read_case(case.content).basis))
        found = find_network(case.content, most, above, seconds, start.content if start else None, tell, pinch,
                             options.begun, options.way, wishes, chooser.see if chooser else unseen)
        facts = network_facts(found)
        if chooser:
            found, facts = chosen(found, completed(read_case(case.content)), chooser)
    return Answer(in_form=lambda form: found.text, facts=(facts,), headline=found.told,
                  notes=tuple(found.remarks()))


def chosen(found: FewExchangers, case: Case, chooser: AnnualChooser) -> tuple[FewExchangers, FactRow]:
    """The network of least annual cost in place of the one that was found last."""
    from ..report.cost_sheets import annual_facts
    choice = chooser.choice()
    best = in_place_of(found, case, choice.found, choice.told)
    return best, (*network_facts(best), *annual_facts(choice.costs))


def network_facts(found: FewExchangers) -> FactRow:
    """What is known of a network, in the units of its case; beside its cost that of the utilities with a range."""
    shown, verdict = Shown(found.basis), found.verdict
    unit, beside = shown.cost_unit, sum(cost for _, cost in found.range_costs)
    with_ranges = (Fact('cost of utilities with a range', Decimal(shown.cost(beside)), unit),
                   Fact('cost with these', Decimal(shown.cost(verdict.cost + beside)), unit))
    return (Fact('exchangers', Decimal(found.exchangers)), Fact('cost', Decimal(shown.cost(verdict.cost)), unit),
            Fact('floor', Decimal(shown.cost(verdict.floor)), unit),
            Fact('excess', Decimal(shown.heat(verdict.excess)), shown.heat_unit),
            *(with_ranges if found.range_costs else ()))


NETWORK_OF_FEW = Word('network', 'a network with few exchangers, at the least cost or a little above, accepted by '
                      '`pinch audit`', 'pinchdesk network examples/tc3.csv -o tc3-few.txt', (CASE, START),
                      NetworkOptions, network, DECLARED, TEXT)
