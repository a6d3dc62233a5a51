"""What an audit found and wanted, in words and in engineers' units, with its place in the network."""
from __future__ import annotations

from dataclasses import dataclass
from fractions import Fraction

from ..formats.case import Case, Stream
from ..formats.network import End, Mix, Pass, Split
from ..formats.shown import Shown, decimal, is_rounded
from ..program.verdicts import Accepted, PlaceKind, Rejected, Verdict
from .follow import Followed
from .unfinished import unfinished_told

REASONS = {
    'HotEndApproach': 'too close at its hot end: the hot side enters at {found}, and the cold one leaves so warm that '
                      '{wanted} is needed',
    'ColdEndApproach': 'too close at its cold end: the hot side leaves at {found}, and the cold one enters so warm '
                       'that {wanted} is needed',
    'MissedTarget': 'the target is missed: {found} instead of {wanted}',
    'Unfinished': 'only a part of the stream reaches its end: {found} of {wanted}',
    'Overdrawn': 'more than there is: {found}, and there is {wanted}',
    'UtilityRange': 'outside its range: {found}, and the bound is {wanted}',
    'Forbidden': 'these two may not exchange heat',
}


@dataclass(frozen=True)
class Finding:
    """Why a network is rejected: the exchanger, stream or utility that is concerned, and the sentence."""

    place: str
    exchanger: str | None
    stream: str | None
    found: str
    wanted: str
    sentence: str
    reason: str

    @property
    def told(self) -> str:
        """The fault in short: its reason, what was found and what was wanted."""
        return f'{self.reason}: {self.found}, wanted {self.wanted}' if self.found else self.reason


def finding_of(followed: Followed, rejected: Rejected, shown: Shown) -> Finding:
    """The finding of a rejected network."""
    place, case = rejected.place, followed.case
    exchanger = place.name if place.kind is PlaceKind.EXCHANGER else None
    stream = place.name if place.kind is PlaceKind.STREAM else None
    part = False
    if place.kind is PlaceKind.LINE:
        statement = followed.network.statements[place.line - 1]
        stream = stream_at(followed, place.line)
        exchanger = statement.exchanger if isinstance(statement, Pass) else exchanger_before(followed, statement)
        part = not isinstance(statement, Split)
    found, wanted = (measured(case, stream, rejected.reason, number, part, shown)
                     for number in (rejected.found, rejected.wanted))
    sentence = REASONS.get(rejected.reason, rejected.reason).format(found=found, wanted=wanted)
    where = f'{place} ({stream})' if stream and place.kind is PlaceKind.LINE else str(place)
    return Finding(where, exchanger, stream, found, wanted, sentence, rejected.reason)


def headline(followed: Followed, verdict: Verdict) -> str:
    """A verdict in one sentence."""
    shown, unfinished = Shown(followed.case.basis), unfinished_told(followed)
    if isinstance(verdict, Accepted):
        told = f'accepted, {shown.heat(verdict.excess)} {shown.heat_unit} above the hot target'
        return f'{unfinished}; with utilities there it is {told}' if unfinished else told
    if isinstance(verdict, Rejected):
        finding = finding_of(followed, verdict, shown)
        return f'rejected at {finding.place}: {finding.sentence} ({verdict.reason})'
    return f'too fine at {verdict.place}: nothing is said about the network'


def exchanger_before(followed: Followed, statement: object) -> str | None:
    """The exchanger from which a branch comes that ends here; None where it comes from none."""
    if not isinstance(statement, End):
        return None
    made = followed.branches[statement.branch].statement
    before = followed.network.statements[made - 1] if made else None
    return before.exchanger if isinstance(before, Pass) else None


def stream_at(followed: Followed, line: int) -> str | None:
    """The stream that a statement is about."""
    match followed.network.statements[line - 1]:
        case Split(branch) | Pass(branch) | End(branch) | Mix(branch):
            return followed.branches[branch].stream.name
    return None


def measured(case: Case, stream: str | None, reason: str, value: Fraction | None, part: bool, shown: Shown) -> str:
    """A number of a finding in the unit that its reason has; `part` where of a latent stream it is a part of its
    load."""
    if value is None:
        return ''
    source = case.source(stream) if stream else None
    latent = isinstance(source, Stream) and source.latent
    if reason in ('HotEndApproach', 'ColdEndApproach') or reason == 'MissedTarget' and not latent:
        return f'{exact(shown.in_temperature(value), 3)} {shown.temperature_unit}'
    if reason == 'MissedTarget' or reason == 'Overdrawn' and latent and part:
        return exact(value * 100, 3) + ' % of its load'
    if reason == 'UtilityRange' or latent:
        return f'{exact(shown.in_heat(value), 6)} {shown.heat_unit}'
    return f'{exact(shown.in_flow(value), 6)} {shown.flow_unit}'


def exact(value: Fraction, places: int) -> str:
    """A decimal that is no more than rounded, and says so: `89.967` of 2699/30 is `89.967 (2699/30)`."""
    text = decimal(value, places)
    return f'{text} ({value})' if is_rounded(value, places) else text
