"""Networks that `pinch audit` has accepted, with their structures: nothing else leaves a search."""
from __future__ import annotations

from collections.abc import Iterator
from dataclasses import dataclass, field
from fractions import Fraction

from ..analysis.findings import headline
from ..analysis.follow import follow
from ..analysis.joined import network_count
from ..errors import DeskError, Refused
from ..formats.case import Case, completed, read_case
from ..formats.network import Exchanger, Mix, Network, Split, read_network
from ..program.run import CaseText, NetworkText, Pinch
from ..program.verdicts import Accepted, Rejected, TooFine, ending
from .reduce.network_structure import Costed, Duties, duties_of, network_of, structure_of
from .reduce.structure import Structure, splits
from .wishes import NO_WISHES, CutCase, Wishes, splits_of


class NotAccepted(DeskError):
    """The network that is given is not accepted: what is told of it, and its verdict."""

    def __init__(self, told: str, verdict: Rejected | TooFine) -> None:
        super().__init__(f'the network is {told}: only an accepted one can be changed')
        self.status, self.no = ending([verdict])


@dataclass(frozen=True)
class AcceptedNetwork:
    """A network with the verdict of `pinch audit` that accepted it; `uneven` is how many of its mixes join branches of
    two temperatures, and `joints` how many exchangers are none of their own in the plant, since they are what others go
    on as across the kink of a stream."""

    network: Network
    verdict: Accepted
    uneven: int = field(default=0, kw_only=True)
    joints: int = field(default=0, kw_only=True)

    @property
    def count(self) -> int:
        return len(self.network.exchangers)

    @property
    def in_plant(self) -> int:
        """How many exchangers the plant has."""
        return self.count - self.joints

    @property
    def cost(self) -> Fraction:
        return self.verdict.cost

    @property
    def splits(self) -> int:
        return splits_of(self.network)

    @property
    def rank(self) -> tuple[int, int, int, int, Fraction, int]:
        """What is less is better: exchangers of the plant, and of the program, splits, splits that are not mixed at one
        temperature, the cost, and then the digits of its fractions."""
        digits = sum(len(str(number)) for number in numbers_of(self.network))
        return (self.in_plant, self.count, self.splits, self.uneven, self.cost, digits)


@dataclass(frozen=True)
class Judged(AcceptedNetwork):
    """An accepted network with its structure."""

    structure: Structure
    duties: Duties

    @property
    def splits(self) -> int:
        return splits(self.structure)


def numbers_of(network: Network) -> Iterator[Fraction]:
    """The duties and sizes of a network."""
    for statement in network.statements:
        if isinstance(statement, Exchanger):
            yield statement.duty
        elif isinstance(statement, Split):
            yield statement.size


def uneven_mixes(case: Case, network: Network) -> int:
    """How many mixes join branches of two temperatures, or of two states of a latent stream."""
    branches = follow(case, network).branches
    return sum(branches[statement.first].state != branches[statement.second].state
               for statement in network.statements if isinstance(statement, Mix))


def accepted_network(case: Case, network: Network, verdict: Accepted) -> AcceptedNetwork:
    """A network of a completed case that was accepted."""
    return AcceptedNetwork(network, verdict, uneven=uneven_mixes(case, network), joints=joints_in(case, network))


def joints_in(case: Case, network: Network) -> int:
    """How many exchangers of a network are none of their own in the plant."""
    return len(network.exchangers) - network_count(case, network)


def case_of(case: CaseText) -> Case:
    """A case that may be a text, completed."""
    return completed(case if isinstance(case, Case) else read_case(case))


def held_network(network: NetworkText) -> Network:
    """A network that may be a text."""
    return network if isinstance(network, Network) else read_network(network)


@dataclass
class Judge:
    """Asks `pinch audit` of a completed case. What is searched has to be as it is wished; the cuts of the case, at
    shifted temperatures, are for the wish that no exchanger works through one. `sees_all` where networks that are no
    better than the best are wanted too (`visited`)."""

    pinch: Pinch
    case: Case
    wishes: Wishes = NO_WISHES
    cuts: tuple[int, ...] = ()
    sees_all: bool = field(default=False, kw_only=True)

    @property
    def whole(self) -> Case:
        """The case that is audited."""
        return self.case

    def accepted(self, text: NetworkText) -> AcceptedNetwork:
        """A network that somebody has, which the program reads first; `NotAccepted` where it is not accepted."""
        verdict = self.pinch.audit(self.case, text)
        network = held_network(text)
        if not isinstance(verdict, Accepted):
            told = headline(follow(self.case, network), verdict)
            raise NotAccepted(told, verdict)
        return accepted_network(self.case, network, verdict)

    def given(self, text: NetworkText) -> Judged:
        """The same with its structure; `Refused` where it has none."""
        found = self.accepted(text)
        structure, duties = structure_of(self.case, found.network), duties_of(found.network)
        return Judged(found.network, found.verdict, structure, duties, uneven=found.uneven, joints=found.joints)

    def of(self, costed: Costed | None) -> Judged | None:
        """What was found, where it is accepted at the cost that was worked out and as it is wished; None where it is
        not, or its fractions are too fine to be written."""
        if costed is None:
            return None
        network = network_of(self.whole, self.structure_of(costed.structure), costed.duties)
        try:
            verdict = self.pinch.audit(self.whole, network)
        except Refused:
            return None
        if not isinstance(verdict, Accepted) or verdict.cost != costed.cost or not self.is_wished(network):
            return None
        return Judged(network, verdict, costed.structure, costed.duties, uneven=uneven_mixes(self.whole, network),
                      joints=joints_in(self.whole, network))

    def structure_of(self, structure: Structure) -> Structure:
        """What was searched as a structure of the case that is audited."""
        return structure

    def is_wished(self, network: Network) -> bool:
        """Whether an accepted network of the case is as it is wished."""
        return self.wishes.are_met(self.whole, self.cuts, network)


@dataclass
class CutJudge(Judge):
    """The same of networks that are searched in a case cut into its windows: that is then its `case`."""

    cut: CutCase = field(kw_only=True)
    audited: Case = field(kw_only=True)

    @property
    def whole(self) -> Case:
        return self.audited

    def structure_of(self, structure: Structure) -> Structure:
        return self.cut.joined(structure)
