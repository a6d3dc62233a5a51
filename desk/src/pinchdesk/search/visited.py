"""Networks that a search has on its way and that the audit accepts, whether they are better than the best so far or
not: for a choice by something that the search does not look at."""
from __future__ import annotations

from collections.abc import Callable
from dataclasses import dataclass

from ..formats.case import Case
from ..program.run import CaseText, NetworkText, Pinch
from ..program.verdicts import Accepted, Verdict
from .accepted import AcceptedNetwork, held_network

Tell = Callable[[object], None]


@dataclass(frozen=True)
class Visited:
    """An accepted network on the way of a search."""

    found: AcceptedNetwork


class WatchedPinch(Pinch):
    """A program of which each accepted network of a case is told, as `Visited`."""

    def __init__(self, path: str, case: Case, tell: Tell) -> None:
        super().__init__(path)
        self.case, self.tell = case, tell

    def audit(self, case: CaseText, network: NetworkText) -> Verdict:
        verdict = super().audit(case, network)
        if isinstance(verdict, Accepted) and case == self.case:
            self.tell(Visited(AcceptedNetwork(held_network(network), verdict)))
        return verdict


def program_of(path: str, case: Case, tell: Tell, watched: bool) -> Pinch:
    """The program at a path, watched or not."""
    return WatchedPinch(path, case, tell) if watched else Pinch(path)
