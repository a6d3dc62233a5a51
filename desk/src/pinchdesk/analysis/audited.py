"""A network as `pinch` judges it, and as it can be followed."""
from __future__ import annotations

from ..formats.case import completed, read_case
from ..formats.network import read_network
from ..program.run import Pinch
from ..program.verdicts import Verdict
from .follow import Followed, PinchPoint, follow, pinches_of


def audited(pinch: Pinch, case: str | bytes, network: bytes) -> tuple[Followed, Verdict]:
    """A network that was followed, and what the audit says of it. The program reads the files first: what it refuses is
    refused in its words."""
    verdict = pinch.audit(case, network)
    return follow(completed(read_case(case)), read_network(network)), verdict


def asked_pinches(pinch: Pinch, case: str | bytes) -> tuple[PinchPoint, ...]:
    """The pinches of a case, as its targets and its curves have them."""
    return pinches_of(pinch.targets(case), pinch.curves(case))
