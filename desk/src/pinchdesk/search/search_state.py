"""How far a search for few exchangers is: what it tells on the way, and at its end."""
from __future__ import annotations

from dataclasses import dataclass

from ..formats.case import Case, Side
from ..formats.whole_streams import whole_streams
from .accepted import AcceptedNetwork

TIME_OVER, TO_THE_END, INTERRUPTED = 'time over', 'searched to the end', 'interrupted'
# Where the memory is not enough, for instance.
BROKEN_OFF = 'the process of the search was ended on the way'
ALL_STEPS, NO_BETTER = 'all steps done', 'nothing better was found'


@dataclass(frozen=True)
class SearchState:
    """The best network so far. `bound` is what the solver says that no network at this cost has fewer exchangers than;
    `staged` the same for networks of the staged model, with the stages of each window, None where that was not settled;
    `ended` is why the search ended, None where it goes on; `of_uses` the same as `bound` for networks with the uses of
    the utilities that the heat flow of least cost has, 0 where that is not known. `proved` and `proved_of_uses` are as
    much of both as is proved in fractions."""

    best: AcceptedNetwork | None
    bound: int = 0
    staged: tuple[int, tuple[int, ...]] | None = None
    ended: str | None = None
    of_uses: int = 0
    proved: int = 0
    proved_of_uses: int = 0

    def __str__(self) -> str:
        best = 'none yet' if self.best is None else str(self.best.in_plant)
        return f'{best} exchangers, at least {self.bound}'

    def joined(self, other: SearchState) -> SearchState:
        """What this one knows and another one does, with the best of this one."""
        return SearchState(self.best, max(self.bound, other.bound), other.staged or self.staged, self.ended,
                           max(self.of_uses, other.of_uses), max(self.proved, other.proved),
                           max(self.proved_of_uses, other.proved_of_uses))


def first_state(case: Case, best: AcceptedNetwork | None) -> SearchState:
    """What is known before the search."""
    least = each_stream_has_one(case)
    return SearchState(best, least, proved=least)


def each_stream_has_one(case: Case) -> int:
    """What no network has fewer exchangers than, since each stream has one, and no two of a side have it together."""
    return max(sum(stream.side is side for stream in whole_streams(case)) for side in Side)
