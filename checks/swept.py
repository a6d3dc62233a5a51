"""The rows of `sweep`, from targets and least costs that come from elsewhere."""
from __future__ import annotations
from collections.abc import Callable, Iterable

from reading.case import Case, case_of
from reading.targets import targets_of


def swept_text(rows: bytes, shares: Iterable[int], search: Callable[[Case], int | None]) -> str:
    """The text of a sweep of a case, by its rows, over these contributions: each is that of all sources."""
    lines = []
    for share in shares:
        case = case_of(rows)
        case.share = share
        for source in case.streams + case.utilities:
            source.share = share
        hot, cold, _, _ = targets_of(case)
        cost = search(case.completed())
        lines.append('row %d %d %d %s\n' % (share, hot, cold, 'infeasible' if cost is None else cost))
    return ''.join(lines)
