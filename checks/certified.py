"""Least costs of large cases, from the program's own `flow`. It need not be believed: its prices prove the cost, and
they are taken apart by definition (flows.py)."""
from __future__ import annotations

from common import lay_out, run, text
from flows import cost_of
from reading.case import Case, Source


def row_of(source: Source) -> str:
    """A source as a row of a case, with its contribution."""
    name, share = source.name.decode(), source.contribution()
    if not source.stream:
        kind = 'heater' if source.hot else 'cooler'
        return '%s,%s,%d,%d,%d,%d,%d' % (kind, name, source.supply, source.least, source.most, source.price, share)
    load = str(source.load) if source.load else ''
    return '%s,%s,%d,%d,%d,%s,%d' % ('hot' if source.hot else 'cold', name, source.supply, source.target, source.cp,
                                     load, share)


def told(source: Source) -> tuple[object, ...]:
    return source.name, source.supply, source.least, source.most, source.price, source.share


def given(case: Case) -> list[Source]:
    """The utilities but for those that completion adds by itself. It may add one outside the temperatures of a file."""
    added = {told(utility) for utility in Case(case.share, case.streams).completed().utilities}
    return [utility for utility in case.utilities if told(utility) not in added
            or sum(other.hot is utility.hot for other in case.utilities) > 1]


def rows_of(case: Case) -> bytes:
    forbidden = ['forbid,%s,%s,,,,' % (one.decode(), other.decode()) for one, other in case.forbidden]
    return text('contribution,,%d,,,,' % case.contribution(), *map(row_of, case.streams + given(case)), *forbidden)


class Certified:
    """Asks a program, in a folder of its own."""

    def __init__(self, program: str, folder: str) -> None:
        self.program, self.folder = program, folder

    def least_cost(self, case: Case) -> int | None:
        """The least cost of a completed case, or None where it has no heat flow."""
        lay_out(self.folder, {'certified': rows_of(case)})
        status, written = run(self.program, ['flow', 'certified'], self.folder)
        return cost_of(case, status, written.decode())
