"""The words of a command, and what is wanted of it over its files."""
from __future__ import annotations
from collections.abc import Callable
from dataclasses import dataclass
import re
from typing import TypeVar

from reading.audit import audit_text
from reading.case import Case, case_of, is_standard, site_of
from reading.network import network_of
from reading.report import report_of
from reading.rows import LIMIT, Refused
from reading.study import Scenario, study_of
from reading.targets import curves_text, profile_text, targets_of, targets_text

LATENT = 'case has latent streams\n'
WHOLE = re.compile(r'[0-9]{1,10}\Z')
# How many streams of each side a sample may have, how many workers there may be, and the greatest number of a sample.
SAMPLED, WORKERS, SEEDS = 12, 16, 2147483646
# Of a file's role: the status of its refusal, and what its faults are numbered by.
ROLES = {'case': (3, 'row'), 'site': (3, 'row'), 'network': (4, 'line'), 'report': (4, 'line'), 'study': (4, 'row')}
Read = TypeVar('Read')


def is_command(words: list[str]) -> bool:
    """Whether the words are a command form."""
    if '' in words:
        return False
    form, count = words[0] if words else '', len(words)
    if form in ('targets', 'flow', 'curves', 'design', 'vertical', 'site'):
        return count == 2
    if form in ('audit', 'certify'):
        return count == 3
    numbers = {'sweep': (6, 2), 'prices': (4, 3), 'sample': (3, 1)}.get(form)
    if numbers is None or count != numbers[0] or not all(WHOLE.match(word) for word in words[numbers[1]:]):
        return False
    return are_in_range(form, [int(word) for word in words[numbers[1]:]])


def are_in_range(form: str, numbers: list[int]) -> bool:
    """Whether the numbers of a command are what they may be."""
    if form == 'prices':
        return 1 <= numbers[0] <= WORKERS
    if form == 'sample':
        return 1 <= numbers[0] <= SEEDS and 1 <= numbers[1] <= SAMPLED
    first, last, step, workers = numbers
    return (first <= last <= 1000 and 1 <= step <= 1000 and 1 <= workers <= WORKERS
            and (last - first) // step + 1 <= 1000)


@dataclass(frozen=True)
class Wanted:
    """What is wanted of a command: one of some statuses; and its text whole, or one of some fronts of it."""
    statuses: tuple[int, ...]
    fronts: tuple[str, ...]
    whole: bool = False

    def fits(self, status: object, written: bytes) -> bool:
        told = written.decode('latin-1')
        return status in self.statuses and (told in self.fronts if self.whole else told.startswith(self.fronts))

    def __str__(self) -> str:
        told = 'the text' if self.whole else 'a text that begins'
        return 'status %s, %s %s' % ('/'.join(map(str, self.statuses)), told, ' or '.join(map(repr, self.fronts)))


def exactly(status: int, written: str) -> Wanted:
    """One status and one text."""
    return Wanted((status,), (written,), True)


class Decided(Exception):
    """What is wanted where a file decides it, since it is refused."""

    def __init__(self, wanted: Wanted) -> None:
        super().__init__(wanted)
        self.wanted = wanted


def taken(role: str, data: bytes, read: Callable[[bytes], Read]) -> Read:
    """What a file holds in its role."""
    if len(data) > LIMIT:
        raise Decided(exactly(5, 'too long %s\n' % role))
    status, unit = ROLES[role]
    try:
        return read(data)
    except Refused as fault:
        raise Decided(exactly(status, '%s %s %d %s\n' % (role, unit, fault.at, fault.why))) from fault


def wanted_of_two(command: str, case: Case, data: bytes) -> Wanted:
    """What is wanted of a command over a case and another file."""
    if command == 'audit':
        statements = taken('network', data, lambda network: network_of(network, case.completed()))
        return exactly(*audit_text(case, statements))
    if command == 'certify':
        taken('report', data, report_of)
        return Wanted((0, 1), ('yes ', 'no '))
    first = taken('study', data, lambda study: study_of(study, case.completed()))[0]
    told = ('scenario', first.name) if isinstance(first, Scenario) else ('span', first.utility)
    return Wanted((0,), ('%s %s ' % (told[0], told[1].decode()),))


def wanted_of_case(command: str, case: Case) -> Wanted:
    """What is wanted of a command over a case alone."""
    if command == 'targets':
        return exactly(0, targets_text(case))
    if command == 'curves':
        return exactly(0, curves_text(case))
    hot, cold, _, _ = targets_of(case)
    if command == 'vertical' and not is_standard(case):
        return exactly(3, 'case not standard\n')
    if command == 'vertical' and case.is_latent():
        return exactly(3, LATENT)
    if not is_standard(case):
        fronts = {'flow': ('cost ', 'infeasible\ncut '), 'design': ('# hot ', 'infeasible\ncut '), 'sweep': ('row ',)}
        return Wanted((0, 1), fronts[command])
    # The least cost of a standard case is its hot target.
    head = '# hot %d cold %d excess 0 cost %d\n' % (hot, cold, hot)
    front = {'flow': 'cost %d\nuse ' % hot, 'design': head, 'vertical': head, 'sweep': 'row '}[command]
    return Wanted((0,), (front,))


def wanted_of(command: str, files: list[bytes]) -> Wanted:
    """What is wanted of a command over the bytes of its files, in the order of its words."""
    try:
        if command == 'site':
            profiles = profile_text(taken('site', files[0], site_of))
            return Wanted((0, 1), (profiles + 'boiler ', profiles + 'infeasible\ncut '))
        case = taken('case', files[0], case_of)
        if command in ('audit', 'certify', 'prices'):
            return wanted_of_two(command, case, files[1])
        return wanted_of_case(command, case)
    except Decided as refusal:
        return refusal.wanted
