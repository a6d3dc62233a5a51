"""The grammar of reports, which are what `flow` prints and `certify` reads."""
from __future__ import annotations
import re

from reading.network import statements_in
from reading.rows import NAME, Refused

AMOUNT, LEVEL, COST = 10 ** 15, 10 ** 6, 10 ** 20
LONG_NUMBER = re.compile(rb'-?[0-9]{1,30}\Z')
# What a field behind the word of a statement is: the kind of a cut, a name, or a number with the greatest that it is.
Field = str | int
SPAN: tuple[Field, ...] = ('name', LEVEL, LEVEL)
FIELDS: dict[bytes, tuple[Field, ...]] = {
    b'cost': (COST,), b'use': ('name', AMOUNT), b'move': (*SPAN, *SPAN, AMOUNT), b'give': (*SPAN, AMOUNT),
    b'take': (*SPAN, AMOUNT), b'infeasible': (), b'cut': ('kind', AMOUNT, AMOUNT), b'part': SPAN,
}
# Which words may stand behind a word, or at the head.
BEHIND: dict[bytes | None, tuple[bytes, ...]] = {
    None: (b'cost', b'infeasible'), b'cost': (b'use', b'move', b'give', b'take'),
    b'use': (b'use', b'move', b'give', b'take'), b'move': (b'move', b'give', b'take'), b'give': (b'give', b'take'),
    b'take': (b'take',), b'infeasible': (b'cut',), b'cut': (b'part',), b'part': (b'part',),
}


def check_field(written: bytes, kind: Field, at: int) -> None:
    if kind == 'kind' and written not in (b'demand', b'supply'):
        raise Refused(at, 'BadKind')
    if kind == 'name' and not NAME.match(written):
        raise Refused(at, 'BadName')
    if isinstance(kind, int) and not LONG_NUMBER.match(written):
        raise Refused(at, 'BadNumber')
    if isinstance(kind, int) and abs(int(written)) > kind:
        raise Refused(at, 'OutOfRange')


def report_of(data: bytes) -> list[list[bytes]]:
    """The statements of a report."""
    statements, last = list(statements_in(data)), None
    for at, fields in enumerate(statements, 1):
        word = fields[0]
        if word not in FIELDS:
            raise Refused(at, 'UnknownWord')
        if len(fields) != 1 + len(FIELDS[word]):
            raise Refused(at, 'FieldCount')
        if word not in BEHIND[last]:
            raise Refused(at, 'OutOfOrder')
        for written, kind in zip(fields[1:], FIELDS[word]):
            check_field(written, kind, at)
        last = word
    if last in (None, b'infeasible'):
        raise Refused(len(statements) + 1, 'Ended')
    return statements
