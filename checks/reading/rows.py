"""The rows of a CSV text, their kinds and their numbers."""
from __future__ import annotations
import re

# How many bytes a file may have.
LIMIT = 8388608
NAME = re.compile(rb'[A-Za-z0-9][A-Za-z0-9_-]{0,15}\Z')
NUMBER = re.compile(rb'-?[0-9]{1,13}\Z')

Row = list[bytes]
# The least and the greatest that a number may be.
Range = tuple[int, int]
# The fields that each kind of row may fill behind its first.
Kinds = dict[str, set[int]]


class Refused(Exception):
    """A fault of a file: its row or statement, and its cause."""

    def __init__(self, at: int, why: str) -> None:
        super().__init__(at, why)
        self.at, self.why = at, why


def rows_of(data: bytes) -> list[Row]:
    """The rows of a text, by a machine over its bytes. Its state is `row` where a row may begin, `field` where a field
    may, `plain` or `quoted` inside of one, and `closed` behind a quote in a quoted one."""
    rows: list[Row] = []
    row: Row = []
    field, state = bytearray(), 'row'
    for byte in data.removeprefix(b'\xef\xbb\xbf'):
        if state == 'row':
            if byte in b'\r\n':
                continue
            state = 'field'
        if state == 'quoted':
            if byte == 34:
                state = 'closed'
            else:
                field.append(byte)
        elif state == 'field' and byte == 34:
            state = 'quoted'
        elif state == 'closed' and byte == 34:
            field.append(byte)
            state = 'quoted'
        elif byte == 44:
            row.append(bytes(field))
            field, state = bytearray(), 'field'
        elif byte in b'\r\n':
            rows.append(row + [bytes(field)])
            row, field, state = [], bytearray(), 'row'
        else:
            field.append(byte)
            state = 'plain'
    return rows if state == 'row' else rows + [row + [bytes(field)]]


def kind_of(row: Row, at: int, kinds: Kinds, fields: int = 7) -> str | None:
    """The kind of a row, or None for one that is passed over."""
    if len(row) != fields:
        raise Refused(at, 'FieldCount')
    if not any(row) or row[0].startswith(b'#'):
        return None
    kind = row[0].decode('latin-1')
    if kind not in kinds:
        raise Refused(at, 'UnknownKind')
    if any(row[field] for field in range(1, fields) if field not in kinds[kind]):
        raise Refused(at, 'FieldCount')
    return kind


def numbers(row: Row, fields: tuple[int, ...], ranges: tuple[Range, ...], at: int) -> list[int]:
    """The numbers of some fields, from left to right: first each is a number text, then each is in its range."""
    if not all(NUMBER.match(row[field]) for field in fields):
        raise Refused(at, 'BadNumber')
    values = [int(row[field]) for field in fields]
    if not all(low <= value <= high for value, (low, high) in zip(values, ranges)):
        raise Refused(at, 'OutOfRange')
    return values


def numbers_and_more(row: Row, fields: tuple[int, ...], ranges: tuple[Range, ...], more: tuple[tuple[int, Range], ...],
                     at: int) -> tuple[list[int], list[int | None]]:
    """These numbers, and those of further fields behind them, each None where its field is empty."""
    filled = [(field, limits) for field, limits in more if row[field] != b'']
    values = numbers(row, fields + tuple(field for field, _ in filled), ranges + tuple(limits for _, limits in filled),
                     at)
    behind = iter(values[len(fields):])
    return values[:len(fields)], [next(behind) if row[field] != b'' else None for field, _ in more]
