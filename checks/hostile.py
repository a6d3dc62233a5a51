"""Inputs that are made to grind: names that fall together where an index hashes them with a fixed seed, and price
studies in orders that leave workers idle.

The names are for the fold hash of small keys: a state that each byte is mixed into, and multiplied with a constant to
128 bits, whose halves are then folded. In an index of a fixed seed that holds as many of them as MOST they have the
same tag, and begin at one of four groups, so that each one is compared with all that are there."""
from __future__ import annotations
from collections.abc import Iterator
from functools import cache
import os
import re
import struct

from common import HERE, text

LETTERS = b'0123456789abcdefghijklmnopqrstuvwxyzABCDEFGHIJKLMNOPQRSTUVWXYZ'
MULTIPLIER, SEED, WORD = 0x9e3779b97f4a7c15, 0x243f6a8885a308d3, (1 << 64) - 1
LENGTH = 8
# How many names fall together: as many as a table of 8,192 places holds.
MOST = 7000
# How many bytes run along a row of names that are hashed at once, behind four that are fixed.
OPEN = 3


def folded(one: int, other: int) -> int:
    product = one * other
    return (product ^ product >> 64) & WORD


def pattern(byte: int) -> int:
    return byte | byte << 8 | byte << 16


@cache
def ones(count: int) -> int:
    return int.from_bytes((b'\1' + b'\0' * 15) * count, 'little')


@cache
def mask(count: int) -> int:
    return ones(count) * WORD


class Row:
    """Many 64-bit numbers in one: each has 128 bits of it, so that one product is the product of each."""

    def __init__(self, packed: int, count: int) -> None:
        self.packed, self.count = packed, count

    def mixed(self, byte: int) -> Row:
        """Each state behind one more byte."""
        product = (self.packed ^ ones(self.count) * pattern(byte)) * folded_power(2)
        return Row((product ^ product >> 64) & mask(self.count), self.count)

    def bytes(self) -> bytes:
        return self.packed.to_bytes(16 * self.count, 'little')


def folded_power(power: int) -> int:
    return MULTIPLIER ^ power


def rows_of(front: bytes) -> Iterator[tuple[int, Row]]:
    """The hashes of all names that begin so, by their last byte; the three bytes before it run along the row."""
    state = folded(SEED ^ LENGTH, folded_power(16))
    for byte in front:
        state = folded(state ^ pattern(byte), folded_power(2))
    states = [state]
    for _ in range(OPEN - 1):
        states = [folded(previous ^ pattern(byte), folded_power(2)) for previous in states for byte in LETTERS]
    row = Row(int.from_bytes(b''.join(struct.pack('<QQ', hashed, 0) for hashed in states), 'little'), len(states))
    wide = b''.join(row.mixed(byte).bytes() for byte in LETTERS)
    row = Row(int.from_bytes(wide, 'little'), len(wide) // 16)
    for byte in LETTERS:
        yield byte, row.mixed(byte)


def name_of(front: bytes, place: int, last: int) -> str:
    """The name at a place of a row."""
    third, place = divmod(place, len(LETTERS) ** 2)
    first, second = divmod(place, len(LETTERS))
    return (front + bytes((LETTERS[first], LETTERS[second], LETTERS[third], last))).decode()


def fitting(row: Row) -> Iterator[int]:
    """The places of the row whose hash has the tag of zero, and one of 64 beginnings in a table of 8,192."""
    written = row.bytes()
    # The hash is the lower half with the upper one over it, byte by byte.
    tags, middles, lows = [xor(written[at::16], written[at + 4::16]) for at in (3, 1, 0)]
    for place in re.finditer(rb'[\0\1]', tags):
        if lows[place.start()] < 64 and middles[place.start()] % 32 == 0:
            yield place.start()


def xor(one: bytes, other: bytes) -> bytes:
    return (int.from_bytes(one, 'little') ^ int.from_bytes(other, 'little')).to_bytes(len(one), 'little')


def colliding(count: int = MOST) -> list[str]:
    """So many names that fall together."""
    names: list[str] = []
    for letter in LETTERS:
        front = b'000' + bytes((letter,))
        for last, row in rows_of(front):
            names += [name_of(front, place, last) for place in fitting(row)]
            if len(names) >= count:
                return names[:count]
    return names


def plain(count: int = MOST) -> list[str]:
    """So many ordinary names of the same length."""
    return ['n%07d' % number for number in range(count)]


def splits(names: list[str]) -> bytes:
    """A network of the one hot stream `H`, CP 10, that is divided again and again into branches of these names."""
    lines, branch = [], 'H'
    for first, second in zip(names[::2], names[1::2]):
        lines.append('split %s %s 1/20000 %s' % (branch, first, second))
        branch = second
    return text(*lines, 'end ' + branch)


def study(utility: str, scenarios: int, spans: int, is_sorted: bool) -> bytes:
    """Scenarios and widest spans, in turn or sorted."""
    some = [['scenario,S%d,,' % number for number in range(scenarios)], ['span,%s,-50000,49999' % utility] * spans]
    return text(*some[0], *some[1]) if is_sorted else text(*[row for pair in zip(*some) for row in pair])


def slowest_flow() -> bytes:
    """The slowest case for `flow` that 400 random cases and two climbs among their neighbours found."""
    with open(os.path.join(HERE, 'slowest-flow.csv'), 'rb') as handle:
        return handle.read()
