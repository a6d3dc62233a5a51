"""Changes of good files: a byte, several bytes, numbers at their ends, rows mixed, and bytes that are random."""
from __future__ import annotations
import random
import re

LETTERS = {'audit': b' \t\r\n#/-.0123456789HCQEabcdz', 'certify': b' \t\r\n#-.0123456789HCBOTLDgivetakemp',
           'site': b',,,\r\n"#-0123456789HCMP', 'prices': b',,,\r\n"#-0123456789HPLS',
           'case': b',,,\r\n"#-0123456789HC_'}
# Numbers at the ends of what may stand there, and a step beyond.
ENDS = [number + step for number in (0, -2731, 30000, 1000, 100000, 10 ** 10, 10 ** 12, -10 ** 6, 10 ** 6, 10 ** 13,
                                     2 ** 31, 2 ** 63) for step in (-1, 0, 1)]
RATIOS = [2 ** 48, 2 ** 48 + 1, 2 ** 76, 2 ** 76 + 1, 10 ** 24 - 1, 10 ** 24]
NUMBER = re.compile(rb'-?[0-9]+(/[0-9]+)?')
LAST_FIELD = re.compile(rb'(?m),([0-9]*)$')
STREAM = re.compile(rb'(?m)^((?:hot|cold),[^,\n]*,([^,\n]*),)([^,\n]*),([^,\n]*),([^,\n]*)')


def random_bytes(letters: bytes, draw: random.Random) -> bytes:
    alphabet = letters if draw.randrange(2) else bytes(range(256))
    return bytes(draw.choice(alphabet) for _ in range(draw.choice((0, 1, 2, 3, 7, 20, 60, 200, 1000))))


def rows_mixed(good: bytes, draw: random.Random) -> bytes:
    """Some rows once more, left out, or in each other's place."""
    rows = good.splitlines(True)
    for _ in range(draw.randrange(1, 4)):
        sort, at = draw.randrange(3), draw.randrange(len(rows))
        if sort == 0:
            rows.insert(draw.randrange(len(rows) + 1), rows[at])
        elif sort == 1 and len(rows) > 1:
            del rows[at]
        else:
            other = draw.randrange(len(rows))
            rows[at], rows[other] = rows[other], rows[at]
    return b''.join(rows)


def load_changed(good: bytes, draw: random.Random) -> bytes:
    """The sixth field of a stream, and at times its CP and its target too."""
    streams: list[re.Match[bytes] | None] = [*STREAM.finditer(good)]
    place = draw.choice(streams or [None])
    if place is None:
        return good
    load = draw.choice((b'', b'%d' % draw.choice(ENDS), b'%d' % draw.randrange(1, 10 ** 10 + 1), b'1', b'x', b'-0'))
    target = place.group(2) if draw.randrange(2) else place.group(3)
    cp = draw.choice((b'0', b'0', place.group(4)))
    return good[:place.start()] + place.group(1) + b'%s,%s,%s' % (target, cp, load) + good[place.end():]


def last_field_changed(good: bytes, draw: random.Random) -> bytes:
    """The last field of a row, and at times the one before it too."""
    place = draw.choice(list(LAST_FIELD.finditer(good)))
    number = draw.choice((b'', b'%d' % draw.choice(ENDS), b'%d' % draw.randrange(1001), b'x', b' ', b'-0',
                          b'0' * 13 + b'1', b'7,'))
    return good[:place.start(1)] + number + good[place.end(1):]


def numbers_changed(good: bytes, letters: bytes, draw: random.Random) -> bytes:
    for _ in range(draw.randrange(1, 3)):
        place = draw.choice(list(NUMBER.finditer(good)))
        number = b'%d' % draw.choice(ENDS)
        if letters == LETTERS['audit'] and draw.randrange(2):
            number = b'%d/%d' % (draw.choice(RATIOS + ENDS), draw.choice(RATIOS + [1, 2, 3, 7, 0]))
        good = good[:place.start()] + draw.choice((b'', b'', b'', b'0', b'00', b'-')) + number + good[place.end():]
    return good


def bytes_changed(good: bytes, letters: bytes, count: int | None, draw: random.Random) -> bytes:
    """One byte in place of another, or some that are changed, added or left out."""
    out = bytearray(good)
    for _ in range(count or draw.randrange(2, 6)):
        at, byte = draw.randrange(len(out) or 1), draw.choice(letters) if draw.randrange(3) else draw.randrange(256)
        sort = 0 if count else draw.randrange(3)
        if sort == 0 and out:
            out[at] = byte
        elif sort == 1:
            out.insert(at, byte)
        elif out:
            del out[at]
    return bytes(out)


def changed(good: bytes, letters: bytes, draw: random.Random) -> bytes:
    """A good text with a byte changed, with more changed, with a number at its end, with its rows mixed, or a random
    one."""
    kind = draw.randrange(10)
    if kind == 9 or not good:
        return random_bytes(letters, draw)
    if kind == 8:
        return rows_mixed(good, draw)
    if kind == 7 and letters == LETTERS['case'] and LAST_FIELD.search(good):
        return load_changed(good, draw) if draw.randrange(2) else last_field_changed(good, draw)
    if kind in (6, 7) and NUMBER.search(good):
        return numbers_changed(good, letters, draw)
    return bytes_changed(good, letters, 1 if kind < 5 else None, draw)
