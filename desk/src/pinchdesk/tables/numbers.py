"""Numbers as tables have them: with a decimal point or a decimal comma, with marks of thousands or none.

A table has one decimal mark. What a number says of it: `12.5` is a point, `1.234,5` a comma, `0,250` a comma, `7`
nothing, and `32.000` may be 32 or 32000: where no number of the table settles it, it is refused."""
from __future__ import annotations

import enum
import re
from dataclasses import dataclass
from decimal import Decimal

from ..formats.amounts import MOST_ZEROS

GROUPS = " '’\u00a0\u202f\u2009"
SHAPE = re.compile(rf"(?P<sign>[-+−]?)\s?(?P<body>[0-9][0-9.,{GROUPS}]*|[.,][0-9]+)"
                   r'(?P<exponent>[eE][-+]?[0-9]{1,40}(?![0-9A-Za-z]))?(?P<unit>.*)', re.S)
GROUPED = re.compile(rf'[0-9]{{1,3}}(?:[{GROUPS}][0-9]{{3}})+(?:[.,][0-9]*)?')
LONGEST, LONGEST_TEXT = 40, 200


class Says(enum.Enum):
    """What a number says of the decimal mark."""

    NOTHING = ''
    POINT = '.'
    COMMA = ','
    EITHER = '?'


class NoNumber(ValueError):
    """A text that is no number; the message says why."""


@dataclass(frozen=True)
class Numeral:
    """A number as it is written, and the unit behind it."""

    sign: str
    body: str
    exponent: int
    unit: str

    @property
    def says(self) -> Says:
        """What it says of the decimal mark; `NoNumber` where its marks are no number's."""
        body = self.body
        if any(group_mark in body for group_mark in GROUPS):
            if not GROUPED.fullmatch(body):
                raise NoNumber('blanks or apostrophes that do not separate thousands')
            return Says(body[-1] if body[-1] in '.,' else next((mark for mark in '.,' if mark in body), ''))
        marks = [mark for mark in body if mark in '.,']
        if not marks:
            return Says.NOTHING
        return says_of_two(body, marks) if len(set(marks)) == 2 else says_of_one(body, marks)

    def value(self, mark: str) -> Decimal:
        """The number, where the table's decimal mark is this; `NoNumber` where it cannot be."""
        says = self.says
        if says in (Says.POINT, Says.COMMA) and says.value != mark:
            raise NoNumber(f'its decimal mark is `{says.value}`, and that of the table is `{mark}`')
        body = self.body
        for group_mark in GROUPS + ('.' if mark == ',' else ','):
            body = body.replace(group_mark, '')
        sign = '-' if self.sign in ('-', '−') else ''
        return Decimal(sign + body.replace(mark, '.') + f'E{self.exponent}')


def says_of_two(body: str, marks: list[str]) -> Says:
    """Points and commas: the last one is the decimal mark, and the others part thousands."""
    last, other = marks[-1], '.,'.replace(marks[-1], '')
    whole, _, _ = body.rpartition(last)
    if last in marks[:-1] or not re.fullmatch(rf'[0-9]{{1,3}}(?:[{other}][0-9]{{3}})+', whole):
        raise NoNumber('points and commas that do not separate thousands')
    return Says(last)


def says_of_one(body: str, marks: list[str]) -> Says:
    """One sort of mark: more than once it parts thousands; once it may do so where three digits follow."""
    mark = marks[0]
    other = '.,'.replace(mark, '')
    if len(marks) > 1:
        if not re.fullmatch(rf'[0-9]{{1,3}}(?:[{mark}][0-9]{{3}})+', body):
            raise NoNumber('more than one mark, and they do not separate thousands')
        return Says(other)
    return Says.EITHER if re.fullmatch(rf'[1-9][0-9]{{0,2}}[{mark}][0-9]{{3}}', body) else Says(mark)


def numeral_of(text: str) -> Numeral:
    """The number that a text begins with, and what stands behind it; `NoNumber` where it begins with none."""
    match = SHAPE.fullmatch(text.strip()) if len(text) <= LONGEST_TEXT else None
    if not match or len(match['body']) > LONGEST:
        raise NoNumber('no number')
    body = match['body'].rstrip(GROUPS)
    exponent = int(match['exponent'][1:]) if match['exponent'] else 0
    if abs(exponent) > MOST_ZEROS:
        raise NoNumber(f'a number with more than {MOST_ZEROS} zeros')
    return Numeral(match['sign'], body, exponent, match['unit'].strip())


def readings(numeral: Numeral) -> str:
    """Both readings of a number whose mark is not settled: `32 or 32000`."""
    values = (plain(numeral.value('.')), plain(numeral.value(',')))
    return ' or '.join(values)


def plain(value: Decimal) -> str:
    """A number without an exponent and without zeros at its end."""
    text = f'{value:f}'
    return text.rstrip('0').rstrip('.') if '.' in text else text
