"""Numbers of words and of comments: exact, and of so few digits that none fills the memory."""
from __future__ import annotations

import re
from fractions import Fraction

from ..errors import WordsError

# So many signs a number has at most, and so many zeros by its exponent.
LONGEST, MOST_ZEROS = 40, 30
DAY = 86_400
SHAPE = re.compile(r'[+-]?(?:[0-9]+(?:\.[0-9]*)?|\.[0-9]+)(?:[eE](?P<exponent>[+-]?[0-9]+))?|[+-]?[0-9]+/0*[1-9][0-9]*')


def exact(text: str, longest: int = LONGEST) -> Fraction:
    """The number of a text, as `12.5`, `1e3` or `1/3`; a `ValueError` where it is none, or a longer one."""
    stripped = text.strip()
    match = SHAPE.fullmatch(stripped) if len(stripped) <= longest else None
    if not match or abs(int(match['exponent'] or '0')) > MOST_ZEROS:
        raise ValueError(f'{shortened(text)} is not a number of at most {longest} signs')
    return Fraction(stripped)


def shortened(text: str) -> str:
    return text if len(text) <= LONGEST else text[:LONGEST] + '..'


def rounded(value: Fraction) -> int:
    """The nearest whole number, half away from 0."""
    nearest = (abs(value) * 2 + 1) // 2
    return int(-nearest if value < 0 else nearest)


def whole(text: str) -> int:
    """A whole number of the words, in digits alone; a `ValueError` where it is none."""
    if not re.fullmatch('-?[0-9]{1,9}', text):
        raise ValueError(text)
    return int(text)


def seconds_of(text: str, flag: str = '--seconds') -> Fraction:
    """How long a search may take; `WordsError` where that is none, or more than a day."""
    try:
        seconds = exact(text.replace(',', '.'))
    except ValueError:
        seconds = Fraction(0)
    if not 0 < seconds <= DAY:
        raise WordsError(f'{flag} {shortened(text)}: it has to be a number of seconds above 0, at most a day')
    return seconds
