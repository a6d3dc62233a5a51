"""How a table is to be read, as words say it."""
from __future__ import annotations

from fractions import Fraction

from ..errors import WordsError
from ..formats.amounts import exact, shortened
from .conversion import Wanted

SCALES = [Fraction(10) ** power for power in range(-3, 4)]
MARKS = ('.', ',')


def number(text: str, what: str) -> Fraction:
    """A number of the words above 0; `WordsError` where it is none."""
    try:
        amount = exact(text)
    except ValueError:
        amount = Fraction(0)
    if not Fraction(1, 10 ** 9) <= amount < 10 ** 10:
        raise WordsError(f'{shortened(text)} is not a {what}')
    return amount


def wanted_by(difference: str | None, sheet: str | None, separator: str | None, decimal: str | None, scale: str = '1',
              hours: str | None = None, tolerance: str = '0') -> Wanted:
    """How the words ask the table to be read; `WordsError` where one of them is none."""
    times = number(scale, 'scale')
    if times not in SCALES:
        raise WordsError(f'{scale} is not a scale: it needs a power of ten, from 0.001 to 1000')
    sign = '\t' if separator == 'tab' else separator
    if sign is not None and (len(sign) != 1 or sign in '"\r\n'):
        raise WordsError(f'{sign} is not a separator: it needs one sign')
    if decimal is not None and decimal not in MARKS:
        raise WordsError(f'{shortened(decimal)} is not a decimal mark: it needs a point or a comma')
    yearly = number(hours, 'number of hours') if hours is not None else None
    return Wanted(difference, sheet, sign, decimal, times, yearly, tolerance=tolerance_of(tolerance))


def tolerance_of(text: str) -> Fraction:
    """How far segments may be from a heating curve, in K; `WordsError` where that is no number from 0 to 100."""
    try:
        tolerance = exact(text.replace(',', '.'))
    except ValueError:
        tolerance = Fraction(-1)
    if not 0 <= tolerance <= 100:
        raise WordsError(f'--tolerance {shortened(text)}: it has to be a number of K, from 0 to 100')
    return tolerance
