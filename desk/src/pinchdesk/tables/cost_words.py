"""What a network may cost, as words say it: a cost in the unit of the case, or percent above the least."""
from __future__ import annotations

from fractions import Fraction

from ..errors import WordsError
from ..formats.amounts import exact, shortened
from ..formats.shown import Shown
from .numbers import NoNumber, Says, numeral_of, readings


def percent_of(text: str) -> Fraction:
    """Percent of the words; `WordsError` where they are none, or below 0."""
    try:
        percent = exact(text.strip().removesuffix('%').replace(',', '.'))
    except ValueError as fault:
        raise WordsError(f'{shortened(text)} is not a percentage') from fault
    if percent < 0:
        raise WordsError('a percentage is at least 0')
    return percent


def cost_of(text: str, shown: Shown) -> Fraction:
    """A cost in the unit of the case's costs, which may stand with it, as the program has it."""
    try:
        numeral = numeral_of(text)
        if numeral.says is Says.EITHER:
            raise WordsError(f'the cost {text} may be {readings(numeral)}')
        value = Fraction(numeral.value(numeral.says.value or '.'))
    except NoNumber as fault:
        raise WordsError(f'{text} is not a cost: it needs a number, in {shown.cost_unit}') from fault
    if numeral.unit and numeral.unit.split() != shown.cost_unit.split():
        raise WordsError(f'the costs of the case are in {shown.cost_unit}, and `{numeral.unit}` is another unit')
    return shown.in_program(value)
