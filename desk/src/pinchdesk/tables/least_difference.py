"""The least difference of a case, as words or a title of a table say it."""
from __future__ import annotations

import re
from collections.abc import Iterable
from fractions import Fraction

from ..errors import Refused, WordsError
from ..formats.amounts import rounded
from ..formats.limits import CONTRIBUTION
from .cells import Told
from .headings import Words
from .numbers import NoNumber, Says, numeral_of, readings
from .units import Kind, UnknownUnit, unit_of

# What a title calls it: `ΔTmin = 10 °C`, `minimum approach: 20 K`.
SAID = re.compile(r'.*?(?:(?:[dΔ∆]|delta)\s*[-_]?\s*T\s*[-_,.]?\s*min(?:imum)?\b|'
                  r'\b(?:minimum|least|minimal)\s+(?:temperature\s+)?(?:approach|difference)(?:\s+temperature)?|\bHRAT|'
                  r'\b(?:minimale|kleinste)\s+(?:temperatur)?(?:differenz|grädigkeit)|\bgrädigkeit|'
                  r'\bpincement(?:\s+mini(?:mum|mal))?|\b[ée]cart\s+(?:de\s+temp[ée]rature\s+)?mini(?:mum|mal)|'
                  r'\bdiferencia\s+m[ií]nima(?:\s+de\s+temperaturas?)?|'
                  r'\bdifferenza\s+minima(?:\s+di\s+temperatura)?)'
                  r'\s*(?:=|:|is|of|von|de|di)?\s*(?P<value>[0-9].*)', re.I)


def half(difference: str, told: Told) -> tuple[int, Fraction]:
    """Half of a least difference, as `10` or `18 °F`, in tenths of °C, rounded and exact; what is rounded is told."""
    try:
        numeral = numeral_of(difference)
        if numeral.says is Says.EITHER:
            raise WordsError(f'the least difference {difference} may be {readings(numeral)}')
        unit = unit_of(numeral.unit or 'K', Kind.DIFFERENCE)
        exact = unit.exact(Fraction(numeral.value(numeral.says.value or '.'))) / 2
    except (NoNumber, UnknownUnit) as fault:
        raise WordsError(f'{difference} is not a least difference: it needs a number, in K or with its unit') from fault
    if not CONTRIBUTION.holds(rounded(exact)):
        raise Refused(3, '', 'OutOfRange', f'the least difference {difference} is outside its limits, 0 to 200 K')
    nearest = rounded(exact)
    if nearest != exact:
        told.notes.append(f'half of the least difference {difference} is rounded to {Kind.DIFFERENCE.shown(nearest)}')
        told.roundings.add(told.notes[-1])
    return nearest, exact


def said_difference(passed: Iterable[Words]) -> Words | None:
    """The least difference that titles and notes of a table say, with its place; None where there is none, or more
    than one."""
    found = [Words(words.row, words.column, match['value'].strip(' .;)]')) for words in passed
             for match in [SAID.fullmatch(words.text)] if match]
    agreed = len({words.text for words in found}) == 1 and is_difference(found[0].text)
    return found[0] if agreed else None


def is_difference(text: str) -> bool:
    try:
        numeral = numeral_of(text)
        unit_of(numeral.unit or 'K', Kind.DIFFERENCE)
        return numeral.says is not Says.EITHER
    except (NoNumber, UnknownUnit):
        return False


def is_bare(difference: str) -> bool:
    """Whether a least difference has no unit."""
    return re.fullmatch(r'[-+\d.,\s]+', difference) is not None
