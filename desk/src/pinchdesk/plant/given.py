"""What is given in a notebook: files by their paths or as texts, and numbers as Python has them."""
from __future__ import annotations

import os
import re
from dataclasses import dataclass
from decimal import Decimal, InvalidOperation
from fractions import Fraction

from ..errors import WordsError
from ..formats.network import Network, print_network
from ..formats.plain_files import read_bytes
from ..formats.shown import decimal
from ..formats.study import Study, print_study
from ..report.page import Given
from ..text import printable

Number = str | int | float | Decimal | Fraction
# A number with more digits before or behind its point is none of a plant.
MOST_DIGITS = 30


@dataclass(frozen=True)
class Written:
    """A network that was made here: its text can be given back."""

    text: str


FileGiven = str | bytes | os.PathLike[str] | Network | Study | Written


def file_of(file: FileGiven, role: str) -> Given:
    """A file with what it holds: of a path what stands there, of a text of several lines itself. `Refused` where it
    cannot be read."""
    match file:
        case Network():
            return Given(role, role, print_network(file).encode())
        case Study():
            return Given(role, role, print_study(file).encode())
        case Written():
            return Given(role, role, file.text.encode())
        case bytes():
            return Given(role, role, file)
        case str() if '\n' in file:
            return Given(role, role, file.encode())
    path = os.fspath(file)
    return Given(printable(os.path.basename(path)), path, read_bytes(path))


def as_text(number: Number) -> str:
    """A number as words have it; a text stays one. `WordsError` where it is none."""
    if isinstance(number, str):
        return number
    if isinstance(number, Fraction):
        text = decimal(number, MOST_DIGITS)
        return as_text(Decimal(text)) if Fraction(text) == number else str(number)
    try:
        value = Decimal(str(number))
    except InvalidOperation as fault:
        raise WordsError(f'{printable(str(number))[:40]} is not a number') from fault
    if not value.is_finite() or value and abs(value.adjusted()) > MOST_DIGITS:
        raise WordsError(f'{number} is not a number of a plant')
    text = f'{value:f}'
    # Three digits behind a point may be thousands in a text, and are none in a number.
    return text + '0' if re.fullmatch(r'-?[0-9]+\.[0-9]{3}', text) else text
