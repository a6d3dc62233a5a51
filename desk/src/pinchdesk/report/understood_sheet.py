"""How a table was understood, as a table."""
from __future__ import annotations

from ..tables.conversion import Converted
from ..tables.understood import understood
from .sheet import Sheet


def understood_sheet(converted: Converted, title: str = 'How the table was understood') -> Sheet:
    """Each column with its meaning and unit, and all that is passed over, with why."""
    rows = tuple((part.place, part.text, part.meaning, part.unit) for part in understood(converted))
    return Sheet(title, ('place', 'in the table', 'taken as', 'unit'), rows)
