"""What a cell of a heading means, and the unit that stands with it."""
from __future__ import annotations

import re
from collections.abc import Iterator, Sequence
from dataclasses import dataclass

from ..errors import Refused
from .numbers import NoNumber, numeral_of
from .spreadsheet import Cell, Table, TableRow
from .units import Kind, is_unit, measures
from .vocabulary import SYMBOLS, Heading, meaning, words
from .vocabulary import squeezed as squeezed

KINDS = {Heading.SUPPLY: Kind.TEMPERATURE, Heading.TARGET: Kind.TEMPERATURE, Heading.CP: Kind.FLOW,
         Heading.LOAD: Kind.HEAT, Heading.LEAST: Kind.HEAT, Heading.MOST: Kind.HEAT,
         Heading.CONTRIBUTION: Kind.DIFFERENCE}
# What the units of the other headings measure, of which no number of a case is made alone.
MEASURES = {Heading.FILM: ('W/m**2/K',), Heading.OVERALL: ('W/m**2/K',), Heading.MASS: ('kg/s', 'mol/s'),
            Heading.SPECIFIC: ('J/kg/K', 'J/mol/K'), Heading.LATENT: ('J/kg', 'J/mol'), Heading.PRESSURE: ('Pa',)}
NOTES = frozenset('note notes remark remarks comment comments description fluid medium service bemerkung bemerkungen '
                  'kommentar kommentare stoff remarque remarques commentaire commentaires fluide observaciones '
                  'observacion fluido osservazioni commenti descripcion descrizione beschreibung'.split())
# A longer text is no heading, and is not looked at as one: it may be made to take for ever.
LONGEST = 200
# A unit that has no letter: `CP (%)`, `Price €`.
SIGN = re.compile(r'.*[(\[/,]\s*([^\w\s()\[\]/,.:;–—-]+)\s*[)\]]?\s*|.*?([%‰°€$£¥]+)\s*')
# What may be the rate of something else too.
RATES = frozenset(('rate', 'totalrate'))
# Headings of changes of enthalpy.
CHANGE = re.compile(r'd\s?h\b|delta\s?h\b|(?:specific\s+)?enthalpy\s+(?:change|difference)\b|enthalpieanderung\b|'
                    r'enthalpiedifferenz\b')
# A sign of money belongs to the unit behind it: `Price €/MWh`.
MONEY = re.compile('[€$£¥]')
# What stands where the heat of a utility is still to be found.
VARIABLE = frozenset(('(var)', '(variable)', 'variable', 'var', 'var.'))
EMPTY = frozenset(('', '-', '–', '—', '--', '---', 'n/a', 'N/A', 'n.a.', 'na', '.', '?', '(?)')) | VARIABLE
CLOSING = {')': '(', ']': '['}


@dataclass(frozen=True)
class Words:
    """Words that are passed over, with their place."""

    row: int
    column: int | None
    text: str


def heading_of(text: str) -> tuple[Heading | None, str]:
    """What a heading means, and the unit that stands with it: `CP (MW/K)`, `Supply [°C]`, `Duty / kW`, `Duty in kW`."""
    if len(text) > LONGEST:
        return None, ''
    whole = meaning(text) or symbol(text, '')
    if whole:
        sign = SIGN.fullmatch(text) if has_unit(whole) else None
        return whole, (sign[1] or sign[2]) if sign else ''
    parts = bracketed(text)
    heading, unit = reading(*parts) if parts else (None, '')
    if heading:
        return heading, unit
    found: list[tuple[Heading | None, str]] = [
        (read, own) for name, behind in splits(text) if behind and not MONEY.search(name)
        for read, own in [reading(name, behind)] if read]
    # `CP, W/K` is a CP in W/K, and not `CP, W` in K.
    fitting = [(read, own) for read, own in found if read and (not own or fits(read, own))]
    return (fitting or found or [(None, unit)])[0]


def reading(name: str, unit: str) -> tuple[Heading | None, str]:
    """What a name means with a unit beside it; a unit that says the same in other words is none."""
    heading = meaning(name) or symbol(name, unit)
    if heading is None:
        return None, unit
    if meaning(unit) is heading:
        return heading, ''
    if heading is Heading.CP and not is_unit(unit, Kind.FLOW) and fits(Heading.SPECIFIC, unit):
        return Heading.SPECIFIC, unit
    if heading is Heading.LOAD and not is_unit(unit, Kind.HEAT) and fits(Heading.MASS, unit):
        return None, ''
    if heading is Heading.MASS and squeezed(name) in RATES and unit and not fits(Heading.MASS, unit):
        return None, unit
    if heading is Heading.LOAD and is_change(name) and fits(Heading.LATENT, unit):
        return Heading.LATENT, unit
    if heading is Heading.LATENT and is_unit(unit, Kind.HEAT):
        return Heading.LOAD, unit
    return heading, unit


def is_change(title: str) -> bool:
    """Whether a heading speaks of a change of enthalpy, as `Δh (kJ/kg)`: neither of one at a place nor of a latent
    heat."""
    return CHANGE.match(' '.join(words(title))) is not None


def symbol(name: str, unit: str) -> Heading | None:
    """What a letter means, as its unit says; `h` and `U` are coefficients without one too."""
    letter = name.strip()
    if not unit:
        return {'h': Heading.FILM, 'U': Heading.OVERALL, 'm': Heading.MASS, 'Q': Heading.LOAD}.get(letter)
    found = [heading for heading in SYMBOLS.get(squeezed(letter), ()) if len(letter) == 1 and fits(heading, unit)]
    return found[0] if found else None


def fits(heading: Heading, unit: str) -> bool:
    """Whether a text is a unit of what a heading names."""
    if heading in KINDS:
        return is_unit(unit, KINDS[heading])
    return any(measures(unit, dimension) for dimension in MEASURES.get(heading, ()))


def has_unit(heading: Heading) -> bool:
    """Whether the numbers below a heading have a unit."""
    return heading in KINDS or heading in MEASURES or heading is Heading.PRICE


def bracketed(text: str) -> tuple[str, str] | None:
    """A heading and what stands behind it in brackets."""
    ending = text.rstrip()
    if len(text) > LONGEST or not ending or ending[-1] not in CLOSING:
        return None
    depth = 0
    for at in range(len(ending) - 1, -1, -1):
        depth += (ending[at] in ')]') - (ending[at] in '([')
        if depth == 0:
            return ending[:at].rstrip(' _'), ending[at + 1:-1].strip()
    return None


def splits(text: str) -> Iterator[tuple[str, str]]:
    """The ways in which a heading may be a name and a unit, the longest name first; none of a longer text."""
    if len(text) > LONGEST:
        return
    for match in reversed(list(re.finditer(r'\s*[/,;:]\s*|\s+in\s+|[\s_]+', text))):
        behind = text[match.end():]
        inner = behind[1:-1] if behind[:1] == '[' and behind[-1:] == ']' else behind
        yield text[:match.start()], inner


def is_number(cell: Cell) -> bool:
    if cell.number is not None:
        return True
    try:
        numeral_of(cell.text)
    except NoNumber:
        return False
    return True


def is_comment(row: TableRow) -> bool:
    return next(row.filled())[1].text.startswith('#')


def known(row: TableRow) -> int:
    """How many headings a row has; none where one of its cells is a number."""
    return len(known_in(row))


def known_in(row: TableRow) -> set[Heading]:
    """The headings of a row; none where one of its cells is a number."""
    cells = [cell for _, cell in row.filled()]
    if any(is_number(cell) for cell in cells):
        return set()
    found = {heading_of(cell.text)[0] for cell in cells}
    return {heading for heading in found if heading}


def is_note_column(title: str) -> bool:
    parts = bracketed(title)
    return len(title) <= LONGEST and squeezed(parts[0] if parts else title) in NOTES


def unknown_headings(table: Table, row: TableRow, titles: Sequence[tuple[int, str]], names: str) -> Refused:
    """The refusal of headings that are not known, each with its place, and of what is known instead."""
    causes = [f'the heading `{title}` is not known' for _, title in titles]
    causes[-1] += f': {names}'
    faults = [table.refusal(row.number, column, cause) for (column, _), cause in zip(titles, causes)]
    return Refused(3, faults[0].place, faults[0].cause, '\n'.join(fault.text for fault in faults))
