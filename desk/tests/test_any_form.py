"""A case as a table in any form, language and unit is read as that case."""
from __future__ import annotations

import csv
import io
from collections.abc import Callable
from dataclasses import dataclass, replace
from decimal import Decimal
from fractions import Fraction

from conftest import CASES, example, tried
from hypothesis import event, given
from hypothesis import strategies as some
from tabled import made, workbook

from pinchdesk.formats.case import Case, Side, Stream, Utility, read_case
from pinchdesk.formats.comments import Basis
from pinchdesk.tables.convert import Wanted

# The headings name, supply, target, CP, duty, then the titles of hot and cold streams, hot and cold utilities.
LANGUAGES = {
    'English': ('Stream', 'Inlet T', 'Outlet T', 'MCp', 'Duty', 'Hot streams', 'Cold streams', 'Hot utilities',
                'Cold utilities'),
    'books': ('Stream no.', 'Supply temp.', 'Target temp.', 'Heat capacity flow rate', 'ΔH', 'Streams to be cooled',
              'Streams to be heated', 'A. Hot utilities', 'B. Cold utilities'),
    'German': ('Bezeichnung', 'Eintrittstemperatur', 'Austrittstemperatur', 'Wärmekapazitätsstrom', 'Wärmelast',
               'Heiße Ströme', 'Kalte Ströme', 'Heizmittel', 'Kühlmittel'),
    'French': ('Flux', 'T entrée', 'T sortie', 'mCp', 'Puissance', 'Flux chauds', 'Flux froids', 'Utilités chaudes',
               'Utilités froides'),
    'Spanish': ('Corriente', 'T entrada', 'T salida', 'Capacidad calorífica', 'Carga térmica', 'Corrientes calientes',
                'Corrientes frías', 'Servicios calientes', 'Servicios fríos'),
    'Italian': ('Corrente', 'T ingresso', 'T uscita', 'Capacità termica', 'Potenza', 'Correnti calde',
                'Correnti fredde', 'Utilities calde', 'Utilities fredde')}
WARM: dict[str, Callable[[int], Fraction]] = {
    '°C': lambda tenths: Fraction(tenths, 10), 'K': lambda tenths: Fraction(tenths, 10) + Fraction('273.15'),
    'C': lambda tenths: Fraction(tenths, 10), 'deg F': lambda tenths: Fraction(tenths, 10) * Fraction(9, 5) + 32}
FLOWS = {'kW/°C': Fraction(1, 100), 'kJ/h·°C': Fraction(36), 'kJ/C-h': Fraction(36), 'kW K-1': Fraction(1, 100),
         'MJ/(h K)': Fraction(36, 1000), 'W/K': Fraction(10), '10^3 kJ/h.K': Fraction(36, 1000)}
HEATS = {'kW': Fraction(1, 1000), 'kJ/h': Fraction(36, 10), 'MJ/h': Fraction(36, 10_000), 'KW': Fraction(1, 1000),
         '10³ W': Fraction(1, 1000), 'MW': Fraction(1, 10 ** 6)}
FORMS = ('below', 'beside', 'one', 'sheets')
OTHERS = (('Segmented', ('no', 'yes')), ('Pressure (bar)', ('10', '2')), ('Clean/dirty', ('clean', 'dirty')),
          ('HTC (kW/m2 C)', ('0.5', '1')), ('Remarks', ('top', 'of 2026')))


@dataclass(frozen=True)
class Form:
    """How a case is written."""

    language: str
    warm: str
    flow: str
    heat: str
    form: str
    units: str
    others: tuple[tuple[str, tuple[str, ...]], ...]
    pages: bool

    def head(self) -> list[list[str]]:
        """The rows of headings."""
        names = list(LANGUAGES[self.language][:5])
        units = ['', self.warm, self.warm, self.flow, self.heat]
        others = [title for title, _ in self.others]
        if self.units == 'row':
            return [names + others, units + [''] * len(others)]
        mark = {'round': '{} ({})', 'square': '{} [{}]', 'comma': '{}, {}'}[self.units]
        return [[mark.format(name, unit) if unit else name for name, unit in zip(names, units)] + others]

    def row(self, source: Stream | Utility, at: int) -> list[str]:
        """A row of a source."""
        others = [texts[at % len(texts)] for _, texts in self.others]
        if isinstance(source, Utility):
            return [source.name, number(WARM[self.warm](source.level)), '', '', '', *others]
        size = ['', number(source.load * HEATS[self.heat])] if source.latent else [
            number(source.cp * FLOWS[self.flow]), '']
        ends = [number(WARM[self.warm](end)) for end in (source.supply, source.target)]
        return [source.name, *ends, *size, *others]


def number(value: Fraction) -> str:
    return f'{Decimal(value.numerator) / Decimal(value.denominator):f}'


def parts_of(case: Case, form: Form) -> list[tuple[str, list[list[str]]]]:
    """The parts of a case, each with its title and its rows."""
    titles = LANGUAGES[form.language][5:]
    groups: list[list[Stream | Utility]] = [[stream for stream in case.streams if stream.side is side] for side in Side]
    groups += [[utility for utility in case.utilities if utility.side is side] for side in Side]
    return [(title, [form.row(source, at) for at, source in enumerate(group)])
            for title, group in zip(titles, groups) if group]


def sheets_of(case: Case, form: Form) -> list[list[list[str]]]:
    """The rows of each sheet."""
    head, parts = form.head(), parts_of(case, form)
    if form.form == 'sheets':
        return [[[title], *head, *rows] for title, rows in parts]
    if form.form == 'beside':
        blocks = [[[title], *head, *rows] for title, rows in parts]
        width, height = len(head[0]) + 1, max(len(block) for block in blocks)
        filled = [[row + [''] * (width - len(row)) for row in block] + [[''] * width] * (height - len(block))
                  for block in blocks]
        return [[sum((block[at] for block in filled), []) for at in range(height)]]
    if form.form == 'one':
        return [[*head, *[row for title, rows in parts for row in ([title], *rows)]]]
    return [[row for title, rows in parts for row in ([title], *head, *paged(rows, head, form))]]


def paged(rows: list[list[str]], head: list[list[str]], form: Form) -> list[list[str]]:
    """Rows with the headings again below the first one, as on a second page."""
    return [rows[0], ['Plant 7', '', '', 'Page 2'], *head, *rows[1:]] if form.pages and len(rows) > 1 else rows


cases = some.sampled_from(CASES).map(lambda name: read_case(example(f'{name}.csv')))
forms = some.builds(Form, some.sampled_from([*LANGUAGES]), some.sampled_from([*WARM]), some.sampled_from([*FLOWS]),
                    some.sampled_from([*HEATS]), some.sampled_from(FORMS),
                    some.sampled_from(['round', 'square', 'comma', 'row']),
                    some.lists(some.sampled_from(OTHERS), max_size=2, unique=True).map(tuple), some.booleans())


def plain(case: Case) -> Case:
    """A case without what no form here has: contributions, ranges, prices and forbidden matches of its own."""
    streams = [replace(stream, contribution=case.contribution) for stream in case.streams]
    utilities = [replace(utility, contribution=case.contribution, least=0, most=10 ** 12,
                         price=int(utility.side is Side.HOT)) for utility in case.utilities]
    return Case(case.contribution, tuple(sorted(streams, key=lambda stream: stream.side is Side.COLD)),
                tuple(sorted(utilities, key=lambda utility: utility.side is Side.COLD)))


def check_again(case: Case, form: Form, content: bytes) -> None:
    wanted = Wanted(f'{number(Fraction(case.contribution, 5))} K', decimal='.')
    again = made(content, wanted, 't').case
    event(form.form)
    assert replace(again, basis=Basis()) == case


@tried(20, 50)
@given(cases, forms, some.sampled_from(';\t|'))
def test_a_case_in_any_form_is_read_as_that_case(case: Case, form: Form, separator: str) -> None:
    plain_case = plain(case)
    sheets = sheets_of(plain_case, form)
    if len(sheets) > 1:
        pages: list[list[list[object]]] = [[[*row] for row in sheet] for sheet in sheets]
        content = workbook(pages[0], **{f'Part {at}': page for at, page in enumerate(pages[1:], 2)})
    else:
        text = io.StringIO()
        csv.writer(text, delimiter=separator).writerows(sheets[0])
        content = text.getvalue().encode()
    check_again(plain_case, form, content)
