"""One plant in several tables, and what the words of the desk say of it: each number with the unit that stands beside
it."""
from __future__ import annotations

import csv
import io
import re
from argparse import Namespace
from collections.abc import Iterator, Sequence
from dataclasses import dataclass, replace
from decimal import Decimal
from fractions import Fraction
from functools import cache
from html.parser import HTMLParser
from pathlib import Path
from typing import Any

from pinchdesk import Case, Network, Pinch, completed, follow, print_case, print_network, read_network
from pinchdesk.batch.arguments import options_of, paths_of
from pinchdesk.batch.loaded_files import read_files
from pinchdesk.cli.answering import results_of
from pinchdesk.cli.parsing import parser
from pinchdesk.formats.case_units import CaseUnits
from pinchdesk.formats.comments import Basis
from pinchdesk.formats.network import Exchanger, Split
from pinchdesk.formats.shown import decimal
from pinchdesk.report.sheet import Sheet, rendered
from pinchdesk.search.budget import nobody
from pinchdesk.tables.convert import Wanted, case_of_table
from pinchdesk.words.word import Word

# The plant in °C, kW/K and kW, with prices per W.
SOURCES = '''hot H1 170 60 30 - - - -
hot H2 150 30 15 - - - -
hot V1 120 120 - 400 - - -
cold C1 20 135 20 - - - -
cold C2 80 140 60 - - - -
heater HP 250 - - - 0 5000 30
heater LP 130 - - - 0 - 12
cooler CW 15 - - - 100 - 1
'''
OWN = {'V1': 8}
FORBID = ('V1', 'C2')


@dataclass(frozen=True)
class Style:
    """How a table has the plant: what its temperatures, CPs and heats are multiplied by, with what they are called, the
    price of one per W and its unit, what the case takes heats times, and the hours of a year."""

    offset: Fraction = Fraction(0)
    temperature: str = '°C'
    flow: Fraction = Fraction(1)
    flow_unit: str = 'kW/K'
    heat: Fraction = Fraction(1)
    heat_unit: str = 'kW'
    price: Fraction = Fraction(1)
    price_unit: str = ''
    scale: int | str = 1
    hours: int | None = None
    # What a cost in price times W is in the unit of the costs.
    cost: Fraction = Fraction(1)
    cost_unit: str = 'price times W'
    # Degrees in a kelvin.
    degrees: Fraction = Fraction(1)
    # The case keeps the units of the table.
    own: bool = False

    @property
    def wanted(self) -> Wanted:
        return Wanted('10 K', scale=Fraction(self.scale), hours=None if self.hours is None else Fraction(self.hours),
                      own_units=self.own)

    @property
    def price_called(self) -> str:
        return self.price_unit or 'per W'


PLAIN = Style()
STYLES = {
    'ten times, per MWh': Style(scale=10, price=Fraction('0.7'), price_unit='EUR/MWh', cost=Fraction('0.7') / 10 ** 6,
                                cost_unit='EUR/h'),
    'a tenth, MW and K, per kW and year': Style(
        Fraction('273.15'), 'K', Fraction(1, 1000), 'MW/K', Fraction(1, 1000), 'MW', Fraction(4), '€/(kW a)', '0.1',
        cost=Fraction(4, 1000), cost_unit='€/a'),
    'W, per kWh over hours': Style(flow=Fraction(1000), flow_unit='W/K', heat=Fraction(1000), heat_unit='W',
                                   price=Fraction('0.0025'), price_unit='per kWh', hours=8000,
                                   cost=Fraction('0.0025') * 8, cost_unit='per a'),
    'no unit, prices with decimals': Style(price=Fraction('0.25'), price_unit='as in the table', cost=Fraction('0.25'),
                                           scale=10),
    'its own units, °F and MJ/h': Style(
        Fraction(32), '°F', Fraction(2), 'MJ/(h °F)', Fraction(18, 5), 'MJ/h', Fraction('0.7'), 'EUR/MWh',
        cost=Fraction('0.7') / 10 ** 6, cost_unit='EUR/h', degrees=Fraction(9, 5), own=True),
}


def number(value: Fraction) -> str:
    text = decimal(value, 12)
    assert Fraction(text) == value
    return text


def table_of(style: Style) -> str:
    """The plant as a table."""
    priced = f' ({style.price_unit})' if style.price_unit not in ('', 'as in the table') else ''
    rows = [f'kind;name;supply ({style.temperature});target ({style.temperature});CP ({style.flow_unit});'
            f'duty ({style.heat_unit});least ({style.heat_unit});most ({style.heat_unit});price{priced};'
            'contribution (K)']
    for line in SOURCES.splitlines():
        kind, name, *values = line.split()
        ways = [(style.degrees, style.offset)] * 2 + [(style.flow, Fraction(0))] + [(style.heat, Fraction(0))] * 3 + [
            (style.price, Fraction(0))]
        cells = ['' if text == '-' else number(Fraction(text) * times + more)
                 for text, (times, more) in zip(values, ways)]
        rows.append(';'.join((kind, name, *cells, str(OWN.get(name, '')))))
    return '\n'.join([*rows, f'forbid;{FORBID[0]};{FORBID[1]};;;;;;;', ''])


def case_of(style: Style) -> Case:
    return case_of_table(table_of(style).encode(), 'plant.csv', style.wanted).case


def scaled(network: Network, basis: Basis) -> Network:
    """A network of the plant for a case that has its heats and CPs as this basis says."""
    units, branches = basis.units or CaseUnits(), follow(completed(case_of(PLAIN)), network).branches
    statements = []
    for statement in network.statements:
        if isinstance(statement, Exchanger):
            statement = replace(statement, duty=units.of_watts(statement.duty) * basis.scale)
        elif isinstance(statement, Split):
            latent = branches[statement.branch].stream.latent
            size = units.of_watts(statement.size) if latent else units.of_flow(statement.size)
            statement = replace(statement, size=size * basis.scale)
        statements.append(statement)
    return Network(tuple(statements))


SITE = '''{scale}contribution,,50,,,,
main,HP,2000,,,,
main,LP,1300,,,,
plant,A,,,,,
hot,H,2500,600,{0},,
cold,C,200,1900,{1},,
plant,B,,,,,
hot,K,1500,300,{2},,
cold,D,900,2300,{0},,
'''


@dataclass(frozen=True)
class Said:
    """What a word says: its tables, and what of it would be written."""

    sheets: tuple[Sheet, ...]
    content: str | bytes


@dataclass(frozen=True)
class Files:
    """The plant with all files that words read, in a folder."""

    style: Style
    folder: Path

    def path(self, name: str) -> str:
        return str(self.folder / name)

    def words(self, text: str) -> list[str]:
        """Words with `{name}` for a file of the plant; differences have their unit where the case has its own."""
        differences, flag, more = text.partition(' --')
        if self.style.own:
            differences = re.sub(r'(?<= )(\d+)(?= |$)', r'\1K', differences)
        return [self.path(word[1:-1]) if word.startswith('{') else word for word in (differences + flag + more).split()]

    @cache
    def answer(self, text: str) -> Said:
        """What words say: their tables, and what would be written."""
        said: list[Said] = []

        def ask(word: Word[Any], _: tuple[str, ...], parsed: Namespace) -> int:
            answer = word.answer(read_files(paths_of(word.roles, parsed)), options_of(word, parsed), nobody)
            form = word.forms.of(parsed.output, getattr(parsed, 'form', None))
            said.append(Said(answer.sheets, answer.content(form)))
            return answer.status

        def ask_many(word: Word[Any], names: tuple[str, ...], parsed: Namespace) -> int:
            results = results_of(word, names, parsed)
            said.append(Said((results.sheet(),), rendered([results.sheet()], parsed.form)))
            return results.status
        words = self.words(text)
        parsed = parser(ask, ask_many, words).parse_args(words)
        parsed.doing(parsed)
        return said[0]


def files_of(style: Style, folder: Path, pinch: Pinch) -> Files:
    """Writes the plant, and its networks: one that is accepted, one that is rejected, one that is begun."""
    folder.mkdir(parents=True)
    scale, case = Fraction(style.scale), case_of(style)
    made = read_network(pinch.design(case_of(PLAIN)).text)
    bad = Network(tuple(replace(statement, duty=statement.duty - 1000)
                        if at == 0 and isinstance(statement, Exchanger) else statement
                        for at, statement in enumerate(made.statements)))
    begun = read_network('exchanger X H1 C1 1000000\npass H1 X h1a\npass C1 X c1a\nsplit H2 h2a 600 h2b\n')
    texts = {'plant.csv': table_of(style), 'case.csv': print_case(case)}
    texts |= {f'{name}.txt': print_network(scaled(network, case.basis))
              for name, network in (('case-network', made), ('bad', bad), ('begun', begun))}
    texts['case-study.txt'] = study_of(style)
    texts['changes.csv'] = changes_of(style)
    sizes = [number(Fraction(size) * scale) for size in (1200, 800, 2000)]
    texts['site.csv'] = SITE.format(*sizes, scale='' if scale == 1 else f'#scale,{scale},,,,,\n')
    for name, text in texts.items():
        (folder / name).write_text(text, encoding='utf-8')
    (folder / 'list').write_text('case;network;study;changes\ncase.csv;case-network.txt;case-study.txt;changes.csv\n')
    (folder / 'sites').write_text('site\nsite.csv\n')
    return Files(style, folder)


def study_of(style: Style) -> str:
    """The same prices in the unit of the table."""
    price = {plain_price: number(Fraction(plain_price) * style.price) for plain_price in (20, 21, 24, 60)}
    return f'scenario,Today,,\nscenario,Winter,,\nprice,HP,{price[60]},\nprice,LP,{price[20]},\n' \
           f'span,HP,{price[21]},{price[24]}\n'


def changes_of(style: Style) -> str:
    """The same changes in the units of the table."""
    flow, heat = number(5 * style.flow), number(200 * style.heat)
    target = number(130 * style.degrees + style.offset)
    return ('scenario;source;field;value\n'
            f'a;H1;supply;+10 K\nb;H2;CP;{flow} {style.flow_unit}\nc;V1;load;+{heat} {style.heat_unit}\n'
            f'd;HP;price;+{number(4 * style.price)}\ne;C1;target;{target} {style.temperature}\n'
            f'f;LP;most;{heat} {style.heat_unit}\ng;case;contribution;6 K\nh;H1;CP;-10 %\n')


# What stands beside a number, the longest first.
FIXED = ('MJ/(h °F)', 'MJ/h', '°F', 'kW/K', 'kW', '°C', 'K', '%')
# What a case in units of its own has in place of those of the plain plant, and how many of it one of these is.
OWN_UNITS = {'°C': ('°F', Fraction(9, 5)), 'K': ('°F', Fraction(9, 5)), 'kW': ('MJ/h', Fraction(18, 5)),
             'kW/K': ('MJ/(h °F)', Fraction(2))}


@dataclass(frozen=True)
class Told:
    """A number that a word told: where, its unit, its heading as it stands, and with what its row begins."""

    place: str
    value: Fraction
    unit: str
    heading: str = ''
    row: str = ''


def token_of(text: str, style: Style) -> str:
    """A text in which the units of costs and prices are called by what they are of."""
    for unit, name in ((style.cost_unit, 'cost'), (style.price_called, 'price')):
        text = re.sub(rf'(?<!\w){re.escape(unit)}(?!\w)', f'<{name}>', text)
    return text


def unit_beside(text: str, style: Style) -> str:
    """The unit with which a heading, a title or a cell ends; empty where it ends with none."""
    token = token_of(text, style)
    return next((unit.strip('<>') for unit in ('<cost>', '<price>', *FIXED)
                 if token == unit or token.endswith(f' {unit}')), '')


def cells_of(title: str, headings: Sequence[str], rows: Sequence[Sequence[object]],
             style: Style) -> Iterator[Told | str]:
    """The cells of a table in their order: numbers with their units, and texts. The unit stands in the heading, in the
    row, or in the title."""
    for at, row in enumerate(rows):
        units = (unit_beside(str(cell or ''), style) for cell in (*row[1:], row[0]))
        beside = next((unit for unit in units if unit), '')
        for column, cell in enumerate(row):
            heading = headings[column] if column < len(headings) else ''
            if not isinstance(cell, Decimal):
                yield token_of(str(cell or ''), style)
                continue
            unit = unit_beside(heading, style) or beside or unit_beside(title, style)
            place = re.sub(r'CP \+[\d.]+', 'CP +', f'{title} row {at + 1} `{heading or row[0]}`')
            yield Told(token_of(place, style), Fraction(cell), unit, heading, str(row[0]))


def texts_of(text: str, style: Style) -> Iterator[Told | str]:
    """A text in its parts: numbers with the costs and prices among them, and what stands between."""
    token = token_of(text, style)
    last = 0
    for match in re.finditer(r'(?<![\w.])(-?\d+(?:\.\d+)?) <(cost|price)>', token):
        yield token[last:match.start()]
        yield Told('text', Fraction(match[1]), match[2])
        last = match.end()
    yield token[last:]


def csv_cells(content: str) -> tuple[list[str], list[list[object]]]:
    """The headings and the rows of a table with commas, numbers as such."""
    head, *rows = csv.reader(io.StringIO(content, newline=''))
    return head, [[Decimal(cell) if re.fullmatch(r'-?\d+(\.\d+)?', cell) else cell or None for cell in row]
                  for row in rows]


class Page(HTMLParser):
    """The tables of a page, with their captions and headings, and its other texts; what was printed and what is folded
    with it is passed over."""

    def __init__(self, content: str) -> None:
        super().__init__()
        self.tables: list[tuple[list[str], list[str], list[list[object]]]] = []
        self.texts: list[str] = []
        self.text, self.number = '', False
        self.feed(re.sub(r'<style>.*?</style>|<h2>What was printed.*', '', content, flags=re.S))

    def handle_starttag(self, tag: str, attrs: list[tuple[str, str | None]]) -> None:
        if tag == 'table':
            self.tables.append(([], [], []))
        elif tag == 'tr':
            self.tables[-1][2].append([])
        if tag in ('td', 'th', 'caption', 'p', 'h2'):
            self.text, self.number = '', ('class', 'number') in attrs

    def handle_data(self, data: str) -> None:
        self.text += data

    def handle_endtag(self, tag: str) -> None:
        if tag == 'td':
            self.tables[-1][2][-1].append(Decimal(self.text) if self.number and self.text.strip() else self.text)
        elif tag in ('th', 'caption'):
            (self.tables[-1][1] if tag == 'th' else self.tables[-1][0]).append(self.text)
        elif tag in ('p', 'h2'):
            self.texts.append(self.text)

    def told(self, style: Style) -> Iterator[Told | str]:
        for title, headings, rows in self.tables:
            yield from cells_of(''.join(title), headings, [row for row in rows if row], style)
        for text in self.texts:
            yield from texts_of(text, style)
