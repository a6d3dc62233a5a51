"""What a table says of areas and money beside its streams: the sheet `costs` of a workbook, or rows below a title
`Costs`. Each row has a name, a number or a word, and its unit; of all of them the comment rows of a case are made, or
what is missing is refused by its name."""
from __future__ import annotations

import io
import re
from collections.abc import Iterator, Mapping, Sequence
from dataclasses import dataclass, replace
from decimal import Decimal

from ..errors import Refused
from ..formats.cost_rows import FIELDS, CostRow, read_cost_row, with_row
from .cells import Told, decimal_mark
from .money import is_money
from .numbers import NoNumber, numeral_of, plain
from .spreadsheet import Cell, Table, TableRow, is_workbook, workbook_table
from .units import measures
from .vocabulary import squeezed

TITLES = frozenset(('costs', 'costdata', 'costsandareas', 'areasandcosts', 'capitalcosts', 'capitalcostdata'))
LAWS = ('costlaw', 'costlaws', 'capitalcostlaw')
KINDS = {'heater': 'heater', 'heaters': 'heater', 'cooler': 'cooler', 'coolers': 'cooler', 'exchanger': 'exchanger',
         'exchangers': 'exchanger', 'all': ''}
# The names of rows, each with what it may be called, squeezed.
NAMES = {
    'law of': ('lawof', 'lawisof', 'costlawof', 'lawper', 'costlawper'),
    'flow': ('flow', 'flowarrangement', 'flowpattern'),
    'part of the greatest effectiveness': ('partofthegreatesteffectiveness', 'xp', 'x'),
    'most area of a shell': ('mostareaofashell', 'maximumareaofashell', 'maximumareapershell', 'maxareapershell',
                             'largestshell', 'maximumshellarea'),
    'currency': ('currency', 'money'),
    'installation factor': ('installationfactor', 'installation', 'langfactor'),
    'cost index now': ('costindexnow', 'indexnow'),
    'cost index of the laws': ('costindexofthelaws', 'costindexofthelaw', 'indexofthelaws', 'indexofthelaw'),
    'annual factor': ('annualfactor', 'annualisationfactor', 'annualizationfactor', 'formoftheannualfactor'),
    'interest': ('interest', 'interestrate', 'rateofinterest'),
    'years': ('years', 'lifetime', 'plantlife', 'plantlifetime', 'life'),
    'hours a year': ('hoursayear', 'hoursperyear', 'hours', 'operatinghours', 'operatinghoursayear',
                     'operatinghoursperyear')}
MEANT = {word: name for name, words in NAMES.items() for word in words}
# What may stand behind a number that has no unit of its own; behind another one stands nothing.
UNITS = {'years': ('a', 'y', 'yr', 'yrs', 'year', 'years'),
         'interest': ('%', 'percent', '%/a', '% a year', '% per year'),
         'hours a year': ('h', 'hours', 'h/a', 'h/y', 'h/yr', 'h/year', 'hours a year', 'hours per year'),
         'annual factor': ('1/a', '1/y', '1/yr', '1/year')}
# What has to be there, with what would do.
NEEDED = {'cost law': '40000 + 500 A^0.8 and m2 beside it', 'law of': 'exchanger, or shell',
          'flow': 'counter-current, or 1-2', 'currency': 'EUR', 'installation factor': '1',
          'annual factor': 'a number, or recovery for i(1+i)^n/((1+i)^n-1), or compound for (1+i)^n/n'}
FORMS = {'recovery': 'recovery', 'compound': 'compound', 'i(1+i)^n/((1+i)^n-1)': 'recovery', '(1+i)^n/n': 'compound'}
FLOWS = {'countercurrent': 'counter-current', 'counterflow': 'counter-current', '11': 'counter-current', '12': '1-2',
         '12shells': '1-2', '12shellandtube': '1-2'}
PERS = {'exchanger': 'exchanger', 'exchangers': 'exchanger', 'anexchanger': 'exchanger', 'perexchanger': 'exchanger',
        'shell': 'shell', 'shells': 'shell', 'ashell': 'shell', 'pershell': 'shell'}
NUMBER = r"[0-9](?:[0-9.,'’\s]*[0-9])?(?:[eE][-+]?[0-9]+)?"
LAW = re.compile(rf'[$€£]?\s*(?:(?P<fixed>{NUMBER})\s*\+\s*)?[$€£]?\s*(?P<factor>{NUMBER})\s*[*·×]?\s*'
                 rf'(?:A|Area|area)\s*(?:(?:\^|\*\*)\s*\(?\s*(?P<exponent>{NUMBER})\s*\)?)?')
AREA_WORDS = re.compile(r'\b(?:with|A|area|in)\b|[,;=]', re.I)
MATERIAL = re.compile(r'materials?\s+(.*\S)', re.I)
PERCENT = 'a percentage'
AREA_MISSING = 'the unit of area has to stand beside it, as m2 or ft2, and `{unit}` is none'


@dataclass(frozen=True)
class CostLine:
    """A row of the block: its label, and the cells behind it with the column of the first of them."""

    row: TableRow
    label: str
    column: int
    cells: tuple[Cell, ...]

    @property
    def value(self) -> Cell:
        return self.cells[0] if self.cells else Cell()

    @property
    def unit(self) -> str:
        """The texts behind the value."""
        return ' '.join(cell.text for cell in self.cells[1:] if cell.text)

    @property
    def meaning(self) -> str:
        """The name that the label is one of; empty where it is none."""
        word = squeezed(self.label)
        return MEANT.get(word) or ('cost law' if word.startswith(LAWS[0]) or word.startswith(LAWS[-1]) else '')


def lines_of(rows: Sequence[TableRow]) -> Iterator[CostLine]:
    for row in rows:
        (_, label), *rest = row.filled()
        yield CostLine(row, label.text, rest[0][0] if rest else 0, tuple(cell for _, cell in rest))


def with_costs(table: Table, content: bytes) -> Table:
    """The table with its rows below a title `Costs` apart, or with the sheet of that name beside it."""
    at = next((at for at, row in enumerate(table.rows) if is_title(row)), None)
    if at is not None:
        end = at + 1
        while end < len(table.rows) and table.rows[end].number == table.rows[end - 1].number + 1:
            end += 1
        block = table.rows[at + 1:end]
        if is_block(block):
            rows = (*table.rows[:at], *table.rows[end:])
            return replace(table, rows=rows, costs=replace(table, rows=block, more=(), others=()))
    return with_sheet(table, content) if is_workbook(content) else table


def is_title(row: TableRow) -> bool:
    cells = list(row.filled())
    return len(cells) == 1 and squeezed(cells[0][1].text) in TITLES


def is_block(rows: Sequence[TableRow]) -> bool:
    return any(line.meaning for line in lines_of(rows))


def with_sheet(table: Table, content: bytes) -> Table:
    """The table of a workbook with its sheet of costs, where that is one and not read otherwise."""
    import openpyxl
    book = openpyxl.load_workbook(io.BytesIO(content), read_only=True)
    names = [page.title for page in book.worksheets if page.sheet_state == 'visible' and squeezed(page.title) in TITLES]
    book.close()
    if not names or names[0] in (table.sheet, *table.more):
        return table
    costs = workbook_table(content, names[0])
    if not is_block(costs.rows):
        return table
    return replace(table, others=tuple(name for name in table.others if name != names[0]), costs=costs)


@dataclass
class CostsReader:
    """Reads a block of costs whose numbers have this decimal mark. What is wrong goes to the faults, with its place."""

    table: Table
    mark: str
    faults: list[Refused]

    def fault(self, line: CostLine, cause: str) -> None:
        self.faults.append(self.table.refusal(line.row.number, line.column if line.cells else None, cause))

    def number(self, line: CostLine) -> tuple[str, str]:
        """The number of a row as a decimal, and its unit; empty where it is none, which is a fault."""
        cell = line.value
        if cell.number is not None and (not cell.fault or cell.fault == PERCENT):
            return plain(cell.number), cell.unit or line.unit
        try:
            numeral = numeral_of(cell.text)
            return plain(numeral.value(self.mark)), numeral.unit or line.unit
        except NoNumber as fault:
            self.fault(line, f'`{line.label}` needs a number: {cell.fault or fault}')
            return '', ''

    def bare(self, line: CostLine) -> tuple[str, str]:
        """The same of a number that has no unit, or one of its own."""
        number, unit = self.number(line)
        if number and unit and unit not in UNITS.get(line.meaning, ()):
            self.fault(line, f'`{line.label}` has the unit `{unit}`, and is a number of '
                       f'{UNITS[line.meaning][-1] if line.meaning in UNITS else "no unit"}')
            return '', ''
        return number, unit

    def word(self, line: CostLine, known: Mapping[str, str]) -> str:
        """The word of a row; empty where it is none of these, which is a fault."""
        text = line.value.text
        found = known.get(squeezed(text)) or known.get(text.replace(' ', '').replace('ⁿ', '^n'))
        if not found:
            self.fault(line, f'`{line.label}` is `{text}`: {" or ".join(dict.fromkeys(known.values()))} is needed')
        return found or ''

    def row(self, line: CostLine, *fields: str) -> CostRow | None:
        """A row of the case; None where it cannot be one, which is a fault."""
        try:
            return read_cost_row([*fields, *[''] * (FIELDS - len(fields))])
        except ValueError as fault:
            self.fault(line, str(fault))
            return None

    def law(self, line: CostLine) -> CostRow | None:
        """The cost law of a row: `40000 + 500 A^0.8`, of which the label may say of what kind or material it is."""
        match = LAW.fullmatch(line.value.text)
        unit, subject = area_unit(line.unit), law_subject(line.label)
        if subject is None:
            self.fault(line, f'`{line.label}`: of a kind it is `cost law, heaters` (coolers, exchangers), of a '
                       'material `cost law, material SS`')
        elif match is None:
            self.fault(line, f'`{line.value.text}` is no cost law, as 40000 + 500 A^0.8')
        elif not unit:
            self.fault(line, AREA_MISSING.format(unit=line.unit))
        else:
            numbers = [self.part(line, match[name], usual) for name, usual in (('fixed', '0'), ('factor', ''),
                                                                               ('exponent', '1'))]
            if all(numbers):
                return self.row(line, '#law', *subject, *numbers, unit)
        return None

    def part(self, line: CostLine, text: str | None, usual: str) -> str:
        """A number of a cost law; empty where it is none, which is a fault."""
        if text is None:
            return usual
        try:
            return plain(numeral_of(text).value(self.mark))
        except NoNumber as fault:
            self.fault(line, f'`{text}`: {fault}')
            return ''


def area_unit(text: str) -> str:
    """The unit of area in what stands beside a cost law, as `$, A in m2`; empty where there is none."""
    words = [word for word in AREA_WORDS.sub(' ', text.replace('²', '2')).split() if not is_money(word)]
    unit = ' '.join(words)
    return unit if unit and measures(unit, 'm**2') else ''


def law_subject(label: str) -> tuple[str, str] | None:
    """Of which kind of exchangers and of which material a law is, by what its label says behind a comma; None where it
    says something else."""
    first, *parts = (part.strip() for part in re.split('[,;:]', label))
    kinds = [KINDS[squeezed(part)] for part in parts if squeezed(part) in KINDS]
    materials = [match[1] for part in parts for match in [MATERIAL.fullmatch(part)] if match]
    fits = squeezed(first) in LAWS and len(kinds) < 2 and len(materials) < 2 and len(kinds + materials) == len(parts)
    return ((kinds or [''])[0], (materials or [''])[0]) if fits else None


def number_cells(costs: Table) -> Iterator[tuple[int, int, Cell]]:
    """The numbers of a block that stand there as texts, those of a cost law each by itself."""
    for line in lines_of(costs.rows):
        texts = re.findall(NUMBER, line.value.text) if line.meaning == 'cost law' else [line.value.text]
        if line.meaning and line.value.number is None:
            yield from ((line.row.number, line.column, Cell(text)) for text in texts)


def cost_rows_of(costs: Table, mark: str | None, told: Told) -> tuple[CostRow, ...]:
    """The comment rows of a block of costs. `mark` is the decimal mark of the table beside it, None where that does not
    settle it: then the block does, or is refused. What is wrong goes to the faults, what is passed over to the
    notes."""
    notes, faults = told.notes, told.faults
    if costs.sheet != told.table.sheet:
        notes.append(f'the sheet {costs.sheet} is read for areas and money')
    reader = CostsReader(costs, decimal_mark(costs, number_cells(costs), mark), faults)
    named: dict[str, CostLine] = {}
    laws: list[CostLine] = []
    for line in lines_of(costs.rows):
        if not line.meaning or not line.cells:
            notes.append(f'{costs.place(line.row.number)}: passed over, no row of costs: `{line.label}`')
        elif line.meaning == 'cost law':
            laws.append(line)
        elif line.meaning in named:
            reader.fault(line, f'`{line.meaning}` stands twice')
        else:
            named[line.meaning] = line
    given = {*named, *(['cost law'] if laws else [])}
    lacking = [f'`{name}` ({example})' for name, example in NEEDED.items() if name not in given]
    if lacking:
        first = costs.rows[0].number
        verb = 'is' if len(lacking) == 1 else 'are'
        faults.append(costs.refusal(first, None, f'of the costs {" and ".join(lacking)} {verb} missing'))
        return ()
    if is_number(named['annual factor']):
        notes += [f'{costs.place(named[name].row.number)}: passed over, since `annual factor` is a number: '
                  f'`{named[name].label}`' for name in ('interest', 'years') if name in named]
    return collected(reader, [*map(reader.law, laws), *SingleRows(reader, named).rows()], laws[0])


def is_number(line: CostLine) -> bool:
    return line.value.number is not None or line.value.text[:1].isdigit()


def collected(reader: CostsReader, rows: Sequence[CostRow | None], line: CostLine) -> tuple[CostRow, ...]:
    """The rows together; two that say different things are a fault."""
    found: tuple[CostRow, ...] = ()
    for row in rows:
        try:
            found = with_row(found, row) if row else found
        except ValueError:
            reader.fault(line, 'two cost laws of one kind and material')
    return found


@dataclass
class SingleRows:
    """The rows that there are once: how exchangers are built, the money, and the cost of a year."""

    reader: CostsReader
    named: dict[str, CostLine]

    def rows(self) -> Iterator[CostRow | None]:
        yield self.build()
        yield self.capital()
        yield self.annual()

    def number(self, name: str) -> tuple[str, str]:
        """The number of a name with its unit; empty where the block has none."""
        return self.reader.number(self.named[name]) if name in self.named else ('', '')

    def bare(self, name: str) -> str:
        return self.reader.bare(self.named[name])[0] if name in self.named else ''

    def build(self) -> CostRow | None:
        flow, per = self.reader.word(self.named['flow'], FLOWS), self.reader.word(self.named['law of'], PERS)
        part = self.bare('part of the greatest effectiveness')
        most, unit = self.number('most area of a shell')
        if most and not area_unit(unit):
            self.reader.fault(self.named['most area of a shell'], AREA_MISSING.format(unit=unit))
        if not flow or not per or most and not area_unit(unit):
            return None
        return self.reader.row(self.named['flow'], '#build', '', flow, part, most, area_unit(unit), per)

    def capital(self) -> CostRow | None:
        line = self.named['currency']
        now, then = self.bare('cost index now'), self.bare('cost index of the laws')
        factor = self.bare('installation factor')
        return self.reader.row(line, '#capital', line.value.text, factor, now, then) if factor else None

    def annual(self) -> CostRow | None:
        """The cost of a year, by a factor that is given, or by interest and years in one of the forms of books."""
        line, hours = self.named['annual factor'], self.bare('hours a year')
        if is_number(line):
            factor = self.bare('annual factor')
            return self.reader.row(line, '#annual', 'factor', factor, '', hours) if factor else None
        form = self.reader.word(line, FORMS)
        lacking = [name for name in ('interest', 'years') if name not in self.named]
        if lacking:
            self.reader.fault(line, f'`{line.value.text}` needs `{"` and `".join(lacking)}`')
        if lacking or not form:
            return None
        rate, years = self.interest(self.named['interest']), self.bare('years')
        return self.reader.row(line, '#annual', form, rate, years, hours) if rate and years else None

    def interest(self, line: CostLine) -> str:
        """An interest as a part of 1; from 1 on it needs its sign of percent, else nobody knows."""
        rate, unit = self.reader.bare(line)
        if unit and rate:
            return plain(Decimal(rate).scaleb(-2))
        if rate and Decimal(rate) >= 1:
            self.reader.fault(line, f'an interest of {rate} may be {rate} % or {rate} times: write {rate} %')
            return ''
        return rate
