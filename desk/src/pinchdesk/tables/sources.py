"""What a row of a table says: the stream or the utility that it is."""
from __future__ import annotations

import re
from dataclasses import replace
from fractions import Fraction

from ..errors import Refused
from ..formats.amounts import rounded
from ..formats.case import ANY_HEAT, Side, Stream, Utility
from ..formats.cost_rows import Film, Measured, Overall
from ..formats.limits import CONTRIBUTION, CP, HEAT, LOAD, TEMPERATURE, Limit, fitting_scale, outside
from ..formats.shown import decimal
from .cells import CellReader, Entered, Told
from .doubts import side_of_name
from .headings import KINDS, is_change
from .own_units import ExactSource
from .products import product_of
from .roundings import RoundingSpan, span_of
from .rows import Line, shortened
from .sections import RAISED, side_of_utility
from .segmented import temperature
from .units import Kind
from .vocabulary import Heading, squeezed

# Headings of a CP that are said of a specific heat too.
SPECIFIC_TOO = frozenset(('cp', 'heatcapacity', 'thermalcapacity', 'capacitethermique', 'capacidadcalorifica',
                          'capacitatermica', 'capacitecalorifique'))
# What stands in place of the most that a utility gives or takes.
UNLIMITED = frozenset('unlimited unbounded infinite infinity inf unbegrenzt illimite ilimitado illimitato'.split())
# What marks a row as left out elsewhere.
LEFT_OUT = re.compile(r'//|--|~~|[%!;]|/\*|<!|rem\b', re.I)
# A contribution that is that of the case, as simulators call it.
USUAL = frozenset(('global', 'default'))
# A duty and a CP may differ by what their last digits leave open, but by no more than this part.
MOST_APART = Fraction(1, 20)


class Entries:
    """Makes streams and utilities of lines; what is wrong is told as a fault, and then there is none."""

    def __init__(self, reader: CellReader, told: Told, names: dict[str, str], scale: Fraction,
                 own_units: bool = False, levels: bool = False) -> None:
        self.reader, self.told, self.names, self.scale, self.own_units = reader, told, names, scale, own_units
        self.levels = levels
        # Where a utility with a range leaves, by its row.
        self.ends: dict[int, int] = {}
        self.duties: list[tuple[Line, Side, Entered]] = []
        self.heats: list[tuple[Limit, Fraction]] = []
        self.too_large = False
        # The least and the greatest temperature of all streams, and whether their names, as H1, say which way they run.
        self.spread: tuple[Fraction, Fraction] | None = None
        self.trusted = False
        # Whether duties below 0 are those of all hot streams, and those above 0 of all cold ones.
        self.changes = False
        # What was made of a mass flow, by the row and the other heading.
        self.products: dict[tuple[int, Heading], Fraction] = {}

    def name(self, line: Line) -> str:
        cell = line.row.cell(line.columns[Heading.NAME])
        if cell.fault:
            self.told.fault(line.row.number, line.at(Heading.NAME), f'`{cell.text}`: {cell.fault}')
        elif not line.name():
            self.told.fault(line.row.number, line.at(Heading.NAME), 'a name is missing')
        elif LEFT_OUT.match(line.name()):
            cause = f'`{line.name()}` may be a row that is left out: take the row out, or those signs'
            self.told.fault(line.row.number, line.at(Heading.NAME), cause)
        return self.names.get(line.name(), line.name())

    def given(self, line: Line, heading: Heading) -> bool:
        return self.reader.given(line.row, line.at(heading))

    def share(self, line: Line) -> int | None:
        """The contribution of a row's own; None where it has none."""
        if not self.given(line, Heading.CONTRIBUTION) or line.cell(Heading.CONTRIBUTION).text.lower() in USUAL:
            return None
        return self.limited(line, Heading.CONTRIBUTION, Kind.DIFFERENCE, CONTRIBUTION)

    def own_share(self, line: Line) -> Fraction | None:
        """The contribution of a row's own before it was rounded; None where it has none."""
        entered = self.reader.entered.get((line.row.number, line.columns.get(Heading.CONTRIBUTION, -1)))
        return entered.value if entered else None

    def limited(self, line: Line, heading: Heading, kind: Kind, limit: Limit) -> int | None:
        """A number of a row as a whole one of the program's unit; a fault where it is outside its limits."""
        column = line.at(heading)
        entered = self.reader.measured(line.row, column, kind)
        if entered is None:
            return None
        scale = self.scale if limit.scaled else Fraction(1)
        name = 'duty' if limit is LOAD else heading.name.lower()
        self.check(line, heading, limit, entered.value, f'the {name} {entered.text}')
        return self.reader.rounded(line.row, column, kind, entered, scale)

    def check(self, line: Line, heading: Heading, limit: Limit, exact: Fraction, what: str) -> None:
        """Tells a fault where a number, before all heats are taken so many times, is outside its limits."""
        if limit.scaled and self.own_units and exact > 0:
            # Which steps hold the heats of such a case is found when all of them are known.
            return
        if limit.scaled:
            self.heats.append((limit, exact))
        if not limit.holds(rounded(exact * self.scale if limit.scaled else exact)):
            self.too_large |= limit.scaled
            self.told.fault(line.row.number, line.at(heading), outside(what, limit, self.scale))

    def check_scale(self) -> None:
        """Says which scale would do where a heat is outside its limits."""
        if self.too_large:
            said = fitting_scale(self.heats, self.scale)
            self.told.faults += [Refused(3, '', 'scale', said)] if said else []

    def none_of(self, line: Line, what: str, headings: tuple[Heading, ...], why: str = '') -> None:
        """Tells a fault for each of these columns in which there is something."""
        for heading in headings:
            if line.at(heading) is not None and self.given(line, heading):
                self.told.fault(line.row.number, line.at(heading), f'{what} has no {heading.name.lower()}{why}')

    def temperature(self, line: Line, heading: Heading) -> int | None:
        if not self.given(line, heading):
            self.told.fault(line.row.number, line.at(heading), f'the {heading.name.lower()} temperature is missing')
            return None
        return self.limited(line, heading, Kind.TEMPERATURE, TEMPERATURE)

    def stream(self, line: Line, has_price: bool = False) -> tuple[Stream, int | None] | None:
        """A stream with the contribution of its own. A segment of a utility may have a price."""
        name, share = self.name(line), self.share(line)
        what, others = ('a segment of a utility', ()) if has_price else ('a stream', (Heading.PRICE,))
        self.none_of(line, what, (Heading.LEAST, Heading.MOST, *others))
        supply, target = self.temperature(line, Heading.SUPPLY), self.temperature(line, Heading.TARGET)
        if supply is None or target is None:
            return None
        side = self.side(line, supply, target)
        size = self.load(line, side) if supply == target else self.flow(line, abs(supply - target), side)
        if side is None or size is None:
            return None
        cp, load = (0, size) if supply == target else (size, 0)
        return Stream(name, side, supply, target, cp, load, 0), share

    def exact(self, line: Line, side: Side, share: Fraction) -> RoundingSpan:
        """A stream that was made of a line, as the table has it; `share` is the contribution of the case."""
        def entered(heading: Heading) -> Fraction | None:
            number = self.reader.entered.get((line.row.number, line.columns.get(heading, -1)))
            return number.value if number and self.given(line, heading) else None
        supply, target = entered(Heading.SUPPLY), entered(Heading.TARGET)
        own = entered(Heading.CONTRIBUTION)
        assert supply is not None and target is not None
        cp = entered(Heading.CP) or self.products.get((line.row.number, Heading.SPECIFIC))
        load = entered(Heading.LOAD) or self.products.get((line.row.number, Heading.LATENT))
        heat = cp * abs(supply - target) if cp else abs(load or Fraction(0))
        return span_of(side, (supply, target), heat, share if own is None else own)

    def numbers(self, line: Line, share: Fraction) -> ExactSource:
        """The numbers of a source as the table has them, in the program's units; `share` is the contribution of the
        case."""
        def entered(heading: Heading) -> Fraction | None:
            number = self.reader.entered.get((line.row.number, line.columns.get(heading, -1)))
            return number.value if number and self.given(line, heading) else None
        supply, target = entered(Heading.SUPPLY) or Fraction(0), entered(Heading.TARGET)
        load = entered(Heading.LOAD) or self.products.get((line.row.number, Heading.LATENT))
        cp = entered(Heading.CP) or self.products.get((line.row.number, Heading.SPECIFIC))
        if not cp and load and target is not None and target != supply:
            cp = abs(load) / abs(supply - target)
        return ExactSource(line.row.number, supply, target, cp, load, entered(Heading.LEAST), entered(Heading.MOST),
                           entered(Heading.CONTRIBUTION), share)

    def side(self, line: Line, supply: int, target: int) -> Side | None:
        row = line.row.number
        if supply == target and not line.kind and line.section and line.section.side:
            return line.section.side
        if supply == target and not line.kind and self.named_side(line):
            self.told.note(row, line.at(Heading.NAME), f'`{line.name()}` is {self.named_side(line)} by its name')
            return Side(self.named_side(line))
        duty = self.reader.quiet(line.row, line.at(Heading.LOAD))
        if supply == target and not line.kind and self.changes and duty:
            signed = Side.HOT if duty < 0 else Side.COLD
            self.told.note(row, line.at(Heading.LOAD), f'`{line.name()}` is {signed.value} by the sign of its duty')
            return signed
        if supply == target and not line.kind:
            self.told.fault(row, None, 'supply and target are the same: a column `kind` has to say hot or cold, or '
                            'heater or cooler where it is a utility')
            return None
        runs = Side.HOT if supply > target else Side.COLD
        if line.kind and supply != target and runs.value != line.kind:
            self.told.fault(row, line.at(Heading.TARGET), f'a {line.kind} stream runs the other way')
            return None
        return Side(line.kind) if line.kind else runs

    def named_side(self, line: Line) -> str:
        """The side that the name of a row says, as `Hot 3`, or `H3` where the names of the others say it too."""
        plain = line.name()[:1].upper() + line.name()[1:].lower()
        return side_of_name(line) if self.trusted or plain.startswith(('Hot', 'Cold')) else ''

    def load(self, line: Line, side: Side | None) -> int | None:
        """The load of a latent stream, in W; its sign has to be that of its side."""
        column, flow = line.at(Heading.LOAD), line.at(Heading.CP)
        if self.given(line, Heading.CP):
            cp = self.reader.measured(line.row, flow, Kind.FLOW)
            if cp is None or cp.value != 0:
                cause = 'supply and target are the same: such a stream has a duty and no CP'
                self.told.fault(line.row.number, flow, cause)
                return None
        if not self.given(line, Heading.LOAD):
            heading, duty = Heading.LATENT, self.product(line, Heading.LATENT)
            if duty is None:
                self.told.fault(line.row.number, column, 'supply and target are the same: the duty is missing')
        else:
            heading, duty = Heading.LOAD, self.reader.measured(line.row, column, Kind.HEAT)
        if duty is None or side is None:
            return None
        if duty.value == 0:
            self.told.fault(line.row.number, column, 'a duty is above 0 (in W): hot or cold says which way it goes')
            return None
        if duty.value < 0:
            self.duties.append((line, side, duty))
        size = replace(duty, value=abs(duty.value))
        self.check(line, heading, LOAD, size.value, f'the duty {size.text}')
        return self.reader.rounded(line.row, line.at(heading), Kind.HEAT, size, self.scale)

    def check_signs(self) -> None:
        """Tells a fault for each duty whose sign contradicts its temperatures: below 0 is what a hot stream gives, and
        then no hot one of the table is above 0."""
        signed = any(duty.value < 0 for _, _, duty in self.duties)
        if signed and self.gives_above():
            return
        for line, side, duty in self.duties:
            if signed and duty.value and (duty.value < 0) != (side is Side.HOT):
                way = 'cools down' if side is Side.HOT else 'warms up'
                sign = 'above' if duty.value > 0 else 'below'
                what = f'the duty {duty.text} is {sign} 0, and the stream {way}: a duty below 0 is what a stream gives'
                self.told.fault(line.row.number, line.at(Heading.LOAD) or line.at(Heading.LATENT), what)

    def gives_above(self) -> bool:
        """Whether all duties above 0 are what hot streams give, where a kind, a title or a name says of each which it
        is."""
        said = all(line.kind or line.section and line.section.side or self.trusted and side_of_name(line)
                   for line, _, _ in self.duties)
        return said and all((duty.value < 0) == (side is Side.COLD) for _, side, duty in self.duties if duty.value)

    def flow(self, line: Line, span: int, side: Side | None) -> int | None:
        """The CP of a sensible stream in 10 W/K: that of its row, or its duty over its span."""
        column, load = line.at(Heading.CP), line.at(Heading.LOAD)
        duty = self.reader.measured(line.row, load, Kind.HEAT) if self.given(line, Heading.LOAD) else None
        if duty and side and not line.layout.curve:
            self.duties.append((line, side, duty))
        if self.given(line, Heading.CP):
            cp = self.reader.measured(line.row, column, Kind.FLOW)
            if cp and not duty and self.is_open(line):
                self.told.fault(line.row.number, column, f'{cp.text} may be a CP or a specific heat, beside a mass '
                                'flow: write its unit')
                return None
            if cp is None or duty and not self.agree(line, cp, duty, span):
                return None
            made = self.reader.rounded(line.row, column, Kind.FLOW, cp, self.scale)
            exact, what = cp.value, f'the CP {cp.text}'
        elif duty:
            column, made, exact = load, self.flow_of(line, duty, span), abs(duty.value) / span
            what = f'the CP of the duty {duty.text}, {decimal(exact / 100, 6)} kW/K,'
        else:
            changed = self.change(line, side, span) if not self.given(line, Heading.SPECIFIC) else None
            if changed is not None:
                return changed
            product = self.product(line, Heading.SPECIFIC) if not self.given(line, Heading.LOAD) else None
            if product is None:
                self.without_size(line)
                return None
            column, exact, what = line.at(Heading.SPECIFIC), product.value, f'the CP {product.text}'
            made = self.reader.rounded(line.row, column, Kind.FLOW, product, self.scale)
        heading = next(found for found, at in line.columns.items() if at == column)
        self.check(line, heading, CP, exact, what if made else f'the CP is 0 in 10 W/K: {what}')
        return made

    def change(self, line: Line, side: Side | None, span: int) -> int | None:
        """The CP of a mass flow and the change of its specific enthalpy, as `Δh (kJ/kg)`; None where they are not
        there, or the column is one of latent heats."""
        column = line.at(Heading.LATENT)
        if column is None or not self.given(line, Heading.LATENT) or self.given(line, Heading.LOAD):
            return None
        title = self.reader.headed(line.row.number, column)[1]
        duty = self.product(line, Heading.LATENT) if is_change(title) else None
        if duty is None:
            return None
        if side:
            self.duties.append((line, side, duty))
        made = self.flow_of(line, duty, span, column)
        what = f'the CP of the duty {duty.text}'
        self.check(line, Heading.LATENT, CP, abs(duty.value) / span, what if made else f'the CP is 0 in 10 W/K: {what}')
        return made

    def is_open(self, line: Line) -> bool:
        """Whether a CP without a unit may be a specific heat: a mass flow stands beside it."""
        column = line.columns[Heading.CP]
        unit, title = self.reader.headed(line.row.number, column)
        bare = not unit and line.cell(Heading.CP).text.replace(' ', '').lstrip('+-').replace('.', '').replace(
            ',', '').isdigit() and not line.cell(Heading.CP).unit
        return bare and squeezed(title) in SPECIFIC_TOO and self.given(line, Heading.MASS)

    def without_size(self, line: Line) -> None:
        """Tells a fault for a stream that has neither a CP nor a duty."""
        if self.given(line, Heading.LOAD) or (line.row.number, Heading.SPECIFIC) in self.products:
            return
        if self.given(line, Heading.SPECIFIC) or self.given(line, Heading.MASS):
            column = line.at(Heading.SPECIFIC if self.given(line, Heading.SPECIFIC) else Heading.MASS)
            cause = 'a CP or a duty is missing: a specific heat needs a mass flow beside it, both with their units'
            self.told.fault(line.row.number, column, cause)
        else:
            self.told.fault(line.row.number, line.at(Heading.CP), 'a CP or a duty is missing')

    def product(self, line: Line, heading: Heading) -> Entered | None:
        """A mass flow times a specific heat, as a CP, or times a latent heat, as a duty; None where one is missing, or
        has no unit that goes with the other's."""
        kind = Kind.FLOW if heading is Heading.SPECIFIC else Kind.HEAT
        columns = [line.at(Heading.MASS), line.at(heading)]
        numbers = [self.reader.number(line.row, column) for column in columns
                   if column is not None and self.reader.given(line.row, column)]
        if len(numbers) < 2:
            return None
        (mass, mass_slack, mass_own), (specific, slack, own) = (number or (Fraction(0), Fraction(0), '')
                                                                for number in numbers)
        units = [named or self.reader.headed(line.row.number, column or 0)[0]
                 for named, column in zip((mass_own, own), columns)]
        factor = product_of(units[0], units[1], heading)
        if factor is None:
            return None
        value = mass * specific * factor
        entered = Entered(value, (mass_slack * abs(specific) + slack * abs(mass)) * factor, kind.shown(value))
        self.products[line.row.number, heading] = value
        return entered

    def flow_of(self, line: Line, duty: Entered, span: int, column: int | None = None) -> int:
        """A CP from the duty between both temperatures."""
        heat = abs(duty.value) * self.scale
        made = rounded(heat / span)
        if made * span != heat:
            what = f'from {duty.text} the CP is rounded to {Kind.FLOW.shown(made, self.scale)}, which makes ' \
                   f'{Kind.HEAT.shown(made * span, self.scale)}'
            self.told.rounding(line.row.number, line.at(Heading.LOAD) if column is None else column, what)
        return made

    def agree(self, line: Line, flow: Entered, duty: Entered, span: int) -> bool:
        """Whether a CP and a duty say the same, as far as their last digits tell."""
        made, said = flow.value * span, abs(duty.value)
        apart = abs(made - said)
        # Each temperature may be half a tenth of a degree away.
        open_part = flow.slack * span + duty.slack + abs(flow.value)
        if apart <= open_part and apart <= MOST_APART * max(abs(made), said):
            if apart:
                what = f'the CP {flow.text} is used, which makes {Kind.HEAT.shown(made)}, not the duty {duty.text}'
                self.told.rounding(line.row.number, line.at(Heading.LOAD), what)
            return True
        what = f'the CP {flow.text} makes {Kind.HEAT.shown(made)} between both temperatures, and the duty is ' \
               f'{duty.text}'
        self.told.fault(line.row.number, line.at(Heading.LOAD), what)
        return False

    def with_side(self, line: Line) -> Line | None:
        """A utility with its side: by its temperatures, else by its name; None where both leave it open, which is a
        fault."""
        if line.kind != 'utility':
            return line
        level, end = (self.reader.quiet(line.row, line.at(heading)) for heading in (Heading.SUPPLY, Heading.TARGET))
        side = side_of_utility(line.name())
        if level is not None and end is not None and level != end:
            runs = Side.HOT if level > end else Side.COLD
            if side and side is not runs:
                way = 'cools down' if runs is Side.HOT else 'warms up'
                self.told.fault(line.row.number, line.at(Heading.TARGET), f'{line.name()} {way}: a column `kind` has '
                                'to say heater or cooler')
                return None
            side = runs
        if side is None and level is not None:
            side = self.side_beyond(line)
        if side is None:
            title = f'it stands below `{shortened(line.section.text)}`' if line.section else 'it is a utility'
            self.told.fault(line.row.number, None, f'{title}: a column `kind` has to say heater or cooler, or hot or '
                            'cold')
            return None
        return replace(line, kind='heater' if side is Side.HOT else 'cooler')

    def side_beyond(self, line: Line) -> Side | None:
        """The side of a utility that is hotter than all streams, from which none can give it heat, or colder."""
        level = temperature(line, Heading.SUPPLY, self.reader)
        raised = RAISED.search(line.name()) is not None
        if level is None or raised or self.spread is None or self.spread[0] <= level <= self.spread[1]:
            return None
        side, way = (Side.HOT, 'hotter') if level > self.spread[1] else (Side.COLD, 'colder')
        self.told.note(line.row.number, None, f'{line.name()} is a {side.value} utility: it is {way} than all streams')
        return side

    def level(self, line: Line) -> int | None:
        """The one temperature of a utility, or that at which one with a range enters; of one that is to have a level
        the end that is worth less, which is told."""
        level = self.temperature(line, Heading.SUPPLY)
        if not self.given(line, Heading.TARGET):
            return level
        end = self.temperature(line, Heading.TARGET)
        if level is None or end is None or level == end:
            return level
        column = line.at(Heading.TARGET)
        if (level > end) != (line.kind == 'heater'):
            way = 'cools down' if line.kind == 'heater' else 'warms up'
            self.told.fault(line.row.number, column, f'a {line.kind} runs the other way: it {way}')
            return None
        if not self.levels:
            self.ends[line.row.number] = end
            return level
        first, last = (self.reader.entered[line.row.number, line.columns[heading]].text
                       for heading in (Heading.SUPPLY, Heading.TARGET))
        self.told.note(line.row.number, column, f'a utility has one temperature: of {first} to {last} the end that is '
                       f'worth less is taken, {last}')
        return end

    def utility(self, line: Line) -> tuple[Utility, int | None] | None:
        """A heater or a cooler, without its price, with the contribution of its own."""
        name, level, share = self.name(line), self.level(line), self.share(line)
        self.none_of(line, 'a utility', (Heading.CP, Heading.LOAD), ': what it gives or takes is found')
        if level is None:
            return None
        least, most = self.bound(line, Heading.LEAST, 0), self.bound(line, Heading.MOST, ANY_HEAT)
        if least is None or most is None:
            return None
        if least > most:
            low, high = (self.reader.entered[line.row.number, line.columns[heading]].text
                         for heading in (Heading.LEAST, Heading.MOST))
            self.told.fault(line.row.number, line.at(Heading.LEAST), f'the least {low} is above the most {high}')
        side = Side.HOT if line.kind == 'heater' else Side.COLD
        return Utility(name, side, level, least, most, 0, 0), share

    def bound(self, line: Line, heading: Heading, usual: int) -> int | None:
        text = line.cell(heading).text
        endless = heading is Heading.MOST and (squeezed(text) in UNLIMITED or text == '∞')
        if endless or not self.given(line, heading):
            return usual
        return self.limited(line, heading, Kind.HEAT, HEAT)

    def check_twins(self, line: Line) -> None:
        """Tells a fault where a second column of a heading, in another unit, says something else than the first."""
        for column, heading in line.layout.twins.items():
            first = self.reader.entered.get((line.row.number, line.columns[heading]))
            if first is None or not self.reader.given(line.row, column):
                continue
            second = self.reader.measured(line.row, column, KINDS[heading])
            if second and abs(first.value - second.value) > first.slack + second.slack:
                cause = f'{second.text} and {first.text} in the column before it are not the same'
                self.told.fault(line.row.number, column, cause)

    def coefficient(self, line: Line, heading: Heading) -> Film | Overall | None:
        """The coefficient of heat transfer of a row, with its unit as the table has it."""
        if not self.given(line, heading):
            return None
        number = self.reader.number(line.row, line.at(heading))
        if number is None:
            return None
        value, _, own = number
        unit = own or self.reader.headed(line.row.number, line.columns[heading])[0]
        name = self.names.get(line.name(), line.name())
        measured = Measured(Fraction(decimal(value, 12)), unit)
        return Overall(name, '', measured) if heading is Heading.OVERALL else Film(name, measured)
