"""The prices of utilities as a table has them, with their units."""
from __future__ import annotations

from dataclasses import dataclass, replace
from fractions import Fraction

from ..formats.shown import decimal
from .cells import CellReader, Told
from .money import fault_of, following, is_money
from .prices import PriceUnit, price_unit_of
from .rows import Line
from .spreadsheet import TableRow
from .steam import by_heat, latent_heat, per_mass, pressure_of
from .units import UnknownUnit, size_of
from .vocabulary import Heading


@dataclass
class PriceReader:
    """Reads the prices of utilities; what is wrong is told as a fault."""

    told: Told
    reader: CellReader

    def price(self, line: Line) -> tuple[Fraction | None, PriceUnit | None]:
        """A price with its unit, that of its cell or of its column; None where there is none."""
        column = line.at(Heading.PRICE)
        if column is None or not self.reader.given(line.row, column):
            return None, None
        number = self.reader.number(with_following(line.row, column), column)
        if number is None:
            return None, None
        value, _, own = number
        headed = self.reader.headed(line.row.number, column)[0]
        if per_mass(own or headed):
            return self.of_steam(line, column, value, own or headed)
        try:
            unit = price_unit_of(headed) if headed and is_money(own) else None
            unit = unit or (price_unit_of(own or headed) if own or headed else None)
            if own and headed:
                self.agree(line, own, price_unit_of(headed))
            return value, unit
        except UnknownUnit as fault:
            self.told.fault(line.row.number, column, unknown_price(str(fault)))
            return None, None

    def agree(self, line: Line, own: str, headed: PriceUnit) -> None:
        """Tells a fault where the unit of a price, or its money alone, is not that of the heading."""
        unit = None if is_money(own) else price_unit_of(own)
        cause = fault_of(own, headed.text, unit.money if unit else own, headed.money)
        if not cause and unit and (unit.amount, unit.yearly) != (headed.amount, headed.yearly):
            cause = f'two units, `{headed.text}` in the heading and `{own}` here'
        if cause:
            self.told.fault(line.row.number, line.at(Heading.PRICE), cause)

    def of_steam(self, line: Line, column: int, value: Fraction, text: str) -> tuple[Fraction | None, PriceUnit | None]:
        """A price per mass of steam as one per heat, by the latent heat of its row or of its pressure."""
        named = per_mass(text)
        latent, how = self.latent(line)
        if named is None or latent is None:
            cause = f'`{text}` is a price per mass: the latent heat has to stand in a column, or the pressure of the ' \
                    f'steam{how}, each with its unit'
            self.told.fault(line.row.number, column, cause)
            return None, None
        price, unit = by_heat(value, *named, latent)
        self.told.note(line.row.number, column, f'{decimal(value, 6)} {text} is {decimal(price, 4)} {unit.text}, by a '
                       f'latent heat of {decimal(latent / 1000, 3)} kJ/kg{how}')
        return price, unit

    def latent(self, line: Line) -> tuple[Fraction | None, str]:
        """The latent heat of the steam of a row in J/kg, and how it is known."""
        for heading in (Heading.LATENT, Heading.PRESSURE):
            at = line.at(heading)
            if at is None or not self.reader.given(line.row, at):
                continue
            number = self.reader.number(line.row, at)
            if number is None:
                return None, ''
            value, _, own = number
            unit = own or self.reader.headed(line.row.number, at)[0]
            if heading is Heading.LATENT:
                size = size_of(unit, 'J/kg')
                return (None, '') if size is None else (value * size, '')
            return self.at_pressure(value, unit)
        return None, ''

    def at_pressure(self, value: Fraction, unit: str) -> tuple[Fraction | None, str]:
        pressure = pressure_of(value, unit)
        if pressure is None:
            return None, ''
        try:
            latent = latent_heat(pressure)
        except UnknownUnit:
            return None, ' below its critical point'
        if latent is None:
            return None, ' and iapws, which is not installed'
        return latent, f' at {decimal(value, 6)} {unit} (IAPWS-IF97)'


def with_following(row: TableRow, column: int) -> TableRow:
    """A row whose price has its money behind the number."""
    cells = [replace(cell, text=following(cell.text)) if at == column and cell.number is None else cell
             for at, cell in enumerate(row.cells)]
    return replace(row, cells=tuple(cells))


def unknown_price(unit: str) -> str:
    """What is said of a unit that is none of a price."""
    if is_money(unit):
        return f'`{unit}` is a currency, and a price is per unit of heat: write {unit}/MWh'
    return f'the unit `{unit}` is not that of a price: a price is per heat, as EUR/MWh, or per power and year, as ' \
           'EUR/(kW a)'
