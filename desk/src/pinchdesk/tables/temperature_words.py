"""Temperatures, differences of them and efficiencies, as words say them."""
from __future__ import annotations

from fractions import Fraction

from ..errors import WordsError
from ..formats.amounts import exact, shortened
from ..formats.case_units import CaseUnits
from .numbers import NoNumber, Numeral, Says, numeral_of, readings
from .units import Kind, UnknownUnit, unit_of


def numeral_said(text: str, flag: str, wanted: str) -> tuple[Fraction, str]:
    """The number of the words and the unit with it; `WordsError` where it is none, or may be two."""
    try:
        numeral: Numeral = numeral_of(text)
        says = numeral.says
        value = Fraction(0) if says is Says.EITHER else Fraction(numeral.value(says.value or '.'))
    except NoNumber as fault:
        raise WordsError(f'{flag} {shortened(text)}: {wanted} is needed') from fault
    if says is Says.EITHER:
        raise WordsError(f'{flag} {text}: it may be {readings(numeral)}')
    return value, numeral.unit


def temperature_said(text: str, flag: str, units: CaseUnits) -> Fraction:
    """A temperature of the words as the case has it: in °C, or with its unit, which it needs where the case is in
    other degrees. `WordsError` where it is none."""
    value, unit = numeral_said(text, flag, 'a temperature, in °C or with its unit,')
    if not unit and units.temperature != '°C':
        raise WordsError(f'{flag} {shortened(text)}: it has no unit, and the case is in {units.temperature}: say '
                         f'"{shortened(text)} {units.temperature}", or "25 °C"')
    try:
        tenths = unit_of(unit, Kind.TEMPERATURE).exact(value) if unit else value * 10
    except UnknownUnit as fault:
        raise WordsError(f'{flag} {shortened(text)}: `{shortened(unit)}` is not a unit of temperatures') from fault
    temperature = units.of_tenths(tenths)
    if units.in_kelvins(temperature) <= 0:
        raise WordsError(f'{flag} {shortened(text)}: no temperature is so low')
    return temperature


def difference_said(text: str, flag: str, units: CaseUnits) -> Fraction:
    """A difference of temperatures of the words as the case has it, of 0 at least: in K, or with its unit, which it
    needs where the degrees of the case are no kelvins."""
    value, unit = numeral_said(text, flag, 'a difference, in K or with its unit,')
    if not unit and units.difference != 'K':
        raise WordsError(f'{flag} {shortened(text)}: it has no unit, and the case is in {units.temperature}: say '
                         f'"{shortened(text)} {units.difference}", or "10 K"')
    try:
        tenths = unit_of(unit, Kind.DIFFERENCE).exact(value) if unit else value * 10
    except UnknownUnit as fault:
        raise WordsError(f'{flag} {shortened(text)}: `{shortened(unit)}` is not a unit of differences') from fault
    if tenths < 0:
        raise WordsError(f'{flag} {shortened(text)}: a difference is at least 0')
    return units.of_tenths_between(tenths)


def efficiency_said(text: str, flag: str) -> Fraction:
    """An efficiency of the words, above 0 and 1 at most: as `0.6` or `60 %`; `WordsError` where it is none."""
    number = text.strip().replace(',', '.')
    percent = number.endswith('%')
    try:
        efficiency = exact(number.removesuffix('%')) / (100 if percent else 1)
    except ValueError:
        efficiency = Fraction(0)
    if not 0 < efficiency <= 1:
        raise WordsError(f'{flag} {shortened(text)}: an efficiency is above 0 and 1 at most, as 0.6 or "60 %"')
    return efficiency
