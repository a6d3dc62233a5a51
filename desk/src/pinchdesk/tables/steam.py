"""Prices of steam per tonne: by its latent heat, which a column has or its pressure says."""
from __future__ import annotations

import re
from dataclasses import replace
from decimal import Decimal
from fractions import Fraction

from .prices import MONEY, PriceUnit, price_unit_of
from .units import UnknownUnit, size_of

PER_MASS = re.compile(r'(?P<money>[^/\s]*)\s*(?:/|\bper\b)\s*'
                      r'(?P<mass>(?:[0-9.^ ]+\s*)?(?:t|te|tonnes?|to|kg|lbs?|klb))')
ABSOLUTE = Fraction(101_325)
# Water has saturated steam from 611.2 Pa to its critical pressure.
LEAST, MOST = Fraction(612), Fraction(22_000_000)


def per_mass(text: str) -> tuple[str, Fraction] | None:
    """The money and the mass, in kg, of a price per mass; None where it is none."""
    match = PER_MASS.fullmatch(text.strip())
    if not match or not MONEY.fullmatch(match['money']):
        return None
    names = {'te': 't', 'to': 't', 'klb': '1000 lb'}
    mass = size_of(names.get(match['mass'], match['mass']), 'kg')
    return None if mass is None else (match['money'], mass)


def by_heat(value: Fraction, money: str, mass: Fraction, latent: Fraction) -> tuple[Fraction, PriceUnit]:
    """A price per mass as one per MWh, by a latent heat in J/kg."""
    unit = price_unit_of(f'{money}/MWh' if money else 'per MWh')
    return value * unit.amount * 3600 / (mass * latent), replace(unit)


def pressure_of(value: Fraction, unit: str) -> Fraction | None:
    """A pressure in Pa, absolute; None where its unit is none. `barg` is above the air's."""
    text = unit.strip()
    gauge = re.fullmatch(r'(bar|psi|kPa|MPa|atm)\s*\(?([ga])\)?', text)
    size = size_of(gauge[1] if gauge else text, 'Pa')
    if size is None:
        return None
    return value * size + (ABSOLUTE if gauge and gauge[2] == 'g' else 0)


def latent_heat(pressure: Fraction) -> Fraction | None:
    """The latent heat of saturated steam in J/kg, in five digits, by `iapws` (IAPWS-IF97); None where that is not
    installed. `UnknownUnit` where there is no saturated steam at the pressure."""
    if not LEAST <= pressure <= MOST:
        raise UnknownUnit('pressure')
    try:
        from iapws import IAPWS97
    except ImportError:
        return None
    # The only floats here are those of the steam tables, which have five digits.
    at = float(pressure) / 10 ** 6
    heat = IAPWS97(P=at, x=1).h - IAPWS97(P=at, x=0).h
    return Fraction(Decimal(f'{heat:.5g}')) * 1000
