"""A mass flow times a specific or a latent heat, by their units."""
from __future__ import annotations

from fractions import Fraction

from .units import size_of
from .vocabulary import Heading


def product_of(mass: str, specific: str, heading: Heading) -> Fraction | None:
    """What the number of a mass flow times that of a specific or a latent heat is in the program's unit."""
    per_kelvin = '/K' if heading is Heading.SPECIFIC else ''
    for amount in ('kg', 'mol'):
        flow, heat = size_of(mass, f'{amount}/s'), size_of(specific, f'J/{amount}{per_kelvin}')
        if flow is not None and heat is not None:
            return flow * heat / 10 if heading is Heading.SPECIFIC else flow * heat
    return None
