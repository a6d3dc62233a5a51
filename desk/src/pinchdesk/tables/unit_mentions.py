"""Units that words name: whether a title, a note or a comment speaks of another unit than the one that is taken where
none stands with the numbers."""
from __future__ import annotations

import re
from functools import lru_cache

from .units import Kind, UnknownUnit, is_multiple, unit_of

# No unit of a number that stands before it, as in `dTmin = 10 K` ..
ALONE = r'(?<![0-9])(?<![0-9]\s)'
# .. but a power of ten is part of the unit. 10 and 100 are where something says so.
THOUSANDS = r"(?:[ .,'’]?0{3})+"
TIMES = rf'(?:(?<![0-9.,])(?:10\s*(?:\^|\*\*)\s*[0-9]+|10[⁰¹²³⁴-⁹]+|1[eE]\+?[0-9]+|10{{0,2}}{THOUSANDS})|' \
        r'(?:\b(?i:in|x)\s+|[(\[×*,:;=]\s*)100?)\s*(?:[x×·*]\s*)?'
BEFORE = r'(?:\b(?i:in)\s+|[(\[,=:;]\s*)'
ENERGY = r'(?i:\b[kmgt]{0,3}(?:cal(?:orie)?s?|btuh?|joules?|therms?)(?![a-z])|\bmbh\b|\bhorse\s?power\b|' \
         r'\btons? of refrigeration\b|\b[kmgt]?wh\b|\b[kmgt]j\b|\bin\s+(?:hp|ps|j)\b)|\bhp\b'
WATTS = rf'(?i:\b[mgt]w\b)|(?:{BEFORE}|/\s*)[Ww]\b(?!\.)|(?i:\b(?:mega|giga|tera|milli)?watts?\b)'
PARTS = r'(?i:\b(?:tenths?|hundreds?|hundredths?|thousands?|thousandths?|millions?|zehntel)\b)'
SYSTEMS = r'(?i:\b(?:us|u\.s\.|usc|si|s\.i\.|imperial|english|british|metric|technical|field|cgs)[\s-]+' \
          r'(?:customary\s+)?(?:units?|system|einheiten)\b)'
# A letter alone is a name too: `Kemp, K. Smith`.
LETTER = r'(?i:[°º˚]\s*{0}\b|\bdeg(?:rees?|s)?\.?\s*{0}\b|\bgrad\s+{0}\b)|' \
         r'(?i:\bin\s+{0}\b)(?!\.?\s*[A-Z][a-z])|' \
         r'(?:{1}|[A-Za-z]{{3}}\s*/\s*|(?i:\btemp[a-z]*\.?)\s+){0}\b(?!\.?\s*[A-Z][a-z])(?!\.\s)'
FAHRENHEIT = r'(?i:fahrenheit|rankine|℉|[°º˚]\s*r\b|\bdeg(?:rees?)?\.?\s*r\b)|' + LETTER.format('[Ff]', BEFORE)
KELVIN = r'(?i:\bkelvins?\b)|' + LETTER.format('[Kk]', BEFORE)
OTHER_HEAT = rf'{ALONE}(?:{ENERGY}|{WATTS})|{TIMES}(?:{ENERGY}|(?i:\b[kmgt]?w\b|\b[a-z]*watts?\b))|{SYSTEMS}'
# Two units of which either may be meant: `°C or K`, `°C/K`.
EITHER = r'(?i:(?:[°º˚]\s*|\bdeg(?:rees?)?\.?\s*)C|\bcelsius)\s*(?:,?\s*\b(?i:or|oder|ou|o|bzw\.?)\s+|/\s*)' \
         r'(?i:(?:in|en)\s+)?(?:[°º˚]\s*)?(?:[FKR]\b|(?i:kelvins?|fahrenheit)\b)'
SAID = {Kind.TEMPERATURE: re.compile(rf'{ALONE}(?:{FAHRENHEIT}|{KELVIN})|{SYSTEMS}|{PARTS}|{EITHER}'),
        Kind.DIFFERENCE: re.compile(rf'{ALONE}(?:{FAHRENHEIT})|{SYSTEMS}|{PARTS}'),
        Kind.FLOW: re.compile(rf'{OTHER_HEAT}|{ALONE}(?:{FAHRENHEIT})|{PARTS}'),
        Kind.HEAT: re.compile(rf'{OTHER_HEAT}|{PARTS}')}


@lru_cache(maxsize=64)
def names_other_unit(text: str, kind: Kind) -> bool:
    """Whether a text names a unit of a kind of numbers, or is one, and another one than is taken where there is
    none. A table has the same note in many rows, and is read more than once."""
    if SAID[kind].search(text):
        return True
    bare_text = text.strip().strip('()[]').strip()
    try:
        unit, usual = unit_of(bare_text, kind), unit_of(kind.default, kind)
    except UnknownUnit:
        return False
    # A number with a unit is no unit where it is no power of ten.
    whole = not bare_text[0].isdigit() or is_multiple(bare_text, kind)
    return whole and (unit.factor, unit.offset) != (usual.factor, usual.offset)
