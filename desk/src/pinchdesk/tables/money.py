"""Moneys of prices: which names and signs are one, and what is said where they are not."""
from __future__ import annotations

import re

# What can be one money alone. `$` and `¥` are those of several countries.
NAMES = {'€': 'EUR', 'EURO': 'EUR', 'EUROS': 'EUR', '£': 'GBP', 'US$': 'USD'}
SHARED = {'$': ('USD', 'CAD', 'AUD', 'NZD', 'SGD', 'HKD', 'MXN'), '¥': ('JPY', 'CNY')}
LONGEST = 60
ALONE = re.compile(r'[A-Za-z]{0,3}[€$£¥]|[A-Z]{3}|[Ee]uros?')
LEADING = re.compile(r'(?P<money>[A-Z]{0,3}[€$£¥]|[A-Z]{3}(?=\s))\s*(?P<number>[-+−]?[0-9.,][0-9.,\'’ \u00a0\u202f]*)'
                     r'(?P<unit>.*)')


def following(text: str) -> str:
    """A price with its money behind the number: `9.50 $/MMBtu` for `$9.50/MMBtu`; any other text as it is."""
    match = LEADING.fullmatch(text.strip()) if len(text) <= LONGEST else None
    return f'{match["number"].strip()} {match["money"]}{match["unit"]}' if match else text


def money_of(text: str) -> str:
    """A money by its code, where its name or its sign says which one it is."""
    return NAMES.get(text.upper(), text.upper())


def is_money(text: str) -> bool:
    """Whether a text is a money, and says nothing of what it is paid for."""
    return ALONE.fullmatch(text.strip()) is not None


def two_moneys(one: str, other: str) -> str:
    """What is said of two moneys that are not one; empty where they are."""
    first, second = money_of(one), money_of(other)
    if first == second:
        return ''
    for sign, code in ((first, second), (second, first)):
        if code in SHARED.get(sign, ()):
            return f'`{sign}` may be another currency than {code}: write one of them'
    return f'{one or "none"} and {other or "none"} are two currencies'


def fault_of(own: str, headed: str, own_money: str, headed_money: str) -> str:
    """What is said of the money of a cell beside that of its heading; empty where they are one."""
    said = two_moneys(own_money, headed_money)
    return said if not said or said.startswith('`') else f'two currencies, `{headed}` in the heading and `{own}` here'
