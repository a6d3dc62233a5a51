"""Utilities with a range of temperature that a case has as streams (docs/FORMATS.md, *What the desk keeps in
comments*): the only reader and printer of the rows that say so.

The program has utilities at one level. One with a range is in a case as a stream, or as one of several segments, with a
row `#utility,NAME,PRICE,CP,NEED,OFFER`: its price, the CP that was found for it, and what shows that one unit of CP
less is not enough."""
from __future__ import annotations

from collections.abc import Iterator, Mapping, Sequence
from dataclasses import dataclass
from typing import TYPE_CHECKING

from .amounts import exact, shortened
from .segments import NAME

if TYPE_CHECKING:
    from .case import Stream

# So many streams a case has at most, on both sides.
MOST_RANGES = 60


@dataclass(frozen=True)
class Lacking:
    """Parts of the case that need more than is on offer for them, with one unit of CP less."""

    need: int
    offer: int

    @property
    def heat(self) -> int:
        return self.need - self.offer


@dataclass(frozen=True)
class RangedUtility:
    """A stream of the plant that is a utility: its price per W, the CP that was found for it, that of its largest
    segment where it has several, and what lacks with one unit less, None where that costs more and lacks nothing."""

    name: str
    price: int
    cp: int
    lacking: Lacking | None = None


def with_range(utilities: tuple[RangedUtility, ...], row: Sequence[str]) -> tuple[RangedUtility, ...]:
    """The utilities with what one more row `#utility` says; a `ValueError` where it says what cannot be."""
    name, *texts, last = row[1:]
    if last:
        raise ValueError('such a utility has five fields: its name, its price, its CP, and what lacks with less')
    if not NAME.fullmatch(name):
        raise ValueError(f'`{name[:40]}` is not a name of a stream')
    if any(utility.name == name for utility in utilities):
        raise ValueError(f'{name} stands in a row above')
    if len(utilities) >= MOST_RANGES:
        raise ValueError(f'a case has at most {MOST_RANGES} such utilities')
    price, cp = whole_of(texts[0], 'price'), whole_of(texts[1], 'CP')
    if cp < 1:
        raise ValueError(f'the CP {cp} is not above 0')
    if not any(texts[2:]):
        return (*utilities, RangedUtility(name, price, cp))
    need, offer = (whole_of(text, what) for text, what in zip(texts[2:], ('need', 'offer')))
    if not 0 <= offer < need:
        raise ValueError(f'what is needed, {need}, has to be above what is on offer, {offer}, and this at least 0')
    return (*utilities, RangedUtility(name, price, cp, Lacking(need, offer)))


def whole_of(text: str, what: str) -> int:
    number = exact(text)
    if number.denominator != 1:
        raise ValueError(f'the {what} `{shortened(text)}` is not a whole number')
    return int(number)


def range_rows(utilities: Sequence[RangedUtility]) -> Iterator[list[str]]:
    for utility in utilities:
        lacking = utility.lacking
        shown = [str(lacking.need), str(lacking.offer)] if lacking else ['', '']
        yield ['#utility', utility.name, str(utility.price), str(utility.cp), *shown, '']


def range_fault(utility: RangedUtility, streams: Mapping[str, Sequence[Stream]]) -> str:
    """What of the streams of a case contradicts that this is one; `streams` has the segments of each stream of the
    plant. Empty where nothing does."""
    parts = streams.get(utility.name)
    if parts is None:
        return f'{utility.name} is not a stream of the case'
    if all(part.latent for part in parts):
        return f'{utility.name} has one temperature: such a utility is a row heater or cooler'
    return ''
