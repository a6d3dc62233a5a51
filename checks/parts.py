"""The parts of a case and of a site, and which reach which, by the definitions of docs/FORMATS.md; for the search of
cheapest.py and for flows.py, which takes printed heat flows apart."""
from __future__ import annotations
from collections.abc import Callable
from dataclasses import dataclass

from reading.case import Case, Source
from reading.targets import profile_places

ENDLESS = 10 ** 30


@dataclass(frozen=True, eq=False)
class Part:
    """A stream on a piece of its shifted range, a latent stream at its level, or a utility."""
    source: Source
    high: int
    low: int
    least: int
    most: int
    price: int

    def name(self) -> str:
        return '%s %d %d' % (self.source.name.decode(), self.high, self.low)

    def reaches(self, cold: Part) -> bool:
        """Whether heat passes from this hot part down to the cold one."""
        return self.low >= cold.high or (self.high, self.low) == (cold.high, cold.low)


@dataclass(frozen=True)
class Problem:
    """Hot and cold parts in the order in which they are printed, which of them reach each other, and the utilities in
    their order."""
    hot: list[Part]
    cold: list[Part]
    reaches: Callable[[Part, Part], bool]
    utilities: list[Source]


def parts_of(places: list[int], sources: list[Source], hot: bool) -> list[Part]:
    """The parts of one side over a grid of places that fall: by falling high, by falling low, then in the order of the
    sources."""
    found = []
    for at, source in enumerate(sources):
        low, high = source.span()
        if source.hot is not hot:
            continue
        spans = [pair for pair in zip(places, places[1:]) if low <= pair[1] and pair[0] <= high]
        for top, bottom in spans if low < high else [(high, low)]:
            heat = source.load + source.cp * (top - bottom)
            least, most = (heat, heat) if source.stream else (source.least, source.most)
            part = Part(source, top, bottom, least, most, 0 if source.stream else source.price)
            found.append((-top, -bottom, at, part))
    return [part for _, _, _, part in sorted(found, key=lambda one: one[:3])]


def of_case(case: Case) -> Problem:
    """The parts of a completed case."""
    sources, forbidden = case.streams + case.utilities, set(case.forbidden)
    places = sorted({end for source in sources for end in source.span()}, reverse=True)

    def reaches(one: Part, other: Part) -> bool:
        return one.reaches(other) and (one.source.name, other.source.name) not in forbidden

    return Problem(parts_of(places, sources, True), parts_of(places, sources, False), reaches, case.utilities)


def of_site(site: Case) -> Problem:
    """The parts of a site with BOILER and COOLING. Between two plants a main has to lie between."""
    places, levels, share = profile_places(site), [level for _, level in site.mains], site.contribution()
    boiler, cooling = max(levels) - share, places[-1]
    utilities = [Source(b'BOILER', True, False, boiler, boiler, most=ENDLESS, price=1, share=0),
                 Source(b'COOLING', False, False, cooling, cooling, most=ENDLESS, share=0)]

    def reaches(one: Part, other: Part) -> bool:
        if None in (one.source.plant, other.source.plant) or one.source.plant == other.source.plant:
            return one.reaches(other)
        return any(level + share <= one.low and other.high <= level - share for level in levels)

    hot, cold = [parts_of(places, site.streams + utilities, side) for side in (True, False)]
    return Problem(hot, cold, reaches, utilities)
