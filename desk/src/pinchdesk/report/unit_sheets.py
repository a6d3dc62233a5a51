"""The least number of exchangers as tables: the regions with their numbers and those of a network, each independent set
as a sum that a person can add up, and what the rule leaves out."""
from __future__ import annotations

from collections.abc import Iterable, Sequence
from decimal import Decimal
from fractions import Fraction

from ..analysis.cuts import Piece, CutPlace, Region
from ..analysis.follow import Followed, Passage, SideState, heat_above
from ..analysis.independent_sets import MOST_SOURCES, MOST_SUBSETS
from ..analysis.joined import joined, placed_count
from ..analysis.least_units import IndependentSet, RegionUnits, Units
from ..analysis.unfinished import placed
from ..formats.case import Side, Utility, shifted
from ..formats.shown import Shown
from .facts import Fact, FactRow, FactTable
from .sheet import Cell, Sheet

LEFT_OUT = ('the number is sources less independent sets: the rule counts heats, and a network may need more where '
            'temperatures or forbidden matches prevent it')


def title_of(region: Region, shown: Shown) -> str:
    """`above 85 °C`, `85 to 60 °C`, `below 60 °C`, shifted."""
    upper, lower = (shown.temperature(place.temperature) if place else '' for place in (region.upper, region.lower))
    unit = shown.temperature_unit
    if upper and lower:
        return f'{upper} to {lower} {unit}'
    return f'above {lower} {unit}' if lower else f'below {upper} {unit}' if upper else 'the whole, without a cut'


def number_of(counted: RegionUnits) -> Cell:
    """The least number, or both bounds of it where the sources are too many."""
    partition = counted.partition
    least, found = partition.least_exchangers, partition.found_exchangers
    return Decimal(least) if partition.exact else f'{least} to {found}'


def sets_of(counted: RegionUnits) -> Cell:
    partition = counted.partition
    return Decimal(len(partition.sets)) if partition.exact else f'{len(partition.sets)} to {partition.most_sets}'


def joined_facts(counted: Sequence[RegionUnits], parted: bool) -> FactRow:
    """The least number with sets that can be joined, where some cannot; empty where it is not known."""
    numbers = [region.least_joined for region in counted]
    known = [number for number in numbers if number is not None]
    return (Fact('that can be joined', Decimal(sum(known)) if len(known) == len(numbers) else ''),) if parted else ()


def region_facts(title: str, sources: int, sets: Cell, exchangers: Cell) -> FactRow:
    return Fact('shifted', title), Fact('sources', Decimal(sources)), Fact('sets', sets), Fact('exchangers', exchangers)


def summed(title: str, counted: Sequence[RegionUnits]) -> FactRow:
    """Sources, sets and exchangers of all regions together."""
    parts = [region.partition for region in counted]
    least, found = sum(part.least_exchangers for part in parts), sum(part.found_exchangers for part in parts)
    sets, most = sum(len(part.sets) for part in parts), sum(part.most_sets for part in parts)
    exact = all(part.exact for part in parts)
    return region_facts(title, sum(part.members for part in parts),
                        Decimal(sets) if exact else f'{sets} to {most}',
                        Decimal(least) if exact else f'{least} to {found}')


def heat_above_place(side: SideState, duty: Fraction, place: CutPlace | None) -> Fraction | None:
    """How much of a duty a side gives or takes above a place; all of it above none."""
    if place is None:
        return duty
    if not isinstance(side.source, Utility):
        return heat_above(side, duty, place.point)
    return duty if place.point.is_below(shifted(side.source, side.source.level)) else Fraction(0)


def heat_in(side: SideState, duty: Fraction, region: Region) -> Fraction:
    """How much of a duty a side gives or takes in a region."""
    to_lower = heat_above_place(side, duty, region.lower)
    to_upper = heat_above_place(side, duty, region.upper) if region.upper else Fraction(0)
    return Fraction(0) if to_lower is None or to_upper is None else to_lower - to_upper


def exchangers_in(passages: Sequence[Passage], region: Region) -> tuple[int, int]:
    """How many exchangers work in a region alone, and how many partly."""
    whole = partly = 0
    for passage in passages:
        duty, parts = passage.exchanger.duty, passage.parts
        heats = [sum((heat_in(side, part.exchanger.duty, region) for part, side in sides), Fraction(0))
                 for sides in ([(part, part.hot) for part in parts], [(part, part.cold) for part in parts])]
        if heats == [duty, duty]:
            whole += 1
        elif any(heats):
            partly += 1
    return whole, partly


def all_counted(units: Units) -> Sequence[RegionUnits]:
    return [units.whole, *(counted for level in units.levels for counted in level)]


def found_in(followed: Followed | None, region: Region) -> FactRow:
    if followed is None:
        return ()
    whole, partly = exchangers_in(placed(joined(followed).followed), region)
    return Fact('in the network', Decimal(whole)), Fact('partly', Decimal(partly))


def units_table(units: Units, followed: Followed | None = None) -> FactTable:
    """A row for each region, the sum of each way to cut, and the exchangers of a network in each."""
    shown = Shown(units.case.basis)
    parted = not all(independent.joinable for counted in all_counted(units) for independent in counted.sets)
    whole = units.whole.region
    rows: list[FactRow] = [(*summed(title_of(whole, shown), [units.whole]), *joined_facts([units.whole], parted),
                            *found_in(followed, whole))]
    for level in units.levels:
        utility = any(not counted.region.lower.process for counted in level if counted.region.lower)
        rows.extend((*region_facts(title_of(counted.region, shown), counted.sources, sets_of(counted),
                                   number_of(counted)),
                     *joined_facts([counted], parted), *found_in(followed, counted.region)) for counted in level)
        title = 'all, utility pinches too' if utility else 'all sides of the pinch'
        rows.append((*summed(title, level), *joined_facts(level, parted)))
    return FactTable('Least number of exchangers', tuple(rows))


def sum_of(pieces: Iterable[Piece], shown: Shown) -> str:
    return ' + '.join(f'{piece.source.name} {shown.heat(piece.heat, 9)}' for piece in pieces)


def sum_text(independent: IndependentSet, shown: Shown) -> str:
    """`hot: H2 90 + H4 60 = cold: C1 150`, in the unit of heats."""
    hot, cold = ([piece for piece in independent.pieces if piece.source.side is side]
                 for side in (Side.HOT, Side.COLD))
    return f'hot: {sum_of(hot, shown)} = cold: {sum_of(cold, shown)}'


def sets_table(units: Units) -> FactTable:
    """Each independent set; one that balances and cannot be joined is marked."""
    shown = Shown(units.case.basis)
    sets = [(title_of(counted.region, shown) + title if at == 0 else '', independent)
            for counted in all_counted(units)
            for title, found in (('', counted.sets), (', with sets that can be joined', counted.joined or ()))
            for at, independent in enumerate(found)]
    marked = frozenset(at for at, (_, independent) in enumerate(sets) if not independent.joinable)
    rows = [(Fact('shifted', title), Fact('exchangers', Decimal(len(independent.pieces) - 1)),
             Fact('', sum_text(independent, shown), shown.heat_unit)) for title, independent in sets]
    if not marked:
        return FactTable('Independent sets', tuple(rows))
    return FactTable('Independent sets', tuple(
        (*row, Fact('cannot be joined', '' if independent.joinable else parted_text(independent)))
        for row, (_, independent) in zip(rows, sets)), marked)


def parted_text(independent: IndependentSet) -> str:
    groups = ' | '.join(' '.join(names) for names in independent.parts)
    return f'forbidden matches or temperatures part it: {groups}'


def units_notes(units: Units, followed: Followed | None = None) -> list[str]:
    """What the rule leaves out, and what was not cut or not counted to the end."""
    shown = Shown(units.case.basis)
    told = [LEFT_OUT]
    regions = all_counted(units)
    for counted in regions:
        if not counted.exact:
            told.append(f'{title_of(counted.region, shown)}: the rule\'s number is from {counted.least} to '
                        f'{counted.partition.found_exchangers}: there are more than {MOST_SOURCES} sources or '
                        f'{MOST_SUBSETS} sums that balance, too many for the most sets to be known')
    if any(not independent.joinable for counted in regions for independent in counted.sets):
        told.append('a set that is marked balances and cannot be joined: the rule\'s number cannot be reached; beside '
                    'it is the number with sets that can, where it is known')
    for cross in units.crossed:
        told.append(f'{shown.heat(cross.heat)} {shown.heat_unit} cross the pinch at '
                    f'{shown.temperature(cross.temperature)} {shown.temperature_unit} at the uses of least cost: there '
                    'is no cut at it')
    if followed is not None:
        told.append(f'the network has {placed_count(followed)} exchangers; `partly` are those that work in other '
                    'regions too')
    return told


def units_tables(units: Units, followed: Followed | None = None) -> list[FactTable]:
    """The rule's numbers, beside them those of a network of the same completed case, and the sets."""
    return [units_table(units, followed), sets_table(units)]


def units_sheets(units: Units, followed: Followed | None = None) -> list[Sheet]:
    """The same as sheets, and notes."""
    notes = tuple((note,) for note in units_notes(units, followed))
    return [*(table.sheet() for table in units_tables(units, followed)), Sheet('What the rule leaves out', (), notes)]
