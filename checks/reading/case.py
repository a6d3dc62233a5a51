"""Cases and sites: their sources, and the grammars of their rows."""
from __future__ import annotations
from dataclasses import dataclass, field

from reading.rows import NAME, Kinds, Refused, Row, kind_of, numbers, numbers_and_more, rows_of

TRILLION = 10 ** 12
TEMPERATURE, FLOW, SHARE, HEAT, PRICE = (-2731, 30000), (1, 100000), (0, 1000), (0, TRILLION), (-10 ** 6, 10 ** 6)
# The load of a latent stream, and the CP where there is one.
LOAD, LATENT_FLOW = (1, 10 ** 10), (0, 100000)
# How many there may be: in a case (heaters and coolers together), in a site (streams of all plants together).
CASE_MOST = {'hot': 30, 'cold': 30, 'utility': 12, 'forbid': 400}
SITE_MOST = {'hot': 12, 'cold': 12, 'plant': 6, 'main': 4}
# The fields that a kind may fill. Only a case has loads of latent streams and contributions of its sources' own, in the
# last two fields.
CASE_KINDS: Kinds = {'contribution': {2}, 'hot': {1, 2, 3, 4, 5, 6}, 'cold': {1, 2, 3, 4, 5, 6},
                     'heater': {1, 2, 3, 4, 5, 6}, 'cooler': {1, 2, 3, 4, 5, 6}, 'forbid': {1, 2}}
SITE_KINDS: Kinds = {'contribution': {2}, 'hot': {1, 2, 3, 4}, 'cold': {1, 2, 3, 4}, 'plant': {1}, 'main': {1, 2}}


@dataclass(eq=False)
class Source:
    """A stream or a utility. Temperatures are in tenths of °C, flows in 10 W/K, heats and loads in W. Where it has no
    contribution of its own, `share` is that of the contribution row behind the reading."""
    name: bytes
    hot: bool
    stream: bool
    supply: int
    target: int
    cp: int = 0
    least: int = 0
    most: int = 0
    price: int = 0
    plant: int | None = None
    share: int | None = None
    load: int = 0

    def contribution(self) -> int:
        """Its contribution, behind the reading."""
        assert self.share is not None
        return self.share

    def actual(self) -> tuple[int, int]:
        """The range as it is, as (low, high)."""
        return min(self.supply, self.target), max(self.supply, self.target)

    def size(self) -> int:
        """The full size of a stream: what all its branches carry together."""
        return self.load or self.cp

    def states(self) -> tuple[int, int]:
        """The state of a stream where it begins and where it ends: of a latent one the part of its load that is still
        to be given, or was taken."""
        if not self.load:
            return self.supply, self.target
        return (1, 0) if self.hot else (0, 1)

    def span(self) -> tuple[int, int]:
        """The shifted range, as (low, high)."""
        low, high = self.actual()
        shift = -self.contribution() if self.hot else self.contribution()
        return low + shift, high + shift


@dataclass(eq=False)
class Case:
    """A case, or a site, which has plants and mains in place of utilities and forbidden pairs."""
    share: int | None = None
    streams: list[Source] = field(default_factory=list)
    utilities: list[Source] = field(default_factory=list)
    forbidden: list[tuple[bytes, bytes]] = field(default_factory=list)
    mains: list[tuple[bytes, int]] = field(default_factory=list)
    plants: list[bytes] = field(default_factory=list)

    def contribution(self) -> int:
        """That of the contribution row, behind the reading."""
        assert self.share is not None
        return self.share

    def is_latent(self) -> bool:
        return any(stream.load for stream in self.streams)

    def ends(self) -> list[int]:
        """The shifted ends of the streams, from the highest down."""
        return sorted({end for stream in self.streams for end in stream.span()}, reverse=True)

    def shared_out(self) -> Case:
        """Each source without a contribution of its own has that of the contribution row, wherever this stands."""
        for source in self.streams + self.utilities:
            source.share = self.share if source.share is None else source.share
        return self

    def completed(self) -> Case:
        """With the standard utility of each side that has none."""
        share, ends = self.contribution(), self.ends()
        self.utilities = list(self.utilities)
        for name, hot, level, price in ((b'HOT', True, ends[0] + share, 1), (b'COLD', False, ends[-1] - share, 0)):
            if not any(utility.hot is hot for utility in self.utilities):
                self.utilities.append(Source(name, hot, False, level, level, most=TRILLION, price=price, share=share))
        return self

    def source(self, name: bytes) -> Source | None:
        return next((source for source in self.streams + self.utilities if source.name == name), None)

    def count(self, kind: str) -> int:
        """How many of a kind of row are there."""
        if kind in ('hot', 'cold'):
            return sum(stream.hot is (kind == 'hot') for stream in self.streams)
        counts = {'forbid': len(self.forbidden), 'plant': len(self.plants), 'main': len(self.mains)}
        return counts.get(kind, len(self.utilities))


def is_standard(case: Case) -> bool:
    """Whether the utilities of the completed case are just the two standard ones, and no match is forbidden."""
    def told(source: Source) -> tuple[object, ...]:
        return source.name, source.supply, source.least, source.most, source.price, source.share

    standard = {utility.name: told(utility) for utility in Case(case.share, case.streams).completed().utilities}
    return not case.forbidden and all(standard.get(utility.name) == told(utility) for utility in case.utilities)


def stream_of(row: Row, at: int, kind: str, plant: int | None = None) -> Source:
    """A stream of a case, or of a plant of a site, where none is latent."""
    flow = LATENT_FLOW if row[5] != b'' else FLOW
    (supply, target, cp), (load, share) = numbers_and_more(row, (2, 3, 4), (TEMPERATURE, TEMPERATURE, flow),
                                                           ((5, LOAD), (6, SHARE)), at)
    if load is not None and (supply != target or cp != 0):
        raise Refused(at, 'NotLatent')
    if load is None and plant is None and supply == target:
        raise Refused(at, 'NoLoad')
    if load is None and (supply <= target if kind == 'hot' else supply >= target):
        raise Refused(at, 'WrongWay')
    return Source(row[1], kind == 'hot', True, supply, target, cp, plant=plant, share=share, load=load or 0)


class Reader:
    """Takes the rows of a case or of a site one after the other."""
    kinds: Kinds
    most: dict[str, int]

    def __init__(self) -> None:
        self.case = Case()

    def take(self, row: Row, at: int) -> None:
        kind = kind_of(row, at, self.kinds)
        if kind == 'contribution':
            self.take_contribution(row, at)
        elif kind is not None:
            if self.case.count(kind) >= self.most[kind if kind in self.most else 'utility']:
                raise Refused(at, 'TooMany')
            self.take_named(kind, row, at)

    def take_contribution(self, row: Row, at: int) -> None:
        if self.case.share is not None:
            raise Refused(at, 'Repeated')
        self.case.share = numbers(row, (2,), (SHARE,), at)[0]

    def take_named(self, kind: str, row: Row, at: int) -> None:
        raise NotImplementedError

    def end(self, at: int) -> Case:
        """What was read, where the row behind the last would have this number."""
        case = self.case
        for missing, why in ((case.share is None, 'NoContribution'),
                             ('main' in self.kinds and not case.mains, 'NoMain'), (not case.streams, 'NoStream')):
            if missing:
                raise Refused(at, why)
        return case.shared_out()


class CaseReader(Reader):
    kinds, most = CASE_KINDS, CASE_MOST

    def take_named(self, kind: str, row: Row, at: int) -> None:
        if not all(NAME.match(name) for name in (row[1:3] if kind == 'forbid' else row[1:2])):
            raise Refused(at, 'BadName')
        if kind == 'forbid':
            return self.take_forbid(row, at)
        if row[1] == b'HOT' and kind != 'heater' or row[1] == b'COLD' and kind != 'cooler':
            raise Refused(at, 'BadName')
        if self.case.source(row[1]):
            raise Refused(at, 'SameName')
        if kind in ('hot', 'cold'):
            self.case.streams.append(stream_of(row, at, kind))
        else:
            self.take_utility(kind, row, at)

    def take_forbid(self, row: Row, at: int) -> None:
        hot, cold = self.case.source(row[1]), self.case.source(row[2])
        if hot is None or cold is None or not hot.hot or cold.hot:
            raise Refused(at, 'UnknownName')
        if (row[1], row[2]) in self.case.forbidden:
            raise Refused(at, 'Repeated')
        self.case.forbidden.append((row[1], row[2]))

    def take_utility(self, kind: str, row: Row, at: int) -> None:
        (level, least, most, price), (share,) = numbers_and_more(row, (2, 3, 4, 5), (TEMPERATURE, HEAT, HEAT, PRICE),
                                                                 ((6, SHARE),), at)
        if least > most:
            raise Refused(at, 'BadRange')
        self.case.utilities.append(Source(row[1], kind == 'heater', False, level, level, 0, least, most, price,
                                          share=share))


class SiteReader(Reader):
    kinds, most = SITE_KINDS, SITE_MOST

    def take_named(self, kind: str, row: Row, at: int) -> None:
        site, is_stream = self.case, kind in ('hot', 'cold')
        if is_stream and not site.plants:
            raise Refused(at, 'NoPlant')
        if not NAME.match(row[1]) or is_stream and row[1] in (b'BOILER', b'COOLING'):
            raise Refused(at, 'BadName')
        others = site.plants if kind == 'plant' else [name for name, _ in site.mains]
        if row[1] in ([stream.name for stream in site.streams] if is_stream else others):
            raise Refused(at, 'SameName')
        if is_stream:
            site.streams.append(stream_of(row, at, kind, len(site.plants) - 1))
        elif kind == 'plant':
            site.plants.append(row[1])
        else:
            site.mains.append((row[1], numbers(row, (2,), (TEMPERATURE,), at)[0]))


def read(reader: Reader, data: bytes) -> Case:
    rows = rows_of(data)
    for at, row in enumerate(rows, 1):
        reader.take(row, at)
    return reader.end(len(rows) + 1)


def case_of(data: bytes) -> Case:
    """The case that a file holds, without what completion adds."""
    return read(CaseReader(), data)


def site_of(data: bytes) -> Case:
    return read(SiteReader(), data)
