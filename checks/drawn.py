"""Random cases for the scripts of this folder: streams that may be latent, utilities with ranges and prices,
contributions of the sources' own, forbidden matches."""
from __future__ import annotations
import random

from common import text
from reading.case import CASE_MOST, TRILLION

# How far apart the prices of utilities lie.
SPREADS: tuple[tuple[int, ...], ...] = (3,), (30,), (1000,), (45000,), (45000, 20), (10 ** 6, 200)


class Rows:
    """The rows of a case that are drawn one after the other, with the names of the sources of each side."""

    def __init__(self, draw: random.Random, share: int) -> None:
        self.draw, self.rows = draw, ['contribution,,%d,,,,' % share]
        self.sources: dict[bool, list[str]] = {True: [], False: []}

    def own(self) -> str:
        """A contribution of a source's own, mostly none."""
        return self.draw.choice(('', '', '', '0', '50', '120'))

    def stream(self, name: str, hot: bool, ends: tuple[int, int], cp: int, load: int | str) -> None:
        kind = 'hot' if hot else 'cold'
        self.rows.append('%s,%s,%d,%d,%d,%s,%s' % (kind, name, *ends, cp, load, self.own()))
        self.sources[hot].append(name)

    def utility(self, name: str, hot: bool, level: int, heats: tuple[int, int], price: int) -> None:
        kind = 'heater' if hot else 'cooler'
        self.rows.append('%s,%s,%d,%d,%d,%d,%s' % (kind, name, level, *heats, price, self.own()))
        self.sources[hot].append(name)

    def forbid(self, most: int) -> None:
        pairs = [(one, other) for one in self.sources[True] for other in self.sources[False]]
        self.rows += ['forbid,%s,%s,,,,' % pair for pair in self.draw.sample(pairs, min(len(pairs), most))]


def random_case(draw: random.Random) -> bytes:
    """A case whose streams often share their ends, so that utilities and levels stand at them."""
    ends = [draw.randrange(50, 4000, 50) for _ in range(draw.choice((3, 4, 6, 9)))]
    rows = Rows(draw, draw.choice((0, 25, 50, 100)))
    for number in range(draw.choice((1, 2, 3, 4, 6, 10))):
        draw_stream(rows, number, ends)
    for number in range(draw.choice((0, 0, 1, 2, 3, 5))):
        hot = draw.randrange(2) == 0
        most = draw.choice((TRILLION, TRILLION, draw.randrange(10 ** 6)))
        least = draw.choice((0, 0, draw.randrange(min(most, 5000) + 1)))
        level = draw.choice(ends + [4000 if hot else 0])
        price = draw.choice((0, 1, 3, draw.randrange(-20, 200), 10 ** 6))
        rows.utility('U%d' % number, hot, level, (least, most), price)
    rows.forbid(draw.choice((0, 0, 1, 3)))
    return text(*rows.rows)


def draw_stream(rows: Rows, number: int, ends: list[int]) -> None:
    draw = rows.draw
    hot, latent = draw.randrange(2) == 0, draw.randrange(4) == 0
    high, low = sorted(draw.sample(ends, 2), reverse=True)
    low = low if low < high else low - 1
    name = '%s%d' % ('H' if hot else 'C', number)
    if latent:
        rows.stream(name, hot, (high, high), 0, draw.choice((1, 3000, draw.randrange(1, 10 ** 6))))
    else:
        rows.stream(name, hot, (high, low) if hot else (low, high), draw.choice((1, 20, draw.randrange(1, 1000))), '')


def random_plant(draw: random.Random) -> bytes:
    """A plant of 20 to 40 streams, half of them hot, at a least difference of 10 °C, in tenths of °C and 10 W/K."""
    rows = Rows(draw, 50)
    for number in range(draw.randrange(20, 41)):
        hot = number % 2 == 0
        supply, span = draw.randrange(1000, 3501) if hot else draw.randrange(300, 2201), draw.randrange(200, 1801)
        rows.rows.append('%s,%s%d,%d,%d,%d,,' % ('hot' if hot else 'cold', 'H' if hot else 'C', number, supply,
                                                 supply - span if hot else supply + span, draw.randrange(500, 10001)))
    return text(*rows.rows)


def random_priced_case(draw: random.Random) -> bytes:
    """A case of many utilities that can take each other's place, none of them for all the heat: the least cost over the
    price of one turns often. Their prices lie far apart, near each other, or both."""
    ends = sorted(draw.sample(range(50, 4000, 50), draw.choice((3, 4, 6))))
    rows = Rows(draw, draw.choice((0, 25, 50)))
    for number in range(draw.choice((1, 2, 3, 4))):
        draw_stream(rows, number, ends)
    count, spreads = draw.randrange(2, CASE_MOST['utility'] - 1), draw.choice(SPREADS)
    rest = rest_of(rows.rows)
    heat = 3 * abs(rest) // count + 2
    for number, hot in enumerate((True, False)):
        rows.utility('W%d' % number, hot, 4500 if hot else -500, (0, TRILLION), draw.choice((0, 300, 10 ** 5)))
    side = draw.choice((rest < 0, rest < 0, None))
    for number in range(count):
        hot = draw.randrange(2) == 0 if side is None else side
        most = draw.choice((TRILLION, *[draw.randrange(heat) for _ in range(5)]))
        least = draw.choice((0, 0, 0, 0, min(most, draw.randrange(heat // 10 + 1))))
        outer = 4200 if hot else -200
        level = draw.choice((outer, outer, draw.choice(ends)))
        spread = draw.choice(spreads)
        rows.utility('U%d' % number, hot, level, (least, most), draw.randrange(-spread // 4, spread + 1))
    rows.forbid(draw.choice((0, 0, 0, 2)))
    return text(*rows.rows)


def rest_of(rows: list[str]) -> int:
    """How much more heat the hot streams of these rows have than the cold ones want."""
    fields = [row.split(',') for row in rows if row.startswith(('hot,', 'cold,'))]
    heats = [abs(int(cells[2]) - int(cells[3])) * int(cells[4]) + int(cells[5] or 0) for cells in fields]
    return sum(heat if cells[0] == 'hot' else -heat for cells, heat in zip(fields, heats))
