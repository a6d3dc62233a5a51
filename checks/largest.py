"""The largest case: as many streams, utilities and forbidden matches as a case may have, each source with a
contribution of its own. On the shifted scale all ends of streams and all levels differ, and all upper ends lie above
all lower ones, so that there are many parts."""
import random

from reading.case import CASE_MOST, SHARE, TRILLION

STREAMS, UTILITIES, FORBIDS = CASE_MOST['hot'], CASE_MOST['utility'], CASE_MOST['forbid']
# The shifted temperatures lie here, in tenths of °C, so that each actual one is in its range.
SHIFTED = range(-1500, 12000)


def largest_case(seed: int, outside: bool = False, standard: bool = False, streams: int = STREAMS,
                 utilities: int = UTILITIES) -> list[str]:
    """The rows of the case of a seed. It always has a heat flow: the first heater is above all streams and the last
    cooler below them, and neither is in a forbidden match. With `outside` all ends of one side lie above or below all
    those of the other, else the sides are mixed. A standard case has the streams alone. With fewer streams of each
    side, or fewer utilities, it is a smaller one."""
    draw = random.Random(seed)
    places = sorted(draw.sample(SHIFTED, 4 * streams + utilities), reverse=True)
    upper, levels, lower = places[1:2 * streams + 1], places[2 * streams
                                                             + 1:-2 * streams - 1], places[-2 * streams - 1:-1]
    rows = ['contribution,,50,,,,'] + stream_rows(draw, upper, lower, outside, streams)
    if standard:
        return rows
    draw.shuffle(levels)
    heaters, coolers = utility_rows(draw, places[:1] + levels + places[-1:], draw.randrange(utilities // 2, utilities))
    hot = ['H%d' % (number + 1) for number in range(streams)] + [row.split(',')[1] for row in heaters[1:]]
    cold = ['C%d' % (number + 1) for number in range(streams)] + [row.split(',')[1] for row in coolers[:-1]]
    pairs = [(one, other) for one in hot for other in cold]
    pairs = draw.sample(pairs, min(FORBIDS, len(pairs) // 3))
    return rows + heaters + coolers + ['forbid,%s,%s,,,,' % pair for pair in pairs]


def actual(hot: bool, shifted: int, share: int) -> int:
    return shifted + share if hot else shifted - share


def stream_rows(draw: random.Random, upper: list[int], lower: list[int], outside: bool, streams: int) -> list[str]:
    """The streams of both sides, each with one of the upper and one of the lower ends."""
    sides = [True] * streams + [False] * streams
    if outside:
        sides = sides if draw.randrange(2) else sides[::-1]
    else:
        draw.shuffle(sides)
    # The side that comes first from above comes first from below, too.
    ends = list(zip(sides, upper, lower[::-1]))
    rows = []
    for hot, kind in ((True, 'hot'), (False, 'cold')):
        highs, lows = [[extent[at] for extent in ends if extent[0] is hot] for at in (1, 2)]
        draw.shuffle(lows)
        for number, (high, low) in enumerate(zip(highs, lows), 1):
            share = draw.randrange(SHARE[1] + 1)
            supply, target = [actual(hot, end, share) for end in ((high, low) if hot else (low, high))]
            name = '%s%d' % (kind[0].upper(), number)
            rows.append('%s,%s,%d,%d,%d,,%d' % (kind, name, supply, target, draw.randrange(1, 100001), share))
    return rows


def utility_rows(draw: random.Random, levels: list[int], heaters: int) -> tuple[list[str], list[str]]:
    """The rows of the heaters and of the coolers. The first of the ones and the last of the others can serve all
    streams."""
    rows = []
    for number, level in enumerate(levels):
        hot, share = number < heaters, draw.randrange(SHARE[1] + 1)
        serves_all = number in (0, len(levels) - 1)
        least, most = (0, TRILLION) if serves_all else (draw.randrange(10 ** 6), draw.randrange(10 ** 6, 10 ** 9))
        price = 1000 if number == 0 else draw.randrange(1, 1000) if hot else draw.randrange(-5, 50)
        name = '%s%d' % ('U' if hot else 'V', number + 1)
        kind = 'heater' if hot else 'cooler'
        rows.append('%s,%s,%d,%d,%d,%d,%d' % (kind, name, actual(hot, level, share), least, most, price, share))
    return rows[:heaters], rows[heaters:]
