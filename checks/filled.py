"""Files as full as the limits of docs/FORMATS.md allow: cases, sites, networks, and bytes that are no rows."""
from __future__ import annotations

from common import text
from reading.case import CASE_MOST, SITE_MOST
from reading.network import STATEMENTS
from reading.rows import LIMIT


def splits(count: int) -> list[str]:
    return ['split %s s%d 1/20000 r%d' % ('r%d' % (number - 1) if number else 'H', number, number)
            for number in range(count)]


def networks() -> dict[str, bytes]:
    """Networks of the one hot stream, CP 10 from 1000 to 500."""
    passes = ['exchanger E%d H COLD 1/4' % number for number in range(20000)]
    passes += ['pass %s E%d b%d' % ('b%d' % (number - 1) if number else 'H', number, number)
               for number in range(20000)] + ['end b19999']
    mixes = ['split %s s%d 1/4000 r%d' % ('r%d' % (number - 1) if number else 'H', number, number)
             for number in range(33000)] + ['mix s0 s1 m1']
    mixes += ['mix m%d s%d m%d' % (number - 1, number, number) for number in range(2, 33000)]
    mixes += ['mix m32999 r32999 z', 'exchanger E H COLD 5000', 'pass z E y', 'end y']
    return {'20,000 exchangers': text(*passes), '100,000 statements': text(*splits(STATEMENTS - 1), 'end r99998'),
            '66,000 splits and mixes': text(*mixes),
            'a line of 8 MB': b'exchanger ' * (LIMIT // 10), '8 MB of spaces': b' ' * LIMIT,
            '8 MB of zero bytes': b'\0' * LIMIT}


def rows_of_bytes() -> dict[str, bytes]:
    return {'an open quote of 8 MB': b'"' + b'a' * (LIMIT - 1), '8 MB of quotes': b'"' * LIMIT,
            '8 MB of commas': b',' * LIMIT,
            '1,198,372 empty rows': b',,,,,,\n' * (LIMIT // 7), '8 MB of line ends': b'\r' * LIMIT,
            '8 MB of zero bytes': b'\0' * LIMIT}


def full() -> tuple[bytes, bytes, bytes]:
    """A case, a standard case and a site with as much of each kind as there may be, over the whole range of
    temperatures. In both cases each stream has a contribution of its own; the first heater is above all cold streams,
    the first cooler below all hot ones, and no match of these is forbidden, so that there is a heat flow."""
    streams, utilities = CASE_MOST['hot'], CASE_MOST['utility'] // 2
    hot = ['hot,H%d,%d,%d,100000,,%d' % (number, 30000 - number, -731 + number, 37 * number % 1001)
           for number in range(streams)]
    cold = ['cold,C%d,%d,%d,100000,,%d' % (number, -2731 + 7 * number, 28000 - 13 * number, 1000 - 31 * number)
            for number in range(streams)]
    given = ['heater,U%d,%d,0,1000000000000,%d,%d' % (number, 30000 - 1000 * number, 1000000 - number, 1000 - number)
             for number in range(utilities)]
    given += ['cooler,V%d,%d,0,1000000000000,%d,1000' % (number, -2731 + 100 * number, -1000000 + number)
              for number in range(utilities)]
    pairs = ['forbid,H%d,C%d,,,,' % (one, other) for one in range(streams)
             for other in range(streams) if (one + other) % 2][:CASE_MOST['forbid']]
    shared = [','.join(row.split(',')[:6]) + ',' for row in hot[:SITE_MOST['hot']] + cold[:SITE_MOST['cold']]]
    plants = [row for number in range(SITE_MOST['plant'])
              for row in ['plant,P%d,,,,,' % number] + shared[number::SITE_MOST['plant']]]
    mains = ['main,M%d,%d,,,,' % (number, 25000 - 6000 * number) for number in range(SITE_MOST['main'])]
    case = text('contribution,,0,,,,', *hot, *cold, *given, *pairs)
    return case, text('contribution,,1000,,,,', *hot, *cold), text('contribution,,0,,,,', *mains, *plants)


def full_of_latent() -> tuple[bytes, bytes]:
    """A standard case in which all streams are latent, with the largest loads, and one in which each second one is."""
    latent, mixed = [], []
    for kind, first, step, ends in (('hot', 29000, -900, (30000, -2731)), ('cold', -2000, 900, (-2731, 30000))):
        for number in range(CASE_MOST[kind]):
            level, name = first + step * number, '%s%d' % (kind[0].upper(), number)
            latent.append('%s,%s,%d,%d,0,10000000000,' % (kind, name, level, level))
            # A sensible one of the whole range, but for its lower end.
            at = len(latent) - 1
            supply, target = [end + at * (end < 0) for end in ends]
            mixed.append(latent[-1] if at % 2 else '%s,%s,%d,%d,100000,,' % (kind, name, supply, target))
    return text('contribution,,50,,,,', *latent), text('contribution,,50,,,,', *mixed)
