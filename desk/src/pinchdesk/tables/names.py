"""Names of a table as names of a case: 1 to 16 ASCII letters, digits, `_` and `-`, beginning with a letter or a
digit."""
from __future__ import annotations

import os.path
import re
import string
import unicodedata
from bisect import bisect_left
from collections import Counter
from collections.abc import Iterable, Iterator, Mapping, Sequence
from itertools import count, product

from ..formats.segments import NAME

LONGEST = 16
FIT = NAME
# How much of a short name is for what tells it from another one, with the `-` before it.
TAIL = 9
LETTERS = {'ä': 'ae', 'ö': 'oe', 'ü': 'ue', 'Ä': 'Ae', 'Ö': 'Oe', 'Ü': 'Ue', 'ß': 'ss', 'æ': 'ae', 'Æ': 'Ae', 'ø': 'o',
           'Ø': 'O', 'œ': 'oe', 'ł': 'l', 'Ł': 'L', 'đ': 'd', 'α': 'a', 'β': 'b', 'γ': 'g', 'Δ': 'D', '&': '-and-',
           '+': '-plus-'}


def whole(name: str) -> str:
    """A name in the letters that a name may have, as long as it is; empty where none is left."""
    spelled = ''.join(LETTERS.get(letter, letter) for letter in name)
    plain = ''.join(letter for letter in unicodedata.normalize('NFKD', spelled) if not unicodedata.combining(letter))
    return re.sub(r'-+', '-', re.sub(r'[^A-Za-z0-9_]', '-', plain)).strip('-_')


def fitted(name: str) -> str:
    """A name that a case may have: cut where it is too long; empty where no letter is left."""
    return whole(name)[:LONGEST].rstrip('-_')


def fit_names(names: Iterable[str]) -> dict[str, str]:
    """The name in the case of each name in the table. A name that is fit stays; of the others two never become one,
    none becomes one that stays, and each keeps what tells it from the others."""
    distinct = list(dict.fromkeys(names))
    made = {fit: fit for fit in distinct if FIT.fullmatch(fit)}
    full = {name: whole(name) or f'S{at}' for at, name in enumerate(distinct, 1)}
    taken = {*made, 'HOT', 'COLD'}
    shared = Counter(full.values())
    for name in distinct:
        if name not in made and len(full[name]) <= LONGEST and shared[full[name]] == 1 and full[name] not in taken:
            made[name] = full[name]
    taken.update(made.values())
    left = [name for name in distinct if name not in made]
    order = sorted(shared)
    cuts = Counter(full_name[:LONGEST].rstrip('-_') for full_name in order)
    ways = {name: list(short_names(full[name], order, cuts)) for name in left}
    wanted = Counter(way for name in left for way in set(ways[name]))
    for name in left:
        free = [way for way in ways[name] if way not in taken and wanted[way] == 1]
        made[name] = free[0] if free else lettered(full[name], taken)
        taken.add(made[name])
    return {name: made[name] for name in distinct}


def number_behind(name: str) -> str:
    """The number at the end of a name, with the `-` before it."""
    head = name.rstrip(string.digits)
    return '-' * head.endswith('-') + name[len(head):] if len(head) < len(name) else ''


def short_names(name: str, order: Sequence[str], cuts: Mapping[str, int]) -> Iterator[str]:
    """Ways to make a long name short, the best first: with the number at its end, cut where nothing else begins so,
    with the word that no other has there, with its last words. `order` has all names, sorted, `cuts` how many of them
    are one where they are cut."""
    if len(name) <= LONGEST:
        return
    number, cut = number_behind(name), name[:LONGEST].rstrip('-_')
    if number and len(number) < LONGEST // 2:
        yield joined(name, number)
    elif cuts[cut] == 1:
        yield cut
    if cuts[cut] > 1:
        at = bisect_left(order, name)
        beside = (*order[max(at - 1, 0):at], *order[at + 1:at + 2])
        alike = max(len(os.path.commonprefix([name, neighbour])) for neighbour in beside)
        word = name.rfind('-', 0, alike) + 1
        yield joined(name, ('-' + name[word:] if alike - word < TAIL else name[alike:])[:TAIL])
    words = name.split('-')
    for last in range(1, len(words)):
        tail = '-' + '-'.join(words[-last:])
        if len(tail) > LONGEST - 3:
            return
        yield joined(name, tail)


def joined(name: str, tail: str) -> str:
    """The beginning of a name, and what stands at its end."""
    return name[:LONGEST - len(tail)].rstrip('-_') + tail.rstrip('-_')


def lettered(name: str, taken: set[str]) -> str:
    """A name with letters behind it, where nothing else tells it from those that are taken; a number would seem to be
    one of the plant's."""
    if name[:LONGEST].rstrip('-_') not in taken:
        return name[:LONGEST].rstrip('-_')
    ends = (''.join(letters) for size in count(1) for letters in product(string.ascii_lowercase, repeat=size))
    return next(made for made in (joined(name, f'-{end}') for end in ends if end != 'a') if made not in taken)


def apart(name: str, taken: set[str]) -> str:
    """A name that is not taken: with `-2`, `-3` and so on behind it where it is."""
    made, number = name, 1
    while made in taken:
        number += 1
        end = f'-{number}'
        made = name[:LONGEST - len(end)].rstrip('-_') + end
    return made
