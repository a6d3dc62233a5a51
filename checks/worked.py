"""Commands that were worked by hand, over files of plain names: each with its whole text, and each with a status other
than 0 too. Beside these stand the commands of common.py, whose texts only begin as they should."""
from __future__ import annotations
from collections.abc import Iterator
from typing import NamedTuple

from common import (EVAPORATING, EVAPORATING_FLOW, FORBIDDEN, FOUR, FOUR_NETWORK, LOW_MAIN, ONE_HOT, SMALL, TABLE,
                    THREE, TOO_COLD, TWO_PLANTS, example, text)
from reading.rows import LIMIT

TOO_LITTLE, TWO_LEVELS = example('too-little-cooling.csv'), example('two-steam-levels.csv')
STUDY = text('scenario,S1,,', 'price,LP,2,', 'span,LP,0,5')
# A network with a number beyond the limits of fractions.
TOO_FINE = text('exchanger E1 H COLD 1/281474976710655', 'pass H E1 a', 'end a')

FOUR_CURVES = text(
    'hot 0 300', 'hot 45000 600', 'hot 450000 1500', 'hot 510000 1700', 'cold 0 200', 'cold 120000 800',
    'cold 450000 1350', 'cold 470000 1400', 'net 20000 1650', 'net 80000 1450', 'net 82500 1400', 'net 0 850',
    'net 75000 550', 'net 60000 250')
FORBIDDEN_DESIGN = text(
    '# hot 4000 cold 5000 excess 4000 cost 4000', 'exchanger E1 HOT C 3000', 'exchanger E2 HOT C 1000',
    'exchanger E3 H COLD 2000', 'exchanger E4 H COLD 3000', 'pass H E3 .1', 'pass .1 E4 .2', 'end .2', 'pass C E2 .3',
    'pass .3 E1 .4', 'end .4')
THREE_DESIGN = text(
    '# hot 0 cold 2000 excess 0 cost 0', 'exchanger E1 H C 1000', 'exchanger E2 H D 2000', 'exchanger E3 H COLD 2000',
    'split H .1 10/3 .2', 'pass .1 E1 .3', 'pass .2 E2 .4', 'mix .3 .4 .5', 'pass .5 E3 .6', 'end .6', 'pass C E1 .7',
    'end .7', 'pass D E2 .8', 'end .8')
FOUR_AUDIT = text(
    'accepted', 'hot 20000', 'cold 60000', 'excess 0', 'cost 20000', 'floor 20000', 'place 850',
    'penalty exchanger E1 0', 'penalty exchanger E2 0', 'penalty exchanger E3 0', 'penalty exchanger E4 0',
    'penalty exchanger Q1 0', 'penalty exchanger Q2 0')
SITE_TEXT = text(
    'profile 1950 0 10000', 'profile 1550 0 6000', 'profile 1450 0 5000', 'profile 1350 0 4000', 'profile 950 4000 0',
    'profile 550 8000 0', 'boiler 4000', 'cooling 6000', 'move H 1950 1550 C 1350 950 4000',
    'move H 1550 1450 COOLING 550 550 1000', 'move BOILER 1450 1450 C 950 550 4000',
    'move H 1450 1350 COOLING 550 550 1000', 'move H 1350 950 COOLING 550 550 4000', 'give H 1950 1550 1',
    'give H 1550 1450 0', 'give BOILER 1450 1450 1', 'give H 1450 1350 0', 'give H 1350 950 0', 'take C 1350 950 1',
    'take C 950 550 1', 'take COOLING 550 550 0')
LOW_MAIN_TEXT = text(
    'profile 1400 0 0', 'profile 1350 0 0', 'profile 1300 500 0', 'profile 550 8000 0', 'infeasible',
    'cut demand 500 0', 'part C 1350 1300')
CUT = text('infeasible', 'cut supply 5000 2000', 'part H 950 450')
FOUR_ROWS = text(
    'row 0 0 40000 0', 'row 10 0 40000 0', 'row 20 0 40000 0', 'row 30 2000 42000 2000', 'row 40 11000 51000 11000',
    'row 50 20000 60000 20000', 'row 60 29000 69000 29000', 'row 70 38000 78000 38000', 'row 80 47000 87000 47000',
    'row 90 56000 96000 56000', 'row 100 65000 105000 65000')
STUDY_TEXT = text('scenario S1 58500', 'span LP 0 3 55500 1500', 'span LP 4 5 60000 0')


class Worked(NamedTuple):
    """The words of a command, its files by name, the status and the whole text."""
    words: list[str]
    files: dict[str, bytes]
    status: int
    text: bytes


def answered() -> Iterator[Worked]:
    """Each command with an answer, those of several words with each of these."""
    for command, case, status, written in (
            ('targets', FOUR, 0, text('hot 20000', 'cold 60000', 'pinch 850')),
            ('flow', EVAPORATING, 0, EVAPORATING_FLOW), ('flow', TOO_LITTLE, 1, CUT), ('curves', FOUR, 0, FOUR_CURVES),
            ('design', FORBIDDEN, 0, FORBIDDEN_DESIGN),
            ('design', TOO_LITTLE, 1, CUT), ('vertical', THREE, 0, THREE_DESIGN), ('site', TWO_PLANTS, 0, SITE_TEXT),
            ('site', LOW_MAIN, 1, LOW_MAIN_TEXT)):
        yield Worked([command, 'plant.csv'], {'plant.csv': case}, status, written)
    for case, network, status, written in (
            (FOUR, FOUR_NETWORK, 0, FOUR_AUDIT),
            (FOUR, TOO_COLD, 1, text('rejected exchanger E2 ColdEndApproach found 2699/3 wanted 900')),
            (SMALL, TOO_FINE, 9, text('too fine line 2 step 1'))):
        yield Worked(['audit', 'plant.csv', 'network.txt'], {'plant.csv': case, 'network.txt': network}, status,
                     written)
    for case, report, status, written in ((EVAPORATING, EVAPORATING_FLOW, 0, text('yes cost 3000')),
                                          (TOO_LITTLE, CUT, 0, text('yes infeasible')),
                                          (FOUR, EVAPORATING_FLOW, 1, text('no Parts'))):
        yield Worked(['certify', 'plant.csv', 'report.txt'], {'plant.csv': case, 'report.txt': report}, status, written)
    for workers in ('1', '2', '3', '16'):
        yield Worked(['sweep', 'plant.csv', '0', '100', '10', workers], {'plant.csv': FOUR}, 0, FOUR_ROWS)
        yield Worked(['prices', 'plant.csv', 'study.csv', workers], {'plant.csv': TWO_LEVELS, 'study.csv': STUDY}, 0,
                     STUDY_TEXT)
    yield Worked(['sweep', 'plant.csv', '40', '69', '10', '4'], {'plant.csv': FOUR}, 0,
                 text('row 40 11000 51000 11000', 'row 50 20000 60000 20000', 'row 60 29000 69000 29000'))
    yield Worked(['sample', '1', '1'], {}, 0, text('hot 25163', 'cold 0', 'cost 117663'))


# Each command with words, of which it wants each.
WHOLE: list[list[str]] = [
    *([command, 'plant.csv'] for command in ('targets', 'flow', 'curves', 'design', 'vertical', 'site')),
    ['audit', 'plant.csv', 'network.txt'], ['certify', 'plant.csv', 'report.txt'], ['sample', '1', '1'],
    ['prices', 'plant.csv', 'study.csv', '2'], ['sweep', 'plant.csv', '0', '100', '10', '2'],
]


def no_commands() -> Iterator[Worked]:
    """Each command with a word less and a word more, and with numbers that it has not."""
    files = {'plant.csv': TWO_LEVELS, 'network.txt': FOUR_NETWORK, 'report.txt': CUT, 'study.csv': STUDY}
    words = [command[:-1] for command in WHOLE] + [command + ['1'] for command in WHOLE]
    words += [[], ['Targets', 'plant.csv'], ['sample', '0', '1'], ['sample', '1', '13'],
              ['prices', 'plant.csv', 'study.csv', '0'], ['prices', 'plant.csv', 'study.csv', '17'],
              ['sweep', 'plant.csv', '0', '100', '10', '17'], ['sweep', 'plant.csv', '0', '1000', '1', '4'],
              ['sweep', 'plant.csv', '0', '100', '0', '4'], ['sweep', 'plant.csv', '101', '100', '10', '4']]
    for command in words:
        yield Worked(command, files, 2, TABLE.encode())


# What each file behind the first one is called in an answer.
ROLES = {'network.txt': 'network', 'report.txt': 'report', 'study.csv': 'study'}


def refused() -> Iterator[Worked]:
    """Each command with a first file that it refuses, and one that is not there; and the same of the second ones."""
    for words in WHOLE:
        if 'plant.csv' not in words:
            continue
        role = 'site' if words[0] == 'site' else 'case'
        yield Worked(words, {'plant.csv': text('hot,H')}, 3, text('%s row 1 FieldCount' % role))
        yield Worked(words, {}, 6, text('read fault ' + role))
        second = words[2] if words[2:] else ''
        if second in ROLES:
            yield Worked(words, {'plant.csv': FOUR}, 6, text('read fault ' + ROLES[second]))
    yield Worked(['vertical', 'plant.csv'], {'plant.csv': FORBIDDEN}, 3, text('case not standard'))
    for words, content, written in (
            (['audit', 'plant.csv', 'network.txt'], text('end'), 'network line 1 FieldCount'),
            (['certify', 'plant.csv', 'report.txt'], text('infeasible'), 'report line 2 Ended'),
            (['prices', 'plant.csv', 'study.csv', '2'], text('price,HOT,2,'), 'study row 1 NoScenario')):
        yield Worked(words, {'plant.csv': FOUR, words[2]: content}, 4, text(written))


def large() -> Iterator[Worked]:
    """Files as long as they may be, and one byte longer; and a text of half a million bytes."""
    for more in (0, 1):
        case = ONE_HOT + b'\n' * (LIMIT + more - len(ONE_HOT))
        written = (text('hot 0', 'cold 5000', 'pinch none'), text('too long case'))[more]
        yield Worked(['targets', 'plant.csv'], {'plant.csv': case}, (0, 5)[more], written)
    names = ['E%015d' % number for number in range(20000)]
    network = ['exchanger %s H COLD 1/4' % name for name in names]
    network += ['pass %s %s b%d' % ('b%d' % (number - 1) if number else 'H', name, number)
                for number, name in enumerate(names)]
    accepted = ['accepted', 'hot 0', 'cold 5000', 'excess 0', 'cost 0', 'floor 0', 'place 950']
    yield Worked(['audit', 'plant.csv', 'network.txt'],
                 {'plant.csv': ONE_HOT, 'network.txt': text(*network, 'end b19999')}, 0,
                 text(*accepted, *['penalty exchanger %s 0' % name for name in names]))


def all_worked() -> Iterator[Worked]:
    for rows in (answered, no_commands, refused, large):
        yield from rows()
