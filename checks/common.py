"""What the scripts of this folder share: the files, the commands with their answers, and one plain run of a program."""
from collections.abc import Iterator
from contextlib import contextmanager
import os
import re
import subprocess
import sys
import time
import traceback
from typing import Any

from patience import MOST, written

HERE = os.path.dirname(os.path.abspath(__file__))
ROOT = os.path.dirname(HERE)

# What the environment tells a check: to end with its first run that is wrong, and when its time is over, in seconds of
# the system's monotonic clock.
FIRST_WRONG, UNTIL = 'PINCH_FIRST_WRONG', 'PINCH_UNTIL'
# A program that `rt try` built has the address sanitizer in it: refused memory is to reach the program, and no leak is
# looked for. Any other program takes no notice.
ENVIRONMENT = dict(os.environ, ASAN_OPTIONS='allocator_may_return_null=1:detect_leaks=0')

TABLE = 'words: targets flow curves design vertical audit site sweep sample certify prices\n'


# The status of a run and its text. The status is the number that the run ended with, negative where a signal ended it;
# or, as a text, that number with what was never to be there, so that it is no status of any answer.
Answer = tuple[int | str, bytes]
# What the address sanitizer says of memory that it refuses.
SANITIZER = re.compile(rb'(?:==\d+==)?(?:WARNING: AddressSanitizer failed|ERROR: AddressSanitizer: requested)')


def example(name: str) -> bytes:
    with open(os.path.join(ROOT, 'examples', name), 'rb') as handle:
        return handle.read()


def text(*rows: str) -> bytes:
    return ''.join(row + '\n' for row in rows).encode()


FOUR = example('four-stream.csv')
FOUR_NETWORK = example('four-stream-network.txt')
OWN = example('own-contributions.csv')
OWN_NETWORK = example('own-contributions-network.txt')
COLUMN = example('column.csv')
COLUMN_NETWORK = example('column-network.txt')
EVAPORATING = text('contribution,,50,,,,', 'hot,H,1500,700,10,,', 'cold,B,900,900,0,8000,')
EVAPORATING_FLOW = text('cost 3000', 'use HOT 3000', 'use COLD 3000', 'move HOT 1450 1450 B 950 950 3000',
                        'move H 1450 950 B 950 950 5000', 'move H 950 650 COLD 650 650 3000',
                        'give HOT 1450 1450 1', 'give H 1450 950 1', 'give H 950 650 0', 'take B 950 950 1',
                        'take COLD 650 650 0')
FORBIDDEN = text('contribution,,50,,,,', 'hot,H,1000,500,10,,', 'cold,C,300,700,10,,', 'forbid,H,C,,,,')
THREE = text('contribution,,50,,,,', 'hot,H,1000,500,10,,', 'cold,C,300,500,5,,', 'cold,D,300,500,10,,')
SMALL = text('contribution,,50,,,,', 'hot,H,1000,500,2,,')
TWO_PLANTS = text('contribution,,50,,,,', 'main,MP,1500,,,,', 'plant,A,,,,,', 'hot,H,2000,1000,10,,', 'plant,B,,,,,',
                  'cold,C,500,1300,10,,')
LOW_MAIN = text('contribution,,50,,,,', 'main,MP,1350,,,,', 'plant,B,,,,,', 'cold,C,500,1300,10,,')
SPLIT_NETWORK = text('exchanger Q1 H COLD 4000', 'exchanger Q2 H COLD 1000', 'split H a 8 b', 'pass a Q1 c',
                     'pass b Q2 d',
                     'mix c d e', 'end e')
# 50 W more at E2, taken from Q1 and Q2: an approach is kept no longer.
TOO_COLD = FOUR_NETWORK.replace(b'E2 H4 C1 90000', b'E2 H4 C1 90050').replace(b'C1 20000',
                                                                              b'C1 19950').replace(b'COLD 60000',
                                                                                                   b'COLD 59950')
ONE_HOT = text('contribution,,50,,,,', 'hot,H,1000,500,10,,')
# HOT as completion gives it for one hot stream, and the same with a contribution of its own.
GIVEN_HOT = ONE_HOT + text('heater,HOT,1000,0,1000000000000,1,50')
OTHER_HOT = ONE_HOT + text('heater,HOT,1050,0,1000000000000,1,100')

# A command: its words, its files by name, the role of each file in the order in which it is read, the status, and how
# its text begins. The first four are the ones that matter most.
Command = tuple[list[str], dict[str, bytes], list[str], int, str]
COMMANDS: list[Command] = [
    (['flow', 'case'], {'case': example('two-steam-levels.csv')}, ['case'], 0, 'cost 57000\nuse HP 18500\n'),
    (['audit', 'case', 'net'], {'case': FOUR, 'net': FOUR_NETWORK}, ['case', 'network'], 0, 'accepted\nhot 20000\n'),
    (['vertical', 'case'], {'case': THREE}, ['case'], 0, '# hot 0 cold 2000 excess 0 cost 0\n'),
    (['sweep', 'case', '0', '100', '10', '2'], {'case': FOUR}, ['case'], 0, 'row 0 0 40000 0\n'),
    (['targets', 'case'], {'case': FOUR}, ['case'], 0, 'hot 20000\ncold 60000\npinch 850\n'),
    (['flow', 'case'], {'case': FOUR}, ['case'], 0, 'cost 20000\nuse HOT 20000\n'),
    (['flow', 'case'], {'case': FORBIDDEN}, ['case'], 0, 'cost 4000\nuse HOT 4000\n'),
    (['flow', 'case'], {'case': example('too-little-cooling.csv')}, ['case'], 1, 'infeasible\ncut supply 5000 2000\n'),
    (['curves', 'case'], {'case': FOUR}, ['case'], 0, 'hot 0 300\n'),
    (['design', 'case'], {'case': FOUR}, ['case'], 0, '# hot 20000 cold 60000 excess 0 cost 20000\n'),
    (['design', 'case'], {'case': FORBIDDEN}, ['case'], 0, '# hot 4000 cold 5000 excess 4000 cost 4000\n'),
    (['design', 'case'], {'case': example('too-little-cooling.csv')}, ['case'], 1, 'infeasible\n'),
    (['vertical', 'case'], {'case': FORBIDDEN}, ['case'], 3, 'case not standard\n'),
    (['audit', 'case', 'net'], {'case': example('preheater.csv'), 'net': example('preheater-network.txt')},
     ['case', 'network'], 0, 'accepted\nhot 3500\n'),
    (['audit', 'case', 'net'], {'case': FOUR, 'net': TOO_COLD},
     ['case', 'network'], 1, 'rejected exchanger E2 ColdEndApproach found 2699/3 wanted 900\n'),
    (['audit', 'case', 'net'],
     {'case': SMALL, 'net': text('exchanger E1 H COLD 1/281474976710655', 'pass H E1 a', 'end a')}, ['case', 'network'],
     9,
     'too fine line 2 step 1\n'),
    (['audit', 'case', 'net'], {'case': FOUR, 'net': text('end')}, ['case', 'network'], 4,
     'network line 1 FieldCount\n'),
    (['audit', 'case', 'net'], {'case': OWN, 'net': OWN_NETWORK}, ['case', 'network'], 0, 'accepted\nhot 93750\n'),
    (['design', 'case'], {'case': OWN}, ['case'], 0, '# hot 93750 cold 28750 excess 0 cost 93750\n'),
    (['flow', 'case'], {'case': COLUMN}, ['case'], 0, 'cost 2282000\nuse HOT 2282000\n'),
    (['curves', 'case'], {'case': EVAPORATING}, ['case'], 0, 'hot 0 700\n'),
    (['design', 'case'], {'case': EVAPORATING}, ['case'], 0, '# hot 3000 cold 3000 excess 0 cost 3000\n'),
    (['vertical', 'case'], {'case': EVAPORATING}, ['case'], 3, 'case has latent streams\n'),
    (['audit', 'case', 'net'], {'case': COLUMN, 'net': COLUMN_NETWORK}, ['case', 'network'], 0, 'accepted\n'),
    (['audit', 'case', 'net'], {'case': EVAPORATING, 'net': text('exchanger E1 HOT B 8800', 'pass B E1 a', 'end a')},
     ['case', 'network'], 1,
     'rejected line 2 Overdrawn found 11/10 wanted 1\n'),
    (['certify', 'case', 'report'], {'case': EVAPORATING, 'report': EVAPORATING_FLOW}, ['case', 'report'], 0,
     'yes cost 3000\n'),
    (['certify', 'case', 'report'], {'case': FOUR, 'report': EVAPORATING_FLOW}, ['case', 'report'], 1, 'no Parts\n'),
    (['certify', 'case', 'report'], {'case': example('too-little-cooling.csv'),
                                     'report': text('infeasible', 'cut supply 5000 2000', 'part H 950 450')},
     ['case', 'report'], 0, 'yes infeasible\n'),
    (['certify', 'case', 'report'], {'case': FOUR, 'report': text('infeasible')}, ['case', 'report'], 4,
     'report line 2 Ended\n'),
    (['prices', 'case', 'study', '2'], {'case': example('two-steam-levels.csv'), 'study': example('steam-prices.csv')},
     ['case', 'study'], 0,
     'scenario Today 57000\nscenario Winter 95500\nspan LP 0 3 55500 1500\n'),
    (['prices', 'case', 'study', '1'], {'case': example('too-little-cooling.csv'),
                                        'study': text('scenario,S,,', 'span,CW,0,3')}, ['case', 'study'], 0,
     'scenario S infeasible\nspan CW infeasible\n'),
    (['prices', 'case', 'study', '2'], {'case': FOUR, 'study': text('price,HOT,2,')}, ['case', 'study'], 4,
     'study row 1 NoScenario\n'),
    (['site', 'site'], {'site': example('three-plants.csv')}, ['site'], 0, 'profile 2550 0 120000\n'),
    (['site', 'site'], {'site': LOW_MAIN}, ['site'], 1, 'profile 1400 0 0\n'),
    (['sweep', 'case', '50', '50', '1', '2'], {'case': example('too-little-cooling.csv')}, ['case'], 0,
     'row 50 0 4000 infeasible\n'),
    (['sweep', 'case', '0', '100', '50', '2'], {'case': example('two-steam-levels.csv')}, ['case'], 0, 'row 0 '),
    (['sample', '1', '1'], {}, [], 0, 'hot 25163\ncold 0\ncost 117663\n'),
    (['sample', '7', '3'], {}, [], 0, 'hot '),
    (['targets', 'case'], {'case': text('hot,H')}, ['case'], 3, 'case row 1 FieldCount\n'),
    (['site', 'site'], {'site': text('plant,A,,,,,')}, ['site'], 3, 'site row 2 NoContribution\n'),
    (['targets'], {}, [], 2, TABLE),
]


def program_of(arguments: list[str], usage: str | None) -> str:
    """The path of the program, which is the first argument of each script."""
    if not arguments or arguments[0].startswith('-') or not os.access(arguments[0], os.X_OK):
        sys.exit(usage)
    return os.path.abspath(arguments[0])


def count_and_seed(arguments: list[str], count: int) -> tuple[int, int]:
    """How many cases are asked for, `count` unless it is given, and the seed, 1 unless it is given."""
    numbers = [int(word) for word in arguments]
    return numbers[0] if numbers else count, numbers[1] if numbers[1:] else 1


def lay_out(folder: str, files: dict[str, bytes]) -> None:
    for name, content in files.items():
        with open(os.path.join(folder, name), 'wb') as handle:
            handle.write(content)


def run(program: str, words: list[str] | list[bytes], folder: str, most: float = MOST, **how: Any) -> Answer:
    """A run in the folder. It writes nothing to standard error: what stands there goes to the status."""
    with subprocess.Popen([program, *words], cwd=folder, env=ENVIRONMENT, stdin=subprocess.DEVNULL,
                          stdout=subprocess.PIPE, stderr=subprocess.PIPE, **how) as process:
        output, error, late = written(process, most)
    return 'none: ' + late if late else status_with(process.returncode, error), output


def status_with(status: int, error: bytes) -> int | str:
    """The status, and what stands on standard error where that is not empty."""
    error = b''.join(line for line in error.splitlines(True) if not SANITIZER.match(line))
    return '%d, and %r on standard error' % (status, error[:120]) if error else status


class Report:
    """Counts runs, and tells each one that was not as it should be. Where the environment has FIRST_WRONG, the first
    such run ends the check; where it has UNTIL, so does the first run behind that time."""

    def __init__(self) -> None:
        self.runs = 0
        self.wrong = 0
        self.first_ends = FIRST_WRONG in os.environ
        self.until = float(os.environ.get(UNTIL, 'inf'))

    def count(self, right: bool, what: str, got: tuple[object, bytes | str], wanted: object) -> None:
        self.runs += 1
        if not right:
            self.wrong += 1
            print('WRONG %s\n  got    %s\n  wanted %s' % (what, shown(got), wanted))
            sys.stdout.flush()
        if not right and self.first_ends or time.monotonic() > self.until:
            self.end()

    @contextmanager
    def reading(self, what: str) -> Iterator[None]:
        """What is done inside takes answers apart. An answer that cannot be taken apart is wrong, and the check goes
        on."""
        try:
            yield
        except Exception as fault:  # A false answer may do anything to its reader.
            place = traceback.extract_tb(fault.__traceback__)[-1]
            where = '%s, line %s' % (os.path.basename(place.filename), place.lineno)
            self.count(False, what, (repr(fault), where), 'an answer that can be taken apart')

    def end(self) -> None:
        print('%d runs, %d wrong' % (self.runs, self.wrong))
        sys.exit(1 if self.wrong or not self.runs else 0)


def shown(answer: tuple[object, bytes | str]) -> str:
    status, written = answer
    return 'status %s, %d bytes: %r' % (status, len(written), written[:120])
