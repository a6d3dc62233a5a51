"""Programs that stand before the built one and lie: each runs it, as a child, and prints what it answered but for one
lie. The first one tells the truth."""
from __future__ import annotations
import os
import struct
import sys
from typing import NamedTuple

from traced import ASKING, symbols_in

COMMANDS = ('targets', 'flow', 'curves', 'design', 'vertical', 'audit', 'site', 'sweep', 'sample', 'certify', 'prices')

# What is the same in all liars; `lie` stands between. It starts without the site's packages, since it starts often.
HEAD = '''#!%s -IS
import os, signal, sys

PROGRAM = %r


def digit(text):
    """Another digit in the middle."""
    places = [at for at, byte in enumerate(text) if 48 <= byte <= 57]
    at = places[len(places) // 2] if places else len(text)
    return text[:at] + b'%%d' %% ((text[at] - 47) %% 10) + text[at + 1:] if places else text


def more(text, word):
    """One more at the end of the last line that begins with this word."""
    lines = text.split(b'\\n')
    at = max([at for at, line in enumerate(lines) if line.startswith(word + b' ')], default=None)
    if at is not None:
        front, number = lines[at].rsplit(b' ', 1)
        lines[at] = front + b' %%d' %% (int(number) + 1)
    return b'\\n'.join(lines)


def met(text, by):
    """The first meeting of two segments so many prices later."""
    lines = [line.split(b' ') for line in text.split(b'\\n')]
    for one, other in zip(lines, lines[1:]):
        if one[0] == other[0] == b'span' and len(one) == len(other) == 6 and int(one[3]) + 1 == int(other[2]):
            one[3], other[2] = [b'%%d' %% (int(each) + by) for each in (one[3], other[2])]
            break
    return b'\\n'.join(b' '.join(line) for line in lines)


def lie(words, status, text):
    %s
    return status, text


'''
TAIL = '''def answer(words):
    for number in range(3):
        try:
            os.fstat(number)
        except OSError:
            os.open('/dev/null', os.O_RDONLY)
    begin, end = os.pipe()
    try:
        child = os.posix_spawn(PROGRAM, [PROGRAM] + words, os.environ, file_actions=[(os.POSIX_SPAWN_DUP2, end, 1)],
                               setsigdef=[signal.SIGPIPE, signal.SIGXFSZ])
    except OSError:
        os._exit(8)
    os.close(end)
    pieces = []
    while not pieces or pieces[-1]:
        pieces.append(os.read(begin, 1 << 20))
    return os.waitstatus_to_exitcode(os.waitpid(child, 0)[1]), b''.join(pieces)


def main():
    words = sys.argv[1:]
    status, text = lie(words, *answer(words))
    signal.signal(signal.SIGXFSZ, signal.SIG_DFL)
    while text:
        try:
            text = text[os.write(1, text):]
        except OSError:
            os._exit(lie(words, 7, b'')[0])
    if status < 0:
        signal.signal(-status, signal.SIG_DFL)
        os.kill(os.getpid(), -status)
    os._exit(status)


main()
'''


class Lie(NamedTuple):
    """Its name, its lines in place of what the program answered, and of which commands it is told, or None of all;
    whether each check has to notice it, or which ones have to beside one over random inputs."""
    name: str
    lines: str
    of: tuple[str, ...] | None = None
    for_all: bool = False
    by: tuple[str, ...] = ()

    def body(self) -> str:
        return 'if words[:1] and words[0] in %r:\n        %s' % (self.of, self.lines) if self.of else self.lines


TRUTH = Lie('the truth, with reads made by a child', 'pass')
# Which checks have to notice another digit in the middle of what a command prints.
BY = {'prices': ('random-prices', 'large-files'), 'sweep': ('random-latent', 'random-floors'),
      'site': ('random-sites',), 'vertical': ('random-vertical',), 'sample': ('random-vertical',),
      'design': ('random-latent', 'random-reports', 'random-floors', 'same-designs'),
      'flow': ('random-latent', 'random-reports', 'random-floors'), 'certify': ('random-reports',)}
LIES = [
    Lie('another digit in the middle', 'text = digit(text)'),
    Lie('the last line lost', "text = text[:text[:-1].rfind(b'\\n') + 1]"),
    Lie('status always 0', 'status = 0'),
    Lie('status always 8, no text', "status, text = 8, b''", for_all=True),
    Lie('text on standard error too', "os.write(2, b'a word\\n')", for_all=True),
    Lie('a segfault, behind the text', 'status = -11', for_all=True),
    Lie('a segfault, no text', "status, text = -11, b''", for_all=True),
] + [Lie('a digit of ' + command, 'text = digit(text)', (command,), by=BY.get(command, ()))
     for command in COMMANDS] + [
    Lie('status 8 of design, no text', "status, text = 8, b''", ('design',),
        by=('random-latent', 'random-reports', 'random-floors', 'same-designs')),
    Lie('boiler one more', "text = more(text, b'boiler')", ('site',)),
    Lie('a move of site changed', "text = more(text, b'move')", ('site',)),
    Lie('all moves of site dropped', "text = b''.join(line for line in text.splitlines(True) if line[:5] != b'move ')",
        ('site',)),
    Lie('the last price of site changed', "text = more(text, b'take')", ('site',)),
    Lie('a move of flow changed', "text = more(text, b'move')", ('flow',)),
    Lie('the last price of flow changed', "text = more(text, b'take')", ('flow',)),
    Lie('the offer of a cut one more', "text = more(text, b'cut')", ('flow', 'design', 'site')),
    Lie('the floor of audit one more', "text = more(text, b'floor')", ('audit',)),
    Lie('the last penalty dropped', "text = text[:text[:-1].rfind(b'\\n') + 1] if b'penalty' in text else text",
        ('audit',)),
    Lie('certify always yes', "status, text = (0, b'yes cost 0\\n') if text[:3] == b'no ' else (status, text)",
        ('certify',)),
    Lie('the last segment of prices changed', "text = more(text, b'span')", ('prices',)),
    Lie('a segment of prices one price too long', 'text = met(text, 1)', ('prices',)),
    Lie('a segment of prices one price too short', 'text = met(text, -1)', ('prices',)),
    Lie('another price by several workers', "text = digit(text) if words[-1] != '1' else text", ('prices',),
        by=('random-prices',)),
    Lie('another row by several workers', "text = digit(text) if words[-1] != '1' else text", ('sweep',),
        by=('random-latent', 'random-floors')),
]


def make_liar(folder: str, program: str, number: int, lie: Lie) -> str:
    """The path of a liar in this folder."""
    path = os.path.join(folder, 'liar%d' % number)
    with open(path, 'w', encoding='utf-8') as handle:
        handle.write(HEAD % (sys.executable, program, lie.body()) + TAIL)
    os.chmod(path, 0o755)
    return path


def make_silent(folder: str, program: str) -> str:
    """A copy of the program whose functions that ask for memory are not found where they are: their symbols name its
    first instruction."""
    with open(program, 'rb') as handle:
        image = bytearray(handle.read())
    first = {name: value for name, value, _ in symbols_in(bytes(image), ('_start',))}['_start']
    for _, _, entry in list(symbols_in(bytes(image), ASKING)):
        struct.pack_into('<Q', image, entry + 8, first)
    path = os.path.join(folder, 'silent')
    with open(path, 'wb') as handle:
        handle.write(image)
    os.chmod(path, 0o755)
    return path
