"""The parser of the command, made from what words declare."""
from __future__ import annotations

import argparse
from argparse import ArgumentParser, Namespace
from collections.abc import Callable, Sequence
from functools import partial
from typing import Any, NoReturn

from ..batch.arguments import add_in_many, add_options, add_role, by_flag, by_place
from ..errors import WordsError
from ..formats.amounts import whole
from ..report.sheet import FORMS
from ..version import __version__
from ..words.all_words import PLACES, all_words, word_on_top
from ..words.word import Word, WordGroup
from .standard_streams import put

Words = Sequence[Word[Any] | WordGroup]
# What is done with what was parsed of a word with these names.
Doing = Callable[[Word[Any], tuple[str, ...], Namespace], int]
MANY_LIST = 'examples/list.txt'
VERSION, LIVE = '--version', 'open'
MANY = WordGroup('many', 'one word over many cases: a table with the answer of each',
                 f'pinchdesk many audit {MANY_LIST} -o audits.xlsx', ())


class Parser(ArgumentParser):
    """A parser whose errors and whose help are told as any other ones."""

    def error(self, message: str) -> NoReturn:
        raise WordsError(f'{message} (`{self.prog} --help` shows how it is used)')

    def print_help(self, file: Any = None) -> None:
        put(self.format_help())


class Version(argparse.Action):
    """Prints the version, and ends."""

    def __call__(self, parser: ArgumentParser, *_: Any) -> None:
        put(f'pinchdesk {__version__}\n')
        parser.exit()


def parser(answered: Doing, done_over_many: Doing, arguments: Sequence[str]) -> ArgumentParser:
    """The parser of the command for these arguments, with what is done of a word, and of one over many cases."""
    top = Parser(prog='pinchdesk', description='From an engineer\'s spreadsheet to a page for the reviewer, around '
                                               'the proved program pinch.')
    top.add_argument(VERSION, action=Version, nargs=0, help='print the version, and end')
    first = arguments[0] if arguments else ''
    if first == VERSION:
        return top
    words = top.add_subparsers(dest='word', metavar='WORD', required=True)
    is_none = first not in (*PLACES, LIVE, MANY.name)
    if is_none or first in PLACES:
        add_words(words, asked_words(arguments), (), add_word, answered)
    if is_none or first == LIVE:
        add_live(words)
    if is_none or first == MANY.name:
        many = add_parser(words, MANY.name, MANY.summary, MANY.example)
        after = arguments[1:] if first == MANY.name else ()
        add_words(many.add_subparsers(dest='part', metavar='PART', required=True), asked_words(after), (),
                  add_word_of_many, done_over_many)
    return top


def add_live(words: Any) -> None:
    """Adds the live desk, which is loaded only where it may be asked for."""
    from .open_desk import EXAMPLE, SUMMARY, add_open
    add_open(add_parser(words, LIVE, SUMMARY, EXAMPLE))


def asked_words(arguments: Sequence[str]) -> Words:
    """The word with which arguments begin, alone, so that no other is loaded; all of them where that is none, since
    help and errors list them."""
    return (word_on_top(arguments[0]),) if arguments and arguments[0] in PLACES else all_words()


def add_parser(under: Any, name: str, summary: str, example: str) -> ArgumentParser:
    added: ArgumentParser = under.add_parser(name, help=summary, description=summary, epilog=f'example: {example}',
                                             formatter_class=argparse.RawDescriptionHelpFormatter)
    return added


def add_words(under: Any, words: Words, before: tuple[str, ...], add: Callable[..., ArgumentParser],
              doing: Doing) -> None:
    """Declares words, and those that follow a group."""
    for word in words:
        names = (*before, word.name)
        if isinstance(word, WordGroup):
            example = word.example if add is add_word else f'pinchdesk many {" ".join(names)} {MANY_LIST}'
            summary = word.summary if add is add_word else f'{word.summary}: for many cases'
            group = add_parser(under, word.name, summary, example)
            add_words(group.add_subparsers(dest='part', metavar='PART', required=True), word.parts, names, add, doing)
        else:
            add(under, word, names).set_defaults(doing=partial(doing, word, names))


def add_word(under: Any, word: Word[Any], _: tuple[str, ...]) -> ArgumentParser:
    """A word with its files, its options, its form and its outputs."""
    added = add_parser(under, word.name, word.summary, word.example)
    for role in word.roles:
        if not role.flag:
            add_role(added, role)
    add_options(added, by_place(word.declared))
    if word.forms.choices:
        added.add_argument('--form', choices=word.forms.choices,
                           help='the form of the answer; otherwise the ending of FILE decides')
    add_options(added, by_flag(word.declared))
    for role in word.roles:
        if role.flag:
            add_role(added, role)
    for output in word.further:
        added.add_argument(output.flag, dest=output.name, metavar='FOLDER' if output.folder else 'FILE',
                           help=output.help)
    added.add_argument('-o', '--output', metavar='FILE', required=word.to_file, help='where the answer is written')
    return added


def add_word_of_many(under: Any, word: Word[Any], names: tuple[str, ...]) -> ArgumentParser:
    """A word over many cases: where the cases are, its options, and who does it."""
    from ..batch.local import processors
    kept = ' --into FOLDER' if word.to_file else ''
    added = add_parser(under, word.name, f'{word.summary}: for many cases',
                       f'pinchdesk many {" ".join(names)} {MANY_LIST}{kept}')
    added.add_argument('place', metavar='FOLDER|LIST', help='a folder of files, or a list: text with separators or '
                       '.xlsx, a case a row, with its further files in further columns')
    add_in_many(added, word)
    if word.roles[0].name == 'case':
        added.add_argument('--scenarios', metavar='TABLE', help='a table of changes, as whatif takes it: each case is '
                           'taken as it is and in each scenario')
    added.add_argument('--form', choices=FORMS, help='the form of the table; otherwise the ending of FILE decides')
    added.add_argument('--processes', type=whole, default=processors(), metavar='N',
                       help='how many processes do it here')
    added.add_argument('--scheduler', metavar='ADDRESS', help='the workers of a scheduler of dask.distributed do it, '
                       'as tcp://host:8786; they need this desk and this program')
    added.add_argument('--into', metavar='FOLDER', required=word.to_file,
                       help='where the answer of each case is kept as a file of its own')
    added.add_argument('--ending', metavar='ENDING', help='the ending of these files, which decides their form')
    added.add_argument('-o', '--output', metavar='FILE', help='where the answer is written')
    return added
