"""What words declare, as arguments of `argparse`: for the command, and for a word over many cases."""
from __future__ import annotations

from argparse import ArgumentParser, Namespace
from collections.abc import Iterable, Mapping, Sequence
from dataclasses import dataclass
from typing import Any, NoReturn

from ..errors import WordsError
from ..words.word import Option, Role, Word

Paths = Mapping[str, tuple[str, ...]]


def add_role(parser: ArgumentParser, role: Role) -> None:
    """The files of a role, by their place or by a flag."""
    if role.flag:
        parser.add_argument(role.flag, dest=role.option, metavar=role.metavar, help=role.help, required=role.needed)
        return
    number: dict[str, Any] = {'nargs': '+' if role.needed else '*'} if role.several else \
        {} if role.needed else {'nargs': '?'}
    parser.add_argument(role.option, metavar=role.name.upper(), help=role.help, **number)


def add_common_role(parser: ArgumentParser, role: Role) -> None:
    """The files of a role that many cases may share."""
    flag, metavar = role.flag or f'--{role.option}', role.metavar or 'FILE'
    told = role.help if role.flag else f'the {role.name} of all cases; else each has its own'
    number: dict[str, Any] = {'nargs': '+'} if role.several else {}
    parser.add_argument(flag, dest=role.option, metavar=metavar, help=told, **number)


def add_options(parser: ArgumentParser, options: Iterable[Option], in_many: bool = False) -> None:
    """Options, with flags or by their places; those that exclude one another are a group."""
    groups: dict[str, Any] = {}
    for option in options:
        place: Any = parser
        if option.one_of:
            place = groups[option.one_of] = groups.get(option.one_of) or parser.add_mutually_exclusive_group()
        if option.switch:
            place.add_argument(*option.flags, dest=option.name, help=option.help, action='store_true')
            continue
        how: dict[str, Any] = {'help': option.help, 'type': option.reads, 'metavar': option.metavar or None}
        if option.choices:
            how['choices'] = option.choices
        if option.flags:
            how['dest'] = option.name
            how['default'] = option.in_many if in_many and option.in_many is not None else option.default
        place.add_argument(*(option.flags or (option.name,)), **how)


def by_place(options: Iterable[Option]) -> list[Option]:
    return [option for option in options if not option.flags]


def by_flag(options: Iterable[Option]) -> list[Option]:
    return [option for option in options if option.flags]


def add_in_many(parser: ArgumentParser, word: Word[Any]) -> None:
    """What a word takes where it is done over many cases: its options, and the files that all cases share."""
    add_options(parser, by_place(word.declared), in_many=True)
    further = word.roles[1:]
    for role in further:
        if not role.flag:
            add_common_role(parser, role)
    add_options(parser, by_flag(word.declared), in_many=True)
    for role in further:
        if role.flag:
            add_common_role(parser, role)


def options_of(word: Word[Any], parsed: Namespace) -> Any:
    """The options of a word, as they were parsed."""
    return word.options(**{option.name: getattr(parsed, option.name) for option in word.declared})


def paths_of(roles: Iterable[Role], parsed: Namespace) -> Paths:
    """The paths of the files of these roles that were given."""
    paths: dict[str, tuple[str, ...]] = {}
    for role in roles:
        told = getattr(parsed, role.option)
        if told is not None and told != []:
            paths[role.name] = (told,) if isinstance(told, str) else tuple(told)
    return paths


@dataclass(frozen=True)
class Taken:
    """The options of a word over many cases, and the paths of the files that all of them share."""

    options: Any
    common: Paths


class CallParser(ArgumentParser):
    """A parser of a call of the package."""

    def error(self, message: str) -> NoReturn:
        raise WordsError(f'{self.prog}: {message}')


def taken_of(word: Word[Any], words: Sequence[str]) -> Taken:
    """What the words of a call say to a word of the desk."""
    parser = CallParser(prog=word.name, add_help=False)
    add_in_many(parser, word)
    parsed = parser.parse_args(list(words))
    return Taken(options_of(word, parsed), paths_of(word.roles[1:], parsed))
