"""The forms in which an answer may be had, which the name of its file says, or who asks for it."""
from __future__ import annotations

from collections.abc import Callable
from dataclasses import dataclass

from ..errors import WordsError
from ..report.sheet import FORMS

PICTURES = ('svg', 'png', 'pdf')
PAGES = ('html', 'htm', 'pdf')
# What is no form of a table, though a file of such a name has one.
NO_TABLES = ('pdf', 'html', 'htm', 'svg', 'png', 'docx', 'xls', 'ods')


@dataclass(frozen=True)
class Forms:
    """How a form is found by the name of a file and by the form that is asked for, of `choices`, either of which there
    may be none; `WordsError` where the name says another one."""

    of: Callable[[str | None, str | None], str]
    choices: tuple[str, ...] = ()


def ending_of(name: str | None) -> str:
    return name.rpartition('.')[2].lower() if name else ''


def table_form(name: str | None, asked: str | None) -> str:
    """The form of tables: the one that is asked for, else by the name, else text."""
    if asked:
        return asked
    ending = ending_of(name)
    if ending in NO_TABLES:
        raise WordsError(f'{name}: this answer is a text, .csv or .xlsx; `draw` makes pictures, and `page` a page')
    return ending if ending in ('csv', 'xlsx') else 'text'


def table_or_picture_form(name: str | None, asked: str | None) -> str:
    ending = ending_of(name)
    return ending if ending in PICTURES and not asked else table_form(name, asked)


def picture_form(name: str | None, _: str | None) -> str:
    ending = ending_of(name)
    if ending not in PICTURES:
        raise WordsError(f'{name}: a picture is a file .svg, .png or .pdf')
    return ending


def page_form(name: str | None, _: str | None) -> str:
    ending = ending_of(name)
    if ending not in PAGES:
        raise WordsError(f'{name}: a page is a file .html or .pdf')
    return ending


TABLE = Forms(table_form, FORMS)
TABLE_OR_PICTURE = Forms(table_or_picture_form, FORMS)
PICTURE = Forms(picture_form)
PAGE = Forms(page_form)
TEXT = Forms(lambda name, asked: 'text')
# A text, or the table that may be asked for in its place.
TEXT_OR_TABLE = Forms(lambda name, asked: ending_of(name) if ending_of(name) in ('csv', 'xlsx') else 'text')
