"""Texts that are anybody's (names of files, of scenarios, of units), as a terminal and a spreadsheet may have them."""
from __future__ import annotations

import re

# A new line, and the wide signs of a Chinese or Japanese keyboard, are taken for the beginning of a formula too.
FORMULA = re.compile("'*[-=+@\t\r\n＝＋－＠]")


def printable(text: str) -> str:
    """A text on one line, without what would steer a terminal."""
    return ''.join(character if character.isprintable() else '?' for character in text)


def plain(text: str) -> str:
    """A text of a file with separators that no spreadsheet takes for a formula: with an apostrophe before it where one
    would. A workbook has its texts as texts, whatever they begin with."""
    return "'" + text if FORMULA.match(text) else text


def read_again(text: str) -> str:
    """A text as it was before it was made plain."""
    return text[1:] if text.startswith("'") and FORMULA.match(text) else text
