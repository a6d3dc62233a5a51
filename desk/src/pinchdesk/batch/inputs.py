"""Many cases: a folder of them, or a list in a file, with the further files that a word wants for each.

A list is text with separators or a workbook, one case a row. Its columns go by their headings, which are `name` and
what the files of words are called (`case`, `network`, `study` ..); what this word does not take is passed over, so that
one list serves several words. Without headings the columns are the word's files in order."""
from __future__ import annotations

import os
import re
from collections.abc import Mapping, Sequence
from dataclasses import dataclass
from pathlib import Path

from ..errors import Refused, WordsError, of_file
from ..formats.plain_files import read_bytes
from ..tables.convert import is_case
from ..tables.headings import unknown_headings
from ..tables.spreadsheet import Table, TableRow, read_table
from ..words.word import Role, placed

NAME = 'name'
# What the files of a folder end with: of tables, and of all else.
ENDINGS = {'table': ('.csv', '.tsv', '.txt', '.xlsx', '.xlsm')}
CASES = ('.csv',)
# What a list may have for other words, or for a reader.
OTHERS = ('case', 'network', 'study', 'site', 'table', 'changes', 'start', 'note', 'notes')


@dataclass(frozen=True)
class Listed:
    """A row: its names in the table by their headings, and the paths of its files by their roles."""

    names: Mapping[str, str]
    paths: Mapping[str, tuple[str, ...]]

    @property
    def name(self) -> str:
        return next(iter(self.names.values()))


def listed(place: str, roles: Sequence[Role], common: Mapping[str, tuple[str, ...]]) -> tuple[Listed, ...]:
    """The rows of a folder or of a list, each with the files that are common to all. `Refused` where the list cannot
    be read, `WordsError` where a row has no file that the word wants."""
    rows = in_folder(place, roles, common) if os.path.isdir(place) else in_list(place, roles, common)
    if not rows:
        raise Refused(3, '', 'empty', 'there is no case in it', place)
    for row in rows:
        for role in roles:
            if role.needed and role.name not in row.paths:
                raise WordsError(f'{row.name} has no {role.name}: give the list a column `{role.name}`, put '
                                 f'{Path(row.name).stem}-{role.name}.txt beside it, or use --{role.option} FILE')
    return rows


def natural(name: str) -> list[tuple[bool, int, str]]:
    """Names in the order that a person expects: c2 before c10."""
    return [(part.isdecimal(), int(part) if part.isdecimal() else 0, part.lower())
            for part in re.split(r'(\d+)', name)]


def in_folder(place: str, roles: Sequence[Role], common: Mapping[str, tuple[str, ...]]) -> tuple[Listed, ...]:
    """The cases of a folder by their names; further files stand beside them, as `NAME-network.txt`."""
    first, *further = roles
    names = [name for name in os.listdir(place) if os.path.isfile(os.path.join(place, name)) and name[0] != '.']
    cases = [name for name in names if name.lower().endswith(ENDINGS.get(first.name, CASES))]
    stems = {Path(name).stem for name in cases}
    beside = {f'{stem}-{role.name}' for stem in stems for role in further}
    rows = []
    for name in sorted(cases, key=natural):
        if Path(name).stem in beside:
            continue
        paths: dict[str, tuple[str, ...]] = {first.name: (os.path.join(place, name),), **common}
        for role in further:
            found = [other for other in names if Path(other).stem == f'{Path(name).stem}-{role.name}']
            if len(found) > 1:
                raise WordsError(f'{name} has more than one {role.name} beside it: {", ".join(sorted(found))}')
            if found and role.name not in common:
                paths[role.name] = (os.path.join(place, found[0]),)
        rows.append(Listed({role.name: ', '.join(map(os.path.basename, paths[role.name])) for role in roles
                            if role.name in paths and role.name not in common}, paths))
    return tuple(rows)


def in_list(place: str, roles: Sequence[Role], common: Mapping[str, tuple[str, ...]]) -> tuple[Listed, ...]:
    """The rows of a list."""
    content = read_bytes(place)
    if is_case(content):
        raise Refused(3, '', 'a case', f'this is one {roles[0].name}, and a folder or a list of them is needed', place)
    with of_file(place):
        return rows_of(fitting(read_table(content, place), roles), roles, place, common)


def fitting(tables: Sequence[Table], roles: Sequence[Role]) -> Table:
    """Of the readings of a text the one that has the headings, else the one with as many columns as there are
    files."""
    check_headings(tables, roles)
    headed = [table for table in tables if head_of(table, roles)]
    readings = headed or [table for table in tables if width(table) <= len(roles) or placed(roles)[-1].several]
    widest = max(map(width, readings), default=0)
    readings = [table for table in readings if width(table) == widest]
    if len(readings) != 1:
        wanted = ', '.join(role.name for role in roles)
        raise Refused(3, '', 'columns', f'its columns are not clear: give it the headings {wanted} (and name)')
    return readings[0]


def width(table: Table) -> int:
    return max((column + 1 for row in table.rows if not remark(row) for column, _ in row.filled()), default=0)


def remark(row: TableRow) -> bool:
    return row.cell(0).text.startswith('#')


def known_headings(roles: Sequence[Role]) -> dict[str, str]:
    """The role that each heading stands for; nothing for what this word does not take."""
    known = dict.fromkeys(OTHERS, '') | {NAME: NAME}
    return known | {heading: role.name for role in roles for heading in (role.name, role.option)}


def headings(row: TableRow, roles: Sequence[Role]) -> dict[int, str]:
    """What the columns are, where this is a row of headings."""
    known = known_headings(roles)
    cells = [(column, cell.text.lower().lstrip('# ')) for column, cell in row.filled()]
    return {column: known[text] for column, text in cells} if all(text in known for _, text in cells) else {}


def check_headings(tables: Sequence[Table], roles: Sequence[Role]) -> None:
    """`Refused` where the first row has two headings at least, and some that are not known."""
    known = known_headings(roles)
    for table in tables:
        for row in table.rows[:1]:
            cells = [(column, cell.text) for column, cell in row.filled()]
            strange = [(column, text) for column, text in cells if text.lower().lstrip('# ') not in known]
            if strange and len(cells) - len(strange) > 1:
                raise unknown_headings(table, row, strange, ', '.join(known))


def head_of(table: Table, roles: Sequence[Role]) -> TableRow | None:
    """The row of headings: the first row, or one that remarks alone stand above."""
    for row in table.rows:
        if headings(row, roles):
            return row
        if not remark(row):
            break
    return None


def rows_of(table: Table, roles: Sequence[Role], place: str,
            common: Mapping[str, tuple[str, ...]]) -> tuple[Listed, ...]:
    head, in_places = head_of(table, roles), placed(roles)
    body = [row for row in table.rows if row is not head and not remark(row)]
    columns = headings(head, roles) if head else {column: in_places[min(column, len(in_places) - 1)].name
                                                  for column in range(width(table))}
    check_remarks(table, head, columns, place)
    if body and roles[0].name not in columns.values():
        raise Refused(3, '', 'columns', f'it has no column `{roles[0].name}`')
    return tuple(row_of(table, row, columns, roles, place, common) for row in body)


def check_remarks(table: Table, head: TableRow | None, columns: Mapping[int, str], place: str) -> None:
    """`Refused` where a row that begins with `#` may be a remark, or a row whose file or name begins so."""
    for row in table.rows:
        if row is head or not remark(row):
            continue
        texts = [cell.text for _, cell in row.filled()]
        named = columns.get(0) == NAME and texts[0][1:2].strip()
        for text in texts if named else texts[:1]:
            if os.path.isfile(text) or os.path.isfile(os.path.join(os.path.dirname(place), text)):
                raise table.refusal(row.number, 0, f'`{texts[0]}` may be a remark, or a row with the file {text}: take '
                                    'it out, or write ./ before the file')


def row_of(table: Table, row: TableRow, columns: Mapping[int, str], roles: Sequence[Role], place: str,
           common: Mapping[str, tuple[str, ...]]) -> Listed:
    names: dict[str, str] = {}
    paths: dict[str, tuple[str, ...]] = {}
    for column, cell in row.filled():
        if column not in columns or cell.fault and columns[column]:
            raise table.refusal(row.number, column, cell.fault or 'a cell under no heading')
        role = columns[column]
        if not role:
            continue
        names[role] = f'{names[role]}, {cell.text}' if role in names else cell.text
        if role != NAME:
            paths[role] = (*paths.get(role, ()), seen(cell.text, place))
    if roles[0].name not in paths:
        raise table.refusal(row.number, None, f'there is no {roles[0].name}')
    return Listed(names, {**common, **paths})


def seen(path: str, place: str) -> str:
    """A path of a list, as seen from the list's folder or from here; `Refused` where these are two files."""
    there = os.path.join(os.path.dirname(place), path)
    if os.path.exists(path) and os.path.exists(there) and not os.path.samefile(path, there):
        raise Refused(3, '', 'ambiguous', f'{path} is there twice, seen from here and from the list: give the '
                      'whole path', place)
    return there if os.path.exists(there) else path
