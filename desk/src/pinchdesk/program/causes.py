"""The causes of refusals in words (docs/FORMATS.md has an example of each), and the lines that an error has."""
from __future__ import annotations

from ..errors import DeskError, Refused

CAUSES = {
    'FieldCount': 'too many or too few fields, or a field that has to be empty is not; to make a case from a table use '
                  '`pinchdesk case`',
    'UnknownKind': 'the first field is not a kind of row; to make a case from a table use `pinchdesk case`',
    'UnknownWord': 'no statement begins with this word',
    'TooMany': 'there are more of these than the limit (docs/FORMATS.md, Limits); a segment counts as a stream',
    'Repeated': 'this was given above already',
    'BadName': 'a name has 1 to 16 letters, digits, _ and -, and begins with a letter or a digit; HOT and COLD are '
               'names of utilities',
    'SameName': 'the name is used above already',
    'UnknownName': 'nothing above has this name',
    'BadNumber': 'a field that has to be a number is not one',
    'OutOfRange': 'a number is outside its limits (docs/FORMATS.md, Limits)',
    'NotLatent': 'with a load the target has to be the supply, and the CP 0',
    'NoLoad': 'supply and target are equal, and there is no load',
    'WrongWay': 'a hot stream has to cool down, and a cold one to warm up',
    'BadRange': 'the first number is above the second',
    'NoContribution': 'there is no contribution',
    'NoStream': 'there is no stream',
    'NoPlant': 'there is no plant above the stream',
    'NoMain': 'there is no main',
    'WrongSide': 'the first source has to be hot, and the second cold',
    'UnknownBranch': 'no statement above makes this branch',
    'SpentBranch': 'the branch is used above already',
    'WrongPass': "the branch's stream is not a side of the exchanger, or has passed it before",
    'OtherStream': 'two branches of different streams',
    'NotPositive': 'a duty and a size have to be above 0',
    'MissingPass': 'a stream of the exchanger never passes it',
    'NoScenario': 'there is no scenario above the price',
    'TooWide': 'a span has at most 100,000 prices',
    'NoItem': 'there is no scenario and no span',
}

LONGEST = 1000


def lines_of(fault: DeskError) -> list[str]:
    """What an error says; a refusal may have a line for each fault of its file."""
    if not isinstance(fault, Refused):
        return [cut(str(fault))]
    words = f': {CAUSES[fault.cause]}' if fault.cause in CAUSES and fault.text.endswith(fault.cause) else ''
    return [(f'{fault.file}: ' if fault.file else '') + cut(line) + words for line in fault.text.split('\n')]


def cut(line: str) -> str:
    """A line that can be read: a cell that it quotes may be as long as a book."""
    return line if len(line) <= LONGEST else f'{line[:LONGEST - 300]} .. {line[-300:]}'
