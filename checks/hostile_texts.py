"""Inputs that nobody means well with, for each reader of the desk: texts, workbooks, and what is not a plain file."""
from collections.abc import Iterator
import io
import os
import random
import zipfile

# A file has at most so many bytes; what is longer is refused by its size.
LONGEST = 8_388_608
LONGER = 10 * 2 ** 20
HUGE = ('9' * 200_000, '1e400', '-1e400', '1e99999999', '1e-99999999', '0.' + '0' * 100_000 + '1', 'NaN', 'Infinity',
        '-0', '9' * 400, '1' + '0' * 13, '1_000', '0x10', '\u0661\u0665\u0660', '1/0', '1e1e1', '(' * 100_000)
ENCODINGS = ('utf-16', 'utf-16-le', 'utf-16-be', 'utf-32', 'utf-7', 'cp037', 'latin-1', 'utf-8-sig', 'shift_jis')


def texts(good: bytes, number: bytes) -> Iterator[tuple[str, bytes]]:
    """Texts around a good one, in which a number stands."""
    yield from lengths(good)
    for text in HUGE:
        yield 'the number ' + text[:12], good.replace(number, text.encode(), 1)
    for encoding in ENCODINGS:
        yield 'in ' + encoding, good.decode().encode(encoding, 'replace')
    for name, sign in (('NUL', b'\0'), ('an escape', b'\x1b[2J'), ('no UTF-8', b'\xff\xfe\xfd'), ('CR', b'\r'),
                       ('half a surrogate', b'\xed\xa0\x80'), ('a form feed', b'\f'), ('a quote', b'"'),
                       ('marks', 'e\u0301\u202e\u2066'.encode()), ('U+2028', '\u2028'.encode())):
        yield name + ' in it', good.replace(number, number + sign, 1)
        yield name + ' alone', sign * 1000
        yield name + ' before', sign + good
    draw = random.Random(1)
    yield 'random bytes', draw.randbytes(100_000)
    for at in range(6):
        spoilt = bytearray(good)
        for _ in range(3):
            spoilt[draw.randrange(len(spoilt))] = draw.randrange(256)
        yield 'bytes changed %d' % at, bytes(spoilt)
        yield 'cut %d' % at, good[:draw.randrange(len(good))]


def lengths(good: bytes) -> Iterator[tuple[str, bytes]]:
    """Texts that are empty, or long in one way or another."""
    first = good.split(b'\n', 1)[0]
    yield 'empty', b''
    yield 'a line end', b'\n'
    yield 'a BOM', b'\xef\xbb\xbf'
    for name, piece in (('a', b'a'), ('line ends', b'\n'), ('commas', b','), ('semicolons', b';'), ('quotes', b'"'),
                        ('tabs', b'\t'), ('parentheses', b'('), ('digits', b'9'), ('zeros', b'\0'), ('#', b'#'),
                        ('spaces', b' '), ('the first line', first + b'\n'), ('the whole', good)):
        yield 'longer than a file: ' + name, piece * (LONGER // len(piece) + 1)
        yield 'long as a file: ' + name, (piece * (LONGEST // len(piece) + 1))[:LONGEST]
    yield 'an endless line behind it', good + b'x' * 4_000_000
    yield 'an open quote behind it', good + b'"' + b'x,\n' * 1_000_000
    yield 'many columns', good + b',' * 200_000 + b'\n'
    yield 'many rows', good + b',,,,,,\n' * 300_000


WORKBOOK = {
    '[Content_Types].xml': '<Types xmlns="http://schemas.openxmlformats.org/package/2006/content-types">'
    '<Default Extension="rels" ContentType="application/vnd.openxmlformats-package.relationships+xml"/>'
    '<Default Extension="xml" ContentType="application/xml"/><Override PartName="/xl/workbook.xml" '
    'ContentType="application/vnd.openxmlformats-officedocument.spreadsheetml.sheet.main+xml"/><Override '
    'PartName="/xl/worksheets/sheet1.xml" ContentType="application/vnd.openxmlformats-officedocument.spreadsheetml.'
    'worksheet+xml"/></Types>',
    '_rels/.rels': '<Relationships xmlns="http://schemas.openxmlformats.org/package/2006/relationships"><Relationship '
    'Id="r1" Type="http://schemas.openxmlformats.org/officeDocument/2006/relationships/officeDocument" '
    'Target="xl/workbook.xml"/></Relationships>',
    'xl/workbook.xml': '<workbook xmlns="http://schemas.openxmlformats.org/spreadsheetml/2006/main" xmlns:r='
    '"http://schemas.openxmlformats.org/officeDocument/2006/relationships"><sheets><sheet name="S" sheetId="1" '
    'r:id="r1"/></sheets></workbook>',
    'xl/_rels/workbook.xml.rels': '<Relationships xmlns="http://schemas.openxmlformats.org/package/2006/relationships">'
    '<Relationship Id="r1" Type="http://schemas.openxmlformats.org/officeDocument/2006/relationships/worksheet" '
    'Target="worksheets/sheet1.xml"/></Relationships>',
}
SHEET = 'xl/worksheets/sheet1.xml'
LAUGHS = '<?xml version="1.0"?><!DOCTYPE l [<!ENTITY a "%s">%s]>' % ('x' * 1000, ''.join(
    '<!ENTITY %s "%s">' % (name, ('&%s;' % before) * 10) for before, name in zip('abcdefgh', 'bcdefghi')))


def cell(row: int, column: str, text: str, place: bool = True) -> str:
    where = ' r="%s%d"' % (column, row) if place else ''
    return '<c%s t="inlineStr"><is><t>%s</t></is></c>' % (where, text)


def sheet(rows: list[list[str]], more: str = '', behind: str = '', head: str = '', place: bool = True) -> str:
    """A sheet with rows, further elements among them and behind them, and what stands before it."""
    row_elements = ''.join('<row%s>%s</row>' % (' r="%d"' % at if place else '', ''.join(
        cell(at, 'ABCDEFGHIJ'[column], text, place) for column, text in enumerate(row)))
        for at, row in enumerate(rows, 1))
    return (head + '<worksheet xmlns="http://schemas.openxmlformats.org/spreadsheetml/2006/main"><sheetData>'
            + row_elements + more + '</sheetData>' + behind + '</worksheet>')


def packed(content: str | bytes, **parts: str | bytes) -> bytes:
    """A workbook with this sheet; further parts stand in place of its own."""
    target = io.BytesIO()
    with zipfile.ZipFile(target, 'w', zipfile.ZIP_DEFLATED) as archive:
        for name, part in {**WORKBOOK, SHEET: content, **{key.replace('__', '/'): substitute for key, substitute in
                                                          parts.items()}}.items():
            archive.writestr(name, part)
    return target.getvalue()


def merged(*ranges: str) -> str:
    return '<mergeCells>' + ''.join('<mergeCell ref="%s"/>' % cells for cells in ranges) + '</mergeCells>'


def sheets(rows: list[list[str]]) -> Iterator[tuple[str, str]]:
    """Sheets around the rows of a good table."""
    far = '<row r="%d"><c r="%s%d" t="inlineStr"><is><t>x</t></is></c></row>'
    yield 'as it is', sheet(rows)
    yield 'no places', sheet(rows, place=False)
    for row, column in ((1_048_576, 'A'), (1_048_576, 'XFD'), (20_000, 'GR'), (10 ** 30, 'A'), (0, 'A'), (5, 'ZZZZZZ')):
        yield 'a cell at %s%d' % (column, row), sheet(rows, far % (row, column, row))
    for ranges in (['A10:XFD1048576'], ['F1:F1048576'], ['A10:GR20000'], ['A1:XFD1048576'], ['A1:A0'], ['B2'],
                   ['A%d:C%d' % (at, at) for at in range(10, 20_010)], ['A1:B99999999999999999999'], ['XFD1:A1']):
        yield 'merged %s, %d' % (ranges[0], len(ranges)), sheet(rows, behind=merged(*ranges))
    for value in ('1e400', '-1e400', 'NaN', 'INF', '1e5000', '9' * 100_000, '1e-400', ''):
        yield 'the value ' + value[:8], sheet(rows, '<row r="9"><c r="C9"><v>%s</v></c></row>' % value)
    yield 'a date far off', sheet(rows, '<row r="9"><c r="C9" t="d"><v>99999-01-01</v></c></row>')
    yield 'entities of entities', sheet(rows, '<row r="9">%s</row>' % cell(9, 'A', '&i;'), head=LAUGHS)
    yield 'an entity of a file', sheet(rows, '<row r="9">%s</row>' % cell(9, 'A', '&e;'), head='<?xml version="1.0"?>'
                                       '<!DOCTYPE x [<!ENTITY e SYSTEM "file:///dev/zero">]>')
    yield 'elements in elements', sheet(rows, '<a>' * 100_000 + '</a>' * 100_000)
    yield 'an element left open', sheet(rows, '<a>' * 100_000)
    yield 'many empty rows', sheet(rows, '<row/>' * 1_000_000)
    yield 'many empty cells', sheet(rows, '<row r="9">' + '<c/>' * 1_000_000 + '</row>')
    yield 'many cells', sheet(rows, ''.join('<row r="%d"><c r="A%d"><v>1</v></c></row>' % (at, at)
                                            for at in range(9, 300_000)))
    yield 'a cell again and again', sheet(rows, '<row r="9">' + '<c r="A9"><v>1</v></c>' * 200_000 + '</row>')
    yield 'a text of 5 MB', sheet(rows, '<row r="9">%s</row>' % cell(9, 'A', 'x' * 5_000_000))
    yield 'many columns', sheet(rows, behind='<cols><col min="1" max="99999999" hidden="1"/></cols>')
    yield 'attributes', sheet(rows, '<row %s/>' % ' '.join('a%d="1"' % at for at in range(100_000)))
    yield 'a shared text that is not there', sheet(rows, '<row r="9"><c r="A9" t="s"><v>99999999999</v></c></row>')
    yield 'a formula', sheet(rows, '<row r="9"><c r="A9"><f>%s</f><v>1</v></c></row>' % ('(' * 50_000))
    yield 'no xml', 'x' * 1000
    yield 'nothing', ''


def workbooks(rows: list[list[str]]) -> Iterator[tuple[str, bytes]]:
    """Workbooks around the rows of a good table."""
    for name, content in sheets(rows):
        yield name, packed(content)
    good = packed(sheet(rows))
    yield 'a gigabyte of zeros', packed(bytes(2 ** 30))
    yield 'a gigabyte of spaces in the texts', packed(sheet(rows), xl__sharedStrings_xml=b' ' * 2 ** 30)
    yield '40 MB of a comment', packed(sheet(rows, behind='<!--' + ' ' * 40 * 2 ** 20 + '-->'))
    yield 'longer than a file', packed(sheet(rows)) + bytes(LONGER)
    yield 'bytes before', bytes(1000) + good
    yield 'cut in half', good[:len(good) // 2]
    yield 'no directory', good[:-22]
    yield 'random bytes in it', good[:400] + random.Random(2).randbytes(300) + good[700:]
    yield 'of an older form', b'\xd0\xcf\x11\xe0\xa1\xb1\x1a\xe1' + bytes(5000)
    yield 'an empty zip', b'PK\x05\x06' + bytes(18)
    for name in WORKBOOK:
        yield 'without ' + name, packed(sheet(rows), **{name.replace('/', '__'): ''})
    yield 'entities in the styles', packed(sheet(rows), xl__workbook_xml=LAUGHS + '<workbook>&i;</workbook>')
    target = io.BytesIO()
    with zipfile.ZipFile(target, 'w') as archive:
        for at in range(60_000):
            archive.writestr('x%d' % at, b'')
    yield '60,000 parts', target.getvalue()


def no_files(folder: str) -> Iterator[tuple[str, str]]:
    """Paths of what is not a plain file."""
    os.mkdir(os.path.join(folder, 'folder'))
    os.mkfifo(os.path.join(folder, 'fifo'))
    os.symlink('loop', os.path.join(folder, 'loop'))
    with open(os.path.join(folder, 'hole'), 'wb') as handle:
        handle.truncate(2 ** 40)
    for name in ('folder', 'fifo', 'loop', 'hole', 'nowhere', 'x' * 300):
        yield name[:10], os.path.join(folder, name)
    for path in ('/dev/zero', '/dev/full', '/dev/null', '/proc/self/mem', '/'):
        yield path, path
