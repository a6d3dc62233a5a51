"""Workbooks that unfold to more than a table has are refused by their size, in a moment and in little memory."""
from __future__ import annotations

import io
import time
import zipfile

import pytest
from tabled import refusal, workbook

ROWS: list[list[object]] = [['Stream', 'Supply (°C)', 'Target (°C)', 'CP (kW/K)'], ['H1', 150, 60, 2],
                            ['C1', 20, 125, 2.5]]
SHEET = 'xl/worksheets/sheet1.xml'


def patched(old: str, new: str) -> bytes:
    """The workbook of the rows with a text of its sheet in place of another."""
    made = io.BytesIO()
    unpatched_archive = zipfile.ZipFile(io.BytesIO(workbook(ROWS)))
    with zipfile.ZipFile(made, 'w', zipfile.ZIP_DEFLATED) as archive:
        for part in unpatched_archive.infolist():
            text = unpatched_archive.read(part.filename)
            if part.filename == SHEET:
                assert old.encode() in text
                text = text.replace(old.encode(), new.encode(), 1)
            archive.writestr(part.filename, text)
    return made.getvalue()


def below(text: str) -> bytes:
    return patched('</sheetData>', f'</sheetData>{text}')


def with_rows(text: str) -> bytes:
    return patched('</sheetData>', f'{text}</sheetData>')


FAR = '<row r="{0}"><c r="{1}{0}"><v>1</v></c></row>'
LARGE = {
    'a cell far below': with_rows(FAR.format(1_048_576, 'A')),
    'a cell far to the right': with_rows(FAR.format(9, 'XFD')),
    'a cell at the last place': with_rows(FAR.format(20_000, 'GR')),
    'a merged range': below('<mergeCells><mergeCell ref="A5:XFD1048576"/></mergeCells>'),
    'a wide link': below('<hyperlinks><hyperlink ref="A5:XFD1048576" location="x"/></hyperlinks>'),
    'many cells': with_rows('<row r="9">' + '<c/>' * 100_001 + '</row>'),
    'a long text': with_rows(f'<row r="9"><c r="A9" t="inlineStr"><is><t>{"x" * 40_000}</t></is></c></row>'),
    'many elements': below('<x/>' * 700_000), 'many levels': below('<x>' * 70 + '</x>' * 70),
    'many bytes': below(f'<x>{" " * 2 ** 25}</x>')}


@pytest.mark.parametrize('name', LARGE)
def test_a_workbook_is_refused_by_its_size(name: str) -> None:
    begun = time.process_time()
    assert 'this workbook is too large' in refusal(LARGE[name])
    assert time.process_time() - begun < 5


BROKEN = {
    'a document type': patched('<worksheet', '<!DOCTYPE x [<!ENTITY a "b">]><worksheet'),
    'no end': patched('</row>', ''),
    'no place': patched('r="A1"', 'r="1A"'), 'no row': patched('<row r="1"', '<row r="x"')}


@pytest.mark.parametrize('name', BROKEN)
def test_what_is_no_workbook_is_refused(name: str) -> None:
    assert refusal(BROKEN[name]).startswith('this workbook cannot be read: ')


def test_a_cell_under_a_merged_one_is_refused() -> None:
    told = refusal(below('<mergeCells><mergeCell ref="B2:C2"/></mergeCells>'))
    assert 'cell C2 of xl/worksheets/sheet1.xml lies under a merged cell' in told


@pytest.mark.parametrize('text', ['1e400', '-1e400', '1e99', '1e-99'])
def test_a_number_of_many_zeros_is_refused(text: str) -> None:
    assert len(refusal(patched('<v>150</v>', f'<v>{text}</v>'))) < 200
