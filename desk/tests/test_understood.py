"""How a table was understood is shown by `case --show`, and on the page beside the case that it gives."""
from __future__ import annotations

from pathlib import Path

import pytest
from conftest import EXAMPLES, pinchdesk

TABLE = 'Plant 7\nName;Tin (°C);Tout;MCp [kW/K];Fluid\nH1;150;60;2;oil\nC1;20;60;3;\nSum;;;5;\n'
HEAD = 'place           in the table  taken as                         unit'


@pytest.fixture
def plant(tmp_path: Path) -> Path:
    (tmp_path / 'plant.csv').write_text(TABLE)
    done = pinchdesk('case', '-d', '10', 'plant.csv', '-o', 'case.csv', cwd=tmp_path)
    assert done.status == 0, done.err
    return tmp_path


def test_a_switch_shows_how_a_table_was_understood_in_place_of_the_case(plant: Path) -> None:
    shown = pinchdesk('case', '-d', '10', 'plant.csv', '--show', cwd=plant)
    assert shown.status == 0 and HEAD in shown.out and 'contribution' not in shown.out
    assert 'row 2 column 2  Tin (°C)      supply temperature               °C' in shown.out
    assert 'passed over: a sum' in shown.out and 'passed over: a column' in shown.out
    written = pinchdesk('case', '-d', '10', 'plant.csv', '--show', '-o', 'shown.csv', cwd=plant)
    assert written.status == 0
    assert 'row 2 column 4,MCp [kW/K],CP,kW/K' in (plant / 'shown.csv').read_text()
    assert pinchdesk('case', '-d', '10', 'plant.csv', '--show', '-o', 'shown.xlsx', cwd=plant).status == 0
    assert (plant / 'shown.xlsx').read_bytes().startswith(b'PK')
    many = pinchdesk('many', 'case', '-d', '10', '--show', '.', cwd=plant)
    assert 'plant' in many.out and many.status == 3, many.out


@pytest.mark.usefixtures('without_curves')
def test_the_page_has_how_the_table_of_its_case_was_understood(plant: Path) -> None:
    done = pinchdesk('page', 'case.csv', '--table', 'plant.csv', '-o', 'page.html', cwd=plant)
    assert done.status == 0, done.err
    page = (plant / 'page.html').read_text()
    assert 'How the table plant.csv was understood' in page and 'passed over: above the headings' in page
    assert pinchdesk('page', 'case.csv', '-o', 'without.html', cwd=plant).status == 0
    assert 'was understood' not in (plant / 'without.html').read_text()


def test_a_table_that_gives_another_case_is_refused_on_the_page(plant: Path) -> None:
    (plant / 'other.csv').write_text(TABLE.replace('150', '151'))
    done = pinchdesk('page', 'case.csv', '--table', 'other.csv', '-o', 'page.html', cwd=plant)
    assert done.status == 3 and 'gives another case' in done.err and not (plant / 'page.html').exists()
    done = pinchdesk('page', str(EXAMPLES / 'tc3.csv'), '--table', 'plant.csv', '-o', 'page.html', cwd=plant)
    assert done.status == 3 and 'gives another case' in done.err
    (plant / 'nothing.csv').write_text('Name;Tin\n')
    done = pinchdesk('page', 'case.csv', '--table', 'nothing.csv', '-o', 'page.html', cwd=plant)
    assert done.status == 3 and 'nothing.csv' in done.err
