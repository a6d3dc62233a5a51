"""The script of a plant from table to page runs whole, and writes into the folder that it is told of alone."""
from __future__ import annotations

import os
import subprocess
import sys
from pathlib import Path

import pytest
from conftest import EXAMPLES, Done


def run(*words: str, cwd: Path) -> Done:
    done = subprocess.run([sys.executable, str(EXAMPLES / 'plant.py'), *words], cwd=cwd, capture_output=True, text=True,
                          check=False, stdin=subprocess.DEVNULL)
    return Done(done.returncode, done.stdout, done.stderr)


@pytest.mark.long
def test_the_plant_runs_whole_and_writes_into_its_folder_alone(tmp_path: Path) -> None:
    folder, elsewhere = tmp_path / 'folder', tmp_path / 'elsewhere'
    folder.mkdir()
    elsewhere.mkdir()
    before = sorted(os.listdir(EXAMPLES))
    done = run(str(folder), cwd=elsewhere)
    assert (done.status, done.err) == (0, '')
    for line in ('hot utility   20  kW', '6 exchangers\nAccepted', 'Exchangers against cost', '10 K hotter       0',
                 "('base', 'good')\n('5 K hotter', 'rejected')\n"):
        assert line in done.out
    files = ['case.csv', 'curves.svg', 'found.txt', 'grid.svg', 'page.html', 'sweep.svg', 'tradeoff.svg']
    assert sorted(os.listdir(folder)) == files and all((folder / name).stat().st_size for name in files)
    assert (os.listdir(elsewhere), sorted(os.listdir(EXAMPLES))) == ([], before)


def test_without_a_folder_the_plant_writes_nothing(tmp_path: Path) -> None:
    nowhere = [str(tmp_path / 'nowhere')]
    for words in (nowhere, nowhere * 2):
        done = run(*words, cwd=tmp_path)
        assert (done.status, done.out) == (1, '') and done.err.startswith('usage: python3 examples/plant.py FOLDER')
    assert os.listdir(tmp_path) == []
