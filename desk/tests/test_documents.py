"""The documents hang together: each link leads somewhere, and each picture is what `docs/make-pictures` makes."""
from __future__ import annotations

import re
import subprocess
import sys
from pathlib import Path
from typing import Any

import pytest
from conftest import DESK
from members import PACKED

ROOT = DESK.parent
PLACES = ('*.md', 'docs/*.md', 'crates/*/README.md', 'desk/README.md', 'examples/README.md', 'checks/README.md',
          'release/README.md')
DOCUMENTS = sorted(path for place in PLACES for path in ROOT.glob(place))
PICTURES = ROOT / 'docs' / 'pictures'
CODE = re.compile(r'```.*?```', re.S)
LINK = re.compile(r'\]\(([^)\s]+)\)')
HEADING = re.compile(r'^#+ (.*)$', re.M)
MOST_BYTES = 400_000


def text_of(document: Path) -> str:
    return CODE.sub('', document.read_text(encoding='utf-8'))


def anchor(heading: str) -> str:
    """The anchor of a heading, as the usual viewers of Markdown make it."""
    return re.sub(r'[^\w\- ]', '', heading.lower()).replace(' ', '-')


def anchors_of(document: Path) -> list[str]:
    return [anchor(heading) for heading in HEADING.findall(text_of(document))]


@pytest.mark.parametrize('document', DOCUMENTS, ids=lambda path: str(path.relative_to(ROOT)))
def test_each_link_leads_to_a_file_and_to_one_of_its_headings(document: Path) -> None:
    links = [link for link in LINK.findall(text_of(document)) if not link.startswith('http')]
    for link in links:
        name, _, place = link.partition('#')
        target = (document.parent / name).resolve() if name else document
        assert target.exists(), link
        assert not place or anchors_of(target).count(place) == 1, link


def test_in_a_release_each_link_leads_to_a_file_that_is_packed_too() -> None:
    packed = [path for path in DOCUMENTS if PACKED.fullmatch(path.relative_to(ROOT).as_posix())]
    linked = {(document.parent / link.partition('#')[0]).resolve() for document in packed
              for link in LINK.findall(text_of(document)) if not link.startswith(('http', '#'))}
    assert [path for path in linked if not PACKED.fullmatch(path.relative_to(ROOT).as_posix())] == []


def test_each_picture_is_shown_and_none_is_missing_or_large() -> None:
    shown = {(document.parent / link).resolve() for document in DOCUMENTS for link in LINK.findall(text_of(document))
             if link.endswith(('.svg', '.png'))}
    there = {path for path in PICTURES.iterdir() if path.suffix != '.txt'}
    assert shown == there
    assert sum(path.stat().st_size for path in there) < MOST_BYTES


def test_the_pictures_were_made_by_the_commands_and_from_the_examples_of_now() -> None:
    asked = subprocess.run([sys.executable, ROOT / 'docs' / 'make-pictures', '--inputs'], capture_output=True,
                           text=True, check=False)
    assert (asked.returncode, asked.stdout, asked.stderr) == (0, '', '')


def test_the_readme_at_the_top_shows_a_notebook_that_runs(monkeypatch: pytest.MonkeyPatch) -> None:
    monkeypatch.chdir(ROOT)
    block, = re.findall(r'```python\n(.*?)```', (ROOT / 'README.md').read_text(encoding='utf-8'), re.S)
    names: dict[str, Any] = {}
    exec(compile(block, 'README', 'exec'), names)
    assert names['plant'].targets().hot_kw == 20
    assert names['network'].exchangers <= 6 and names['network'].excess_kw == 0
