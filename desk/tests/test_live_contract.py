"""The contract of the live desk: the page knows just the fields that the desk sends, and loads nothing else."""
from __future__ import annotations

import ast
import re
import shutil
import subprocess
from collections.abc import Iterator

import pytest

from conftest import DESK

LIVE = DESK / 'src' / 'pinchdesk' / 'live'
PAGE = LIVE / 'page'
PLAIN = {'str': 'string', 'int': 'number', 'float': 'number', 'bool': 'boolean', 'Mapping[str, object]': 'Gesture'}
TREE = ast.parse((LIVE / 'view.py').read_text(encoding='utf-8'))
FOREIGN = re.compile(r'https?:|//[a-z]+\.[a-z]|@import|url\(|eval\(|innerHTML|outerHTML|insertAdjacent|document\.write')
CLASSES = [node for node in TREE.body if isinstance(node, ast.ClassDef)]


def javascript(annotation: ast.expr) -> str:
    """The type of a field as the page has it."""
    text = ast.unparse(annotation)
    if text in PLAIN:
        return PLAIN[text]
    if isinstance(annotation, ast.BinOp):
        return f'{javascript(annotation.left)} | null'
    if isinstance(annotation, ast.Subscript) and isinstance(annotation.slice, ast.Tuple):
        items = annotation.slice.elts
        if ast.unparse(items[-1]) == '...':
            return javascript(items[0]) + '[]'
        return '[' + ', '.join(javascript(item) for item in items) + ']'
    return text


def fields_of(node: ast.ClassDef) -> dict[str, str]:
    return {field.target.id: javascript(field.annotation) for field in node.body
            if isinstance(field, ast.AnnAssign) and isinstance(field.target, ast.Name)}


def types_of_the_page() -> dict[str, dict[str, str]]:
    text = (PAGE / 'contract.js').read_text(encoding='utf-8')
    return {name: {field: kind for kind, field in re.findall(r'@property \{(.*)\} (\w+)$', body, re.MULTILINE)}
            for name, body in re.findall(r'@typedef \{object\} (\w+)\n(.*?)\*/', text, re.DOTALL)}


def test_the_page_knows_just_what_the_desk_sends() -> None:
    assert types_of_the_page() == {node.name: fields_of(node) for node in CLASSES}


def page_files() -> Iterator[str]:
    yield from sorted(path.name for path in PAGE.iterdir())


def test_the_page_loads_nothing_from_elsewhere() -> None:
    for name in page_files():
        text = (PAGE / name).read_text(encoding='utf-8').replace('http://www.w3.org/2000/svg', '')
        assert not FOREIGN.search(text), name


def test_no_script_and_no_style_stands_in_the_page() -> None:
    text = (PAGE / 'index.html').read_text(encoding='utf-8')
    assert not re.search(r'<script(?![^>]*src=)|<style|\sstyle=|\son\w+=', text)
    for name in page_files():
        assert "'style'" not in (PAGE / name).read_text(encoding='utf-8'), name


def test_nothing_on_the_page_moves_by_itself() -> None:
    """Whether or not a reader wants little motion: there is none but that of the hand."""
    for name in page_files():
        text = (PAGE / name).read_text(encoding='utf-8')
        assert not re.search(r'animation|transition|@keyframes|scroll-behavior|\.animate\(|smooth|<animate', text), name


@pytest.mark.parametrize('name', [name for name in page_files() if name.endswith('.js')])
def test_a_module_is_short_and_imports_what_is_there(name: str) -> None:
    text = (PAGE / name).read_text(encoding='utf-8')
    assert len(text.splitlines()) < 400
    assert max(len(line) for line in text.splitlines()) <= 120
    named = {name for pair in re.findall(r"from '\./(.*?)'|import\('\./(.*?)'\)", text) for name in pair if name}
    assert named <= set(page_files())


@pytest.mark.long
@pytest.mark.skipif(not shutil.which('tsc'), reason='no tsc to look at the types of the page')
def test_the_types_of_the_page_are_sound() -> None:
    words = ['--checkJs', '--allowJs', '--strict', '--noEmit', '--target', 'es2022', '--module', 'es2022',
             '--moduleResolution', 'node', '--lib', 'es2022,dom,dom.iterable', '--skipLibCheck']
    files = [name for name in page_files() if name.endswith('.js')]
    done = subprocess.run(['tsc', *words, *files], cwd=PAGE, capture_output=True, text=True, check=False)
    assert (done.stdout, done.returncode) == ('', 0)


def colours(text: str) -> dict[str, tuple[int, ...]]:
    """The colours of a block of the style sheet, by their names."""
    return {name: tuple(int(digits[at:at + 2], 16) for at in (0, 2, 4))
            for name, digits in re.findall(r'--([a-z-]+): #([0-9a-f]{6})', text)}


STYLE = (PAGE / 'style.css').read_text(encoding='utf-8')
SCHEMES = [colours(block) for block in re.findall(r':root \{(.*?)\}', STYLE, re.DOTALL) if '#' in block]


def contrast(one: tuple[int, ...], other: tuple[int, ...]) -> float:
    """How much two colours differ, from 1 to 21, as WCAG has it."""
    def light(colour: tuple[int, ...]) -> float:
        red, green, blue = (part / 3294.6 if part <= 10 else ((part / 255 + 0.055) / 1.055) ** 2.4 for part in colour)
        return float(0.2126 * red + 0.7152 * green + 0.0722 * blue)
    dark, bright = sorted((light(one), light(other)))
    return (bright + 0.05) / (dark + 0.05)


TEXTS = {'panel': ('ink', 'pale', 'hot', 'cold', 'fault', 'good', 'blue'), 'page': ('ink', 'pale'),
         'field': ('ink', 'fault', 'pale'), 'chosen-fill': ('ink', 'blue'), 'hot-fill': ('ink',), 'cold-fill': ('ink',),
         'hot-piece': ('ink', 'fault'), 'cold-piece': ('ink', 'fault'), 'partner-fill': ('ink',),
         'band': ('ink', 'pale'), 'faint': ('ink',), 'shade': ('on-shade',), 'good': ('on-badge',),
         'fault': ('on-badge',), 'warn': ('on-badge',), 'blue': ('on-badge',)}
LINES = {'panel': ('hot', 'cold', 'above', 'below', 'between', 'across', 'nowhere', 'fault', 'good', 'blue', 'warn'),
         'band': ('hot', 'cold', 'above', 'below', 'across', 'fault')}


@pytest.mark.parametrize('scheme', SCHEMES, ids=['light', 'dark'])
def test_texts_and_lines_stand_out(scheme: dict[str, tuple[int, ...]]) -> None:
    assert len(SCHEMES) == 2 and SCHEMES[0].keys() == SCHEMES[1].keys()
    low = [(least, ground, name, round(contrast(scheme[ground], scheme[name]), 2))
           for least, pairs in ((4.5, TEXTS), (3.0, LINES)) for ground, names in pairs.items() for name in names
           if contrast(scheme[ground], scheme[name]) < least]
    assert not low
