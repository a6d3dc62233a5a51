"""The house: a package uses only packages below it, no two modules and no two classes have one name, no test imports
a test."""
from __future__ import annotations

import ast
from collections import Counter
from collections.abc import Iterable, Iterator
from functools import cache
from pathlib import Path

from conftest import DESK

SOURCE = DESK / 'src' / 'pinchdesk'
# From the lowest to the highest; those of one line do not know one another.
ORDER = (('errors', 'text', 'version'), ('failures', 'formats'), ('program',), ('tables',), ('analysis',), ('costs',),
         ('search',), ('figures',), ('report',), ('words',), ('batch',), ('plant', 'live'), ('cli',), ('__main__',))
LEVEL = {name: level for level, names in enumerate(ORDER) for name in names}


def modules() -> Iterator[tuple[str, ...]]:
    for path in sorted(SOURCE.rglob('*.py')):
        parts = path.relative_to(SOURCE).with_suffix('').parts
        yield parts[:-1] if parts[-1] == '__init__' else parts


def file_of(module: tuple[str, ...]) -> Path:
    path = SOURCE.joinpath(*module)
    return path / '__init__.py' if path.is_dir() else path.with_suffix('.py')


@cache
def tree_of(module: tuple[str, ...]) -> ast.Module:
    return ast.parse(file_of(module).read_text(encoding='utf-8'))


def statements(body: Iterable[ast.AST]) -> Iterator[ast.AST]:
    """All statements below some, and not what stands within expressions: no import and no class does."""
    for node in body:
        yield node
        if isinstance(node, (ast.stmt, ast.ExceptHandler, ast.match_case)):
            for field in ('body', 'orelse', 'finalbody', 'handlers', 'cases'):
                yield from statements(getattr(node, field, ()))


def used_by(module: tuple[str, ...]) -> Iterator[str]:
    """The packages that a module names in an import, wherever it stands."""
    here = module if SOURCE.joinpath(*module).is_dir() else module[:-1]
    for node in statements(tree_of(module).body):
        if isinstance(node, ast.ImportFrom) and node.level:
            base = here[:len(here) - node.level + 1]
            named = [*base, *(node.module or '').split('.')] if node.module else list(base)
            yield from [named[0]] if named else (alias.name for alias in node.names)
        elif isinstance(node, (ast.Import, ast.ImportFrom)):
            names = [node.module or ''] if isinstance(node, ast.ImportFrom) else [alias.name for alias in node.names]
            yield from (name.split('.')[1] for name in names if name.startswith('pinchdesk.'))


def test_a_package_uses_only_packages_below_it() -> None:
    wrong = {(module[0], used) for module in modules() if module for used in used_by(module)
             if used in LEVEL and used != module[0] and LEVEL[used] >= LEVEL[module[0]]}
    assert not wrong


def test_no_two_modules_have_one_name() -> None:
    counts = Counter(module[-1] for module in modules() if module and file_of(module).name != '__init__.py')
    assert not [name for name, count in counts.items() if count > 1]


def test_no_two_classes_have_one_name() -> None:
    counts = Counter(node.name for module in modules() for node in ast.walk(tree_of(module))
                     if isinstance(node, ast.ClassDef))
    assert not [name for name, count in counts.items() if count > 1]


def test_no_test_imports_a_test() -> None:
    """What tests share stands in plain modules beside them."""
    wrong = [(path.name, name) for path in sorted((DESK / 'tests').glob('*.py'))
             for name in imported_by(ast.parse(path.read_text(encoding='utf-8'))) if name.startswith('test_')]
    assert not wrong


def imported_by(tree: ast.Module) -> Iterator[str]:
    """The modules that a file names in an import, wherever it stands."""
    for node in ast.walk(tree):
        if isinstance(node, ast.Import):
            yield from (alias.name for alias in node.names)
        elif isinstance(node, ast.ImportFrom):
            yield node.module or ''


# What a word knows nothing of: it is a function of what its files hold and of its options.
OUTSIDE = {'argparse', 'tempfile', 'sys', 'io', 'shutil', 'subprocess'}
READERS = {'plain_files', 'written_files'}


def test_a_word_knows_no_command_and_no_file() -> None:
    for module in modules():
        if module[:1] != ('words',):
            continue
        for node in ast.walk(tree_of(module)):
            names = [node.module or ''] if isinstance(node, ast.ImportFrom) else \
                [alias.name for alias in node.names] if isinstance(node, ast.Import) else []
            parts = {part for name in names for part in name.split('.')}
            assert not parts & (OUTSIDE | READERS), module
            called = node.func if isinstance(node, ast.Call) else None
            assert not (isinstance(called, ast.Name) and called.id in ('open', 'print')), module
