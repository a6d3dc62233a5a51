"""The word `open`: the live desk for a case and a network, in the browser, until it is closed."""
from __future__ import annotations

import gc
import os
import tempfile
import webbrowser
from argparse import Namespace
from collections.abc import Iterator
from contextlib import ExitStack, contextmanager, suppress
from pathlib import Path
from typing import TYPE_CHECKING, Any

from ..errors import OutputError, Status, WordsError
from ..formats.case import is_case
from ..formats.plain_files import read_bytes
from ..formats.written_files import check_apart
from ..program.run import Pinch
from .standard_streams import put, say

if TYPE_CHECKING:
    from ..live.bench import Bench
    from ..live.server import Served

SUMMARY = 'the live desk: curves and a grid on which a network is made by hand, in the browser'
EXAMPLE = 'pinchdesk open examples/tc3.csv mine.txt'
NEW_CASE = 'case.csv'
# So many new objects there are before it is looked whether some hold one another alone.
MANY_OBJECTS = 50_000


def add_open(added: Any) -> None:
    """Declares what `open` takes."""
    added.add_argument('file', nargs='?', metavar='TABLE|CASE', help='a case, or a table of which one is made; '
                       f'{NEW_CASE} in this folder unless given')
    added.add_argument('network', nargs='?', metavar='NETWORK', help='the network text that is written; '
                       'CASE-network.txt beside the case unless given')
    added.add_argument('--case', metavar='CASE', help='where the case that is made of a table is kept; unless given, '
                       'the page asks for it')
    added.add_argument('-d', '--difference', metavar='K', help='the least difference, where a table has none')
    added.add_argument('--units', choices=('table', 'SI'), default='table', help='the units of the case of a table: '
                       'those of the table, unless SI is said')
    added.add_argument('--no-browser', action='store_true', help='tell the address alone')
    added.set_defaults(doing=opened)


def opened(parsed: Namespace) -> int:
    """Serves the live desk until it is closed."""
    with ExitStack() as stack:
        served = serving(bench_of(parsed, stack))
        put(f'The desk is open at {served.address} and ends by Ctrl-C.\n')
        if not parsed.no_browser:
            stack.enter_context(shown_in_browser(served.address))
        # A gesture makes a hundred thousand small ones, and to look among all that there are takes time each time.
        gc.set_threshold(MANY_OBJECTS)
        served.run()
    return Status.GOOD


def bench_of(parsed: Namespace, stack: ExitStack) -> Bench:
    """The desk over its two files, which are its own as long as the stack is open."""
    from ..live.bench import Bench
    from ..live.keeping import Keeper, Unkept, beside
    from ..live.own_files import OwnFile, claimed
    case_path, case = case_of(parsed)
    network_path = parsed.network or (beside(case_path) if case_path else None)
    paths = [path for path in (case_path, network_path) if path]
    check_apart(paths, [parsed.file] if case else [])
    for path in paths:
        stack.enter_context(claimed(path))
    if case_path:
        return Bench(Pinch(), OwnFile(case_path), OwnFile(str(network_path)), case)
    named = OwnFile(network_path) if network_path else None
    keeper = Keeper(parsed.file, named)
    stack.callback(keeper.let_go)
    return Bench(Pinch(), Unkept(parsed.file), named or Unkept('network'), case, keeper)


def serving(bench: Bench) -> Served:
    """The server, where its packages are there."""
    try:
        from ..live.server import Served
    except ImportError as fault:
        raise WordsError('open needs starlette, uvicorn and websockets: `pip install pinchdesk[live]`, or the packages '
                         'of the system') from fault
    return Served(bench)


def case_of(parsed: Namespace) -> tuple[str | None, bytes | None]:
    """Where the case is kept, None where the page asks for it; of one that is made of a table also its text, which is
    not there yet."""
    path = parsed.file or NEW_CASE
    if parsed.file is not None and parsed.case is None and not os.path.lexists(path):
        raise WordsError(f'{path}: there is no such file; `pinchdesk open` alone begins with an empty case')
    content = read_bytes(path) if os.path.lexists(path) else None
    if content is None or is_case(content):
        if parsed.case is not None:
            raise WordsError(f'--case is for tables, and {path} is a case')
        return path, None
    if parsed.case is not None and os.path.lexists(parsed.case):
        raise OutputError(f'{parsed.case}: is there already; to go on with it, open it')
    return parsed.case, case_of_table(path, content, parsed.difference, parsed.units)


def case_of_table(path: str, content: bytes, difference: str | None, units: str) -> bytes:
    """The text of the case that a table is. What reads tables is loaded for one alone."""
    from ..words.case_word import CaseOptions, case_text, converted
    from ..words.word import TextFile
    table = converted(Pinch(), TextFile(path, content), CaseOptions(difference, units=units).wanted)
    for note in table.notes:
        say(f'{path}: {note}')
    return case_text(table).encode()


@contextmanager
def shown_in_browser(address: str) -> Iterator[None]:
    """Opens the browser by a file that nobody else can read, so that the address is in no list of processes."""
    handle, name = tempfile.mkstemp(prefix='pinchdesk-', suffix='.html')
    try:
        with os.fdopen(handle, 'w', encoding='ascii') as page:
            page.write('<!doctype html><title>pinchdesk</title>'
                       f'<meta http-equiv="refresh" content="0;url={address}">\n')
        if not webbrowser.open(Path(name).as_uri()):
            say('no browser could be opened: open the address')
        yield
    finally:
        with suppress(OSError):
            os.unlink(name)
