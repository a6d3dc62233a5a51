"""What the tests share: the program, the examples, the command as it is run from a checkout."""
from __future__ import annotations

import io
import os
import pickle
import subprocess
import sys
from collections.abc import Callable, Collection, Generator, Iterable, Iterator
from contextlib import chdir, redirect_stderr, redirect_stdout
from dataclasses import dataclass, replace
from pathlib import Path
from typing import TYPE_CHECKING, Any, ClassVar, TypeVar

import pytest
from hypothesis import HealthCheck, settings

from pinchdesk import Pinch
from pinchdesk.batch.job import Job, JobOutcome
from pinchdesk.batch.job import done as done_of
from pinchdesk.cli.lean_units import load_units_alone
from pinchdesk.cli.main import main
from pinchdesk.search.tasks import Task, TradeoffTask

if TYPE_CHECKING:
    from live_browser import LivePage, OpenDesk, Opens
    from selenium.webdriver import Chrome

DESK = Path(__file__).resolve().parents[1]
EXAMPLES = DESK.parent / 'examples'
SITES = ('site-books', 'three-plants')
NO_CASES = (*SITES, 'changes', 'steam-prices', 'table')
CASES = sorted(path.stem for path in EXAMPLES.glob('*.csv') if path.stem not in NO_CASES)
Value = TypeVar('Value')
NETWORKS = [name for name in CASES if (EXAMPLES / f'{name}-network.txt').exists()]
# Between them they have a pinch, levels of steam, latent streams, contributions of their own, and prices.
FEW = ('four-stream', 'own-contributions', 'preheater', 'two-reactors', 'two-steam-levels')
# The same examples each time, with no memory of earlier runs; the program is slow to start on a busy machine.
settings.register_profile('desk', deadline=None, max_examples=12, derandomize=True, database=None,
                          suppress_health_check=[HealthCheck.too_slow])
settings.register_profile('all', settings.get_profile('desk'), max_examples=50)
# As in the command: pint takes seconds otherwise, in each process of the tests.
load_units_alone()


def few_of(names: Iterable[str], few: Collection[str] = FEW) -> list[Any]:
    """The names as parameters of a test: all but a few of them are long."""
    return [pytest.param(name, id=name if len(name) <= 40 else f'{name[:30]}.. of {len(name)}',
                         marks=[] if name in few else [pytest.mark.long]) for name in names]


def few_rows(rows: Iterable[tuple[Any, ...]], few: Collection[object]) -> list[Any]:
    """Rows of parameters of a test: all but those that begin with one of a few are long."""
    return [pytest.param(*row, marks=[] if row[0] in few else [pytest.mark.long]) for row in rows]


def of_all(few: Value, many: Value) -> Value:
    """What a test takes that would take long otherwise; with --all what it takes then."""
    return many if settings().max_examples == settings.get_profile('all').max_examples else few


def tried(few: int, many: int) -> settings:
    """How many examples a property has of which each takes long: few, or with --all many."""
    return settings(max_examples=of_all(few, many))


Chooses = Callable[[pytest.Config, list[pytest.Item]], None]
# For before pytest-xdist; it comes without types.
FIRST_HOOK: Callable[[Chooses], Chooses] = pytest.hookimpl(tryfirst=True)


def pytest_addoption(parser: pytest.Parser) -> None:
    parser.addoption('--all', action='store_true', help='the tests that are marked as long too, and more examples')


def pytest_configure(config: pytest.Config) -> None:
    settings.load_profile('all' if config.getoption('--all') else 'desk')


@FIRST_HOOK
def pytest_collection_modifyitems(config: pytest.Config, items: list[pytest.Item]) -> None:
    """A file is for one process of pytest-xdist, so that no other one loads or makes what its tests share. A long test
    is for --all, and for whoever names it."""
    for item in items:
        if not item.get_closest_marker('xdist_group'):
            item.add_marker(pytest.mark.xdist_group(item.location[0]))
    if config.getoption('--all') or any('::' in word for word in config.args):
        return
    long = [item for item in items if item.get_closest_marker('long')]
    config.hook.pytest_deselected(items=long)
    items[:] = [item for item in items if item not in long]


@dataclass(frozen=True)
class Done:
    """How a run of the command ended."""

    status: int
    out: str
    err: str


def command(*words: str, cwd: Path | None = None) -> Done:
    """The command, run from the checkout in a process of its own."""
    done = subprocess.run([sys.executable, str(DESK / 'pinchdesk'), *words], cwd=cwd, capture_output=True, check=False,
                          stdin=subprocess.DEVNULL, env=dict(os.environ))
    return Done(done.returncode, done.stdout.decode('utf-8', 'replace'), done.stderr.decode('utf-8', 'replace'))


def pinchdesk(*words: str, cwd: Path | None = None) -> Done:
    """The same in this process, where it need not be loaded anew."""
    out, err = io.BytesIO(), io.BytesIO()
    # A stream that is let go closes what it writes into.
    streams = [io.TextIOWrapper(content, 'utf-8', write_through=True) for content in (out, err)]
    with chdir(cwd or os.curdir), redirect_stdout(streams[0]), redirect_stderr(streams[1]):
        status = main(list(words))
    return Done(status, out.getvalue().decode('utf-8', 'replace'), err.getvalue().decode('utf-8', 'replace'))


@pytest.fixture(scope='session')
def pinch() -> Pinch:
    return Pinch()


def as_objects(*values: object) -> tuple[object, ...]:
    """Values that are compared with those of another type: fractions and decimals with whole numbers."""
    return values


def example(name: str) -> bytes:
    return (EXAMPLES / name).read_bytes()


def timeless(task: Task) -> bytes:
    """What a task is, whenever it is begun."""
    if isinstance(task, TradeoffTask):
        return pickle.dumps(replace(task, search=replace(task.search, begun=0.0)))
    return pickle.dumps(replace(task, begun=0.0))


class SearchHere:
    """Stands in for the process of a search: the task is done in this one, whatever time it takes, and once."""

    is_gone = False
    done: ClassVar[dict[bytes, list[object]]] = {}

    def told(self, task: Task, until: float) -> Iterator[object]:
        del until
        what = timeless(task)
        if what not in self.done:
            messages: list[object] = []
            task.run(messages.append)
            self.done[what] = messages
        yield from self.done[what]

    def __enter__(self) -> SearchHere:
        return self

    def __exit__(self, *_: object) -> None:
        pass


def search_here(monkeypatch: pytest.MonkeyPatch) -> None:
    """Searches are done in this process, and wider structures are not tried: the same answers on each machine."""
    for module in ('pinchdesk.search.find', 'pinchdesk.search.reduce.tradeoff'):
        monkeypatch.setattr(f'{module}.SearchProcess', SearchHere)
    monkeypatch.setattr('pinchdesk.search.reduce.fewer.TRIES', 0)


def done_here(jobs: Iterator[Job], count: int) -> Generator[JobOutcome, None, None]:
    """Stands in for the processes of many cases: what goes there and what comes back is pickled as for them."""
    del count
    for job in jobs:
        outcome = done_of(pickle.loads(pickle.dumps(job)))
        yield pickle.loads(pickle.dumps(outcome))


@pytest.fixture(autouse=True)
def many_here(request: pytest.FixtureRequest, monkeypatch: pytest.MonkeyPatch) -> None:
    """Many cases are done in this process, unless it is a test of processes: one that is started loads all anew."""
    mark = request.node.get_closest_marker('processes')
    if mark is None or of_all('--all' in mark.args, False):
        monkeypatch.setattr('pinchdesk.batch.order.by_processes', done_here)


@pytest.fixture
def without_curves(monkeypatch: pytest.MonkeyPatch) -> None:
    """Pages have no curves, which take half of their time, for tests that look at something else."""
    monkeypatch.setattr('pinchdesk.report.page.curves_of', lambda _: [])


@pytest.fixture
def searched_here(monkeypatch: pytest.MonkeyPatch) -> None:
    search_here(monkeypatch)


@pytest.fixture(scope='session')
def driver() -> Iterator[Chrome]:
    """A browser, for all tests of the live page."""
    from live_browser import browser
    with browser() as found:
        yield found


@pytest.fixture
def opens(driver: Chrome) -> Iterator[Opens]:
    """Opens files on a live desk, and its page; the desk is ended behind the test."""
    from live_browser import LivePage, open_desk
    opened: list[OpenDesk] = []

    def open_page(case: Path, network: Path | None = None, *words: str) -> tuple[LivePage, OpenDesk]:
        opened.append(open_desk(case, network, *words))
        return LivePage(driver).go(opened[-1].address), opened[-1]

    yield open_page
    driver.get('about:blank')
    for desk in opened:
        desk.kill()


@pytest.fixture
def desk(tmp_path: Path) -> Iterator[OpenDesk]:
    """The case tc3 on a live desk, with a network that is not there yet."""
    from live_browser import open_desk
    case = tmp_path / 'tc3.csv'
    case.write_bytes(example('tc3.csv'))
    found = open_desk(case)
    yield found
    found.kill()


@pytest.fixture
def page(driver: Chrome, desk: OpenDesk) -> Iterator[LivePage]:
    from live_browser import LivePage
    yield LivePage(driver).go(desk.address)
    driver.get('about:blank')
