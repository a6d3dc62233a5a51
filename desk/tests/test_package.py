"""The package as a notebook has it: what the README shows, data frames, signs of life."""
from __future__ import annotations

import csv
import os
import re
import subprocess
import sys
import time
from pathlib import Path
from typing import Any

import pytest
from conftest import DESK, EXAMPLES, command, example
from conftest import pinchdesk as pinchdesk_here

import pinchdesk
from pinchdesk import Accepted, Pinch, Refused, WordsError, read_case
from pinchdesk.cli.progress import progress, tell
from pinchdesk.formats.study import PriceScenario, Span, Study
from pinchdesk.program.answers import Rows
from pinchdesk.report.answer_sheets import targets_sheets
from pinchdesk.tables.convert import Wanted, case_of_table


@pytest.mark.long
def test_the_readme_runs_as_it_is_shown(monkeypatch: pytest.MonkeyPatch) -> None:
    pytest.importorskip('pandas')
    monkeypatch.chdir(DESK.parent)
    blocks = re.findall(r'```python\n(.*?)```', (DESK / 'README.md').read_text(), re.S)
    block, = (block for block in blocks if 'import pinchdesk\n' in block)
    names: dict[str, Any] = {}
    exec(compile(block.replace('seconds=10', 'seconds=1'), 'README', 'exec'), names)
    assert str(names['pinch'].targets(names['case'])) == 'Targets(hot=107500, cold=40000, pinches=(800,))'
    assert names['followed'].passage('E1').hot.outlet == 900


def test_the_calls_of_costs_in_the_readme_are_there() -> None:
    pytest.importorskip('mpmath')
    blocks = re.findall(r'```python\n(.*?)```', (DESK / 'README.md').read_text(), re.S)
    block, = (block for block in blocks if 'pinchdesk.costs' in block)
    names: dict[str, Any] = {'case': example('reactors-cost.csv').decode(),
                             'network': example('reactors-cost-network.txt').decode()}
    exec(compile(block.replace('seconds=10', 'seconds=1').replace('100, 5)', '100, 30)'), 'README', 'exec'), names)
    assert names['plant'].costs().area_m2.told == names['target'].area.area.told == '7409.97512665'
    assert names['built'].cost.whole.told


def test_answers_are_data_frames(pinch: Pinch) -> None:
    pytest.importorskip('pandas')
    case, network = example('preheater.csv'), example('preheater-network.txt')
    assert rows_of(pinch.targets(case))[0] == {'what': 'hot', 'value': 2000}
    assert rows_of(pinch.flow(case))[0]['hot'] == 'ST'
    assert rows_of(pinch.curves(case))[0] == {'curve': 'hot', 'heat': 0, 'temperature': 400}
    verdict = pinch.audit(case, network)
    assert isinstance(verdict, Accepted)
    assert rows_of(verdict)[1] == {'place': 'exchanger Q1', 'penalty': 1000}
    assert rows_of(pinch.sweep(case, 50, 50, 1)) == [{'contribution': 50, 'hot': 2000, 'cold': 2000, 'cost': 2000}]
    study = Study((Span('ST', 0, 1), PriceScenario('now')))
    slopes = pinch.prices(case, study).frame()['slope']
    assert slopes[0] == 2000 and slopes.isna()[1]
    assert rows_of(pinch.site(example('three-plants.csv')))[0]['temperature'] == 2550
    frame = targets_sheets(read_case(case), pinch.targets(case))[1].frame()
    assert frame.iloc[0].tolist() == [55, 60, 50] and set(map(str, frame.dtypes)) == {'float64'}


def rows_of(answer: Rows) -> list[dict[str, Any]]:
    """The rows of the data frame of an answer."""
    rows: list[dict[str, Any]] = answer.frame().to_dict('records')
    return rows


def test_without_pandas_a_frame_is_refused(pinch: Pinch, monkeypatch: pytest.MonkeyPatch) -> None:
    modules: dict[str, Any] = sys.modules
    monkeypatch.setitem(modules, 'pandas', None)
    with pytest.raises(WordsError, match='pandas'):
        pinch.targets(example('tc3.csv')).frame()


def test_a_sign_of_life_is_for_terminals_alone(capsys: pytest.CaptureFixture[str],
                                               monkeypatch: pytest.MonkeyPatch) -> None:
    with progress('sweep'):
        pass
    assert capsys.readouterr().err == ''
    monkeypatch.setattr('pinchdesk.cli.progress.PATIENCE', 0.0)
    monkeypatch.setattr(sys.stderr, 'isatty', lambda: True)
    shown, until = '', time.monotonic() + 60
    with progress('sweep'):
        tell('3 of 7')
        while 'sweep: ' not in shown and time.monotonic() < until:
            time.sleep(0.05)
            shown += capsys.readouterr().err
    assert 'sweep: ' in shown and '3 of 7' in shown
    assert (shown + capsys.readouterr().err).endswith('\r\033[K')


def test_the_command_in_a_process_of_its_own_says_the_same(tmp_path: Path) -> None:
    (tmp_path / 'case.csv').write_bytes(example('four-stream.csv'))
    for words in (['targets', 'case.csv'], ['flow', 'case.csv', '--form', 'csv'], ['targets', 'none.csv'], ['nothing']):
        assert command(*words, cwd=tmp_path) == pinchdesk_here(*words, cwd=tmp_path)


def test_the_program_is_started_in_one_place_and_no_shell_is() -> None:
    """The browser that makes a PDF, and this Python for a search and its solver, are the only other programs."""
    sources = {path.name: path.read_text() for path in (DESK / 'src').rglob('*.py')}
    assert {name for name, text in sources.items() if 'subprocess' in text} == {'run.py', 'pdf.py', 'child.py'}
    assert not [name for name, text in sources.items() if re.search(r'shell=|os\.(system|popen|exec|spawn)', text)]


def test_the_names_on_top_are_few_and_each_is_loaded_when_it_is_asked_for() -> None:
    names = set(pinchdesk.__all__)
    assert names == {*pinchdesk.PLACES, '__version__'} and len(names) <= 27 and names <= set(dir(pinchdesk))
    assert all(getattr(pinchdesk, name) is not None for name in names)
    assert not hasattr(pinchdesk, 'follow_')


def test_the_package_is_the_command() -> None:
    done = subprocess.run([sys.executable, '-m', 'pinchdesk', '--version'], capture_output=True, text=True, check=False,
                          env={**os.environ, 'PYTHONPATH': str(DESK / 'src')})
    assert (done.returncode, done.stdout) == (0, f'pinchdesk {pinchdesk.__version__}\n')


# What each import may set for the whole process, as a Python of its own tells it before and after.
IMPORTS = """
import csv, decimal, locale, os, pkgutil, signal, sys
import pinchdesk
print(sorted(name for name in sys.modules if name.startswith('pinchdesk')), len(sys.modules))
import matplotlib
from scipy import optimize

def state():
    handlers = [signal.getsignal(number) for number in signal.valid_signals()]
    return (csv.field_size_limit(), str(decimal.getcontext()), str(decimal.DefaultContext), handlers,
            locale.setlocale(locale.LC_ALL), dict(matplotlib.rcParams), sys.getrecursionlimit(),
            sys.get_int_max_str_digits(), dict(os.environ), sys.excepthook)

before = state()
for module in pkgutil.walk_packages(pinchdesk.__path__, 'pinchdesk.'):
    __import__(module.name)
print(state() == before, 'matplotlib.pyplot' in sys.modules, 'pinchdesk.plant.whole_plant' in sys.modules)
"""


def test_an_import_loads_little_and_sets_nothing_of_the_process() -> None:
    done = subprocess.run([sys.executable, '-c', IMPORTS], capture_output=True, text=True, check=True,
                          env={**os.environ, 'PYTHONPATH': str(DESK / 'src')})
    first, last = done.stdout.splitlines()
    loaded, count = first.rsplit(' ', 1)
    assert loaded == "['pinchdesk', 'pinchdesk.version']" and int(count) < 250
    assert last == 'True False True'


# What the command loads for a word, as a Python of its own tells it.
LOADED = """
import sys
from pinchdesk.cli.main import main
print(main(sys.argv[1:]), *sorted(name for name in sys.modules if name.endswith('_word') or name in (
    'matplotlib', 'scipy', 'numpy', 'openpyxl', 'pint', 'jinja2', 'multiprocessing', 'concurrent', 'pinchdesk.tables')))
"""


def test_a_word_loads_no_other_one_and_no_library_of_another_one() -> None:
    done = subprocess.run([sys.executable, '-c', LOADED, 'targets', str(EXAMPLES / 'tc3.csv')], capture_output=True,
                          text=True, check=True, env={**os.environ, 'PYTHONPATH': str(DESK / 'src')})
    assert done.stdout.splitlines()[-1] == '0 pinchdesk.words.targets_word'


# The same of `case`, which needs units; whoever asks for pandas later has it.
UNITS = """
import sys
from pinchdesk.cli.main import main
print(main(), *sorted(name for name in sys.modules if name in ('pint', 'pandas', 'xarray', 'dask')))
import pandas
print(pandas.Series([1]).sum())
"""


@pytest.mark.long
def test_a_command_loads_pint_without_the_packages_whose_classes_it_knows() -> None:
    pytest.importorskip('pandas')
    done = subprocess.run([sys.executable, '-c', UNITS, 'case', '-d', '10', str(EXAMPLES / 'table.csv')],
                          capture_output=True, text=True, check=True,
                          env={**os.environ, 'PYTHONPATH': str(DESK / 'src')})
    assert done.stdout.splitlines()[-2:] == ['0 pint', '1']


def test_a_long_field_is_read_and_the_limit_of_csv_stays() -> None:
    limit, long = csv.field_size_limit(), 'x' * 200_000
    commented = f'# {long},,,,,,\n' + example('tc3.csv').decode()
    assert read_case(commented) == read_case(example('tc3.csv'))
    with pytest.raises(Refused, match='is too long'):
        case_of_table(f'name;supply\n{long};20\n'.encode(), 't.csv', Wanted())
    assert csv.field_size_limit() == limit < len(long)
