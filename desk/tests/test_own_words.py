"""A case whose units are said to be °F and Btu/h has the answers of the same numbers in tenths of °C and W: with
`--units SI` each word prints what it prints of the plain case, and without it nothing in °C or kW."""
from __future__ import annotations

import re
from pathlib import Path

import pytest
from conftest import EXAMPLES, few_of, pinchdesk

# A tenth of °C is 50/9 of a degree Fahrenheit to the step, and a watt the part of a Btu/h.
UNITS = '#units,°F,Btu/h,65941/225000,50/9,32,65941/225000\n'
CALLS = ('cost reactors-cost.csv', 'cost reactors-cost.csv reactors-cost-network.txt --floor 0.1',
         'supertarget reactors-cost.csv 4 20 8', 'targets tc3.csv', 'flow tc3.csv', 'table tc3.csv tc3-network.txt',
         'units tc3.csv tc3-network.txt', 'rest four-stream.csv four-stream-begun.txt',
         'prices two-steam-levels.csv steam-prices.csv', 'sweep tc3.csv 0 20 10',
         'audit reactors-cost.csv reactors-cost-network.txt', 'whatif two-steam-levels.csv',
         'utilities three-levels.csv --exergetic 0.7 --refrigeration 0.6 --ambient 60C --flame 900C --stack 90C')
FEW = ('cost reactors-cost.csv', 'flow tc3.csv', 'rest four-stream.csv four-stream-begun.txt')
# What is in units of its own whatever the case has: coefficients, areas, and what a kelvin more would save.
FIXED = re.compile(r'kW/m²K|1 K more|price times W|per W')


@pytest.mark.parametrize('call', few_of(CALLS, FEW))
def test_each_word_says_the_same_of_numbers_in_other_units(call: str, tmp_path: Path) -> None:
    word, case, *more = call.split()
    for name in (part for part in (case, *more) if '.' in part and not part[0].isdigit()):
        text = (EXAMPLES / name).read_text(encoding='utf-8')
        (tmp_path / name).write_text(text, encoding='utf-8')
        (tmp_path / f'own-{name}').write_text(UNITS + text, encoding='utf-8')
    plain = pinchdesk(word, case, *more, cwd=tmp_path)
    assert plain.status == 0, plain.err
    assert pinchdesk(word, f'own-{case}', *more, '--units', 'SI', cwd=tmp_path).out == plain.out
    own = pinchdesk(word, f'own-{case}', *(f'{part}K' if part.isdigit() else part for part in more), cwd=tmp_path)
    assert own.status == 0 and not re.search(r'°C|kW| K\b', FIXED.sub('', own.out)), own.out


@pytest.mark.parametrize('call', ['targets tc3.csv', 'flow tc3.csv', 'audit tc3.csv tc3-network.txt', 'units tc3.csv'])
def test_each_word_tells_how_far_roundings_take_the_targets(call: str, tmp_path: Path) -> None:
    said = 'by what is rounded the hot target is 0.013 kW too high, and the cold target stays'
    word, case, *networks = call.split()
    text = (EXAMPLES / case).read_text(encoding='utf-8')
    (tmp_path / case).write_text(f'"# {said}",,,,,,\n{text}', encoding='utf-8')
    done = pinchdesk(word, case, *(str(EXAMPLES / name) for name in networks), cwd=tmp_path)
    assert done.status == 0 and done.err == f'pinchdesk: tc3.csv: {said}\n'
