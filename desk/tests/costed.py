"""Cases with areas and money, in the short form of a line for each source: name, supply, target, CP in kW/K and film
coefficient in kW/m²K."""
from __future__ import annotations

from collections.abc import Iterable
from fractions import Fraction

from hypothesis import strategies as st

from pinchdesk.costs.cost_data import CostData
from pinchdesk.costs.cost_target import CostTarget, cost_target
from pinchdesk.costs.enclosure import Enclosure
from pinchdesk.formats.case import completed, read_case
from pinchdesk.program.answers import HeatFlow
from pinchdesk.program.run import Pinch

LARGE = 10 ** 12


def tenths(text: str) -> str:
    whole = round(float(text) * 10)
    assert abs(whole - float(text) * 10) < 1e-9
    return str(whole)


def stream_rows(line: str) -> list[str]:
    """`H1 150 50 2 0.5`, in °C, kW/K and kW/m²K; the film may be left out."""
    name, supply, target, flow, *film = line.split()
    side = 'hot' if float(supply) > float(target) else 'cold'
    size = round(float(flow) * 100)
    assert abs(size - float(flow) * 100) < 1e-9
    return [f'{side},{name},{tenths(supply)},{tenths(target)},{size},,', *film_rows(name, film)]


def utility_rows(line: str, side: str) -> list[str]:
    """`S 200 200 100 2`: a utility with its ends in °C, a price per kW and year, and its film; a level has both ends
    alike. `S/0` has a contribution of its own, in K."""
    called, supply, target, price, *film = line.split()
    name, _, own = called.partition('/')
    ranged = [] if supply == target else [f'#range,{name},{supply},{target},C,,']
    return [f'{side},{name},{tenths(supply)},0,{LARGE},{round(float(price) * 1000)},{own and tenths(own)}',
            *ranged, *film_rows(name, film)]


def film_rows(name: str, film: Iterable[str]) -> list[str]:
    return [f'#film,{name},{value},kW/m2K,,,' for value in film]


def costed_case(difference: float, streams: str, heaters: str, coolers: str, *rows: str) -> str:
    """A case at a least difference in K. Prices are per kW and year in `$`; streams and utilities stand in lines or
    between commas."""
    made = ['#price,$/(kW a),1000,,,,', '#cost,$/a,1000000,,,,', f'contribution,,{round(difference * 5)},,,,']
    for text, reading in ((streams, stream_rows), (heaters, heater_rows), (coolers, cooler_rows)):
        for line in text.replace('\n', ',').split(','):
            if line.strip():
                made += reading(line)
    return '\n'.join([*made, *rows]) + '\n'


def heater_rows(line: str) -> list[str]:
    return utility_rows(line, 'heater')


def cooler_rows(line: str) -> list[str]:
    return utility_rows(line, 'cooler')


def law_rows(fixed: str, factor: str, exponent: str, *annual: str, flow: str = 'counter-current') -> tuple[str, ...]:
    """A cost law for all, how exchangers are built, and what a year costs."""
    part = '0.9' if flow == '1-2' else ''
    return (f'#law,,,{fixed},{factor},{exponent},m2', f'#build,,{flow},{part},,,' + ('shell' if part else 'exchanger'),
            '#capital,$,1,,,,', '#annual,' + ','.join([*annual, '', '', '', '', ''][:6]))


SMALL = costed_case(10, 'H 150 50 2 0.5, C 40 160 1.5 0.4', 'S 200 200 100 2', 'W 20 30 10 1',
                    *law_rows('10000', '400', '0.8', 'recovery', '0.1', '5'))
# A network of the small case.
NETWORK = '''exchanger E H C 150000
exchanger S1 S C 30000
exchanger W1 H W 50000
pass H E a
pass a W1 b
end b
pass C E c
pass c S1 d
end d
'''
AROMATICS = costed_case(
    26, 'H1 327 40 100 .5, H2 220 160 160 .4, H3 220 60 60 .14, H4 160 45 400 .3, C1 100 300 100 .35, '
        'C2 35 164 70 .7, C3 85 138 350 .5, C4 60 170 60 .14, C5 140 300 200 .6',
    'HOT/0 330 250 60 .5', 'COLD/0 15 30 6 .5', *law_rows('10000', '350', '1', 'factor', '0.2'))
ONE_TWO = 'counter-current,,,,exchanger', '1-2,0.9,,,shell'


def near(enclosure: Enclosure, number: str) -> bool:
    """Whether an enclosure lies within the last digit of a number that is rounded."""
    last = Fraction(1, 10 ** len(number.partition('.')[2])) / 2
    return Fraction(number) - last <= enclosure.low and enclosure.high <= Fraction(number) + last


def targets(case: str, pinch: Pinch) -> CostTarget:
    found = cost_target(case, pinch)
    assert isinstance(found, CostTarget)
    return found


def data_of(case: str) -> CostData:
    return CostData(completed(read_case(case)))


def uses_of(case: str, pinch: Pinch) -> dict[str, int]:
    flow = pinch.flow(case)
    assert isinstance(flow, HeatFlow)
    return {use.name: use.heat for use in flow.uses}


@st.composite
def plants(draw: st.DrawFn, equal: bool = False) -> str:
    """Small cases with utilities that reach."""
    films = st.sampled_from(['0.1', '0.5', '1', '2.5'])
    film = draw(films)
    lines: list[str] = []
    for name in ('H1', 'H2', 'C1', 'C2'):
        low, width, flow = draw(st.integers(30, 250)), draw(st.integers(1, 150)), draw(st.integers(1, 40))
        ends = (low + width, low) if name[0] == 'H' else (low, low + width)
        lines.append(f'{name} {ends[0]} {ends[1]} {flow} {film if equal else draw(films)}')
    difference = draw(st.integers(1, 20))
    return costed_case(difference, ', '.join(lines), f'S 450 450 100 {film}', f'W 5 5 10 {film}',
                       *law_rows('1000', '400', '0.8', 'factor', '0.2'))
