"""The exchangers of networks beside numbers of more than fifty digits, by the formulas as the books have them: areas,
Ft, shells, prices and what a year costs."""
from __future__ import annotations

from collections.abc import Mapping
from dataclasses import dataclass
from fractions import Fraction
from math import ceil
from typing import Any

import pytest
from conftest import example, tried
from costed import NETWORK, SMALL, costed_case, law_rows, near, targets
from fifty import FIFTY, digits, holds, width
from hypothesis import given
from hypothesis import strategies as st

from pinchdesk import Pinch, Refused, completed, follow, read_case, read_network
from pinchdesk.analysis.follow import Passage, SideState
from pinchdesk.costs.network_costs import network_costs
from pinchdesk.program.answers import Design

KINDS = ('heater', 'cooler', 'exchanger')
NAMES = ('H1', 'H2', 'C1', 'C2', 'S', 'W')
# W/(m² K) in one of each unit of films, and m² K/W in one of each unit of fouling.
FILMS = {'kW/m2K': Fraction(1000), 'W/(m2 K)': Fraction(1),
         'Btu/(h ft2 °F)': Fraction('1055.056') / 3600 / Fraction('0.3048') ** 2 * Fraction(9, 5)}
FOULINGS = {'m2K/kW': Fraction(1, 1000), 'm2K/W': Fraction(1)}


@dataclass(frozen=True)
class Built:
    """How exchangers of a kind are built: X of 1-2 shells, None of counter-current ones; the most area of a shell in
    m², None where there is none; whether a shell has the price."""

    part: Fraction | None
    most: Fraction | None
    by_shell: bool

    def row(self, kind: str) -> str:
        flow = 'counter-current,' if self.part is None else f'1-2,{self.part}'
        most = ',' if self.most is None else f'{self.most},m2'
        return f'#build,{kind},{flow},{most},{"shell" if self.by_shell else "exchanger"}'


@dataclass(frozen=True)
class Money:
    """What a case says, as it was drawn: resistances of films with fouling in m² K/W, overall coefficients in
    W/(m² K), laws and builds by their kinds."""

    resistances: Mapping[str, Fraction]
    overalls: Mapping[str, Fraction]
    laws: Mapping[str, tuple[Fraction, Fraction, Fraction]]
    builds: Mapping[str, Built]
    installed: Fraction
    factor: Fraction
    rows: tuple[str, ...]


@st.composite
def moneys(draw: st.DrawFn) -> Money:
    rows, resistances = list[str](), dict[str, Fraction]()
    for name in NAMES:
        film, unit = Fraction(draw(st.integers(50, 4000))), draw(st.sampled_from(list(FILMS)))
        fouling, other = Fraction(draw(st.integers(0, 9)), 10 ** 4), draw(st.sampled_from(list(FOULINGS)))
        rows.append(f'#film,{name},{film / FILMS[unit]},{unit},'
                    + (f'{fouling / FOULINGS[other]},{other},' if fouling else ',,'))
        resistances[name] = 1 / film + fouling
    overalls = draw(st.dictionaries(st.sampled_from(['S', 'W']), st.fractions(50, 900, max_denominator=9),
                                    max_size=2))
    laws = draw(kinds(st.tuples(st.integers(0, 30000), st.integers(1, 1000), st.integers(0, 100))))
    builds = draw(kinds(st.builds(Built, st.none() | st.fractions(Fraction(1, 2), Fraction(19, 20), max_denominator=40),
                                  st.none() | st.fractions(100, 1000, max_denominator=7), st.booleans())))
    rows += [f'#overall,{name},{value},W/m2K,,,' for name, value in overalls.items()]
    rows += [f'#law,{kind},,{fixed},{factor},{exponent}/100,m2' for kind, (fixed, factor, exponent) in laws.items()]
    rows += [built.row(kind) for kind, built in builds.items()]
    installation, index, years = draw(st.integers(1, 40)), draw(st.integers(300, 900)), draw(st.integers(1, 30))
    interest, is_compound = Fraction(draw(st.integers(1, 30)), 100), draw(st.booleans())
    grown = (1 + interest) ** years
    rows += [f'#capital,$,{installation}/10,{index},500,,',
             f'#annual,{"compound" if is_compound else "recovery"},{interest},{years},,,']
    return Money(resistances, overalls, {kind: (Fraction(a), Fraction(b), Fraction(c, 100))
                                         for kind, (a, b, c) in laws.items()}, builds,
                 Fraction(installation * index, 5000),
                 grown / years if is_compound else interest * grown / (grown - 1), tuple(rows))


def kinds(values: st.SearchStrategy[Any]) -> st.SearchStrategy[Any]:
    """A value for all kinds, and for some of them one of their own."""
    return st.tuples(values, st.dictionaries(st.sampled_from(KINDS), values, max_size=2)).map(
        lambda drawn: {'': drawn[0], **drawn[1]})


@st.composite
def streams(draw: st.DrawFn) -> str:
    lines: list[str] = []
    for name in NAMES[:4]:
        low, warming, flow = draw(st.integers(45, 200)), draw(st.integers(1, 150)), draw(st.integers(1, 40))
        ends = (low + warming, low) if name[0] == 'H' else (low, low + warming)
        lines.append(f'{name} {ends[0]} {ends[1]} {flow}')
    return ', '.join(lines)


@tried(4, 50)
@given(streams(), st.integers(1, 30), moneys())
def test_a_network_costs_what_fifty_digits_say(pinch: Pinch, lines: str, difference: int, money: Money) -> None:
    case = costed_case(difference, lines, 'S 450 420 100', 'W 5 15 10', *money.rows)
    design = pinch.design(case)
    assert isinstance(design, Design)
    found = network_costs(case, design.text, pinch)
    passages = follow(completed(read_case(case)), read_network(design.text)).passages
    whole = energy = digits(0)
    for passage, priced in zip(passages, found.prices, strict=True):
        area, factor, shells, price = exchanger_of(passage, money)
        exchanger = priced.exchanger
        assert exchanger.shells == shells and holds(exchanger.factor, factor) and holds(exchanger.area, area)
        assert holds(priced.price, price) and max(map(width, (exchanger.area, priced.price))) < Fraction(1, 10 ** 20)
        whole += price
        energy += digits(passage.exchanger.duty) / 1000 * {'S': 100, 'W': 10}.get(other_of(passage), 0)
    assert holds(found.areas.area, sum((exchanger_of(passage, money)[0] for passage in passages), digits(0)))
    assert holds(found.cost.capital, whole) and abs(digits(found.cost.energy) - energy) < digits(Fraction(1, 10 ** 40))
    assert holds(found.cost.whole, whole * digits(money.factor) + energy)


def other_of(passage: Passage) -> str:
    """The utility of an exchanger; empty where it has none."""
    return next((name for name in (passage.hot.source.name, passage.cold.source.name) if name in ('S', 'W')), '')


def exchanger_of(passage: Passage, money: Money) -> tuple[Any, Any, int, Any]:
    """Its area in m², Ft, shells and price, by the formulas of the books (Bowman, Mueller and Nagle 1940; Ahmad,
    Linnhoff and Smith 1988)."""
    utility = other_of(passage)
    kind = {'S': 'heater', 'W': 'cooler'}.get(utility, 'exchanger')
    names = passage.hot.source.name, passage.cold.source.name
    coefficient = money.overalls.get(utility) or 1 / (money.resistances[names[0]] + money.resistances[names[1]])
    hot_in, hot_out = ends_of(passage.hot, 'S', (450, 420))
    cold_in, cold_out = ends_of(passage.cold, 'W', (5, 15))
    counter = digits(Fraction(passage.exchanger.duty) / coefficient) / mean_of(hot_in - cold_out, hot_out - cold_in)
    built, law = money.builds.get(kind, money.builds['']), money.laws.get(kind, money.laws[''])
    ratio, reached = (hot_in - hot_out) / (cold_out - cold_in), (cold_out - cold_in) / (hot_in - cold_in)
    shells = max(1, ceil(shells_of(ratio, reached, built.part))) if built.part else 1
    while True:
        factor = factor_of(ratio, reached, shells) if built.part else digits(1)
        if not built.most or counter / factor <= digits(built.most) * shells * (1 + FIFTY.mpf(10) ** -40):
            break
        shells += 1
    area, parts = counter / factor, shells if built.by_shell else 1
    fixed, times, exponent = map(digits, law)
    return area, factor, shells, parts * (fixed + times * (area / parts) ** exponent) * digits(money.installed)


def ends_of(side: SideState, utility: str, ends: tuple[int, int]) -> tuple[Fraction, Fraction]:
    """Where a side enters and leaves in °C; a utility has its real ends."""
    if side.source.name == utility:
        return Fraction(ends[0]), Fraction(ends[1])
    assert side.inlet is not None and side.outlet is not None
    return Fraction(side.inlet) / 10, Fraction(side.outlet) / 10


def mean_of(first: Fraction, second: Fraction) -> Any:
    with FIFTY.workdps(150):
        return digits(first) if first == second else digits(first - second) / FIFTY.log(digits(first) / digits(second))


def shells_of(ratio: Fraction, reached: Fraction, part: Fraction) -> Any:
    """The real number of shells, by the two formulas of the books."""
    with FIFTY.workdps(150):
        R, P, X = digits(ratio), digits(reached), digits(part)
        if ratio == 1:
            return P / (1 - P) * (1 + FIFTY.sqrt(2) / 2 - X) / X
        root = FIFTY.sqrt(R ** 2 + 1)
        share = (R + 1 + root - 2 * R * X) / (R + 1 + root - 2 * X)
        return FIFTY.log((1 - R * P) / (1 - P)) / FIFTY.log(share)


def factor_of(ratio: Fraction, reached: Fraction, shells: int) -> Any:
    """Ft of so many shells, by the two formulas of the books."""
    with FIFTY.workdps(150):
        R, P = digits(ratio), digits(reached)
        root = FIFTY.sqrt(R ** 2 + 1)
        if ratio == 1:
            one = P / (shells - shells * P + P)
            above = root * one / (1 - one)
        else:
            step = ((1 - R * P) / (1 - P)) ** (digits(1) / shells)
            one = (1 - step) / (R - step)
            above = root * FIFTY.log((1 - one) / (1 - R * one)) / (R - 1)
        return above / FIFTY.log((2 - one * (R + 1 - root)) / (2 - one * (R + 1 + root)))


# Shells.

SHELLS = ('counter-current,,,,shell', 'counter-current,,7,m2,shell', '1-2,0.9,,,shell', '1-2,0.9,5,m2,shell',
          '1-2,0.75,,,exchanger')
SEGMENTED = SMALL.replace('cold,C,400,1600,150,,\n', '#segment,C,C-1,,,,\n#segment,C,C-2,,,,\n'
                          'cold,C-1,400,1000,150,,\ncold,C-2,1000,1600,150,,\n')
ACROSS = '''exchanger E1 H C-2 60000
exchanger E2 H C-1 90000
exchanger S1 S C-2 30000
exchanger W1 H W 50000
pass H E1 a
pass a E2 b
pass b W1 c
end c
pass C-1 E2 d
end d
pass C-2 E1 e
pass e S1 f
end f
'''


@pytest.mark.parametrize('build', SHELLS)
def test_a_kink_where_no_cp_changes_changes_nothing(build: str, pinch: Pinch) -> None:
    (whole, *_), (cut, *_) = (network_costs(case.replace('counter-current,,,,exchanger', build), network, pinch).prices
                              for case, network in ((SMALL, NETWORK), (SEGMENTED, ACROSS)))
    assert cut.exchanger.name == 'E1+E2' and cut.exchanger.shells == whole.exchanger.shells
    for found, other in ((cut.exchanger.area, whole.exchanger.area), (cut.exchanger.factor, whole.exchanger.factor),
                         (cut.price, whole.price)):
        assert found.told == other.told and width(found) < Fraction(1, 10 ** 20)


@pytest.mark.parametrize(('most', 'shells'), [('40/3', 1), ('20/3', 2), ('10/9', 12), ('6.6', 3), ('13.4', 1)])
def test_an_area_of_so_many_whole_shells_takes_no_shell_more(most: str, shells: int, pinch: Pinch) -> None:
    """100 kW at 0.25 kW/m²K and 30 K on both ends: 40/3 m²."""
    case = costed_case(10, 'H 100 50 2 0.5, C 20 70 2 0.5', 'S 200 200 100 1', 'W 5 5 10 1',
                       *law_rows('1', '1', '1', 'factor', '1')).replace('counter-current,,,,exchanger',
                                                                        f'counter-current,,{most},m2,shell')
    network = 'exchanger E H C 100000\npass H E a\nend a\npass C E b\nend b\n'
    assert network_costs(case, network, pinch).areas.shells == shells
    assert targets(case, pinch).parts == shells


def test_more_shells_because_of_their_most_area_have_their_own_ft(pinch: Pinch) -> None:
    """By X there are 4 in series, of 11.2 m² each, and of 5 none has more than 9 m²: with Ft by hand, w = 3.5^(1/5) =
    1.284735, p = 0.284735/0.534735 = 0.532479, LM(1-p, 1-Rp) = 0.531304, Ft = 1.25 p/(LM ln(1.733761/0.402563)) =
    0.8579, and 33.8246/Ft is 39.425 m²."""
    found = network_costs(SMALL.replace('counter-current,,,,exchanger', '1-2,0.9,9,m2,shell'), NETWORK, pinch)
    exchanger = found.areas.exchangers[0]
    assert exchanger.shells == 5 and near(exchanger.factor, '0.8579') and near(exchanger.area, '39.425')


def test_a_kelvin_more_never_costs_anything(pinch: Pinch) -> None:
    """With it E4 would do in four shells, which have a lower Ft than its five and are dearer."""
    case = example('reactors-cost.csv').replace(b'counter-current,,,,exchanger', b'1-2,0.9,,,shell')
    found = network_costs(case, example('reactors-cost-network.txt'), pinch)
    assert [priced.exchanger.shells for priced in found.prices] == [1, 3, 3, 5, 1, 1, 1]
    gains = {priced.exchanger.name: priced.gain for priced in found.costliest}
    assert min(gain.low for gain in gains.values() if gain) > 0 and gains['E4'] and near(gains['E4'], '37413')


# What a case says of pairs and of segments.

def test_a_coefficient_of_two_sources_of_one_side_is_refused(pinch: Pinch) -> None:
    for row in ('#overall,H,1,kW/m2K,S,,', '#overall,C,1,kW/m2K,C,,'):
        with pytest.raises(Refused, match='#overall of . and .: both are (hot|cold): a coefficient is that of a hot'):
            network_costs(f'{SMALL}{row}\n', NETWORK, pinch)


def test_a_coefficient_of_a_segment_comes_before_that_of_its_stream(pinch: Pinch) -> None:
    rows = '#overall,C,0.5,kW/m2K,,,\n#overall,C-1,0.25,kW/m2K,,,\n'
    exchanger, heater, _ = network_costs(SEGMENTED + rows, ACROSS, pinch).areas.exchangers
    assert exchanger.coefficient is None and heater.coefficient == 500


def test_an_exchanger_of_two_materials_by_segments_is_refused(pinch: Pinch) -> None:
    rows = '#material,C-1,SS,,,,\n#law,,SS,0,1,1,m2\n'
    with pytest.raises(Refused, match='exchanger E1.E2: its parts are of no material and SS, and it has one price'):
        network_costs(SEGMENTED + rows, ACROSS, pinch)
