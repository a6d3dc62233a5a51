"""Tables as plants and spreadsheets spoil them: each is refused, or read as the one thing that it can mean. What is
here was searched for by hand; drawn tables are in `test_mixed_tables`."""
from __future__ import annotations

import pytest
from tabled import TEN, made, refusal

from pinchdesk.tables.convert import Wanted

HEAD = 'Stream;Supply (°C);Target (°C);CP (kW/K)\n'
BARE = 'Stream;Supply;Target;CP\n'
KINDS = 'Kind;Stream;Supply (°C);Target (°C);CP (kW/K);Duty (kW);Price (EUR/MWh)\n'
A = ('A', 1500, 600, 200)

# Texts in the place of 150 °C.
NO_TEMPERATURES = (
    '150-160', '~150', '<150', '>150', '150 ± 5', '150 1/2', '150/140', '(150)', '150*', '150a', '150²', '150¹',
    '١٥٠', '１５０', '0x96', '150-', '–150', '‒150', '—150', '1 50', '1.5D2', '1e-5000', '1e400', 'TRUE', 'ca. 150',
    '150 K', '150 °F', '150 degF', '302 F', '1.500', "1'50", '1,5,0', '15\u00ad0', '15\u200b0', '=150', '#REF!',
    '#N/A', 'n/a', '?', 'see note', '150 / 160', '150 to 160', '150..160', '150 (design)', '150 %', '150 kW',
    '\u221e', 'NaN', 'inf', '150°', '150 °C 160 °C', '++150', '--150', '150,0,0', '1_000', '150 000', '9' * 60)
TEMPERATURES = (
    '150', '150°c.', '150.0', '150,0', '1.5E2', '+150', ' 150 ', '150 °C', '150°C', '150 C', '150 deg C', '\u00a0150')
# Names of a stream that are none, or that may be something else.
NO_NAMES = (
    '', '-', 'n/a', '# A', '#', '#REF!', '// A', '-- A', '% A', '! A', '~~A~~', 'Total', 'Sum', 'average', 'Σ')
NAMES = (
    ('#2', '2'), ('1', '1'), ('A (old)', 'A-old'), ('\ufeffA', 'A'), ('Summer', 'Summer'), ("'A", 'A'), ('Ä', 'Ae'))
KIND_WORDS = (
    'utility', 'cooling', 'steam', 'x', '1', 'hot/cold', 'HX')
# Headings of the column of supplies, with numbers in °C below.
NO_HEADINGS = (
    'Shifted supply', 'T1', 'T hot in', 'Supply (%)', 'Supply (°)', 'Supply %', 'Supply (华氏)', 'Supply (°С)',
    'Supply¹', 'Supply (K) (°C)', 'Supply, shifted', 'Supply * 10', 'Supply (10 K)', 'Supply (K^2)', 'Supply [bar]',
    'Supply 10', 'Supply (1)', 'Supply (design)', 'Supply (min)', 'Supply/Target', 'Tin-Tout', 'Supply (°C x 10)',
    'in/out', 'Temp 1')
# Headings of the column of CPs, with numbers in kW/K below.
NO_FLOWS = (
    'CP (kJ/kg K)', 'CP (kJ/(kg K))', 'm (kg/s)', 'specific heat', 'CP (kW)', 'CP (kWh/K)', 'CP (%)', 'CP (kW/K/a)',
    'mcp [x 1000]', 'CP (mW/K)', 'CP (MBtu/h/F)', 'CP x 10', 'CP/10', 'CP (10e3 W/K)', 'h (kW/m2K)', 'U', 'flow',
    'CP (kW/К)')
NO_HEATS = (
    'Q (kWh)', 'Q (kWh/batch)', 'Q (MWe)', 'Q (MWh/a)', 'Q (GJ/month)', 'Q (mW)', 'Q (%)', 'Q (kW/K)', 'Duty %',
    'Q (kVAh)', 'Q (MBtu/h)', 'Q (kJ)', 'Q (t/h)', 'Q (10 kJ)', 'Q x 1000', 'Q/1000', 'Q (tons)')
# Rows below a stream, and before another one.
NO_ROWS = (
    'Utility;Level;Price;', ';K;K;kW/K', ';;;MW/K',
    'A;;;2', 'A;150;;2', 'A;;60;2', ';150;60;2', 'A;150;60;', 'A;150;60;0', 'A;150;60;-2', 'A;150;150;2', '" ;60;2',
    'A;60;150;2;9', 'A;150;60;2;x;9', ';;;2 MW/K', 'Total;;;2 MW/K', 'Utilities;;;(2026)', 'Condensate;250;250;',
    'C3;20;30;', 'A;";60;2')
ROWS = (
    'Sum;;;4', ';;;4', 'feed and product;;;', 'Total (2);;;4', '# by hand;;;', '-;-;-;-', ';;;', 'all of 2026;;;')
# The price of a heater beside another one of 40 EUR/MWh.
NO_PRICES = (
    'free', '$30', '30 $', '30 €/t', '30 EUR/a', '30 ct/kWh', '30 kEUR/MWh', '30 $/MWh', '30 EUR/GJ', '', '-',
    '30 EUR/MWh/a', '30 %', '1.000', '30 per year', '30 - 40', '30-40', 'n/a')
PRICES = (
    '30', '30 €', '30 EUR', '30 EUR/MWh', '30 €/MWh', '30,0', '+30', '30 EUR / MWh')
# Tables without headings.
NO_COLUMNS = (
    'A;2;150;60\nB;2.5;20;125', 'A;150;60;180\nB;20;125;262', 'A;200;150;60\nB;180;20;125',
    'H1;60;150;2\nC1;20;125;3', 'C1;150;60;2\nH1;20;125;3', '150;60;2;180\n20;125;3;315', 'A;150;60\nB;20;125',
    'A;150;60;2;200', 'A;150;60;2;9;9;9', 'hot;A;60;150;2', 'heater;S;250;30', 'A;150', '150;60;2', 'A 150 60 2',
    'A;150;60;K;2', 'hot;150;60;2', 'x')


def read(text: str) -> list[tuple[object, ...]]:
    return [(stream.name, stream.supply, stream.target, stream.cp) for stream in made(text).case.streams]


def priced(price: str) -> str:
    """A table in which a heater has this price."""
    return f'{KINDS}hot;A;150;60;2;;\nheater;S;200;;;;{price}\nheater;T;250;;;;40\ncooler;W;9;;;;1\n'


def tables() -> list[tuple[str, str]]:
    """Tables that are refused, each with what it is about."""
    refused = [(f'temperature {text}', f'{HEAD}A;{text};60;2\nB;20;120;3\n') for text in NO_TEMPERATURES]
    refused += [(f'name {name}', f'{HEAD}{name};150;60;2\nB;20;120;3\n') for name in NO_NAMES]
    refused += [(f'kind {word}', f'{KINDS}{word};A;150;60;2;;\n') for word in KIND_WORDS]
    refused += [(f'heading {heading}', f'Stream;{heading};Target (°C);CP\nA;150;60;2\n') for heading in NO_HEADINGS]
    refused += [(f'heading {heat}', f'Stream;Supply (°C);Target (°C);{heat}\nA;150;60;2\n')
                for heat in (*NO_FLOWS, *NO_HEATS)]
    refused += [(f'row {row}', f'{HEAD}Z;150;60;2\n{row}\nB;20;120;3\n') for row in NO_ROWS]
    refused += [(f'price {price}', priced(price)) for price in NO_PRICES]
    return refused + [(f'columns {columns}', columns + '\n') for columns in NO_COLUMNS]


@pytest.mark.parametrize('text', [text for _, text in tables()], ids=[about for about, _ in tables()])
def test_a_spoilt_table_is_refused(text: str) -> None:
    assert refusal(text)


def test_what_can_mean_one_thing_is_read() -> None:
    for temperature in TEMPERATURES:
        assert read(f'{HEAD}A;{temperature};60;2\n') == [A], temperature
    for name, fit in NAMES:
        assert read(f'{HEAD}{name};150;60;2\n') == [(fit, *A[1:])], name
    for row in ROWS:
        assert read(f'{HEAD}A;150;60;2\n{row}\nB;20;120;3\n') == [A, ('B', 200, 1200, 300)], row
    for price in PRICES:
        case = made(priced(price)).case
        assert [utility.price for utility in case.utilities][:2] == [30, 40], price


def test_headings_that_are_repeated_begin_again() -> None:
    assert read(f'{HEAD}A;150;60;2\n{HEAD}B;20;120;3\n') == [A, ('B', 200, 1200, 300)]
    kelvins = 'Stream;Supply (K);Target (K);CP (kW/K)\nB;293.15;393.15;3\n'
    assert read(f'{HEAD}A;150;60;2\n{kelvins}') == [A, ('B', 200, 1200, 300)]
    assert read(f'{KINDS}process;A;150;60;2;;\n') == [A]


def test_a_spoilt_least_difference_is_refused() -> None:
    for text in ('x', '', '10 kW', '1,250', '10-20', '-1', '1e9', '10 %', '500', '10 °', '10 m', 'ten', '1' * 60):
        with pytest.raises(Exception, match='least difference'):
            made(f'{HEAD}A;150;60;2\n', Wanted(text))
    assert made(f'{HEAD}A;150;60;2\n', TEN).case.contribution == 50
