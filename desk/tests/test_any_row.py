"""The streams of a case as rows in any form that has their heat in another way, or says their sides in another one, are
read as that case; a form in which something is contradicted is refused."""
from __future__ import annotations

import csv
import io
from dataclasses import dataclass, replace
from decimal import Decimal
from fractions import Fraction
from typing import Any

from conftest import tried
from hypothesis import event, given
from hypothesis import strategies as some
from tabled import made, refusal

from pinchdesk.formats.case import Side, Stream
from pinchdesk.tables.convert import Wanted

# The headings of each way to have a heat, behind name, supply and target.
SIZES = {'CP': ['MCp (kW/K)'], 'duty': ['Duty (kW)'], 'change': ['ΔH (kW)'], 'PRO/II': ['DUTY (M*KJ/HR)'],
         'two': ['Cooling duty (kW)', 'Heating duty (kW)'], 'specific': ['Flow (kg/s)', 'Cp (kJ/kg-C)'],
         'enthalpy': ['Rate (kg/s)', 'Δh (kJ/kg)'], 'both': ['CP (kW/K)', 'Heat load (kW)']}
SIGNED = ('duty', 'change', 'enthalpy')
LATENT = ('duty', 'change', 'two', 'enthalpy', 'both', 'PRO/II')
KINDS = {'words': ('hot', 'cold'), 'letters': ('H', 'C'), 'French': ('C', 'F'), 'German': ('H', 'K'),
         'equipment': ('Cooler', 'Heater')}
ENDS = (('Tin (°C)', 'Tout (°C)'), ('Entering temp (°C)', 'Leaving temp (°C)'), ('Feed T (°C)', 'Product T (°C)'),
        ('Supply temp. (°C)', 'Target temp. (°C)'))
BELOW = ('', 'Interest rate;10;%', 'Operating hours;8000;h/a', '* design case', 'Total;;', 'Cooling water;20;20',
         'LP steam;300;300')


@dataclass(frozen=True)
class RowForm:
    """How rows are written: their heats, the signs of these, their sides, a word for what boils, and what stands
    below."""

    size: str
    signs: str
    kinds: str
    ends: tuple[str, str]
    boils: bool
    marked: bool
    below: str

    @property
    def equipment(self) -> bool:
        return self.kinds == 'equipment'

    def text(self, streams: list[Stream]) -> str:
        """The table of some streams."""
        kinds = ['Type'] if self.kinds in KINDS else []
        output = io.StringIO()
        writer = csv.writer(output, delimiter=';', lineterminator='\n')
        writer.writerow(['Stream', *self.ends, *SIZES[self.size], *kinds])
        for stream in streams:
            side = stream.side is Side.COLD
            writer.writerow([stream.name, *self.ends_of(stream), *self.sizes_of(stream),
                             *[KINDS[self.kinds][side] for _ in kinds]])
        return output.getvalue() + (f'{self.below}\n' if self.below else '') + '* averages\n' * self.marked

    def ends_of(self, stream: Stream) -> list[str]:
        supply, target = (written(Fraction(end, 10)) for end in (stream.supply, stream.target))
        if stream.latent and self.boils:
            target = 'condensing' if stream.side is Side.HOT else 'boiling'
        return [supply + '*' * self.marked, target]

    def sizes_of(self, stream: Stream) -> list[str]:
        heat, cp = Fraction(stream.heat, 1000), Fraction(stream.cp, 100)
        signed = self.sign(stream, heat)
        if self.size == 'CP':
            return [written(cp)]
        if self.size == 'specific':
            return [written(cp / 2), '2']
        if self.size == 'enthalpy':
            return ['2', self.sign(stream, heat / 2)]
        if self.size == 'both':
            return ['' if stream.latent else written(cp), written(heat)]
        if self.size == 'PRO/II':
            return [written(heat * 36 / 10_000)]
        if self.size == 'two':
            return [written(heat), ''] if stream.side is Side.HOT else ['-', written(heat)]
        return [signed]

    def sign(self, stream: Stream, heat: Fraction) -> str:
        if self.size not in SIGNED or self.signs == 'none':
            return written(heat)
        if self.signs == 'brackets':
            return f'({written(heat)})' if stream.side is Side.HOT and self.size != 'enthalpy' else written(heat)
        minus = (stream.side is Side.HOT) == (self.signs == 'change')
        return '-' * minus + written(heat)


def written(value: Fraction) -> str:
    return f'{Decimal(value.numerator) / Decimal(value.denominator):f}'


@some.composite
def some_streams(draw: Any) -> list[Stream]:
    """A hot and a cold stream that change their temperature, and others."""
    made_streams: list[Stream] = []
    for at, side in enumerate([Side.HOT, Side.COLD, *draw(some.lists(some.sampled_from(Side), max_size=3))], 1):
        low = draw(some.integers(300, 2000))
        high = low if at > 2 and draw(some.booleans()) else draw(some.integers(low + 1, 2500))
        supply, target = (high, low) if side is Side.HOT else (low, high)
        size = draw(some.integers(1, 5000))
        cp, load = (0, size * 1000) if low == high else (size, 0)
        made_streams.append(Stream(f'{"H" if side is Side.HOT else "C"}{at}', side, supply, target, cp, load, 50))
    return made_streams


forms = some.builds(RowForm, some.sampled_from([*SIZES]), some.sampled_from(['none', 'gives', 'change', 'brackets']),
                    some.sampled_from([*KINDS, 'names']), some.sampled_from(ENDS), some.booleans(), some.booleans(),
                    some.sampled_from(BELOW))


def fitting(form: RowForm, streams: list[Stream]) -> list[Stream]:
    """The streams that a form can hold: no latent ones where it has no duty, or only equipment says their sides."""
    bare = form.size not in LATENT or form.equipment
    return [stream for stream in streams if not (bare and stream.latent)]


def is_open(form: RowForm, streams: list[Stream]) -> bool:
    """Whether a form is refused: equipment that has no duty of its own, and in brackets what has no sign elsewhere."""
    return form.equipment and form.size in ('specific', 'enthalpy') or form.below.startswith('Total') and not streams


@tried(40, 100)
@given(some_streams(), forms)
def test_streams_in_any_form_of_rows_are_read_as_they_are(streams: list[Stream], form: RowForm) -> None:
    streams = fitting(form, streams)
    text = form.text(streams)
    event(f'{form.size} {form.kinds}')
    if is_open(form, streams):
        assert refusal(text)
        return
    case = made(text, Wanted('10', decimal='.')).case
    assert [replace(stream, contribution=50) for stream in case.streams] == streams
    assert len(case.utilities) == form.below.startswith(('Cooling', 'LP'))


@tried(20, 50)
@given(some_streams(), forms, some.data())
def test_a_row_that_contradicts_its_side_is_refused(streams: list[Stream], form: RowForm, data: Any) -> None:
    streams = fitting(replace(form, below=''), streams)
    if form.kinds == 'names' and form.size != 'two':
        form = replace(form, kinds='words')
    at = data.draw(some.integers(0, 1))
    turned = replace(streams[at], supply=streams[at].target, target=streams[at].supply)
    assert refusal(form.text([*streams[:at], turned, *streams[at + 1:]]))
