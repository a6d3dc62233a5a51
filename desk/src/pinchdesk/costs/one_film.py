"""A film coefficient in place of those that a case does not give: taken where it is asked for, and reported."""
from __future__ import annotations

from dataclasses import replace
from fractions import Fraction

from ..errors import WordsError
from ..formats.amounts import shortened
from ..formats.case import Case, Utility
from ..formats.cost_rows import Film, Measured
from ..tables.numbers import NoNumber, Says, numeral_of, readings
from .cost_data import CostData
from .cost_units import NoUnit, coefficient_factor

UNIT = 'W/m2K'


def film_of(text: str) -> Measured:
    """The coefficient that words say, in W/m²K where no unit stands with it; `WordsError` where they say none."""
    try:
        numeral = numeral_of(text)
        if numeral.says is Says.EITHER:
            raise WordsError(f'--film {text}: it may be {readings(numeral)}')
        film = Measured(Fraction(numeral.value(numeral.says.value or '.')), numeral.unit or UNIT)
        coefficient_factor(film.unit)
    except (NoNumber, NoUnit) as fault:
        raise WordsError(f'--film {shortened(text)}: a coefficient is needed, as 500 in W/m2K, or '
                         '`0.5 kW/m2K`') from fault
    if film.value <= 0:
        raise WordsError(f'--film {shortened(text)}: a coefficient is above 0')
    return film


def with_film(case: Case, film: Measured) -> tuple[Case, str]:
    """A completed case with this film for each source that has neither a film nor an overall coefficient, and what is
    reported of it; nothing where there is none."""
    data = CostData(case)
    named = {name for names in data.overalls for name in names} | set(data.films)
    without = list(dict.fromkeys(
        data.names_of(source)[-1] for source in case.sources
        if not named.intersection(data.names_of(source)) and frozenset() not in data.overalls
        and not (isinstance(source, Utility) and source.invented and source.name not in data.ranges)))
    if not without:
        return case, ''
    rows = (*case.basis.cost_rows, *(Film(name, film) for name in without))
    return replace(case, basis=replace(case.basis, cost_rows=rows)), \
        f'the film coefficient {film} is taken for {", ".join(without)}, of which the case gives none'
