"""Capital and annual cost: of an exchanger by its law, of a target by its area spread evenly."""
from __future__ import annotations

from dataclasses import dataclass
from fractions import Fraction

from ..formats.cost_rows import Build, CostLaw, Measured, Per, Service
from ..formats.range_parts import cost_of_ranges
from .cost_data import CostData, square_metres
from .enclosure import Enclosure, enclosed, power
from .shells import whole_shells


@dataclass(frozen=True)
class AnnualCost:
    """What a network or a target costs, in the money of the capital: the capital itself, what of it is a cost of a
    year, and the energy of a year, which is exact. `ranges` is what the utilities with a range cost a year, which are
    streams of the case, so that the costs of the program do not have it in them."""

    capital: Enclosure
    capital_a_year: Enclosure
    energy: Fraction
    ranges: Fraction = Fraction(0)

    @property
    def whole(self) -> Enclosure:
        """All of it a year."""
        return self.capital_a_year + (self.energy + self.ranges)


def annual_cost(data: CostData, capital: Enclosure, cost: int | Fraction) -> AnnualCost:
    """The annual cost of a capital, and of a cost of the program, price times W."""
    return AnnualCost(capital, capital * data.annual_factor, cost * data.year_of_cost,
                      cost_of_ranges(data.case) * data.year_of_cost)


def price_of(data: CostData, law: CostLaw, area: Enclosure, count: int = 1) -> Enclosure:
    """The installed price of so many exchangers or shells of one law that share an area in m² evenly."""
    metres = square_metres(Measured(Fraction(1), law.unit), f'#law of {kinds_of(law.service)}', 'unit of area')
    share = area / (metres * count)
    price = enclosed(law.fixed) + (law.factor * power(share, law.exponent) if law.factor else 0)
    return price * (count * data.capital.installation * data.capital.index)


def at_most(build: Build, area: Enclosure) -> int:
    """How many shells an area needs since none is larger than the most; 1 where there is no most."""
    if build.most is None:
        return 1
    most = square_metres(build.most, f'#build of {kinds_of(build.service)}', 'most area of a shell')
    return whole_shells(area / most)


def kinds_of(service: Service | None) -> str:
    """Of what exchangers a row is."""
    return f'{service.value}s' if service else 'all exchangers'


def priced_parts(build: Build, exchangers: int, shells: int) -> int:
    """How many prices are paid: one a shell, or one an exchanger."""
    return shells if build.per is Per.SHELL else exchangers
