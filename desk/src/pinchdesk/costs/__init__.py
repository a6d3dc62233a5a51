"""Areas, units, shells, capital and annual cost: exact data in, and enclosures out, between whose ends a number lies
for certain.

A notebook calls the package: `pinchdesk.costs(case)` has the targets of a case, `pinchdesk.costs(case, network)` what a
network costs."""
from __future__ import annotations

import sys
from types import ModuleType
from typing import TYPE_CHECKING

if TYPE_CHECKING:
    from ..program.answers import Cut
    from ..program.run import CaseText, NetworkText, Pinch
    from .cost_target import CostTarget
    from .network_costs import NetworkCosts


class CostsPackage(ModuleType):
    """The package as a function."""

    def __call__(self, case: CaseText, network: NetworkText | None = None,
                 pinch: Pinch | None = None) -> CostTarget | NetworkCosts | Cut:
        if network is None:
            from .cost_target import cost_target
            return cost_target(case, pinch)
        from .network_costs import network_costs
        return network_costs(case, network, pinch)


sys.modules[__name__].__class__ = CostsPackage
