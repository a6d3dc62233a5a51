"""The engineer's side of `pinch`: tables in, targets, verdicts, tables and pages out. Search and pictures outside,
truth inside: each number that decides is what `pinch` printed in this run.

Here are the names that a notebook needs; each is loaded when it is first asked for. All others are imported from their
package, as `from pinchdesk.report.sheet import Sheet`."""
from typing import TYPE_CHECKING, Any

from .version import __version__

if TYPE_CHECKING:
    from .analysis.follow import follow
    from .batch.order import many
    from .costs import CostsPackage
    from .costs.network_areas import network_areas as areas
    from .costs.supertarget import supertarget
    from .errors import DeskError, ProgramError, Refused, WordsError
    from .formats.case import Case, Side, Stream, Utility, completed, print_case, read_case
    from .formats.network import Network, print_network, read_network
    from .plant.whole_plant import Plant, read
    from .program.answers import Cut
    from .program.run import Pinch
    from .program.verdicts import Accepted, Rejected
    from .search.find import find_network
    from .search.reduce.tradeoff import tradeoff
    costs: CostsPackage

# Where each name stands: matplotlib, scipy and openpyxl take longer to load than most answers.
PLACES = {
    'Accepted': 'program.verdicts', 'Case': 'formats.case', 'Cut': 'program.answers', 'DeskError': 'errors',
    'Network': 'formats.network', 'Pinch': 'program.run', 'Plant': 'plant.whole_plant', 'ProgramError': 'errors',
    'Refused': 'errors', 'Rejected': 'program.verdicts', 'Side': 'formats.case', 'Stream': 'formats.case',
    'Utility': 'formats.case', 'WordsError': 'errors', 'areas': 'costs.network_areas', 'completed': 'formats.case',
    'find_network': 'search.find', 'follow': 'analysis.follow', 'many': 'batch.order', 'print_case': 'formats.case',
    'print_network': 'formats.network', 'read': 'plant.whole_plant', 'read_case': 'formats.case',
    'read_network': 'formats.network', 'supertarget': 'costs.supertarget', 'tradeoff': 'search.reduce.tradeoff',
}
OTHER_NAMES = {'areas': 'network_areas'}
__all__ = [
    'Accepted', 'Case', 'Cut', 'DeskError', 'Network', 'Pinch', 'Plant', 'ProgramError', 'Refused', 'Rejected', 'Side',
    'Stream', 'Utility', 'WordsError', '__version__', 'areas', 'completed', 'find_network', 'follow', 'many',
    'print_case', 'print_network', 'read', 'read_case', 'read_network', 'supertarget', 'tradeoff',
]


def __getattr__(name: str) -> Any:
    from importlib import import_module
    if name == 'costs':
        # A package that is called itself.
        return import_module('.costs', __name__)
    if name not in PLACES:
        raise AttributeError(f'module {__name__!r} has no attribute {name!r}')
    found = globals()[name] = getattr(import_module(f'.{PLACES[name]}', __name__), OTHER_NAMES.get(name, name))
    return found


def __dir__() -> list[str]:
    return sorted({*globals(), *PLACES})
