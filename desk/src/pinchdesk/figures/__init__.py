"""Pictures, by matplotlib: each function gives a `Figure`, which a notebook shows and `rendered` makes a file.

A picture decides nothing: its numbers are those of `pinch`, or follow from them in fractions; floats are in here
alone. Each name is loaded when it is first asked for: the layout of the grid diagram wants no matplotlib."""
from typing import TYPE_CHECKING, Any

if TYPE_CHECKING:
    from .beside_curve import beside_curve_figure
    from .curves import balanced_figure, composite_figure, curves_figure, grand_figure
    from .exchangers_against_cost import tradeoff_figure
    from .grid.diagram import MOST, grid_figure
    from .price_spans import prices_figure
    from .shown_figure import ShownFigure
    from .site_profiles import site_figure
    from .style import FORMS, readable_width, rendered
    from .sweep_curves import sweep_figure

PLACES = {
    'FORMS': 'style', 'MOST': 'grid.diagram', 'ShownFigure': 'shown_figure', 'balanced_figure': 'curves',
    'beside_curve_figure': 'beside_curve', 'composite_figure': 'curves', 'curves_figure': 'curves',
    'grand_figure': 'curves', 'grid_figure': 'grid.diagram', 'prices_figure': 'price_spans', 'readable_width': 'style',
    'rendered': 'style', 'site_figure': 'site_profiles', 'sweep_figure': 'sweep_curves',
    'tradeoff_figure': 'exchangers_against_cost',
}
__all__ = ['FORMS', 'MOST', 'ShownFigure', 'balanced_figure', 'beside_curve_figure', 'composite_figure',
           'curves_figure', 'grand_figure', 'grid_figure', 'prices_figure', 'readable_width', 'rendered', 'site_figure',
           'sweep_figure', 'tradeoff_figure']


def __getattr__(name: str) -> Any:
    if name not in PLACES:
        raise AttributeError(f'module {__name__!r} has no attribute {name!r}')
    from importlib import import_module
    found = globals()[name] = getattr(import_module(f'.{PLACES[name]}', __name__), name)
    return found
