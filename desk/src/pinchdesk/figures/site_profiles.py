"""The profiles of a site: what its plants can give to mains, and what they can take from them (Dhole and Linnhoff
1993), with its boiler and its cooling."""
from __future__ import annotations

from collections.abc import Sequence

from matplotlib.axes import Axes
from matplotlib.figure import Figure

from ..formats.shown import Shown
from ..formats.site import Site
from ..program.answers import SiteAnswer
from .axes import entitled, fitted, legend_below, plain, spaced
from .labels import Labels, Xy
from .style import COLD, HOT, INK, blank, framed, said, styled

MAIN = '#7d3c98'


def site_figure(site: Site, answer: SiteAnswer) -> Figure:
    """What can be given below each temperature to the left, what can be taken above it to the right, and each main
    where it takes and where it gives heat."""
    shown = Shown(site.basis)
    with styled():
        figure = blank(8.6, 5.8)
        axes = figure.subplots()
        levels = [float(shown.in_temperature(profile.temperature)) for profile in answer.profiles]
        source = [(-float(shown.in_heat(profile.source)), level) for profile, level in zip(answer.profiles, levels)]
        sink = [(float(shown.in_heat(profile.sink)), level) for profile, level in zip(answer.profiles, levels)]
        axes.plot(*zip(*source), color=HOT, marker='o', markersize=3, linewidth=1.5,
                  label=f'heat to give: {shown.heat(answer.profiles[0].source)} {shown.heat_unit} in all')
        axes.plot(*zip(*sink), color=COLD, marker='o', markersize=3, linewidth=1.5,
                  label=f'heat to take: {shown.heat(answer.profiles[-1].sink)} {shown.heat_unit} in all')
        finish(axes, [*source, *sink], title_of(answer, shown))
        put_mains(axes, site, [source, sink])
    return figure


def title_of(answer: SiteAnswer, shown: Shown) -> str:
    if answer.boiler is None or answer.cooling is None:
        return 'Site profiles: no heat flow'
    boiler, cooling = (f'{shown.heat(heat)} {shown.heat_unit}' for heat in (answer.boiler, answer.cooling))
    return f'Site profiles: boiler {boiler}, cooling {cooling}'


def finish(axes: Axes, points: Sequence[Xy], title: str) -> None:
    heats = [abs(point[0]) for point in points]
    most = max([*heats, 0.001]) * 1.08
    axes.set_xlim(-most, most)
    axes.margins(y=0.1)
    axes.axvline(0, color=INK, linewidth=0.8)
    entitled(axes, 'heat in kW: to give left, to take right', 'shifted temperature in °C', title)
    framed(axes)


def put_mains(axes: Axes, site: Site, profiles: Sequence[list[Xy]]) -> None:
    """Each main, left where it takes heat and right where it gives it."""
    shown, (low, high) = Shown(), axes.get_xlim()
    lines: list[tuple[str, Xy, list[Xy]]] = []
    for main in site.mains:
        for edge, level in ((low, main.level + site.contribution), (high, main.level - site.contribution)):
            height = float(shown.in_temperature(level))
            line = [(edge, height), (0.0, height)]
            axes.plot(*zip(*line), color=MAIN, linestyle='--', linewidth=1)
            text = f'{said(main.name)} {shown.temperature(level)} {shown.temperature_unit}'
            lines.append((text, (edge * 0.72, height), line))
    axes.plot([], [], color=MAIN, linestyle='--', linewidth=1, label='mains')
    legend_below(axes)
    fitted(axes.figure)
    spaced(axes, shown=lambda value: plain(abs(value)))
    axes.set_ylim(*axes.get_ylim())
    labels = Labels(axes, [*profiles, *[line for _, _, line in lines]])
    for text, at, _ in lines:
        labels.put(text, at, color=MAIN, fontsize=8)
