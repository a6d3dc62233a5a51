"""What the words of the command say of both texts: the page for the reviewer, pictures, a network that is searched from
here, and exchangers against cost."""
from __future__ import annotations

from collections.abc import Sequence
from dataclasses import replace

from ..report.sheet import text_of
from ..search.budget import nobody
from ..words.all_words import word_of
from ..words.word import Answer, Files, TextFile
from .known import Known
from .view import PictureLink, TradeoffLine, TradeoffTable

PICTURES = {'grid': ('case', 'network'), 'curves': ('case',), 'area': ('case',), 'driving': ('case', 'network')}
LINKS = (PictureLink('report', 'Page for the reviewer'), PictureLink('picture/grid.svg', 'Grid diagram as a picture'),
         PictureLink('picture/curves.svg', 'Curves as a picture'))
OF_AREAS = (PictureLink('picture/area.svg', 'Curves with the area of each interval'),
            PictureLink('picture/driving.svg', 'Differences of curves and exchangers'))


def answered(known: Known, names: Sequence[str], roles: Sequence[str], titles: tuple[str, str],
             **options: str) -> Answer:
    """The answer of a word to the texts of these roles; `titles` are the names of both files."""
    texts = {'case': TextFile(titles[0], known.snapshot.case_bytes),
             'network': TextFile(titles[1], known.snapshot.network_bytes),
             'start': TextFile(titles[1], known.snapshot.network_bytes)}
    word = word_of(names)
    return word.run(Files({role: (texts[role],) for role in roles}), replace(word.options(), **options), nobody)


def as_text(content: str | bytes) -> str:
    return content if isinstance(content, str) else content.decode()


def report(known: Known, titles: tuple[str, str]) -> str:
    """The page for the reviewer."""
    return as_text(answered(known, ['page'], ['case', 'network'], titles).content('html'))


def picture(known: Known, name: str, titles: tuple[str, str]) -> str:
    """A picture, as an SVG."""
    return as_text(answered(known, ['draw', name], PICTURES[name], titles).content('svg'))


def is_whole(known: Known) -> bool:
    """Whether the network is accepted, and nothing in it is open: then a search can begin with it."""
    return known.plan is not None and not known.plan.open and known.stand is not None \
        and known.stand.accepted is not None


def searched(known: Known, titles: tuple[str, str], options: dict[str, str]) -> tuple[str, str]:
    """A network of few exchangers that was searched, from the present one where that is accepted, and what is said of
    it."""
    answer = answered(known, ['network'], ['case', *(['start'] if is_whole(known) else [])], titles, **options)
    return as_text(answer.content('txt')), answer.headline


def traded(known: Known, titles: tuple[str, str], options: dict[str, str]) -> TradeoffTable:
    """Networks of fewer and fewer exchangers with their costs, from the present one where that is accepted."""
    answer = answered(known, ['tradeoff'], ['case', *(['network'] if is_whole(known) else [])], titles, **options)
    sheet, texts = answer.sheets[0], answer.further['networks'].texts
    lines = tuple(TradeoffLine(cells, {'kind': 'texts', 'network': texts[cells[0]], 'told': f'{cells[0]} exchangers'}
                               if cells[0] in texts else {})
                  for cells in (tuple(map(text_of, row)) for row in sheet.rows))
    return TradeoffTable(sheet.headings, lines, answer.headline)


def links(known: Known) -> tuple[PictureLink, ...]:
    """What can be made of both texts for others."""
    return (*LINKS, *(OF_AREAS if known.case and known.case.basis.cost_rows else ()))
