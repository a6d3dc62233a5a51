"""The word `page`."""
from __future__ import annotations

from collections import Counter
from collections.abc import Sequence
from dataclasses import dataclass, fields, replace
from pathlib import PurePath

from ..formats.case import read_case
from ..program.answers import Cut
from ..program.run import Pinch
from ..report.page import Given, page_of, review_of
from ..report.page_head import PageHead
from ..report.pdf import as_pdf
from ..search.budget import Telling, nobody
from ..text import printable
from .forms import PAGE
from .shared import CASE, DECIMAL, SEPARATOR, SHEET, SHOWN_IN, rounding_told
from .table_of_case import ReadingOptions, understood_of
from .utilities_word import ASKED, UtilitiesOptions, found_utilities
from .word import Answer, Files, Option, Role, TextFile, Word

NETWORKS_BESIDE = Role('network', 'network texts, shown side by side', several=True, needed=False)
TABLE_BESIDE = Role('table', 'the table of the case: how it was understood is shown too', needed=False, flag='--table',
                    metavar='TABLE')
SAID = {'title': 'the title of the page, in place of one with the name of the case', 'plant': 'the plant that it is of',
        'author': 'who made it', 'revision': 'its revision', 'date': 'its date, in place of the day when it is made'}
DECLARED = tuple(Option(field.name, SAID[field.name], (f'--{field.name}',), metavar='TEXT')
                 for field in fields(PageHead))


@dataclass(frozen=True)
class PageOptions(PageHead, ReadingOptions, UtilitiesOptions):
    """What is said at the head of the page, how the table beside the case is to be read, and what is asked of
    utilities."""


def shown_files(files: Sequence[TextFile]) -> list[Given]:
    """The files by their last names; of two with one name the whole names tell them apart."""
    last = [PurePath(file.name).name for file in files]
    counts = Counter(last)
    return [Given(printable(file.name if counts[name] > 1 else name), file.name, file.content)
            for file, name in zip(files, last)]


def page(files: Files, options: PageOptions = PageOptions(), tell: Telling = nobody) -> Answer:
    case, *networks = shown_files([files.one('case'), *files.several('network')])
    review, table = review_of(Pinch(), case, networks), files.get('table')
    if table:
        understood = understood_of(table, read_case(case.content), options)
        review = replace(review, table=shown_files([table])[0], understood=understood)
    found = found_utilities(files, options) if options.is_asked else None
    review = replace(review, utilities=None if isinstance(found, Cut) else found)
    status, no = review.ending
    return Answer(in_form=lambda form: as_pdf(page_of(review, True, options)) if form == 'pdf'
                  else page_of(review, head=options),
                  notes=rounding_told(files.one('case'), review.answered.case), status=status, no=no)


PAGE_OF_REVIEW = Word('page', 'all of a case and its networks on one page for the reviewer, .html or .pdf',
                      'pinchdesk page examples/tc3.csv examples/tc3-network.txt -o page.html',
                      (CASE, NETWORKS_BESIDE, TABLE_BESIDE), PageOptions, page,
                      (*DECLARED, SHEET, SEPARATOR, DECIMAL, *ASKED, SHOWN_IN), PAGE, to_file=True, ending='html')
