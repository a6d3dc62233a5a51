"""The word `site`."""
from __future__ import annotations

from ..errors import about
from ..formats.site import read_site
from ..program.run import Pinch
from ..report.answer_sheets import site_facts, site_sheets, site_tables
from ..report.facts import rows_of_tables
from ..search.budget import Telling, nobody
from .shared import SITE
from .word import Answer, Files, NoOptions, Word, feasibility


def site(files: Files, _: NoOptions = NoOptions(), tell: Telling = nobody) -> Answer:
    file = files.one('site')
    with about(site=file.name):
        printed, basis = Pinch().site(file.content), read_site(file.content).basis
    needs = site_facts(printed, basis)
    return Answer(tuple(site_sheets(printed, basis)),
                  facts=(needs,) if needs else rows_of_tables(site_tables(printed, basis)),
                  status=feasibility(printed.feasible))


SITE_OF_PLANTS = Word('site', 'what plants on shared steam mains need', 'pinchdesk site examples/three-plants.csv',
                      (SITE,), NoOptions, site)
