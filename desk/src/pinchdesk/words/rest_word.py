"""The word `rest`."""
from __future__ import annotations

from ..analysis.rest import Rest, remaining, written_case
from ..errors import about
from ..formats.case import print_case, print_comments
from ..program.run import Pinch
from ..program.verdicts import Accepted
from ..report.facts import FactRow
from ..report.rest_sheets import file_notes, rest_facts, rest_sheets, rest_told, rounding_notes
from ..search.budget import Telling, nobody
from ..text import printable
from .shared import CASE, NETWORK, SHOWN_IN, CaseShown, ended, told_of
from .word import Answer, Files, FurtherFiles, FurtherOutput, TextFile, Word

REST_CASE = FurtherOutput('rest_case', '--case', 'where the case of the rest is written too')
NO_CASE = 'there is no case of the rest: nothing is left, or the network is rejected'


def rest(files: Files, _: CaseShown = CaseShown(), tell: Telling = nobody) -> Answer:
    case, network = files.one('case'), files.one('network')
    with about(case=case.name, network=network.name):
        left = remaining(case.content, network.content, Pinch())
    answer = Answer(tuple(rest_sheets(left)), facts=(number_facts(left),), headline=rest_told(left),
                    notes=told_of(network, rounding_notes(left)), further={REST_CASE.name: case_file(left, network)})
    return ended(answer, [left.verdict], [left.harder.flow] if left.harder else [])


def number_facts(left: Rest) -> FactRow:
    """The facts that are one number: what lies between two is said beside them."""
    if not isinstance(left.verdict, Accepted):
        return ()
    return tuple(fact for fact in rest_facts(left) if not isinstance(fact.value, str))


def case_file(left: Rest, network: TextFile) -> FurtherFiles:
    """The case of the rest as a file, with the network that it is of in a comment."""
    case = written_case(left)
    if case is None:
        return FurtherFiles(missing=NO_CASE)
    branches = ', '.join(f'{branch.name} {branch.branch.name}' for branch in left.left
                         if branch.name != branch.branch.name)
    told = f'What is left of {printable(network.name)}' + (f', by its branches: {branches}' if branches else '')
    return FurtherFiles({'': print_comments([told]) + print_case(case)}, told_of(network, file_notes(left)))


REST = Word('rest', 'what is left of a network with open branches, and what the choice so far costs',
            'pinchdesk rest examples/four-stream.csv examples/four-stream-begun.txt', (CASE, NETWORK), CaseShown, rest,
            (SHOWN_IN,), further=(REST_CASE,))
