"""Runs `pinch`: the only place that starts it, with a list of words and never a shell.

Files are handed over as texts, or as what the desk read of them; the program is given copies in a folder of its own,
so what it reads is what the desk read, whatever their names are."""
from __future__ import annotations

import os
import shutil
import subprocess
import tempfile
from collections.abc import Callable
from pathlib import Path
from typing import TypeVar

from ..errors import ProgramError, Refused, WordsError
from ..formats.case import Case, print_case, records, units_of
from ..formats.limits import outside_of_row
from ..formats.network import Network, print_network
from ..formats.study import Study, print_study, read_study
from . import parse as printed
from .answers import Curves, Cut, Design, HeatFlow, Prices, SiteAnswer, Sweep, Targets
from .verdicts import Verdict

PACKAGE = next(folder for folder in Path(__file__).resolve().parents if folder.name == 'pinchdesk')
Answer = TypeVar('Answer')
CaseText = Case | str | bytes
NetworkText = Network | str | bytes
StudyText = Study | str | bytes
# By the status: the words were wrong, a case or a site, another file, one too long, one that cannot be read.
WORDS, REFUSED, UNREADABLE = 2, (3, 4, 5), 6


def found() -> str:
    """The path of the program: `$PINCH`, else the one of this checkout or of this installation, else the one on the
    path. `ProgramError` where there is none."""
    told = os.environ.get('PINCH')
    if told:
        path = shutil.which(told)
        if not path:
            raise ProgramError(f'$PINCH is {told}, which is not a program')
        return os.path.abspath(path)
    own = own_program(PACKAGE)
    if own.is_file() and os.access(own, os.X_OK):
        return str(own)
    path = shutil.which('pinch')
    if not path:
        raise ProgramError(f'there is no `pinch`: no $PINCH, no {own}, none on the path (see the README)')
    return os.path.abspath(path)


def own_program(package: Path) -> Path:
    """Where the program of this package lies: in a checkout the one that is built there, else the one that came with
    the package, below PREFIX/bin for PREFIX/lib/python3.N/site-packages, as environments, homes and Debian have it, or
    in the folder `bin` beside it, as `pip install --target` has it."""
    packages = package.parent
    if packages.name == 'src':
        return packages.parents[1] / 'crates' / 'pinch' / 'out' / 'pinch'
    prefix = packages.parents[2] if packages.name in ('site-packages', 'dist-packages') else packages
    return prefix / 'bin' / 'pinch'


class Pinch:
    """The program `pinch`. Each call is one run; each raises `Refused` where a file is refused, `WordsError` where a
    number is out of its limits, `ProgramError` where the program did not end by itself (killed, or without
    memory)."""

    def __init__(self, path: str | None = None) -> None:
        self.path = path or found()

    def targets(self, case: CaseText) -> Targets:
        """The least hot and cold utility, and the pinches."""
        return self.answer(printed.targets_of, ['targets', 'case'], {'case': case_bytes(case)})

    def flow(self, case: CaseText) -> HeatFlow | Cut:
        """A heat flow of least cost with its proof, or the proof that there is none."""
        return self.answer(printed.flow_of, ['flow', 'case'], {'case': case_bytes(case)})

    def uses(self, case: CaseText) -> HeatFlow | Cut:
        """As `flow`, but with the cost and the uses alone: for many of them."""
        return self.answer(printed.uses_of, ['flow', 'case'], {'case': case_bytes(case)})

    def curves(self, case: CaseText) -> Curves:
        """The composite curves and the grand one."""
        return self.answer(printed.curves_of, ['curves', 'case'], {'case': case_bytes(case)})

    def design(self, case: CaseText) -> Design | Cut:
        """A network that realises the heat flow of `flow`, or the proof that there is none."""
        return self.answer(printed.design_of, ['design', 'case'], {'case': case_bytes(case)})

    def vertical(self, case: CaseText) -> Design:
        """A network from the composite curves. `Refused` where the case is not standard, or has latent streams."""
        made = self.answer(printed.design_of, ['vertical', 'case'], {'case': case_bytes(case)})
        assert isinstance(made, Design)
        return made

    def audit(self, case: CaseText, network: NetworkText) -> Verdict:
        """What a network is: accepted with its balance, rejected at a place, or too fine."""
        files = {'case': case_bytes(case), 'network': network_bytes(network)}
        return self.answer(printed.verdict_of, ['audit', 'case', 'network'], files)

    def certify(self, case: CaseText, report: str | bytes) -> tuple[bool, str]:
        """Whether a printed flow proves what it says, and the answer."""
        answer = self.ask(['certify', 'case', 'report'], {'case': case_bytes(case), 'report': as_bytes(report)})
        return answer.startswith('yes'), answer

    def sweep(self, case: CaseText, first: int, last: int, step: int, workers: int = 1) -> Sweep:
        """Targets and least cost at each contribution of a range, in tenths of °C."""
        words = ['sweep', 'case', str(first), str(last), str(step), str(workers)]
        return self.answer(printed.sweep_of, words, {'case': case_bytes(case)})

    def prices(self, case: CaseText, study: StudyText, workers: int = 1) -> Prices:
        """The least cost at other prices."""
        content = print_study(study).encode() if isinstance(study, Study) else as_bytes(study)
        words, files = ['prices', 'case', 'study', str(workers)], {'case': case_bytes(case), 'study': content}
        return self.answer(lambda text: printed.prices_of(read_study(content), text), words, files)

    def site(self, site: str | bytes) -> SiteAnswer:
        """The profiles and the heat flow of plants on shared mains."""
        return self.answer(printed.site_of, ['site', 'site'], {'site': as_bytes(site)})

    def answer(self, reading: Callable[[str], Answer], words: list[str], files: dict[str, bytes]) -> Answer:
        """One run, read; `ProgramError` where what it printed is no such answer."""
        text = self.ask(words, files)
        try:
            return reading(text)
        except (ValueError, IndexError, StopIteration) as fault:
            raise ProgramError(f'{self.path} answered what `pinch {words[0]}` does not: {text[:60]!r}') from fault

    def ask(self, words: list[str], files: dict[str, bytes]) -> str:
        """One run: what it printed, where it is an answer."""
        with tempfile.TemporaryDirectory(prefix='pinchdesk-') as folder:
            for name, content in files.items():
                Path(folder, name).write_bytes(content)
            try:
                done = subprocess.run([self.path, *words], cwd=folder, stdin=subprocess.DEVNULL, capture_output=True,
                                      check=False)
            except OSError as fault:
                raise ProgramError(f'{self.path} cannot be run: {fault.strerror}') from fault
        text = done.stdout.decode('ascii', 'replace')
        if done.returncode in (0, 1, 9):
            return text
        raise named(refusal(done.returncode, text, words), files.get('case', b''))


def named(fault: Exception, case: bytes) -> Exception:
    """A refusal of a case with the number that is outside its limits."""
    if isinstance(fault, Refused) and fault.cause == 'OutOfRange' and fault.place.startswith('case row '):
        row = dict(records(case)).get(int(fault.place.split()[-1]), [])
        said = outside_of_row(row, units_of(case) is not None)
        return Refused(fault.answered, fault.place, fault.cause, f'{fault.text}: {said}' if said else fault.text)
    return fault


def refusal(status: int, text: str, words: list[str]) -> Exception:
    """The error of a run that gave no answer."""
    said = text.strip()
    if status == WORDS:
        return WordsError(f'pinch takes no such words: {" ".join(words)}')
    if status in REFUSED:
        place, _, cause = said.rpartition(' ')
        return Refused(status, place, cause, said)
    if status == UNREADABLE:
        return Refused(status, said, 'cannot be read', said)
    return ProgramError(f'pinch ended with the status {status}' + (f': {said}' if said else ''))


def as_bytes(text: str | bytes) -> bytes:
    return text if isinstance(text, bytes) else text.encode()


def case_bytes(case: CaseText) -> bytes:
    return print_case(case).encode() if isinstance(case, Case) else as_bytes(case)


def network_bytes(network: NetworkText) -> bytes:
    return print_network(network).encode() if isinstance(network, Network) else as_bytes(network)
