"""The answers to many cases as one table: one or more rows for each, in the order in which they were given."""
from __future__ import annotations

from collections import Counter
from collections.abc import Iterator, Mapping
from dataclasses import dataclass
from typing import Any

from ..errors import Status
from ..report.sheet import Sheet
from .job import SAID, Cells, JobOutcome

ANSWER = 'answer'
# By the status with which the word would have ended; of 1 the outcome says it.
ANSWERS: dict[int | None, str] = {
    Status.GOOD: 'good', Status.FAILED: 'failed', Status.REFUSED: 'refused', Status.TOO_FINE: 'too fine',
    Status.BROKEN: 'failed', Status.STOPPED: 'not done', None: 'not done'}


@dataclass(frozen=True)
class Done:
    """One case: the names of its files by their headings, and what came of it."""

    names: Mapping[str, str]
    outcome: JobOutcome

    @property
    def name(self) -> str:
        return next(iter(self.names.values()))

    @property
    def answer(self) -> str:
        """What came of it in a word."""
        return self.outcome.no if self.outcome.status == Status.NO else ANSWERS.get(self.outcome.status, 'failed')

    def rows(self) -> Iterator[Cells]:
        for facts in self.outcome.facts:
            said = '; '.join(text for text in (str(facts.get(SAID) or ''), self.outcome.told) if text)
            yield {**self.names, ANSWER: self.answer, **self.apart(facts), SAID: said or None}

    def apart(self, facts: Cells) -> Cells:
        """What an answer says, with no heading that is one of the case's own."""
        return {f'its {heading}' if heading in (*self.names, ANSWER) else heading: cell
                for heading, cell in facts.items()}


@dataclass(frozen=True)
class Results:
    """All cases in their order. `status` is that of the whole: that of the worst case, where one that was not done
    failed, or STOPPED."""

    word: str
    done: tuple[Done, ...]
    notes: tuple[str, ...] = ()
    stopped: bool = False

    @property
    def status(self) -> int:
        if self.stopped:
            return Status.STOPPED
        statuses = (case.outcome.status for case in self.done)
        return max((Status.FAILED if status is None else status for status in statuses), default=Status.GOOD)

    @property
    def told(self) -> str:
        """How many there are of each answer: `15 cases: 12 good, 3 refused`."""
        counts = Counter(case.answer for case in self.done)
        return f'{len(self.done)} cases: ' + ', '.join(f'{count} {answer}' for answer, count in counts.items())

    def sheet(self) -> Sheet:
        """The table: names, the answer in a word, what the answers say of themselves, and what is said of a row. A
        row that is not good is marked."""
        rows = [(row, case.outcome.status != 0) for case in self.done for row in case.rows()]
        headings = list(dict.fromkeys(heading for row, _ in rows for heading in row if heading != SAID))
        if any(row[SAID] for row, _ in rows):
            headings.append(SAID)
        cells = tuple(tuple(row.get(heading) for heading in headings) for row, _ in rows)
        return Sheet(self.word, tuple(headings), cells, frozenset(at for at, (_, bad) in enumerate(rows) if bad))

    def frame(self) -> Any:
        """The table as a `pandas.DataFrame`; `WordsError` where pandas is not installed."""
        return self.sheet().frame()
