"""Words as functions: of what files hold and of options, with an answer that says its own facts, and no run of the
program twice."""
from __future__ import annotations

import dataclasses
import pickle
from collections import Counter
from collections.abc import Iterator
from decimal import Decimal
from pathlib import Path
from typing import Any

import pytest
from captured import Captured
from conftest import EXAMPLES, example

import pinchdesk
from pinchdesk import Pinch, Refused, WordsError
from pinchdesk.analysis.change_table import read_changes
from pinchdesk.batch.job import Job, done
from pinchdesk.errors import Status
from pinchdesk.formats.plain_files import read_bytes
from pinchdesk.report.facts import Fact
from pinchdesk.search.budget import nobody
from pinchdesk.words.all_words import PLACES, all_words, word_of
from pinchdesk.words.audit_word import audit
from pinchdesk.words.flow_word import flow
from pinchdesk.words.rest_word import REST_CASE, rest
from pinchdesk.words.shared import SweepOptions
from pinchdesk.words.sweep_word import sweep
from pinchdesk.words.tradeoff_word import NETWORKS, TradeoffOptions, tradeoff
from pinchdesk.words.whatif_word import WhatIfOptions, whatif
from pinchdesk.words.word import Files, TextFile, Word, WordGroup


def files_of(**names: str) -> Files:
    """Examples by their roles."""
    return Files({role: (TextFile(name, example(name)),) for role, name in names.items()})


def each_word() -> Iterator[Word[Any]]:
    for word in all_words():
        yield from word.parts if isinstance(word, WordGroup) else [word]


@pytest.fixture
def runs(monkeypatch: pytest.MonkeyPatch) -> list[tuple[object, ...]]:
    """What the program is run with."""
    asked: list[tuple[object, ...]] = []
    ask = Pinch.ask

    def counted(pinch: Pinch, words: list[str], files: dict[str, bytes]) -> str:
        asked.append((*words, *files.values()))
        return ask(pinch, words, files)
    monkeypatch.setattr(Pinch, 'ask', counted)
    return asked


# What a word is.

def test_a_word_is_a_function_of_its_files_and_options() -> None:
    answer = sweep(files_of(case='four-stream.csv'), SweepOptions('0', '20', '10', 1))
    assert [row[:2] for row in answer.facts] == [
        (Fact('least difference', Decimal(difference), 'K'), Fact('hot', Decimal(hot), 'kW'))
        for difference, hot in ((0, 0), (10, 20), (20, 65))]
    assert (answer.status, answer.headline, answer.notes) == (Status.GOOD, '', ())
    assert str(answer.content('csv')).startswith('least difference K,hot kW')
    with pytest.raises(Refused, match='x.csv: case row 1'):
        sweep(Files({'case': (TextFile('x.csv', b'x\n'),)}), SweepOptions('0', '20', '10'))


def test_an_answer_says_what_it_is() -> None:
    answer = flow(files_of(case='too-little-cooling.csv'))
    assert (answer.status, answer.no, answer.facts) == (Status.NO, 'infeasible', ((),))
    assert answer.headline.startswith('No heat flow: these parts have to give 5 kW')
    case, network = 'four-stream.csv', b'exchanger E1 H2 COLD 1\npass H2 E1 a\nend a\n'
    rejected = audit(files_of(case=case) | {'network': (TextFile('n.txt', network),)})
    assert (rejected.status, rejected.no) == (Status.NO, 'rejected') and 'MissedTarget' in rejected.headline


def test_what_is_written_besides_is_a_text() -> None:
    answer = rest(files_of(case='four-stream.csv', network='four-stream-begun.txt'))
    text = answer.further[REST_CASE.name].texts['']
    assert text.startswith('"# What is left of four-stream-begun.txt') and pinchdesk.read_case(text).streams
    ended = rest(files_of(case='tc3.csv', network='tc3-network.txt')).further[REST_CASE.name]
    assert not ended.texts and 'there is no case of the rest' in ended.missing


@pytest.mark.parametrize('word', [pytest.param(word, id=word.name) for word in each_word()])
def test_the_options_that_a_word_declares_are_those_that_it_takes(word: Word[Any]) -> None:
    # When the time of a search begins is for whoever asks, and no option of a user.
    fields = {field.name: field.default for field in dataclasses.fields(word.options) if field.name != 'begun'}
    declared = {option.name: option.default if option.flags else dataclasses.MISSING for option in word.declared}
    assert fields == declared
    assert word.roles and pickle.loads(pickle.dumps(Job(0, ('x',), word.options(**dict.fromkeys(fields)), Files({}))))


def test_each_word_stands_where_its_name_says() -> None:
    assert [word.name for word in all_words()] == list(PLACES)


def test_no_word_and_no_part_is_another_thing() -> None:
    assert word_of(['draw', 'grid']).name == 'grid'
    for words in ('', 'draw', 'x', 'draw x', 'targets x'):
        with pytest.raises(KeyError):
            word_of(words.split())


def test_a_job_says_the_names_that_it_was_given() -> None:
    files = Files({'case': (TextFile('a/b.csv', example('tc3.csv')),), 'network': (TextFile('../c.txt', b'x\n'),)})
    outcome = done(Job(0, ('audit',), word_of(['audit']).options(), files))
    assert (outcome.status, outcome.told.split(':')[0]) == (3, '../c.txt')
    page = Files({'case': files.by_role['case'], 'network': tuple(
        TextFile(f'{folder}/n.txt', example('tc3-network.txt')) for folder in 'xy')})
    outcome = done(Job(0, ('page',), word_of(['page']).options(), page, 'p.html'))
    # Two networks of one name are told apart by the names that the user gave.
    assert outcome.status == 0 and 'x/n.txt' in str(outcome.content) and 'y/n.txt' in str(outcome.content)


def test_networks_that_are_held_here_are_told_apart(tmp_path: Path) -> None:
    network = example('tc3-network.txt')
    results = pinchdesk.many('page', {'a': (example('tc3.csv'), network, network)}, processes=1, into=str(tmp_path))
    page = (tmp_path / 'a.html').read_text()
    assert results.status == 0 and 'Grid diagram of a network"' in page and 'Grid diagram of a network 2"' in page


def test_a_word_that_goes_to_a_file_needs_one_that_is_a_picture(tmp_path: Path) -> None:
    results = pinchdesk.many('draw curves', {'a': example('tc3.csv')}, processes=1, into=str(tmp_path), ending='txt')
    assert results.done[0].outcome.told == 'a.txt: a picture is a file .svg, .png or .pdf' and results.status == 2
    with pytest.raises(WordsError, match='argument --utility'):
        pinchdesk.many('draw prices', {'a': example('tc3.csv')}, '--utility')


# No run twice.

def test_scenarios_ask_the_case_once(runs: list[tuple[object, ...]]) -> None:
    answer = whatif(files_of(case='two-steam-levels.csv', changes='changes.csv'), WhatIfOptions(workers=1))
    assert answer.status == Status.GOOD
    assert [run for run, times in Counter(runs).items() if times > 1] == []
    assert sum(run[0] == 'targets' and run[-1] == example('two-steam-levels.csv') for run in runs) == 1


def test_a_trade_off_judges_its_network_once(runs: list[tuple[object, ...]]) -> None:
    network = example('four-stream-network.txt')
    files = files_of(case='four-stream.csv', network='four-stream-network.txt')
    answer = tradeoff(files, TradeoffOptions('1'), nobody)
    assert answer.further[NETWORKS.name].texts and Fact('cost', Decimal(20000), 'price times W') in answer.facts[0]
    assert sum(run[0] == 'audit' and run[-1] == network for run in runs) == 1


def test_many_read_their_files_once(monkeypatch: pytest.MonkeyPatch, tmp_path: Path,
                                    capfd: pytest.CaptureFixture[str]) -> None:
    tables, paths = Counter[object](), Counter[str]()

    def counted_changes(content: bytes, name: str, basis: Any) -> Any:
        tables[basis and basis.price_unit] += 1
        return read_changes(content, name, basis)

    def counted_bytes(path: str) -> bytes:
        paths[path] += 1
        return read_bytes(path)
    monkeypatch.setattr('pinchdesk.batch.scenarios.read_changes', counted_changes)
    monkeypatch.setattr('pinchdesk.batch.loaded_files.read_bytes', counted_bytes)
    changes = tmp_path / 'changes.csv'
    changes.write_text('scenario;source;field;value\nhotter;H2;supply;+10 K\nless;H2;CP;-5 %\n')
    names = ('four-stream', 'tc3')
    (tmp_path / 'list').write_text('\n'.join(f'{EXAMPLES}/{name}.csv' for name in names) + '\n')
    ended = Captured(capfd)('many', 'audit', str(tmp_path / 'list'), '--scenarios', str(changes), '--network',
                            str(EXAMPLES / 'four-stream-network.txt'), '--processes', '1', '--form', 'csv')
    assert len(ended.out.splitlines()) == 7
    assert tables == {None: 1, '': 1} and set(paths.values()) == {1} and len(paths) == 3
