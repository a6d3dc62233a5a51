"""The blocks of commands in the documents, each run whole by a shell in a folder of its own, and what the documents say
of them; sentences with an answer in documents that `docs` does not read; the table of what a spreadsheet does."""
from __future__ import annotations

import os
import re
import subprocess
import tempfile
from collections.abc import Container

from common import ROOT, Report, example, run
from patience import written

DOCUMENTS = ('README.md', 'docs/USER_GUIDE.md', 'docs/HOW_TO_ENTER.md', 'docs/NETWORK_BY_HAND.md',
             'docs/ENERGY_TO_MONEY.md', 'docs/UTILITIES.md')
# Where the table of what a spreadsheet does stands.
TABLE_OF_ROWS = 'docs/HOW_TO_ENTER.md'
# These have their sentences compared by `docs` itself.
COMPARED = ('README.md', 'docs/USER_GUIDE.md')
LINE = re.compile(r'((hot|cold|pinch|cost|excess) -?[0-9/]+|accepted)\Z')
CODE = re.compile(r'```sh\n(.*?)```', re.S)
# What builds, proves, installs or reaches other machines is not run here.
OUTSIDE = re.compile(r'\brt\b|ssh|dask-|checks/|\.ci/|\bpip\b|pipx|apt-get|desk/test')
DESK = '/usr/bin/python3'


def has_desk() -> bool:
    """Whether the desk has its packages."""
    asked = [DESK, '-c', 'import openpyxl, pint, matplotlib, jinja2']
    return os.access(DESK, os.X_OK) and subprocess.run(asked, stderr=subprocess.DEVNULL).returncode == 0


class Blocks:
    def __init__(self, program: str, report: Report, with_desk: bool) -> None:
        self.program, self.report, self.with_desk = program, report, with_desk
        self.left: list[str] = []

    def check(self, documents: Container[str]) -> None:
        for name in DOCUMENTS:
            if name in documents:
                with self.report.reading(name), tempfile.TemporaryDirectory(prefix='a folder ') as folder:
                    self.document(name, folder)
        if TABLE_OF_ROWS in documents:
            with self.report.reading(TABLE_OF_ROWS):
                self.spreadsheets()

    def document(self, name: str, folder: str) -> None:
        with open(os.path.join(ROOT, name), encoding='utf-8') as handle:
            content = handle.read()
        for place in ('examples', 'desk'):
            os.symlink(os.path.join(ROOT, place), os.path.join(folder, place))
        os.mkdir(os.path.join(folder, 'bin'))
        os.symlink(self.program, os.path.join(folder, 'bin', 'pinch'))
        for block in CODE.findall(content):
            self.block(name, content, block, folder)
        if name not in COMPARED:
            self.sentences(name, content, folder)

    def block(self, name: str, content: str, block: str, folder: str) -> None:
        if OUTSIDE.search(block):
            return
        if 'desk/' in block and not self.with_desk:
            return self.left.append('%s: no desk, or none with its packages: %s' % (name, block.split('\n')[0]))
        environment = dict(os.environ, PINCH=self.program, PATH=os.path.join(folder, 'bin') + ':' + os.environ['PATH'])
        with subprocess.Popen(['sh', '-e', '-c', block], cwd=folder, env=environment, stdin=subprocess.DEVNULL,
                              stdout=subprocess.PIPE, stderr=subprocess.STDOUT) as done:
            output, _, late = written(done)
        lines = output.decode().split('\n')
        said = [part.strip() for comment in re.findall(r'#(.*)', block) for part in comment.split(',')]
        missing = [line for line in said if LINE.match(line) and line not in lines]
        below = re.match(r'\s*It prints\s*```\n(.*?)```', content.split(block)[1][3:], re.S)
        right = done.returncode == 0 and not missing and (not below or output.decode() == below.group(1))
        self.report.count(right, '%s: %s' % (name, block), (late or done.returncode, output),
                          'status 0 and %s' % missing)

    def sentences(self, name: str, content: str, folder: str) -> None:
        for words, said in re.findall(r'`pinch ([^`]+)` prints ((?:`[^`]+`(?:, and |, | and )?)+)', content):
            got = run(self.program, words.split(), folder)
            lines = re.findall(r'`([^`]+)`', said)
            right = got[0] == 0 and all(line in got[1].decode().split('\n') for line in lines)
            self.report.count(right, '%s: pinch %s' % (name, words), got, lines)

    def spreadsheets(self) -> None:
        """The table of what a spreadsheet does: each row as a file, and its answer; then networks from an editor."""
        with open(os.path.join(ROOT, TABLE_OF_ROWS), encoding='utf-8') as handle:
            content = handle.read()
        with tempfile.TemporaryDirectory() as folder:
            for answer, rows in re.findall(r'^\| `(case row \d \w+)` \| (.*?) \|', content, re.M):
                self.write(folder, 'a file.csv', ''.join(row + '\n' for row in re.findall(r'`([^`]+)`', rows)))
                got = run(self.program, ['targets', 'a file.csv'], folder)
                self.report.count(got == (3, (answer + '\n').encode()), 'HOW_TO_ENTER: %s' % rows, got, answer)
            self.write(folder, 'a case.csv', example('four-stream.csv').decode())
            for content, answer in (('\ufeffexchanger E1 H2 C3 5\n', b'network line 1 UnknownWord\n'),
                                    ('exchanger E1 H2 C3 5\rpass H2 E1 a\r', b'network line 1 FieldCount\n')):
                self.write(folder, 'a net.txt', content)
                got = run(self.program, ['audit', 'a case.csv', 'a net.txt'], folder)
                self.report.count(got == (4, answer), 'HOW_TO_ENTER: a network from an editor', got, answer)

    def write(self, folder: str, name: str, content: str) -> None:
        with open(os.path.join(folder, name), 'w', encoding='utf-8', newline='') as handle:
            handle.write(content)
