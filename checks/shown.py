"""What the documents show, answer by answer: each block with its command, each sentence of the form
"`pinch WORDS` prints `LINE`, `LINE`", each row of a table of refusals or answers; the text is compared byte for byte. A
block that shows a file is compared with the file that the sentence above it names. In a block a line `...` stands for
any lines, and "begins" above it leaves the rest open."""
from __future__ import annotations

import os
import re
import tempfile

from common import ROOT, TABLE, Report, example, run, text

COMMANDS = 'targets flow curves design vertical audit site sweep sample certify prices'.split()
# The documents whose blocks and sentences are compared here.
COMPARED = ('README.md', 'crates/pinch/README.md', 'docs/USER_GUIDE.md', 'docs/FORMATS.md')
SPAN = re.compile(r'`([^`]+)`')
LINE = re.compile(r'((hot|cold|pinch|cost|excess|floor|place|boiler|cooling) -?[0-9/]+|pinch none|accepted|infeasible|'
                  r'row [0-9 ]+( infeasible)?|yes cost -?[0-9]+)\Z')
ROW = re.compile(r'(contribution|hot|cold|heater|cooler|forbid|plant|main|scenario|price|span),[^`]*\Z')
ASKED = re.compile(r'(scenario|price|span),')
ORDINALS = {'fifth': 5, 'thirty-first': 31}
FOUR = 'examples/four-stream.csv'
FOUR_ROWS = example('four-stream.csv')


class Docs:
    def __init__(self, program: str, report: Report) -> None:
        self.program, self.report, self.shown = program, report, 0
        self.left: list[str] = []
        self.printed: dict[str, bytes] = {}
        self.rows: list[str] = []
        # What was shown or told last: a case by its file or as it is, a network, a design's words.
        self.case: str | bytes = FOUR
        self.network: str | None = None
        self.design: list[str] | None = None

    def read(self, name: str) -> None:
        with open(os.path.join(ROOT, name), encoding='utf-8') as handle:
            lines = handle.read().split('\n')
        self.name, self.case, self.network, self.design, self.heading, self.part = name, FOUR, None, None, '', ''
        self.audited_case = FOUR
        above, at = '', 0
        while at < len(lines):
            line = lines[at]
            if line.startswith('#'):
                self.heading, above = line.lstrip('# '), ''
                self.part = self.heading if line.startswith('## ') else self.part
                at += 1
            elif line.startswith('```'):
                end = lines.index('```', at + 1)
                below = next((line for line in lines[end + 1:] if line), '')
                self.where = '%s:%d' % (name, at + 1)
                with self.report.reading(self.where):
                    self.block(line[3:], lines[at + 1:end], above, below)
                at = end + 1
            elif line.startswith('|'):
                end = at
                while end < len(lines) and lines[end].startswith('|'):
                    end += 1
                self.where = '%s:%d' % (name, at + 1)
                with self.report.reading(self.where):
                    self.table([[cell.strip() for cell in row.strip('|').split('|')] for row in lines[at:end]], above,
                               at + 1)
                at, above = end, ''
            elif line:
                end = at
                while end < len(lines) and lines[end] and not lines[end].startswith(('```', '|', '#')):
                    end += 1
                above = ' '.join(lines[at:end])
                self.where = '%s:%d' % (name, at + 1)
                with self.report.reading(self.where):
                    self.sentences(above)
                at = end
            else:
                at += 1

    # One run, in a folder that has the examples and what was made before.

    def answer(self, words: list[str], files: dict[str, bytes] | None = None) -> tuple[int | str, str]:
        with tempfile.TemporaryDirectory() as folder:
            os.symlink(os.path.join(ROOT, 'examples'), os.path.join(folder, 'examples'))
            for name, content in (files or {}).items():
                with open(os.path.join(folder, name), 'wb') as handle:
                    handle.write(content)
            status, written = run(self.program, words, folder)
            return status, written.decode('latin-1')

    def compare(self, what: str, words: list[str], files: dict[str, bytes] | None, status: int, lines: list[str],
                rest: bool = False) -> None:
        got = self.answer(words, files)
        pattern = ''.join('(?:.*\n)*?' if line == '...' else re.escape(line) + '\n'
                          for line in lines) + ('(?:.*\n)*' if rest or lines[-1:] == ['...'] else '')
        right = got[0] == status and re.fullmatch(pattern, got[1]) is not None
        self.report.count(right, '%s: %s (pinch %s)' % (self.where, what, ' '.join(words)), (got[0], got[1]),
                          'status %d, %r' % (status, '\n'.join(lines)))

    def leave(self, why: str) -> None:
        self.left.append('%s: %s' % (self.where, why))

    # Blocks.

    def block(self, language: str, lines: list[str], above: str, below: str) -> None:
        self.shown += 1
        spans = SPAN.findall(above)
        if language == 'sh':
            for line in lines if not any('desk/' in line for line in lines) else ():
                self.shell(line)
        elif ROW.match(lines[0]):
            self.shown_file(lines, spans)
        elif lines[0].split()[0] in ('exchanger', 'split', 'pass'):
            self.shown_network(lines, above, spans)
        else:
            self.shown_text(lines, above, below, spans)

    def shell(self, line: str) -> None:
        command, _, said = line.partition('#')
        command, _, file = command.partition('>')
        words = command.split()
        if not words or os.path.basename(words[0]) != 'pinch':
            return self.leave('no command of pinch: %s' % line.strip()) if words else None
        status, written = self.answer(words[1:], self.printed)
        if file.strip():
            self.printed[file.strip()] = written.encode()
        wanted = [part.strip() for part in said.split(',') if LINE.match(part.strip())]
        right = status == 0 and all(line in written.split('\n') for line in wanted)
        self.report.count(right, '%s: %s' % (self.where, line), (status, written), 'status 0 and the lines %s' % wanted)

    def shown_file(self, lines: list[str], spans: list[str]) -> None:
        named = [span for span in spans if span.startswith('examples/') and span.endswith('.csv')]
        self.rows = lines
        if not named:
            self.case = text(*lines)
            return self.report.count(self.answer(['targets', 'case'], {'case': self.case})[0] == 0,
                                     '%s: the case that is shown' % self.where, (0, ''), 'a case')
        written = example(os.path.basename(named[-1])).decode().split('\n')
        whole = lines[0].startswith('contribution') or ASKED.match(lines[0]) is not None
        # Comment rows are not shown.
        if whole:
            right = [row for row in written if not row.startswith('#')] == lines + ['']
        else:
            right = any(written[at:at + len(lines)] == lines for at in range(len(written)))
        self.case = self.case if ASKED.match(lines[0]) else named[-1]
        self.report.count(right, '%s: %s as it is shown' % (self.where, named[-1]), (0, '\n'.join(written)), lines)

    def shown_network(self, lines: list[str], above: str, spans: list[str]) -> None:
        named = [span for span in spans if span.startswith('examples/') and span.endswith('.txt')]
        if named:
            written = example(os.path.basename(named[-1])).decode()
            # What is shown leaves out the comments.
            written = ''.join(line + '\n' for line in written.split('\n') if line and not line.startswith('#'))
            pattern = ''.join('(?:.*\n)*?' if line == '...' else re.escape(line) + '\n'
                              for line in lines) + ('(?:.*\n)*' if lines[-1] == '...' else '')
            self.network = named[-1]
            return self.report.count(re.fullmatch(pattern, written) is not None,
                                     '%s: %s as it is shown' % (self.where, named[-1]), (0, written), lines)
        case = told_case(above)
        if not case:
            return self.leave('a network whose case is not told')
        self.compare('the network that is shown', ['audit', 'case', 'net'], {'case': case, 'net': text(*lines)}, 0,
                     ['accepted'], True)

    def shown_text(self, lines: list[str], above: str, below: str, spans: list[str]) -> None:
        status = int((re.findall(r'with status (\d)', above) or ['1' if 'infeasible' in lines else '0'])[-1])
        rest = 'begin' in above or below.startswith('and then')
        called = [span for span in spans if (span[6:] if span.startswith('pinch ') else span).split()[0] in COMMANDS
                  and not LINE.match(span)]
        rows = [span for span in spans if ROW.match(span)]
        files = {}
        if called:
            words = called[-1].split()
            words = words[1:] if words[0] == 'pinch' else words
            if len(words) == 1:
                words += [span for span in spans if span.startswith('examples/')]
            words = [FOUR if word == 'CASE' and 'four-stream' in above else word for word in words]
        elif 'audit answers' in above and self.network:
            words = ['audit', self.audited_case, 'net']
            files['net'] = example(os.path.basename(self.network))
            for name, duty in re.findall(r'\b([A-Z]\d) (\d+)\b', above):
                files['net'] = re.sub(rb'(exchanger %s \S+ \S+) \d+' % name.encode(), rb'\g<1> ' + duty.encode(),
                                      files['net'])
        elif rows and any(ASKED.match(row) for row in rows):
            words = ['prices', 'case', 'study', '1']
            base = FOUR_ROWS if 'four-stream' in above else text('contribution,,50,,,,')
            files = {'case': base + text(*[row for row in rows if not ASKED.match(row)]),
                     'study': text(*[row for row in rows if ASKED.match(row)])}
            status = 0
        elif rows:
            words = [SPAN.findall(self.heading)[0], 'file']
            alone = re.search(r'the plant `(\w+)` alone', above)
            files['file'] = text(*(rows if not alone else self.altered(rows, alone.group(1))))
            if not alone:
                self.rows = rows
        else:
            return self.leave('no command is told')
        if words[0] in ('design', 'vertical') and not files:
            self.design = words
        if words[0] == 'audit' and not files:
            self.audited_case = words[1]
        self.compare('the text that is shown', words, files, status, lines, rest)

    def altered(self, rows: list[str], plant: str) -> list[str]:
        """The site that was shown last, with these rows in place of those of their names, and one plant."""
        out, inside = [], True
        for row in self.rows:
            kind, name = row.split(',')[:2]
            if kind == 'plant':
                inside = name == plant
            instead = [other for other in rows if other.split(',')[:2] == [kind, name]]
            if kind in ('contribution', 'main') or inside:
                out.append(instead[0] if instead else row)
        return out

    # Sentences.

    def sentences(self, said: str) -> None:
        for match in re.finditer(r'`pinch ([^`]+)` prints ((?:`[^`]+`(?:, and |, | and )?)+)', said):
            lines = [span for span in SPAN.findall(match.group(2)) if LINE.match(span)]
            self.compare('what is said', match.group(1).split(), None, 0, lines)
        for match in re.finditer(r'`pinch ([^`]+)` answers `([^`]+)`, with status (\d)(?:, and (.*?) answer the same)?',
                                 said):
            asked = match.group(1).split()
            for other in [asked[0]] + SPAN.findall(match.group(4) or ''):
                words = [other] + asked[1:] + ['nothing'] * (other == 'audit')
                self.compare('what is said', words, None, int(match.group(3)), [match.group(2)])
        prints = re.match(r'prints ((?:`[^`]+`(?:, | and )?)+)', said)
        if prints and isinstance(self.case, bytes):
            self.compare('what is said', ['targets', 'case'], {'case': self.case}, 0, SPAN.findall(prints.group(1)))
        swept = re.match(r'With (.*) the numbers `([0-9 ]+)` give `([^`]+)`', said)
        if swept:
            self.compare('what is said', ['sweep', 'case'] + swept.group(2).split(),
                         {'case': text('contribution,,50,,,,', *SPAN.findall(swept.group(1)))}, 0, [swept.group(3)])
        for row in re.findall(r'So `([^`]+)` is a (?:hot stream|vapour)',
                              said) + re.findall(r'with `([^`]+)` a stream has none', said):
            self.compare('a row that is read', ['targets', 'file'], {'file': text('contribution,,50,,,,', row)}, 0,
                         ['hot 0', '...'])
        standard = re.search(r'with the one hot stream `([^`]+)` and a contribution of (\d+) the row `([^`]+)` leaves '
                             r'the case standard, and `([^`]+)` does not', said)
        stream, share, *rows = standard.groups() if standard else ('', '')
        for row, status, first in zip(rows, (0, 3), ('# hot 0 cold 5000 excess 0 cost 0', 'case not standard')):
            case = text('contribution,,%s,,,,' % share, stream, row)
            self.compare('whether a case is standard', ['vertical', 'file'], {'file': case}, status, [first],
                         status == 0)
        if said.startswith('These are no command'):
            for span in SPAN.findall(said):
                self.compare('no command', [FOUR if word == 'CASE' else word for word in span.split()], None, 2,
                             [TABLE[:-1]])
        if self.design and re.search(r'(?:`pinch audit \S+ \S+` accepts|`audit` accepts) it with excess 0', said):
            made = self.answer(self.design)[1].encode()
            self.compare('what %s prints, audited' % self.design[0], ['audit', self.design[1], 'net'], {'net': made}, 0,
                         ['accepted', '...', 'excess 0'], True)

    # Tables.

    def table(self, rows: list[list[str]], above: str, at: int) -> None:
        head, rows = rows[0], rows[2:]
        for number, row in enumerate(rows):
            self.where = '%s:%d' % (self.name, at + 2 + number)
            if head[1:2] == ['Else'] and len(head) > 2:
                why = SPAN.findall(row[1])[0]
                if 'network' in self.part:
                    self.refused_network(why, row[2])
                elif 'study' in self.part:
                    self.refused_study(why, row[2])
                elif 'report' in self.part:
                    self.refused_report(why, row[2])
                else:
                    self.refused_row(why, row[2])
            elif head == ['Network', 'Answer']:
                self.audited(row, above)
            elif head[1:] == ['Cause']:
                base = ['contribution,,50,,,,'] + SPAN.findall(head[0])
                self.compare('refused', ['targets', 'file'], {'file': text(*base, SPAN.findall(row[0])[0])}, 3,
                             ['case row %d %s' % (len(base) + 1, SPAN.findall(row[1])[0])])
            elif head[:2] == ['Words', 'Text'] or head[:2] == ['Answer', 'Text']:
                self.leave('a form of a text: %s' % row[0])

    def refused_row(self, why: str, said: str) -> None:
        site = 'site' in self.part
        command, role = ('site', 'site') if site else ('targets', 'case')
        base = ['contribution,,50,,,,', 'main,MP,1500,,,,', 'plant,A,,,,,', 'hot,H,2000,1000,10,,', 'plant,B,,,,,',
                'cold,C,500,1300,10,,'] \
            if site else ['contribution,,50,,,,', 'hot,H,1000,500,10,,']
        spans = SPAN.findall(said)
        many = re.match(r'a ([\w-]+) `(\w+)` row\Z', said)
        end = 0
        if said.startswith('an empty file'):
            rows, end = [], 1
        elif 'alone' in said and spans:
            rows, end = spans, 1
        elif said == 'a contribution and a main alone':
            rows, end = base[:2], 1
        elif many and many.group(1) in ORDINALS:
            like = {'hot': 'hot,%s,900,400,10,,', 'main': 'main,%s,1200,,,,'}[many.group(2)]
            there = sum(row.startswith(many.group(2) + ',') for row in base)
            rows = base + [like % ('K%d' % number) for number in range(ORDINALS[many.group(1)] - there)]
        elif said.startswith('a `hot` row above every `plant` row'):
            rows = base[:1] + ['hot,K L,900,400,10,,']
        elif said.endswith('a second time'):
            rows = base + ([] if site else ['cold,C,300,700,10,,']) + [spans[0], spans[0]]
        elif spans and ROW.match(spans[0]) or spans and spans[0].count(',') > 3:
            for span in spans[1:] if ' below ' not in said and ' without ' not in said else []:
                self.compare('refused', [command, 'file'], {'file': text(*base, span)}, 3,
                             ['%s row %d %s' % (role, len(base) + 1, why)])
            rows = base + [spans[0]]
        else:
            return self.leave('an example in words: %s' % said)
        self.compare('refused', [command, 'file'], {'file': text(*rows)}, 3,
                     ['%s row %d %s' % (role, len(rows) + end, why)])

    def refused_network(self, why: str, said: str) -> None:
        case = text('contribution,,50,,,,', 'hot,H,1000,500,10,,', 'cold,C,300,700,10,,')
        spans = SPAN.findall(said)
        if said == 'a statement 100,001':
            splits = ['split %s s%d 1/1000000 r%d' % ('r%d' % number if number else 'H', number, number + 1)
                      for number in range(100001)]
            tried = [(splits, 100001)]
        elif said.startswith('exchanger 20,001'):
            tried = [(['exchanger E%d H C 1' % number for number in range(1, 20002)], 20001)]
        elif spans:
            first = spans[0].split('; ')
            line = int(re.findall(r'(?:at|exchanger,) (\d+)', said)[-1])
            tried = [(first, line)] + [([first[0].rsplit(' ', 1)[0] + ' ' + other], line) for other in spans[1:]]
        else:
            return self.leave('an example in words: %s' % said)
        for statements, line in tried:
            self.compare('refused', ['audit', 'case', 'net'], {'case': case, 'net': text(*statements)}, 4,
                         ['network line %d %s' % (line, why)])

    def refused_report(self, why: str, said: str) -> None:
        spans, line = SPAN.findall(said), int(re.findall(r'(?:at|statement,) (\d+)', said)[-1])
        for span in spans:
            self.compare('refused', ['certify', FOUR, 'report'], {'report': text(*span.split('; '))}, 4,
                         ['report line %d %s' % (line, why)])

    def refused_study(self, why: str, said: str) -> None:
        spans = SPAN.findall(said)
        if said == 'a 1,001st `span` row':
            tried, line = [['span,HOT,0,1'] * 1001], 1001
        else:
            tried, line = [span.split('; ') for span in spans], int(re.findall(r'(?:at|row,) (\d+)', said)[-1])
        for rows in tried:
            self.compare('refused', ['prices', FOUR, 'study', '1'], {'study': text(*rows)}, 4,
                         ['study row %d %s' % (line, why)])

    def audited(self, row: list[str], above: str) -> None:
        case = told_case(above)
        named = re.search(r'where `X` is `([^`]+)`', above)
        spans, wanted = SPAN.findall(row[0]), SPAN.findall(row[1])[0]
        small = re.match(r'with one stream `H` of CP (\d+): `', row[0])
        extra = re.search(r'the case has the row `([^`]+)`', row[0])
        if row[0] == 'no statement':
            network = ''
        elif not spans:
            return self.leave('an example in words: %s' % row[0])
        else:
            network = spans[1] if small else named.group(1) if spans[0] == 'X' and named else spans[0]
        if small:
            case = text('contribution,,50,,,,', 'hot,H,1000,500,%s,,' % small.group(1))
        if case is None:
            return self.leave('networks whose case is not told')
        if extra:
            case += text(extra.group(1))
        status = 9 if wanted.startswith('too fine') else 1
        self.compare('audited', ['audit', 'case', 'net'], {'case': case, 'net': text(*network.split('; '))}, status,
                     [wanted])


def told_case(said: str) -> bytes | None:
    """The case of which a sentence says `H` (1000 to 500, CP 10) or `B` (cold, latent at 900, load 8000), with a
    contribution of 50 where it says none."""
    streams = re.findall(r'`(\w+)` \((\d+) to (\d+), CP (\d+)\)', said)
    if not streams:
        return None
    share = (re.findall(r'contribution of (\d+)', said) or ['50'])[0]
    latent = re.findall(r'`(\w+)` \((hot|cold), latent at (\d+), load (\d+)\)', said)
    rows = ['%s,%s,%s,%s,%s,,' % ('hot' if int(supply) > int(target) else 'cold', name, supply, target, cp)
            for name, supply, target, cp in streams]
    return text('contribution,,%s,,,,' % share, *rows,
                *['%s,%s,%s,%s,0,%s,' % (side, name, level, level, load) for name, side, level, load in latent])
