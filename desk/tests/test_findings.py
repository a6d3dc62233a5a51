"""Each reason of a rejection in words and units; what is said of a network that is too fine."""
from __future__ import annotations

from pathlib import Path

import pytest

from pinchdesk import Pinch, Rejected, completed, follow, read_case, read_network
from pinchdesk.analysis.findings import finding_of
from pinchdesk.formats.shown import Shown
from pinchdesk.program.verdicts import TooFine
from pinchdesk.report.answer_sheets import audit_sheets
from pinchdesk.report.exchangers import exchangers_sheet, streams_sheet
from pinchdesk.report.sheet import as_text

PLAIN = 'contribution,,50,,,,\nhot,H,1000,500,10,,\ncold,C,300,700,10,,\n'
LATENT = 'contribution,,50,,,,\nhot,H,1500,700,10,,\ncold,B,900,900,0,8000,\n'
NETWORK = ('exchanger E1 H C 1500\nexchanger Q1 H COLD 3500\nexchanger Q2 HOT C 2500\n'
           'pass H Q1 a\npass a E1 b\nend b\npass C Q2 d\npass d E1 e\nend e\n')
WATER = PLAIN.replace('cold,C,300,700,10,,\n', 'cooler,CW,200,0,1000,0,\n')
FINDINGS = [
    (PLAIN, 'split H a 10 b', 'line 1 (H)', 'Overdrawn: 0.1 kW/K, wanted 0.1 kW/K', None, 'H'),
    (PLAIN, 'split H a 4 b\nend a', 'line 2 (H)', 'Unfinished: 0.04 kW/K, wanted 0.1 kW/K', None, 'H'),
    (PLAIN, 'end H', 'line 1 (H)', 'MissedTarget: 100 °C, wanted 50 °C', None, 'H'),
    (PLAIN, '', 'stream H', 'Unfinished: 0 kW/K, wanted 0.1 kW/K', None, 'H'),
    (PLAIN + 'forbid,H,C,,,,\n', NETWORK, 'exchanger E1', 'Forbidden', 'E1', None),
    (PLAIN, NETWORK, 'exchanger E1', 'HotEndApproach: 65 °C, wanted 80 °C', 'E1', None),
    (PLAIN, NETWORK.replace('H C 1500', 'H C 1400/3'), 'line 6 (H)',
     'MissedTarget: 60.333 (181/3) °C, wanted 50 °C', 'E1', 'H'),
    (WATER, 'exchanger E1 H CW 5000\npass H E1 a\nend a', 'utility CW', 'UtilityRange: 5 kW, wanted 1 kW', 'E1', None),
    (LATENT, 'exchanger E1 HOT B 8800\npass B E1 a\nend a', 'line 2 (B)',
     'Overdrawn: 110 % of its load, wanted 100 % of its load', 'E1', 'B'),
    (LATENT, 'exchanger E1 HOT B 4000\npass B E1 a\nend a', 'line 3 (B)',
     'MissedTarget: 50 % of its load, wanted 100 % of its load', 'E1', 'B'),
    (LATENT, 'split B a 3000 b\nend a', 'line 2 (B)', 'Unfinished: 3 kW, wanted 8 kW', None, 'B'),
    (LATENT, 'split B a 8000 b\nend a', 'line 1 (B)', 'Overdrawn: 8 kW, wanted 8 kW', None, 'B'),
    (LATENT, 'exchanger E1 H B 8000\npass H E1 a\nend a\npass B E1 b\nend b', 'exchanger E1',
     'ColdEndApproach: 70 °C, wanted 100 °C', 'E1', None),
]


@pytest.mark.parametrize('case, network, place, told, exchanger, stream', FINDINGS)
def test_a_rejection_is_told_in_units_and_marked(case: str, network: str, place: str, told: str, exchanger: str | None,
                                                 stream: str | None, pinch: Pinch) -> None:
    verdict = pinch.audit(case, network)
    followed = follow(completed(read_case(case)), read_network(network))
    assert isinstance(verdict, Rejected)
    finding = finding_of(followed, verdict, Shown())
    assert (finding.place, finding.told, finding.stream) == (place, told, stream)
    sheet, streams = exchangers_sheet(followed, (), verdict), streams_sheet(followed, verdict)
    assert [sheet.rows[at][0] for at in sheet.marked] == ([exchanger] if exchanger else [])
    assert [streams.rows[at][0] for at in streams.marked] == ([stream] if stream else [])
    assert finding.sentence in as_text(audit_sheets(followed, verdict)[0])


def test_a_network_that_is_too_fine_is_no_good_answer(pinch: Pinch, tmp_path: Path,
                                                      capsys: pytest.CaptureFixture[str]) -> None:
    from pinchdesk.cli.main import main
    case = 'contribution,,50,,,,\nhot,H,1000,500,2,,\n'
    network = 'exchanger E1 H COLD 1/281474976710655\npass H E1 a\nend a\n'
    assert isinstance(pinch.audit(case, network), TooFine)
    (tmp_path / 'case.csv').write_text(case)
    (tmp_path / 'network.txt').write_text(network)
    for word in ('audit', 'table'):
        assert main([word, str(tmp_path / 'case.csv'), str(tmp_path / 'network.txt')]) == 9
