"""A browser that prints a page as PDF, where there is one."""
from __future__ import annotations

import shutil
import subprocess
import tempfile
from pathlib import Path

from ..errors import ProgramError, WordsError

NAMES = ('chromium', 'chromium-browser', 'google-chrome', 'google-chrome-stable', 'chrome', 'microsoft-edge')
PATIENCE = 180
# No network, no profile that stays.
WORDS = ('--headless', '--no-sandbox', '--disable-gpu', '--disable-extensions', '--no-first-run', '--mute-audio',
         '--disable-background-networking', '--host-resolver-rules=MAP * ~NOTFOUND', '--hide-scrollbars')


def browser() -> str | None:
    """The path of a browser; None where there is none."""
    for name in NAMES:
        path = shutil.which(name)
        if path:
            return path
    return None


def run_browser(words: list[str], page: str, folder: Path) -> bytes:
    """Runs the browser over a page in this folder, with a list of words and never a shell: what it printed."""
    path = browser()
    if path is None:
        raise WordsError('there is no browser to make a .pdf: write the page as .html, and print that')
    file = folder / 'page.html'
    file.write_text(page, encoding='utf-8')
    try:
        done = subprocess.run([path, *WORDS, f'--user-data-dir={folder / "profile"}', *words, file.as_uri()],
                              stdin=subprocess.DEVNULL, capture_output=True, check=False, timeout=PATIENCE)
    except (OSError, subprocess.TimeoutExpired) as fault:
        raise ProgramError(f'{path} printed no page: {fault}') from fault
    return done.stdout


def as_pdf(page: str) -> bytes:
    """A page as PDF. `WordsError` where there is no browser, `ProgramError` where it printed nothing."""
    with tempfile.TemporaryDirectory(prefix='pinchdesk-', ignore_cleanup_errors=True) as name:
        printed = Path(name, 'page.pdf')
        words = [f'--print-to-pdf={printed}', '--no-pdf-header-footer', '--print-to-pdf-no-header']
        run_browser(words, page, Path(name))
        if not printed.is_file():
            raise ProgramError(f'{browser()} printed no page')
        return printed.read_bytes()
