"""How long a gesture at the live desk takes until it is on the screen, part by part, in a real browser."""
from collections.abc import Iterator
from contextlib import contextmanager
from dataclasses import dataclass, field
import os
from pathlib import Path
from statistics import median
import sys

from common import ROOT

sys.path.insert(0, os.path.join(ROOT, 'desk', 'tests'))
from selenium.webdriver import ActionChains  # noqa: E402
from selenium.webdriver.common.keys import Keys  # noqa: E402

from live_browser import CHROMEDRIVER, CHROMIUM, LivePage, OpenDesk, browser, desk_apart  # noqa: E402

IS_THERE = bool(CHROMIUM and CHROMEDRIVER)
PARTS = ('page before', 'server', 'transport', 'page behind', 'paint', 'all')
SLIDES = 2.0
# When the key or the pointer was felt by the system, and not when the page heard of it.
FELT = '''for (const name of ['keydown', 'pointerup']) addEventListener(name, event => {
  performance.mark('felt', {startTime: event.timeStamp});
  performance.clearResourceTimings();
  for (const mark of ['asked', 'answered', 'drawn', 'painted']) performance.clearMarks(mark);
}, true);'''
PAINTED = '''const last = name => performance.getEntriesByName(name).pop()?.startTime;
const asked = performance.getEntriesByType('resource').filter(entry => entry.name.endsWith('/gesture')).pop();
const painted = last('painted');
if (!asked || painted === undefined || !(painted > last('answered'))) return null;
const times = [last('felt'), asked.requestStart, asked.responseStart, last('answered'), last('drawn'), painted];
return [...times.slice(1).map((time, at) => time - times[at]), painted - times[0]];'''
# With each frame the slider stands elsewhere, as below a hand; what is counted is the curves that are drawn.
SLID = '''const [seconds, told] = [arguments[0], arguments[arguments.length - 1]];
const slider = document.querySelector('#curves input[type=range]'), own = slider.value;
const [from, to, step] = [slider.min, slider.max, slider.step].map(Number);
const steps = Math.round((to - from) / step), begun = performance.now();
let [at, count] = [0, 0];
new MutationObserver(() => { count += 1; }).observe(document.querySelector('#curves .picture'), {childList: true});
const slide = () => {
  if (performance.now() - begun > 1000 * seconds) { told(count / seconds); return; }
  at = (at + 1) % steps;
  slider.value = String(from + at * step);
  slider.dispatchEvent(new Event('input', {bubbles: true}));
  requestAnimationFrame(slide);
};
slide();'''
# The exchangers between streams, those first whose ends are near enough to be seen at once.
NEAR = '''const high = bar => bar.getBoundingClientRect().height;
return [...document.querySelectorAll('#grid .exchanger.match')].sort((one, other) => high(one) - high(other))
  .map(bar => bar.dataset.exchanger);'''
# Where a piece that is open and one of the other side are, scrolled so that both are seen; null where they are not.
BETWEEN = '''const middle = piece => {
  const box = piece.querySelector('rect').getBoundingClientRect();
  return [box.x + box.width / 2, box.y + box.height / 2];
};
const pieces = ['hot', 'cold'].map(side => document.querySelector(`#grid .piece.${side}`));
if (!pieces.every(Boolean)) return null;
const wide = document.querySelector('#grid .wide'), frame = wide.getBoundingClientRect();
const [one, other] = pieces.map(middle);
wide.scrollBy((one[0] + other[0]) / 2 - frame.x - frame.width / 2,
  (one[1] + other[1]) / 2 - frame.y - frame.height / 2);
const places = pieces.map(middle);
return places.every(([x, y], at) => document.elementFromPoint(x, y)?.closest('[data-piece]') === pieces[at])
  ? places : null;'''


@dataclass
class Painted:
    """The milliseconds of each part of one kind of gesture, and those of the processors for one of them."""

    kind: str
    times: list[list[float]] = field(default_factory=list)
    server_busy: float = 0.0
    page_busy: float = 0.0

    def told(self) -> str:
        if not self.times:
            return f'  {self.kind:<16}none that could be done'
        parts = zip(*self.times)
        cells = ''.join(f'{f"{median(part):.0f} ({min(part):.0f})":>14}' for part in parts)
        busy = ''.join(f'{seconds * 1000 / len(self.times):>10.0f}' for seconds in (self.server_busy, self.page_busy))
        return f'  {self.kind:<16}{cells}{busy}'


@contextmanager
def busy(found: Painted, page: LivePage, desk: OpenDesk) -> Iterator[None]:
    """Adds what the processors have for the desk, with its calls of the program, and for the page's thread."""
    before = desk_seconds(desk), page_seconds(page)
    yield
    found.server_busy += desk_seconds(desk) - before[0]
    found.page_busy += page_seconds(page) - before[1]


def desk_seconds(desk: OpenDesk) -> float:
    assert desk.process is not None
    fields = Path(f'/proc/{desk.process}/stat').read_text(encoding='ascii').rsplit(')', 1)[1].split()
    return sum(map(int, fields[11:15])) / os.sysconf('SC_CLK_TCK')


def page_seconds(page: LivePage) -> float:
    metrics = page.driver.execute_cdp_cmd('Performance.getMetrics', {})['metrics']
    return float(next(metric['value'] for metric in metrics if metric['name'] == 'TaskDuration'))


def until_painted(page: LivePage) -> list[float]:
    times: list[float] = page.until(lambda: list(page.driver.execute_script(PAINTED) or ()))
    return times


def taken_away(page: LivePage, name: str, found: Painted) -> None:
    page.driver.execute_script('arguments[0].focus()', page.exchanger(name))
    page.press(Keys.DELETE)
    found.times.append(until_painted(page))


def taken_back(page: LivePage, found: Painted) -> None:
    page.undo()
    found.times.append(until_painted(page))


def dropped(page: LivePage, found: Painted) -> None:
    """Drags what is open to what is open on the other side, where both can be seen."""
    places = page.driver.execute_script(BETWEEN)
    if places is None:
        return
    chain = ActionChains(page.driver, duration=20)
    pointer = chain.w3c_actions.pointer_action
    pointer.move_to_location(*map(int, places[0])).pointer_down().move_by(9, 9)
    pointer.move_to_location(*map(int, places[1])).pause(0.3).pointer_up()
    chain.perform()
    found.times.append(until_painted(page))
    page.undo()
    until_painted(page)


def quiet(page: LivePage) -> None:
    """Waits until loops and paths are there too: they are looked for behind the verdict."""
    page.until(lambda: page.all('#ways[aria-busy=false]'), 60)


def gestures(page: LivePage, desk: OpenDesk, rounds: int) -> list[Painted]:
    """Each round takes another exchanger away, so that nothing of it is known before."""
    kinds = [Painted('take away (key)'), Painted('drop'), Painted('undo (key)')]
    for name in page.driver.execute_script(NEAR)[:rounds]:
        quiet(page)
        with busy(kinds[0], page, desk):
            taken_away(page, name, kinds[0])
        quiet(page)
        with busy(kinds[1], page, desk):
            dropped(page, kinds[1])
        quiet(page)
        with busy(kinds[2], page, desk):
            taken_back(page, kinds[2])
    return kinds


def measured(name: str, folder: Path, rounds: int) -> None:
    """Prints what gestures take at the case and the network of a folder."""
    desk = desk_apart(folder / 'case.csv', folder / 'network.txt')
    try:
        with browser(size='1600,1200') as driver:
            driver.execute_cdp_cmd('Page.addScriptToEvaluateOnNewDocument', {'source': FELT})
            driver.execute_cdp_cmd('Performance.enable', {'timeDomain': 'threadTicks'})
            page = LivePage(driver).go(desk.address)
            kinds = gestures(page, desk, rounds)
            quiet(page)
            driver.set_script_timeout(60)
            slid = max(driver.execute_async_script(SLID, SLIDES) for _ in range(3))
            print(f'{name}: {len(page.exchangers())} exchangers; the slider: {slid:.0f} answers a second')
            for found in kinds:
                print(found.told(), flush=True)
    finally:
        desk.kill()


def heading() -> str:
    return f'{"":<18}' + ''.join(f'{part:>14}' for part in PARTS) + ''.join(f'{word:>10}' for word in ('desk', 'page'))
