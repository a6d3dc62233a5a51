"""A plan read from a network text and written to one again, so that each edit is a small one: branches keep their
names, comments and empty lines stay with the statement that they stand above, exchangers and lanes keep their order."""
from __future__ import annotations

from collections.abc import Iterable, Mapping
from dataclasses import dataclass, field, replace
from fractions import Fraction

from ..analysis.follow import Followed, follow
from ..analysis.open_branches import left_of, open_branches
from ..errors import Refused
from ..formats.case import Case, Stream
from ..formats.network import End, Exchanger, Mix, Network, Pass, Split, Statement, read_network, words_of
from ..search.reduce.network_structure import structure_of
from ..search.reduce.structure import Course, Lane, Parting, Structure, Through, throughs
from .pieces import HandPlan, fresh_open, merged, pair_with

# What a statement is told by, whatever its branches are called: its word, and the names that stay.
Key = tuple[str, ...]
LONGEST = 16


@dataclass(frozen=True)
class TextLayout:
    """How a text is laid out: the lines above each statement, all statements in their order, the lines behind the last
    one, the names of branches, and whether an empty line stands before each stream."""

    above: Mapping[Key, tuple[str, ...]] = field(default_factory=dict)
    order: tuple[Key, ...] = ()
    below: tuple[str, ...] = ()
    branches: Mapping[Key, str] = field(default_factory=dict)
    spaced: bool = True


def read_plan(case: Case, text: str) -> tuple[HandPlan, TextLayout]:
    """The plan of a text that the program has read for this completed case, and how it is laid out. Open branches
    become open pieces. `Refused` where a plan cannot hold it: then it is shown, and changed by its text alone."""
    network = read_network(text)
    followed = finished(case, network)
    check_held(followed)
    structure = structure_of(case, followed.network)
    orders = lane_orders(followed.network, case)
    courses = {name: in_order(course, orders[name]) for name, course in structure.courses.items()}
    duties = {exchanger.name: exchanger.duty for exchanger in followed.network.exchangers}
    plan = HandPlan(case, Structure(structure.pairs, courses), duties)
    for stream in case.streams:
        heat = sum((duties[name] for name in throughs(courses[stream.name])), Fraction(0))
        if heat != stream.heat:
            raise odd(f'stream {stream.name}', 'its exchangers do not lead it to its target')
    return plan, layout_of(case, followed.network, text)


def odd(place: str, cause: str) -> Refused:
    """Why a network is changed by its text alone."""
    return Refused(4, f'network {place}', 'odd', f'network {place}: {cause}')


def check_held(followed: Followed) -> None:
    """`Refused` where a plan does not hold the network: exchangers that no stream passes, ends before the end."""
    passed = {statement.exchanger for statement in followed.network.statements if isinstance(statement, Pass)}
    for exchanger in followed.network.exchangers:
        if exchanger.name not in passed:
            raise odd(f'exchanger {exchanger.name}', 'no stream passes it')
    for stream, ends in followed.ends.items():
        if len(ends) != 1 or ends[0].branch.size != ends[0].branch.stream.size:
            raise odd(f'stream {stream}', 'not the whole of it comes to its end')
    for name, branch in followed.branches.items():
        if branch.size <= 0:
            raise odd(f'branch {name}', 'there is nothing in it')


def finished(case: Case, network: Network) -> Followed:
    """A network, followed, whose open branches are led to the targets of their streams by open pieces, then mixed and
    ended."""
    followed = follow(case, network)
    lefts = left_of(case, open_branches(followed))
    taken = {exchanger.name for exchanger in network.exchangers}
    branches = set(followed.branches)
    added: list[Statement] = []
    for stream in case.streams:
        at = ''
        for left in (left for left in lefts if left.branch.stream.name == stream.name):
            ready = left.branch.name
            if left.branch.state is None or left.step < 0:
                raise odd(f'branch {ready}', 'it is beyond the target of its stream')
            if left.heat:
                made, ready = fresh_open(taken), new_name(stream, branches)
                taken.add(made)
                added.append(Exchanger(made, *pair_with(stream, any_utility(case, stream)), left.heat))
                added.append(Pass(left.branch.name, made, ready))
            if at:
                mixed = new_name(stream, branches)
                added.append(Mix(at, ready, mixed))
                ready = mixed
            at = ready
        if at:
            added.append(End(at))
    return follow(case, Network((*network.statements, *added))) if added else followed


def any_utility(case: Case, stream: Stream) -> str:
    return next(utility.name for utility in case.utilities if utility.side is not stream.side)


def new_name(stream: Stream, taken: set[str]) -> str:
    """A name of a branch after its stream, which is then taken; its dot keeps it off the names of streams."""
    number = 1
    while True:
        ending = f'-{number}'
        name = '.' + stream.name[:LONGEST - len(ending)] + ending
        if name not in taken:
            taken.add(name)
            return name
        number += 1


Order = tuple[int, ...]


def lane_orders(network: Network, case: Case) -> dict[str, dict[str, Order]]:
    """Where each exchanger stands among the lanes of each stream: the first parts of splits stand first."""
    orders: dict[str, Order] = {stream.name: () for stream in case.streams}
    streams = {stream.name: stream.name for stream in case.streams}
    found: dict[str, dict[str, Order]] = {stream.name: {} for stream in case.streams}
    for statement in network.statements:
        match statement:
            case Split(branch, first, _, second):
                orders[first], orders[second] = (*orders[branch], 0), (*orders[branch], 1)
                streams[first] = streams[second] = streams[branch]
            case Pass(branch, exchanger, to):
                found[streams[branch]][exchanger] = orders[branch]
                orders[to], streams[to] = orders[branch], streams[branch]
            case Mix(first, second, to):
                orders[to], streams[to] = min(orders[first], orders[second])[:-1], streams[first]
    return found


def in_order(course: Course, orders: Mapping[str, Order]) -> Course:
    """A course with the lanes of each parting in the order of the text; those without an exchanger come last."""
    def order_of(lane: Lane) -> Order:
        return min((orders[name] for name in throughs(lane.course)), default=(2,))

    return tuple(step if isinstance(step, Through) else
                 Parting(tuple(sorted((replace(lane, course=in_order(lane.course, orders)) for lane in step.lanes),
                                      key=order_of))) for step in course)


def layout_of(case: Case, network: Network, text: str) -> TextLayout:
    """How a text is laid out: the statements of the network that it has, in its order."""
    keys, branches = keys_of(case, network)
    above: dict[Key, tuple[str, ...]] = {}
    waiting: list[str] = []
    at, spaced = 0, False
    for line in text.split('\n')[:-1]:
        words = line.strip(' \t\r')
        if words and not words.startswith('#'):
            above[keys[at]] = without_ends(waiting)
            waiting, at = [], at + 1
        else:
            waiting.append(line.removesuffix('\r'))
            spaced = spaced or not words
    return TextLayout(above, tuple(keys), without_ends(waiting), branches, spaced or not at)


def without_ends(lines: list[str]) -> tuple[str, ...]:
    """Lines without the empty ones before and behind the others."""
    told = [at for at, line in enumerate(lines) if line.strip()]
    return tuple(lines[told[0]:told[-1] + 1]) if told else ()


def keys_of(case: Case, network: Network) -> tuple[list[Key], dict[Key, str]]:
    """The key of each statement, and the branch that each makes, by its key and its place."""
    passed: dict[str, tuple[str, ...]] = {stream.name: (stream.name,) for stream in case.streams}
    keys: list[Key] = []
    branches: dict[Key, str] = {}
    behind, seen = lanes_behind(network), set[Key]()
    for statement in network.statements:
        match statement:
            case Exchanger(name):
                keys.append(('exchanger', name))
            case Pass(branch, exchanger, to):
                stream = passed[branch][0]
                keys.append(('pass', stream, exchanger))
                branches['pass', stream, exchanger] = to
                passed[to] = (*passed[branch], exchanger)
            case Split(branch, first, _, second):
                stream = passed[branch][0]
                keys.append(told_apart(('split', stream, behind[first]), seen))
                for part in (first, second):
                    branches[told_apart(('lane', stream, behind[part]), seen)] = part
                    passed[part] = passed[branch]
            case Mix(first, second, to):
                stream = passed[first][0]
                met = tuple(sorted({*passed[first][1:], *passed[second][1:]}))
                keys.append(told_apart(('mix', stream, *met), seen))
                branches[keys[-1]] = to
                passed[to] = (stream, *met)
            case End(branch):
                keys.append(('end', passed[branch][0]))
    return keys, branches


def told_apart(key: Key, seen: set[Key]) -> Key:
    """A key that was not there yet: the second of its kind has a sign more."""
    while key in seen:
        key = (*key, '+')
    seen.add(key)
    return key


def lanes_behind(network: Network) -> dict[str, str]:
    """For each branch the exchanger that it passes next, however it is divided before; empty where there is none."""
    nearest: dict[str, str] = {}
    for statement in reversed(network.statements):
        match statement:
            case Pass(branch, exchanger, _):
                nearest[branch] = exchanger
            case Split(branch, first, _, second):
                nearest[branch] = f'{nearest.get(first, "")}+{nearest.get(second, "")}'
    return {branch: nearest.get(branch, '') for statement in network.statements for branch in made_by(statement)}


def made_by(statement: Statement) -> Iterable[str]:
    match statement:
        case Split(_, first, _, second):
            return (first, second)
        case Pass(_, _, to) | Mix(_, _, to):
            return (to,)
    return ()


class LineWriter:
    """Writes the statements of a plan with the names that a layout has."""

    def __init__(self, plan: HandPlan, layout: TextLayout) -> None:
        self.plan, self.layout = plan, layout
        self.statements: list[Statement] = []
        self.taken = {stream.name for stream in plan.case.streams} | set(layout.branches.values())
        self.used: set[str] = set()
        self.seen: set[Key] = set()
        # What each branch has passed since its stream began.
        self.passed: dict[str, frozenset[str]] = {stream.name: frozenset() for stream in plan.case.streams}

    def written(self) -> list[Statement]:
        plan = self.plan
        known = {key[1]: at for at, key in enumerate(self.layout.order) if key[0] == 'exchanger'}
        names = sorted(plan.pairs, key=lambda name: (plan.is_open(name), known.get(name, len(known) + len(known))))
        self.statements = [Exchanger(name, *plan.pairs[name], plan.duties[name]) for name in names]
        for stream in plan.case.streams:
            course = plan.structure.courses[stream.name]
            self.statements.append(End(self.led(stream, stream.name, Fraction(stream.size), course)))
        return self.statements

    def name(self, stream: Stream, key: Key) -> str:
        """The name that a branch had, else a new one."""
        known = self.layout.branches.get(told_apart(key, self.seen))
        if known is not None and known not in self.used and self.is_free(known):
            self.used.add(known)
            return known
        made = new_name(stream, self.taken)
        self.used.add(made)
        return made

    def is_free(self, name: str) -> bool:
        return name not in {stream.name for stream in self.plan.case.streams}

    def led(self, stream: Stream, branch: str, size: Fraction, course: Course) -> str:
        for step in course:
            if isinstance(step, Through):
                to = self.name(stream, ('pass', stream.name, step.exchanger))
                self.statements.append(Pass(branch, step.exchanger, to))
                self.passed[to] = self.passed[branch] | {step.exchanger}
                branch = to
            else:
                branch = self.divided(stream, branch, size, step)
        return branch

    def divided(self, stream: Stream, branch: str, size: Fraction, parting: Parting) -> str:
        begun: list[str] = []
        for at, lane in enumerate(parting.lanes[:-1]):
            first = self.name(stream, ('lane', stream.name, first_of(lane.course)))
            rest = '+'.join(first_of(other.course) for other in parting.lanes[at + 1:])
            second = self.name(stream, ('lane', stream.name, rest))
            self.statements.append(Split(branch, first, size * lane.share, second))
            self.passed[first] = self.passed[second] = self.passed[branch]
            begun.append(first)
            branch = second
        ended = [self.led(stream, lane_branch, size * lane.share, lane.course)
                 for lane_branch, lane in zip((*begun, branch), parting.lanes)]
        joined = ended[0]
        for other in ended[1:]:
            met = self.passed[joined] | self.passed[other]
            to = self.name(stream, ('mix', stream.name, *sorted(met)))
            self.statements.append(Mix(joined, other, to))
            self.passed[to] = met
            joined = to
        return joined


def first_of(course: Course) -> str:
    """What a lane passes first, as `lanes_behind` has it."""
    if not course:
        return ''
    step = course[0]
    return step.exchanger if isinstance(step, Through) else '+'.join(first_of(lane.course) for lane in step.lanes)


def write_plan(plan: HandPlan, layout: TextLayout) -> str:
    """The text of a plan, laid out as before: what stood above a statement that is gone stands above the next one."""
    statements = LineWriter(plan, layout).written()
    keys, _ = keys_of(plan.case, Network(tuple(statements)))
    present = set(keys)
    above: dict[Key, list[str]] = {}
    waiting: list[str] = []
    for key in layout.order:
        waiting += comments_of(layout.above.get(key, ()), key in present)
        if key in present:
            above[key], waiting = waiting, []
    lines: list[str] = []
    begun = ''
    for key, statement in zip(keys, statements):
        group = '' if key[0] == 'exchanger' else key[1]
        lines += [''] if layout.spaced and group != begun else []
        lines += above.pop(key, [])
        lines.append(' '.join(words_of(statement)))
        begun = group
    return '\n'.join([*lines, *waiting, *layout.below]) + '\n'


def comments_of(lines: tuple[str, ...], stays: bool) -> list[str]:
    """The lines above a statement; of one that is gone only its comments."""
    return [line for line in lines if stays or line.strip()]


def begun_plan(case: Case) -> HandPlan:
    """The plan in which nothing is placed: each stream is one open piece."""
    return merged(read_plan(case, '')[0])
