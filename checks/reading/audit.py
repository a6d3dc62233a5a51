"""The text of `audit`: each number in the order of docs/FORMATS.md, so that the first one outside the limits of
fractions ends all."""
from __future__ import annotations
from collections.abc import Callable
from fractions import Fraction

from cheapest import least_cost
from reading.case import Case, Source
from reading.network import Branch, End, Exchanger, Mix, Pass, Split, Statement, is_within
from reading.targets import targets_of

Number = Fraction | int
# The least cost of a completed case, or None where it has no heat flow.
Search = Callable[[Case], int | None]


class Fine(Exception):
    """A number that is outside the limits of fractions, at a step of a place."""

    def __init__(self, place: str, step: int) -> None:
        super().__init__(place, step)
        self.place, self.step = place, step


class Rejected(Exception):
    """A finding of an audit at a place, with what was found and wanted where these are numbers."""

    def __init__(self, place: str, reason: str, found: Number | None = None, wanted: Number | None = None) -> None:
        super().__init__(place, reason)
        self.line = 'rejected %s %s' % (place, reason) + ('' if found is None
                                                          else ' found %s wanted %s' % (found, wanted))


class Steps:
    """Numbers that are formed one after the other at a place."""

    def __init__(self, place: str) -> None:
        self.place, self.count = place, 0

    def formed(self, value: Number, step: int | None = None) -> Fraction:
        """A number at the next step, or at this one."""
        self.count = step if step is not None else self.count + 1
        value = Fraction(value)
        if not is_within(value):
            raise Fine(self.place, self.count)
        return value


def place_of(exchanger: Exchanger) -> str:
    return 'exchanger %s' % exchanger.name.decode()


def heats_of(exchanger: Exchanger, hot: bool) -> tuple[Fraction, Fraction]:
    """The temperatures of one side before and behind an exchanger."""
    side = exchanger.hot if hot else exchanger.cold
    if not side.stream or side.load:
        return Fraction(side.supply), Fraction(side.supply)
    before, behind = exchanger.passed[hot]
    return before.state, behind.state


class Audit:
    """An audit of a network of a completed case."""

    def __init__(self, case: Case, statements: list[Statement]) -> None:
        self.case, self.statements = case, statements
        self.exchangers = [statement for statement in statements if isinstance(statement, Exchanger)]
        self.ended: set[Source] = set()

    def pass_through(self) -> None:
        """The sizes and the states of all branches, statement by statement; each stream has to end."""
        for statement in self.statements:
            steps = Steps('line %d' % statement.line)
            if isinstance(statement, Split):
                self.split(steps, statement)
            elif isinstance(statement, Pass):
                self.passed(steps, statement)
            elif isinstance(statement, Mix):
                self.mixed(steps, statement)
            elif isinstance(statement, End):
                self.end(steps, statement)
        for stream in self.case.streams:
            if stream not in self.ended:
                raise Rejected('stream %s' % stream.name.decode(), 'Unfinished', 0, stream.size())

    def split(self, steps: Steps, split: Split) -> None:
        if split.size >= split.source.size:
            raise Rejected(steps.place, 'Overdrawn', split.size, split.source.size)
        split.first.size, split.second.size = split.size, steps.formed(split.source.size - split.size)
        split.first.state = split.second.state = split.source.state

    def passed(self, steps: Steps, passage: Pass) -> None:
        stream, state = passage.source.stream, passage.source.state
        change = steps.formed(passage.exchanger.duty / passage.source.size)
        passage.to.size = passage.source.size
        passage.to.state = steps.formed(state - change if stream.hot else state + change)
        for wrong, wanted in ((passage.to.state < 0, 0), (passage.to.state > 1, 1)):
            if stream.load and wrong:
                raise Rejected(steps.place, 'Overdrawn', passage.to.state, wanted)

    def mixed(self, steps: Steps, mix: Mix) -> None:
        mix.to.size = steps.formed(mix.first.size + mix.second.size)
        if mix.first.state == mix.second.state:
            mix.to.state = mix.first.state
        else:
            first = steps.formed(mix.first.size * mix.first.state)
            second = steps.formed(mix.second.size * mix.second.state)
            both = steps.formed(first + second)
            mix.to.state = steps.formed(both / mix.to.size)

    def end(self, steps: Steps, end: End) -> None:
        stream = end.source.stream
        if end.source.size != stream.size():
            raise Rejected(steps.place, 'Unfinished', end.source.size, stream.size())
        if end.source.state != stream.states()[1]:
            raise Rejected(steps.place, 'MissedTarget', end.source.state, stream.states()[1])
        self.ended.add(stream)

    def approaches(self) -> None:
        """No exchanger is forbidden, and each keeps its approach at both ends."""
        for exchanger in self.exchangers:
            if (exchanger.hot.name, exchanger.cold.name) in self.case.forbidden:
                raise Rejected(place_of(exchanger), 'Forbidden')
            steps, shares = Steps(place_of(exchanger)), exchanger.hot.contribution() + exchanger.cold.contribution()
            (hot_in, hot_out), (cold_in, cold_out) = heats_of(exchanger, True), heats_of(exchanger, False)
            for reason, hot, cold in (('HotEndApproach', hot_in, cold_out), ('ColdEndApproach', hot_out, cold_in)):
                wanted = steps.formed(cold + shares)
                if hot < wanted:
                    raise Rejected(steps.place, reason, hot, wanted)

    def uses(self) -> list[Fraction]:
        """What each utility gives or takes, which is in its range."""
        sums = []
        for utility in self.case.utilities:
            steps, total = Steps('utility %s' % utility.name.decode()), Fraction(0)
            for exchanger in self.exchangers:
                if utility in (exchanger.hot, exchanger.cold):
                    total = steps.formed(total + exchanger.duty)
            for wrong, wanted in ((total < utility.least, utility.least), (total > utility.most, utility.most)):
                if wrong:
                    raise Rejected(steps.place, 'UtilityRange', total, wanted)
            sums.append(total)
        return sums

    def balance(self, uses: list[Fraction], least: Search) -> str:
        """The lines of an accepted network up to its floor, which is searched for once all numbers are formed."""
        steps, cost, totals = Steps('balance'), Fraction(0), {True: Fraction(0), False: Fraction(0)}
        used = list(zip(self.case.utilities, uses))
        for utility, use in sorted(used, key=lambda one: not one[0].hot):
            totals[utility.hot] = steps.formed(totals[utility.hot] + use)
        excess = steps.formed(totals[True] - targets_of(self.case)[0])
        for utility, use in used:
            part = steps.formed(utility.price * use)
            cost = steps.formed(cost + part)
        told = zip(('hot', 'cold', 'excess', 'cost', 'floor'),
                   (totals[True], totals[False], excess, cost, least(self.case)))
        return 'accepted\n' + ''.join('%s %s\n' % pair for pair in told)

    def accepted_text(self, least: Search) -> str:
        self.pass_through()
        self.approaches()
        place, from_itself = targets_of(self.case)[3]
        head = self.balance(self.uses(), least) + 'place %d\n' % place
        try:
            return head + Penalties(place, from_itself).text(self.statements)
        except Fine as finding:
            return head + 'penalties too fine %s step %d\n' % (finding.place, finding.step)


class Penalties:
    """What exchangers and mixes lead across the reference place."""

    def __init__(self, place: int, from_itself: bool) -> None:
        self.place, self.from_itself = place, from_itself

    def height(self, steps: Steps, branch: Branch, first: int) -> Fraction:
        """The heat of a branch above the place, whose first step has this number."""
        stream = branch.stream
        if stream.load:
            level = stream.span()[0]
            is_above = level >= self.place if self.from_itself else level > self.place
            return steps.formed(branch.size * branch.state, first + 1) if is_above else Fraction(0)
        share = stream.contribution()
        distance = steps.formed(branch.state - (self.place + share if stream.hot else self.place - share), first)
        return steps.formed(branch.size * distance, first + 1) if distance > 0 else Fraction(0)

    def of_exchanger(self, exchanger: Exchanger) -> str:
        steps = Steps(place_of(exchanger))
        released, absorbed = exchanger.duty, Fraction(0)
        if exchanger.hot.stream:
            before, behind = exchanger.passed[True]
            above = self.height(steps, before, 1)
            released = steps.formed(above - self.height(steps, behind, 3), 5)
        if exchanger.cold.stream:
            before, behind = exchanger.passed[False]
            above = self.height(steps, behind, 6)
            absorbed = steps.formed(above - self.height(steps, before, 8), 10)
        return 'penalty %s %s\n' % (steps.place, steps.formed(released - absorbed, 11))

    def of_mix(self, mix: Mix) -> str:
        steps = Steps('line %d' % mix.line)
        first = self.height(steps, mix.first, 1)
        second = self.height(steps, mix.second, 3)
        result = self.height(steps, mix.to, 5)
        both = steps.formed(first + second, 7)
        return 'penalty mix %d %s\n' % (mix.line, steps.formed(both - result, 8))

    def text(self, statements: list[Statement]) -> str:
        lines = [self.of_exchanger(statement) for statement in statements if isinstance(statement, Exchanger)]
        return ''.join(lines + [self.of_mix(statement) for statement in statements if isinstance(statement, Mix)])


def audit_text(case: Case, statements: list[Statement], least: Search = least_cost) -> tuple[int, str]:
    """The status and the text of an audit of a network of a completed case, whose least cost is found by `least`."""
    try:
        return 0, Audit(case, statements).accepted_text(least)
    except Rejected as finding:
        return 1, finding.line + '\n'
    except Fine as finding:
        return 9, 'too fine %s step %d\n' % (finding.place, finding.step)
