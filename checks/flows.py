"""Printed heat flows and cuts taken apart, by the definitions of docs/FORMATS.md alone: nothing is searched for, and
nothing is shared with the program. Prices that hold what is asked of them prove the least cost; a cut proves that there
is no heat flow."""
from __future__ import annotations
from itertools import groupby

from parts import Part, Problem, of_case, of_site
from reading.case import Case
from reading.targets import profile_text

Lines = list[list[str]]


def lines_of(written: str) -> Lines:
    """The fields of the lines of a text, each of which has its end."""
    if not written.endswith('\n'):
        raise ValueError('the last line has no end')
    return [line.split(' ') for line in written[:-1].split('\n')]


class Body:
    """The lines of transfers and prices of a heat flow."""

    def __init__(self, problem: Problem, lines: Lines) -> None:
        self.problem = problem
        hot, cold = [[part.name().split(' ') for part in side] for side in (problem.hot, problem.cold)]
        wanted = ['move'] * any(line[0] == 'move' for line in lines) + ['give'] * bool(hot) + ['take'] * bool(cold)
        self.is_formed = [word for word, _ in groupby(line[0] for line in lines)] == wanted
        moves, gives, takes = [[line[1:] for line in lines if line[0] == word] for word in ('move', 'give', 'take')]
        self.is_formed &= [line[:-1] for line in gives] == hot and [line[:-1] for line in takes] == cold
        if self.is_formed:
            one, other = [{tuple(name): at for at, name in enumerate(side)} for side in (hot, cold)]
            self.moves = [(one[tuple(line[:3])], other[tuple(line[3:6])], number(line[6:])) for line in moves]
            self.gives, self.takes = [[number(line[3:]) for line in side] for side in (gives, takes)]

    def heats(self) -> tuple[list[int], list[int]]:
        """What each hot part gives and each cold part takes in all."""
        given, taken = [0] * len(self.problem.hot), [0] * len(self.problem.cold)
        for one, other, heat in self.moves:
            given[one] += heat
            taken[other] += heat
        return given, taken

    def fault(self, uses: list[int], cost: int) -> str | None:
        """What is wrong with it as a heat flow of these uses of utilities that has this cost, which is the least; or
        None."""
        hot, cold, reaches = self.problem.hot, self.problem.cold, self.problem.reaches
        if not self.is_formed:
            return 'the lines'
        if not all(before[:2] < behind[:2] for before, behind in zip(self.moves, self.moves[1:])):
            return 'the order of the transfers'
        if not all(heat > 0 and reaches(hot[one], cold[other]) for one, other, heat in self.moves):
            return 'a transfer'
        given, taken = self.heats()
        if not all(part.least <= heat <= part.most for part, heat in zip(hot + cold, given + taken)):
            return 'a balance'
        if uses != [sum(heat for part, heat in zip(hot + cold, given + taken) if part.source is utility)
                    for utility in self.problem.utilities]:
            return 'the use of a utility'
        if cost != sum(utility.price * use for utility, use in zip(self.problem.utilities, uses)):
            return 'the cost'
        if any(take > give and reaches(one, other) for one, give in zip(hot, self.gives)
               for other, take in zip(cold, self.takes)):
            return 'the support of the prices'
        return None if cost == worth(hot, self.gives, -1) + worth(cold, self.takes, 1) else 'the value of the prices'


def number(fields: list[str]) -> int:
    """The one number of these fields, as it is printed."""
    if len(fields) != 1 or fields[0] != str(int(fields[0])):
        raise ValueError('no number as it is printed: %s' % fields)
    return int(fields[0])


def worth(parts: list[Part], prices: list[int], sign: int) -> int:
    """What the parts of a side are worth at these prices, each at the end of its range where it is worth least."""
    return sum(min((part.price + sign * price) * part.least, (part.price + sign * price) * part.most)
               for part, price in zip(parts, prices))


def cut_fault(problem: Problem, lines: Lines) -> str | None:
    """What is wrong with the lines of a cut, or None."""
    if lines[0] != ['infeasible'] or lines[1][0] != 'cut' or lines[1][1] not in ('demand', 'supply'):
        return 'the lines'
    is_demand, need, offer = lines[1][1] == 'demand', number(lines[1][2:3]), number(lines[1][3:])
    own, others = (problem.cold, problem.hot) if is_demand else (problem.hot, problem.cold)
    names = [' '.join(line) for line in lines[2:]]
    cut = [part for part in own if 'part ' + part.name() in names]
    if ['part ' + part.name() for part in cut] != names:
        return 'the parts of the cut'

    def meets(other: Part, part: Part) -> bool:
        return problem.reaches(other, part) if is_demand else problem.reaches(part, other)

    meeting = [other for other in others if any(meets(other, part) for part in cut)]
    if (need, offer) != (sum(part.least for part in cut), sum(part.most for part in meeting)):
        return 'the need or the offer'
    return None if need > offer else 'that the need is above the offer'


def flow_fault(case: Case, status: object, written: str) -> str | None:
    """What is wrong with the text of `flow` for a completed case, or None: it proves its least cost, or that there is
    no heat flow."""
    problem, lines = of_case(case), lines_of(written)
    if status == 1:
        return cut_fault(problem, lines)
    end = 1 + len(problem.utilities)
    names = [['use', utility.name.decode()] for utility in problem.utilities]
    if status != 0 or lines[0][0] != 'cost' or [line[:2] for line in lines[1:end]] != names:
        return 'the status or the head'
    uses = [number(line[2:]) for line in lines[1:end]]
    return Body(problem, lines[end:]).fault(uses, number(lines[0][1:]))


def cost_of(case: Case, status: object, written: str) -> int | None:
    """The least cost that a text of `flow` proves for a completed case, or None where it proves that there is no heat
    flow."""
    fault = flow_fault(case, status, written)
    if fault:
        raise ValueError('a text of flow with a fault: %s' % fault)
    return number(lines_of(written)[0][1:]) if status == 0 else None


def site_fault(site: Case, status: object, written: str, least: int | None) -> str | None:
    """What is wrong with the text of `site` where this is the least that BOILER can give, or None."""
    head = profile_text(site)
    if not written.startswith(head):
        return 'the profiles'
    problem, lines = of_site(site), lines_of(written[len(head):])
    if least is None or status == 1:
        return 'whether there is a heat flow' if least is not None or status != 1 else cut_fault(problem, lines)
    if status != 0 or [line[0] for line in lines[:2]] != ['boiler', 'cooling']:
        return 'the status or the head'
    uses = [number(line[1:]) for line in lines[:2]]
    return 'the boiler' if uses[0] != least else Body(problem, lines[2:]).fault(uses, uses[0])
