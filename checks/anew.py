"""The texts of `vertical` and of `design`, and the case of a `sample`, made anew by the rules of docs/FORMATS.md."""
from __future__ import annotations
from fractions import Fraction
from typing import NamedTuple

from common import text
from flows import lines_of
from parts import of_case
from reading.case import Case, Source
from reading.targets import targets_of

MODULUS, FACTOR = 2147483647, 16807


class Match(NamedTuple):
    """A hot and a cold source between two cuts of the axis of heat, with the heat that passes, and the size of the
    branch of each."""
    hot: Source
    cold: Source
    heat: Fraction
    hot_size: Fraction
    cold_size: Fraction


def covered(streams: list[Source], begin: int) -> list[tuple[int, int]]:
    """What each stream of a side covers on the axis, where the curve of the side begins at this heat."""
    def heat_below(place: int) -> int:
        return begin + sum(stream.cp * max(0, min(place, stream.span()[1]) - stream.span()[0]) for stream in streams)

    return [(heat_below(stream.span()[0]), heat_below(stream.span()[1])) for stream in streams]


def running(side: list[tuple[Source, tuple[int, int]]], low: int, high: int) -> list[tuple[Source, Fraction]]:
    """The sources of a side that run between two cuts, each with its part of the heat by its CP; a utility stands
    alone."""
    there = [source for source, (begin, end) in side if begin <= low and high <= end]
    whole = sum(source.cp or 1 for source in there)
    return [(source, Fraction((high - low) * (source.cp or 1), whole)) for source in there]


def matched(hot: list[tuple[Source, Fraction]], cold: list[tuple[Source, Fraction]]) -> list[Match]:
    """First with first over the smaller of what both have left; one that has nothing left makes room for the next."""
    found, one, other = [], 0, 0
    hot_left, cold_left = [heat for _, heat in hot], [heat for _, heat in cold]
    while one < len(hot) and other < len(cold):
        heat = min(hot_left[one], cold_left[other])
        sizes = [source.cp * heat / whole for source, whole in (hot[one], cold[other])]
        found.append(Match(hot[one][0], cold[other][0], heat, *sizes))
        hot_left[one] -= heat
        cold_left[other] -= heat
        one, other = one + (not hot_left[one]), other + (not cold_left[other])
    return found


def sections_of(case: Case) -> list[list[Match]]:
    """The matches between two cuts, from the greatest heat down, of a completed standard case without latent
    streams."""
    target, rest, _, _ = targets_of(case)
    heater, cooler = [next(utility for utility in case.utilities if utility.hot is hot) for hot in (True, False)]
    hot, cold = [[stream for stream in case.streams if stream.hot is side] for side in (True, False)]
    hot_side, cold_side = list(zip(hot, covered(hot, 0))), list(zip(cold, covered(cold, rest)))
    above = max([0] + [end for _, (_, end) in hot_side])
    hot_side.append((heater, (above, above + target)))
    cold_side.append((cooler, (0, rest)))
    cuts = sorted({end for _, ends in hot_side + cold_side for end in ends}, reverse=True)
    return [matched(running(hot_side, low, high), running(cold_side, low, high)) for high, low in zip(cuts, cuts[1:])]


class Chain:
    """The lines of one stream after the other; new branches are numbered in the order in which the lines name them."""

    def __init__(self) -> None:
        self.lines: list[str] = []
        self.branches = 0

    def new(self) -> str:
        self.branches += 1
        return '.%d' % self.branches

    def divided(self, branch: str, sizes: list[Fraction]) -> list[str]:
        """A branch for each of the sizes: one is taken after the other, the last rest is the last."""
        taken = []
        for size in sizes[:-1]:
            first = self.new()
            rest = self.new()
            self.lines.append('split %s %s %s %s' % (branch, first, size, rest))
            taken.append(first)
            branch = rest
        return taken + [branch]

    def piece(self, branch: str, passes: list[tuple[str, Fraction]]) -> str:
        """Leads a branch through the exchangers of a section, beside each other where there are more than one."""
        behind = []
        for inlet, (exchanger, _) in zip(self.divided(branch, [size for _, size in passes]), passes):
            behind.append(self.new())
            self.lines.append('pass %s %s %s' % (inlet, exchanger, behind[-1]))
        joined = behind[0]
        for outlet in behind[1:]:
            mixed = self.new()
            self.lines.append('mix %s %s %s' % (joined, outlet, mixed))
            joined = mixed
        return joined

    def stream(self, name: str, pieces: list[list[tuple[str, Fraction]]]) -> None:
        branch = name
        for passes in pieces:
            branch = self.piece(branch, passes)
        self.lines.append('end %s' % branch)


def vertical_text(case: Case) -> str:
    """The text of `vertical` for a completed standard case without latent streams."""
    hot, cold, _, _ = targets_of(case)
    names: dict[tuple[int, int], str] = {}
    sections, lines = sections_of(case), ['# hot %d cold %d excess 0 cost %d' % (hot, cold, hot)]
    for at, section in enumerate(sections):
        for number, match in enumerate(section):
            names[at, number] = 'E%d' % (len(names) + 1)
            pair = match.hot.name.decode(), match.cold.name.decode()
            lines.append('exchanger %s %s %s %s' % (names[at, number], *pair, match.heat))
    chain = Chain()
    for stream in case.streams:
        pieces = [[(names[at, number], match.hot_size if stream.hot else match.cold_size)
                   for number, match in enumerate(section) if stream in (match.hot, match.cold)]
                  for at, section in enumerate(sections)]
        there = [piece for piece in pieces if piece]
        chain.stream(stream.name.decode(), there if stream.hot else there[::-1])
    return ''.join(line + '\n' for line in lines + chain.lines)


def design_text(case: Case, written: str) -> str:
    """The text of `design` for a completed case of which `flow` prints this heat flow."""
    problem, lines = of_case(case), lines_of(written)
    uses = {line[1]: int(line[2]) for line in lines if line[0] == 'use'}
    moves = [line[1:] for line in lines if line[0] == 'move']
    hot, cold = [sum(uses[utility.name.decode()] for utility in case.utilities if utility.hot is side)
                 for side in (True, False)]
    made = ['# hot %d cold %d excess %d cost %s' % (hot, cold, hot - targets_of(case)[0], lines[0][1])]
    made += ['exchanger E%d %s %s %s' % (number, line[0], line[3], line[6]) for number, line in enumerate(moves, 1)]
    chain = Chain()
    for stream in case.streams:
        parts = [part for part in (problem.hot if stream.hot else problem.cold) if part.source is stream]
        pieces = []
        for part in parts if stream.hot else parts[::-1]:
            name, at = part.name().split(' '), 0 if stream.hot else 3
            pieces.append([('E%d' % number, Fraction(int(line[6]), 1 if stream.load else part.high - part.low))
                           for number, line in enumerate(moves, 1) if line[at:at + 3] == name])
        chain.stream(stream.name.decode(), pieces)
    return ''.join(line + '\n' for line in made + chain.lines)


def sample_case(number: int, count: int) -> bytes:
    """The rows of the case of `sample NUMBER N`."""
    state = number

    def draw(below: int) -> int:
        nonlocal state
        state = FACTOR * state % MODULUS
        return state % below

    rows = ['contribution,,50,,,,']
    for at in range(1, count + 1):
        target = 300 + draw(1500)
        supply = target + 1 + draw(1500)
        rows.append('hot,H%d,%d,%d,%d,,' % (at, supply, target, 1 + draw(500)))
    for at in range(1, count + 1):
        supply = draw(1500)
        target = supply + 1 + draw(1500)
        rows.append('cold,C%d,%d,%d,%d,,' % (at, supply, target, 1 + draw(500)))
    return text(*rows, *['forbid,H%d,C%d,,,,' % (at, at) for at in range(1, count + 1) if draw(4) == 0])
