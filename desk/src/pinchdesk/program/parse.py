"""Reads the texts that `pinch` prints (docs/FORMATS.md, *What is printed*): the only reader of them in the desk."""
from __future__ import annotations

from collections.abc import Iterable
from fractions import Fraction

from ..formats.case import Side
from ..formats.study import PriceScenario, Study
from .answers import (Curves, Cut, Design, HeatFlow, Move, Part, Point, Price, PriceAnswer, Prices, Profile,
                      PriceScenarioAnswer, Segment, SiteAnswer, SpanAnswer, Sweep, SweepRow, Targets, Use)
from .verdicts import Accepted, Penalty, Place, PlaceKind, Rejected, TooFine, Verdict

Lines = list[list[str]]


def lines_of(text: str) -> Lines:
    return [line.split(' ') for line in text.split('\n') if line]


def those(lines: Lines, word: str) -> Iterable[list[str]]:
    """What stands behind the first word of the lines that begin with it."""
    return (line[1:] for line in lines if line[0] == word)


def one(lines: Lines, word: str) -> str:
    return next(iter(those(lines, word)))[0]


def part_of(fields: list[str]) -> Part:
    name, high, low = fields
    return Part(name, int(high), int(low))


def targets_of(text: str) -> Targets:
    lines = lines_of(text)
    pinches = tuple(int(fields[0]) for fields in those(lines, 'pinch') if fields != ['none'])
    return Targets(int(one(lines, 'hot')), int(one(lines, 'cold')), pinches, text)


def moves_of(lines: Lines) -> tuple[Move, ...]:
    return tuple(Move(part_of(fields[:3]), part_of(fields[3:6]), int(fields[6])) for fields in those(lines, 'move'))


def prices_of_parts(lines: Lines, word: str) -> tuple[Price, ...]:
    return tuple(Price(part_of(fields[:3]), int(fields[3])) for fields in those(lines, word))


def cut_of(lines: Lines, text: str) -> Cut:
    kind, need, offer = next(iter(those(lines, 'cut')))
    side = Side.COLD if kind == 'demand' else Side.HOT
    return Cut(side, int(need), int(offer), tuple(part_of(fields) for fields in those(lines, 'part')), text)


def flow_of(text: str) -> HeatFlow | Cut:
    lines = lines_of(text)
    if lines[0] == ['infeasible']:
        return cut_of(lines, text)
    uses = tuple(Use(name, int(heat)) for name, heat in those(lines, 'use'))
    gives, takes = (prices_of_parts(lines, word) for word in ('give', 'take'))
    return HeatFlow(int(one(lines, 'cost')), uses, moves_of(lines), gives, takes, text)


def uses_of(text: str) -> HeatFlow | Cut:
    """The cost and the uses of a heat flow alone, without its transfers and prices."""
    if text.startswith('infeasible'):
        return flow_of(text)
    lines = lines_of(text[:max(0, text.find('\nmove '))] or text)
    uses = tuple(Use(name, int(heat)) for name, heat in those(lines, 'use'))
    return HeatFlow(int(one(lines, 'cost')), uses, (), (), (), text)


def curves_of(text: str) -> Curves:
    lines = lines_of(text)
    hot, cold, net = (points_of(lines, word) for word in ('hot', 'cold', 'net'))
    return Curves(hot, cold, net, text)


def points_of(lines: Lines, word: str) -> tuple[Point, ...]:
    return tuple(Point(int(heat), int(temperature)) for heat, temperature in those(lines, word))


def design_of(text: str) -> Design | Cut:
    """The network of `design` or `vertical`, whose first line is `# hot N cold N excess N cost N`, or the cut of
    `design`."""
    lines = lines_of(text)
    if lines[0] == ['infeasible']:
        return cut_of(lines, text)
    hot, cold, excess, cost = (Fraction(number) for number in lines[0][2::2])
    return Design(hot, cold, excess, cost, text)


def place_of(fields: list[str]) -> Place:
    """A place of a network, as `line 3`, `exchanger E1`, `balance` or (of a penalty) `mix 11`."""
    if fields[0] in ('line', 'mix'):
        return Place(PlaceKind.LINE, line=int(fields[1]))
    return Place(PlaceKind(fields[0]), fields[1] if len(fields) > 1 else '')


def too_fine_of(fields: list[str], text: str) -> TooFine:
    """Behind the words `too fine`: a place, `step` and its number."""
    return TooFine(place_of(fields[:-2]), int(fields[-1]), text)


def verdict_of(text: str) -> Verdict:
    lines = lines_of(text)
    first = lines[0]
    if first[0] == 'rejected':
        return rejected_of(first[1:], text)
    if first[:2] == ['too', 'fine']:
        return too_fine_of(first[2:], text)
    numbers = {word: Fraction(one(lines, word)) for word in ('hot', 'cold', 'excess', 'cost')}
    penalties = tuple(Penalty(place_of(fields[:2]), Fraction(fields[2])) for fields in those(lines, 'penalty'))
    fine = [too_fine_of(fields[2:], '') for fields in those(lines, 'penalties')]
    return Accepted(**numbers, floor=int(one(lines, 'floor')), place=int(one(lines, 'place')), penalties=penalties,
                    too_fine=fine[0] if fine else None, text=text)


def rejected_of(fields: list[str], text: str) -> Rejected:
    if fields[-1] == 'Forbidden':
        return Rejected(place_of(fields[:-1]), 'Forbidden', None, None, text)
    *place, reason, _found, found, _wanted, wanted = fields
    return Rejected(place_of(place), reason, Fraction(found), Fraction(wanted), text)


def cost_of(text: str) -> int | None:
    return None if text == 'infeasible' else int(text)


def sweep_of(text: str) -> Sweep:
    rows = those(lines_of(text), 'row')
    points = (SweepRow(int(share), int(hot), int(cold), cost_of(cost)) for share, hot, cold, cost in rows)
    return Sweep(tuple(points), text)


def prices_of(study: Study, text: str) -> Prices:
    """The answers to the study's questions: the segments of a span are those as far as its last price."""
    lines = lines_of(text)
    answers: list[PriceAnswer] = []
    for item in study.items:
        if isinstance(item, PriceScenario):
            answers.append(PriceScenarioAnswer(item.name, cost_of(lines.pop(0)[2])))
        else:
            answers.append(SpanAnswer(item.utility, segments_of(lines, item.last)))
    return Prices(tuple(answers), text)


def segments_of(lines: Lines, last: int) -> tuple[Segment, ...]:
    """Takes the segments of one span off the front of the lines."""
    segments: list[Segment] = []
    while not segments or segments[-1].last < last:
        fields = lines.pop(0)[2:]
        if fields == ['infeasible']:
            return ()
        segments.append(Segment(*(int(field) for field in fields)))
    return tuple(segments)


def site_of(text: str) -> SiteAnswer:
    lines = lines_of(text)
    profiles = tuple(Profile(int(at), int(sink), int(source)) for at, sink, source in those(lines, 'profile'))
    if ['infeasible'] in lines:
        return SiteAnswer(profiles, None, None, (), (), (), cut_of(lines, text), text)
    gives, takes = (prices_of_parts(lines, word) for word in ('give', 'take'))
    boiler, cooling = int(one(lines, 'boiler')), int(one(lines, 'cooling'))
    return SiteAnswer(profiles, boiler, cooling, moves_of(lines), gives, takes, None, text)
