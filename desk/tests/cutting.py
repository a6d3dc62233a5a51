"""Cases and networks in which a stream is cut into segments, for tests that compare them with the uncut ones."""
from __future__ import annotations

from dataclasses import replace
from fractions import Fraction

from pinchdesk import Case, Network, Side, Stream
from pinchdesk.analysis.follow import Followed, Passage
from pinchdesk.formats.case import Forbid
from pinchdesk.formats.network import End, Exchanger, Mix, Pass, Split, Statement
from pinchdesk.formats.segments import SegmentedStream


def cut_stream(case: Case, name: str, places: list[int]) -> Case:
    """The case with a sensible stream in segments that are cut at these temperatures, from its supply on."""
    stream = case.source(name)
    assert isinstance(stream, Stream) and not stream.latent
    ends = [stream.supply, *places, stream.target]
    segments = tuple(replace(stream, name=f'{name}-{at}', supply=supply, target=target)
                     for at, (supply, target) in enumerate(zip(ends, ends[1:]), 1))
    names = tuple(segment.name for segment in segments)
    streams = tuple(part for other in case.streams for part in (segments if other is stream else (other,)))
    forbids = tuple(Forbid(hot, cold) for forbid in case.forbids
                    for hot in (names if forbid.hot == name else (forbid.hot,))
                    for cold in (names if forbid.cold == name else (forbid.cold,)))
    basis = replace(case.basis, segments=(SegmentedStream(name, names),))
    return replace(case, streams=streams, forbids=forbids, basis=basis)


def can_be_cut(followed: Followed, name: str) -> bool:
    """Whether no split and no mix is on a stream."""
    statements = followed.network.statements
    branches = [statement.branch if isinstance(statement, Split) else statement.first for statement in statements
                if isinstance(statement, (Split, Mix))]
    return all(followed.branches[branch].stream.name != name for branch in branches)


def cut_network(followed: Followed, name: str, places: list[int]) -> Network:
    """The network of a followed one in which a stream is cut: an exchanger that passes a cut is two. The stream has to
    pass its exchangers without a split."""
    passages = [passage for passage in followed.passages if name in (passage.exchanger.hot, passage.exchanger.cold)]
    side = followed.case.source(name).side
    course = sorted(passages, key=lambda passage: at(passage, side)[0], reverse=side is Side.HOT)
    cut = {passage.exchanger.name: [place for place in places if strictly(passage, side, place)]
           for passage in course}
    names = {passage.exchanger.name: [f'{passage.exchanger.name}.{part}' if cut[passage.exchanger.name]
                                      else passage.exchanger.name
                                      for part in range(len(cut[passage.exchanger.name]) + 1)] for passage in course}
    parts = {key: [part.replace('.', '-') for part in found] for key, found in names.items()}
    exchangers: list[Statement] = []
    own: list[Statement] = []
    number = 1
    branch = f'{name}-1'
    for passage in course:
        begin, end = at(passage, side)
        ends = [begin, *map(Fraction, cut[passage.exchanger.name]), end]
        for part, (first, last) in zip(parts[passage.exchanger.name], zip(ends, ends[1:])):
            duty = passage.exchanger.duty * abs(last - first) / abs(end - begin)
            hot = f'{name}-{number}' if passage.exchanger.hot == name else passage.exchanger.hot
            cold = f'{name}-{number}' if passage.exchanger.cold == name else passage.exchanger.cold
            exchangers.append(Exchanger(part, hot, cold, duty))
            own.append(Pass(branch, part, f'.{name[:8]}{len(own)}'))
            branch = f'.{name[:8]}{len(own) - 1}'
            if last in places:
                own.append(End(branch))
                number += 1
                branch = f'{name}-{number}'
    others: list[Statement] = []
    for statement in followed.network.statements:
        if isinstance(statement, Exchanger):
            exchangers += [] if statement.name in parts else [statement]
        elif isinstance(statement, Pass) and followed.branches[statement.branch].stream.name != name:
            others += passes(statement, parts.get(statement.exchanger, [statement.exchanger]))
        elif not isinstance(statement, (Pass, End)) or followed.branches[statement.branch].stream.name != name:
            others.append(statement)
    return Network((*exchangers, *own, End(branch), *others))


def passes(statement: Pass, parts: list[str]) -> list[Statement]:
    """The other side passes the parts of an exchanger against the course of the stream that is cut."""
    branches = [statement.branch, *(f'.{statement.exchanger[:8]}x{at}' for at in range(1, len(parts))), statement.to]
    return [Pass(before, part, behind) for before, part, behind in zip(branches, reversed(parts), branches[1:])]


def at(passage: Passage, side: Side) -> tuple[Fraction, Fraction]:
    state = passage.hot if side is Side.HOT else passage.cold
    assert state.inlet is not None and state.outlet is not None
    return state.inlet, state.outlet


def strictly(passage: Passage, side: Side, place: int) -> bool:
    low, high = sorted(at(passage, side))
    return low < place < high
