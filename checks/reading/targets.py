"""Targets, curves, and the profiles of a site."""
from __future__ import annotations

from reading.case import Case, Source

FAR = 10 ** 9


def within(span: tuple[int, int], low: int, high: int) -> int:
    """How long a range is between two places."""
    return max(0, min(span[1], high) - max(span[0], low))


def deficit(streams: list[Source], place: int, above: bool = True) -> int:
    """What the cold streams take above (or below) a shifted temperature, less what the hot ones give there. A load
    counts where its level is."""
    low, high = (place, FAR) if above else (-FAR, place)
    return sum((-1 if stream.hot else 1) * (stream.cp * within(stream.span(), low, high)
                                            + stream.load * (low < stream.span()[0] < high)) for stream in streams)


def deficit_from(streams: list[Source], place: int) -> int:
    """The deficit above a shifted temperature with the loads at it."""
    return deficit(streams, place) + sum((-1 if stream.hot else 1) * stream.load
                                         for stream in streams if stream.span()[0] == place)


def targets_of(case: Case) -> tuple[int, int, list[int], tuple[int, bool]]:
    """The hot and the cold target, the pinches from the highest down, and the reference place with whether it counts
    from itself."""
    ends = case.ends()
    deficits = [(deficit(case.streams, end), deficit_from(case.streams, end)) for end in ends]
    hot = max(0, *(owed for both in deficits for owed in both))
    cold = hot - deficit(case.streams, -FAR)
    pinches = [end for end, both in zip(ends, deficits) if hot in both and ends[-1] < end < ends[0]]
    return hot, cold, pinches, next((end, both[0] != hot) for end, both in zip(ends, deficits) if hot in both)


def targets_text(case: Case) -> str:
    hot, cold, pinches, _ = targets_of(case)
    return 'hot %d\ncold %d\n' % (hot, cold) + (''.join('pinch %d\n' % pinch for pinch in pinches) or 'pinch none\n')


def composite_lines(word: str, streams: list[Source]) -> list[str]:
    """The points of the composite curve of one side, from the lowest up: two where loads are."""
    lines = []
    for place in sorted({end for stream in streams for end in (stream.supply, stream.target)}):
        below = sum(stream.cp * within(stream.actual(), -FAR, place) + stream.load * (stream.supply < place)
                    for stream in streams)
        there = [stream.load for stream in streams if stream.load and stream.supply == place]
        lines += ['%s %d %d\n' % (word, heat, place) for heat in [below] + [below + sum(there)] * bool(there)]
    return lines


def curves_text(case: Case) -> str:
    lines = composite_lines('hot', [stream for stream in case.streams if stream.hot])
    lines += composite_lines('cold', [stream for stream in case.streams if not stream.hot])
    target, levels = targets_of(case)[0], {stream.span()[0] for stream in case.streams if stream.load}
    for end in case.ends():
        lines += ['net %d %d\n' % (target - owed(case.streams, end), end)
                  for owed in [deficit] + [deficit_from] * (end in levels)]
    return ''.join(lines)


def profile_places(site: Case) -> list[int]:
    """The ends of the streams of a site, and where each main takes and gives heat, from the highest down."""
    share = site.contribution()
    taking_and_giving = {level + shift for _, level in site.mains for shift in (share, -share)}
    return sorted(set(site.ends()) | taking_and_giving, reverse=True)


def profile_text(site: Case) -> str:
    places, lines = profile_places(site), []
    for place in places:
        sink = source = 0
        for plant in range(len(site.plants)):
            streams = [stream for stream in site.streams if stream.plant == plant]
            sink += max([0] + [deficit(streams, other) for other in places if other >= place])
            source += max([0] + [-deficit(streams, other, False) for other in places if other <= place])
        lines.append('profile %d %d %d\n' % (place, sink, source))
    return ''.join(lines)
