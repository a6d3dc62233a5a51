"""The least cost of the heat flows of a case, and the least boiler of a site, by a search that shares nothing with the
program: shortest distances over a net, and as much heat as fits along the shortest ways, until none is left. All
numbers are whole.

The net of a case has a node for each part and one for all that is outside. That of a site has none for its parts: heat
goes down from interval to interval of each plant, and through a main from plant to plant."""
from __future__ import annotations
import heapq

from parts import ENDLESS, Problem, of_case
from reading.case import Case
from reading.targets import profile_places


class Net:
    """Arcs of a net with what is still free of each; the arc back stands behind each arc."""

    def __init__(self, nodes: int) -> None:
        self.out: list[list[int]] = [[] for _ in range(nodes)]
        self.ends: list[int] = []
        self.free: list[int] = []
        self.costs: list[int] = []
        self.leasts: list[int] = []
        self.spare = [0] * nodes
        self.potentials = [0] * nodes

    def join(self, one: int, other: int, least: int, most: int, cost: int) -> None:
        """An arc that carries its least, or its most where that pays."""
        carried = most if cost < 0 else least
        self.spare[other] += carried
        self.spare[one] -= carried
        self.leasts.append(least)
        for begin, end, free, price in ((one, other, most - carried, cost), (other, one, carried - least, -cost)):
            self.out[begin].append(len(self.ends))
            self.ends.append(end)
            self.free.append(free)
            self.costs.append(price)

    def cost(self) -> int:
        """What the heat costs that all arcs carry."""
        return sum((self.free[2 * at + 1] + least) * self.costs[2 * at] for at, least in enumerate(self.leasts))

    def reduced(self, begin: int, arc: int) -> int:
        return self.costs[arc] + self.potentials[begin] - self.potentials[self.ends[arc]]

    def is_nearer(self) -> bool:
        """Moves the potentials by the distances from all nodes with heat to spare, no farther than to the nearest that
        wants some; no where there is none."""
        distances: list[int | None] = [None] * len(self.out)
        queue, reached = [(0, node) for node, spare in enumerate(self.spare) if spare > 0], False
        farthest = 0
        while queue and not reached:
            distance, node = heapq.heappop(queue)
            if distances[node] is not None:
                continue
            distances[node], farthest, reached = distance, distance, self.spare[node] < 0
            for arc in self.out[node]:
                if self.free[arc] and distances[self.ends[arc]] is None:
                    heapq.heappush(queue, (distance + self.reduced(node, arc), self.ends[arc]))
        for node, moved in enumerate(distances):
            self.potentials[node] += farthest if moved is None else moved
        return reached

    def levels(self) -> tuple[list[int], bool]:
        """How many arcs without a reduced cost lead to each node from those with heat to spare, or -1; and whether one
        that wants some is among them."""
        row = [node for node, spare in enumerate(self.spare) if spare > 0]
        levels, wanting = [-1] * len(self.out), False
        for node in row:
            levels[node] = 0
        for node in row:
            wanting |= self.spare[node] < 0
            for arc in self.out[node]:
                end = self.ends[arc]
                if levels[end] < 0 and self.free[arc] and not self.reduced(node, arc):
                    levels[end] = levels[node] + 1
                    row.append(end)
        return levels, wanting

    def fill(self, levels: list[int]) -> None:
        """Sends heat along ways that rise level by level, until each is blocked."""
        tried = [0] * len(self.out)
        for start in range(len(self.out)):
            path: list[int] = []
            node = start
            while self.spare[start] > 0:
                if self.spare[node] < 0:
                    self.send(start, path, node)
                    path, node = [], start
                elif tried[node] < len(self.out[node]):
                    arc = self.out[node][tried[node]]
                    end = self.ends[arc]
                    if self.free[arc] and levels[end] == levels[node] + 1 and not self.reduced(node, arc):
                        path.append(arc)
                        node = end
                    else:
                        tried[node] += 1
                elif path:
                    node = self.ends[path.pop() ^ 1]
                    tried[node] += 1
                else:
                    break

    def send(self, start: int, path: list[int], end: int) -> None:
        heat = min([self.spare[start], -self.spare[end]] + [self.free[arc] for arc in path])
        for arc in path:
            self.free[arc] -= heat
            self.free[arc ^ 1] += heat
        self.spare[start] -= heat
        self.spare[end] += heat

    def settled(self) -> bool:
        """Sends all heat to spare where some is wanted, at least cost; no where that is not possible."""
        while any(spare > 0 for spare in self.spare):
            if not self.is_nearer():
                return False
            levels, wanting = self.levels()
            while wanting:
                self.fill(levels)
                levels, wanting = self.levels()
        return True


def net_of(problem: Problem) -> Net:
    hot, cold = problem.hot, problem.cold
    net, outside = Net(len(hot) + len(cold) + 1), len(hot) + len(cold)
    for at, part in enumerate(hot):
        net.join(outside, at, part.least, part.most, part.price)
    for at, part in enumerate(cold):
        net.join(len(hot) + at, outside, part.least, part.most, part.price)
    for at, one in enumerate(hot):
        for to, other in enumerate(cold):
            if problem.reaches(one, other):
                net.join(at, len(hot) + to, 0, ENDLESS, 0)
    return net


def least_cost(case: Case) -> int | None:
    """The least cost of the heat flows of a completed case, or None where it has none."""
    net = net_of(of_case(case))
    return net.cost() if net.settled() else None


def least_boiler(site: Case) -> int | None:
    """What BOILER has to give at least, or None where no heat flow exists."""
    places, plants = profile_places(site), len(site.plants)
    steps, share = len(places) - 1, site.contribution()
    mains, outside = plants * steps, plants * steps + len(site.mains)
    net = Net(outside + 1)
    for stream in site.streams:
        low, high = stream.span()
        for at, (top, bottom) in enumerate(zip(places, places[1:])):
            if low <= bottom and top <= high:
                heat = stream.cp * (top - bottom) * (1 if stream.hot else -1)
                net.spare[(stream.plant or 0) * steps + at] += heat
                net.spare[outside] -= heat
    boiler = max(level for _, level in site.mains) - share
    for plant in range(plants):
        for at, (top, bottom) in enumerate(zip(places, places[1:])):
            node = plant * steps + at
            net.join(node, node + 1 if at + 1 < steps else outside, 0, ENDLESS, 0)
            if top == boiler:
                net.join(outside, node, 0, ENDLESS, 1)
            for number, (_, level) in enumerate(site.mains):
                if bottom == level + share:
                    net.join(node, mains + number, 0, ENDLESS, 0)
                if top == level - share:
                    net.join(mains + number, node, 0, ENDLESS, 0)
    return net.cost() if net.settled() else None
