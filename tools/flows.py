"""Maximum flows and smallest narrowest cuts, written plainly and sharing nothing with the proved code.

A network is a number of nodes, a source, a list of arcs (tail, head, capacity) and for each node a rank or None.
"""
from collections import deque


class Residual:
    """A residual graph for one maximum flow from a source to a sink, by Dinic's algorithm."""

    def __init__(self, nodes):
        self.out = [[] for _ in range(nodes)]
        self.head = []
        self.room = []

    def add(self, tail, head, capacity):
        self.out[tail].append(len(self.head))
        self.head.append(head)
        self.room.append(capacity)
        self.out[head].append(len(self.head))
        self.head.append(tail)
        self.room.append(0)

    def levels(self, source):
        level = [-1] * len(self.out)
        level[source] = 0
        queue = deque([source])
        while queue:
            v = queue.popleft()
            for e in self.out[v]:
                if self.room[e] > 0 and level[self.head[e]] < 0:
                    level[self.head[e]] = level[v] + 1
                    queue.append(self.head[e])
        return level

    def augment(self, source, sink, level, start):
        """One path from the source to the sink along rising levels, and what it carries."""
        path, v = [], source
        while v != sink:
            while start[v] < len(self.out[v]):
                e = self.out[v][start[v]]
                if self.room[e] > 0 and level[self.head[e]] == level[v] + 1:
                    break
                start[v] += 1
            else:
                if v == source:
                    return 0
                e = path.pop()
                v = self.head[e ^ 1]
                start[v] += 1
                continue
            path.append(e)
            v = self.head[e]
        amount = min(self.room[e] for e in path)
        for e in path:
            self.room[e] -= amount
            self.room[e ^ 1] += amount
        return amount

    def maximum(self, source, sink):
        total = 0
        while True:
            level = self.levels(source)
            if level[sink] < 0:
                return total
            start = [0] * len(self.out)
            while True:
                amount = self.augment(source, sink, level, start)
                if amount == 0:
                    break
                total += amount


ENDLESS = 10**15


def best(nodes, source, arcs, rank, k):
    """The most that can be brought to the ranks below k, and the smallest of the narrowest cuts for k."""
    graph = Residual(nodes + 1)
    for tail, head, capacity in arcs:
        graph.add(tail, head, capacity)
    for v in range(nodes):
        if rank[v] is not None and rank[v] < k:
            graph.add(v, nodes, ENDLESS)
    value = graph.maximum(source, nodes)
    level = graph.levels(source)
    return value, [level[v] >= 0 for v in range(nodes)]


def served(nodes, source, arcs, rank, ranks):
    """The figure of each rank, and for each node the number of k whose smallest narrowest cut holds it."""
    values, marks = [], [0] * nodes
    for k in range(ranks + 1):
        value, cut = best(nodes, source, arcs, rank, k)
        values.append(value)
        for v in range(nodes):
            marks[v] += cut[v]
    return [values[k + 1] - values[k] for k in range(ranks)], marks
