#!/usr/bin/env python3
"""Makes the networks of crates/search_trial (stdin) and what their search must give (stdout), by tools/flows.py.

Needs Python 3 and nothing else. Run from anywhere: tools/search_cases.py
"""
import pathlib
import random

from flows import served

MOST_NODES, MOST_ARCS, MOST_CAPACITY, MOST_RANKS = 4096, 32768, 46075392, 1024


def refusal(nodes, source, arcs, rank, ranks):
    if nodes > MOST_NODES:
        return "too many nodes"
    if len(arcs) > MOST_ARCS:
        return "too many arcs"
    if source >= nodes:
        return "the source is no node"
    if rank[source] is not None:
        return "the source has a rank"
    if any(t >= nodes or h >= nodes for t, h, _ in arcs):
        return "an end is no node"
    if any(c > MOST_CAPACITY for _, _, c in arcs):
        return "a capacity is too large"
    if any(r is not None and r >= MOST_RANKS for r in rank):
        return "a rank is too high"
    if ranks > MOST_RANKS:
        return "too many ranks"
    return None


def over_time(lanes, origin, depot, horizon):
    """A network over time, with the places of one depot ranked by period."""
    yards = 1 + max(max(f, t) for f, t, _, _ in lanes)
    place = lambda y, t: 1 + y * (horizon + 1) + t
    arcs = [(0, place(origin, t), 10**6) for t in range(horizon + 1)]
    for f, t, transit, capacity in lanes:
        for p in range(horizon + 1 - transit):
            arcs.append((place(f, p), place(t, p + transit), capacity))
    rank = [None] * (1 + yards * (horizon + 1))
    for t in range(horizon + 1):
        rank[place(depot, t)] = t
    return len(rank), 0, arcs, rank, horizon + 1


def worked():
    """Networks worked in the literature on flows: static, and over time."""
    seven = [(1, 2, 1, 12), (1, 3, 1, 10), (2, 4, 3, 8), (2, 5, 1, 3), (2, 6, 2, 3), (3, 4, 3, 4), (3, 6, 1, 5), (4, 7, 1, 12), (5, 3, 1, 3), (5, 7, 1, 4), (6, 7, 1, 10)]
    yield 8, 1, [(f, t, c) for f, t, _, c in seven], [None] * 7 + [0], 1
    yield over_time(seven, 1, 7, 5)
    four = [(0, 1, 1, 5), (0, 2, 4, 10), (1, 3, 4, 5), (2, 3, 2, 10), (1, 2, 1, 2)]
    yield 4, 0, [(f, t, c) for f, t, _, c in four], [None, None, None, 0], 1
    yield over_time(four, 0, 3, 6)


def edges():
    yield 1, 0, [], [None], 0
    yield 1, 0, [], [None], 3
    yield 3, 0, [], [None, 0, 1], 2
    yield 3, 0, [(0, 1, 4), (1, 2, 4)], [None, None, None], 2
    yield 3, 0, [(1, 2, 5), (2, 0, 5)], [None, 0, 1], 2
    yield 3, 0, [(0, 1, 0), (1, 2, 9)], [None, None, 0], 1
    yield 4, 0, [(0, 1, 3), (1, 0, 7), (1, 2, 2), (2, 0, 5), (2, 3, 1)], [None, None, None, 0], 1
    yield 2, 0, [(0, 1, 3), (0, 1, 4), (0, 1, 0)], [None, 0], 1
    yield 2, 0, [(0, 0, 9), (0, 1, 4), (1, 1, 9)], [None, 0], 1
    yield 3, 0, [(0, 1, 5), (1, 2, 3)], [None, 0, 1], 2
    yield 3, 0, [(0, 1, 5), (1, 2, 3)], [None, 1, 0], 2
    yield 3, 0, [(0, 1, 5), (1, 2, 3)], [None, 1, 0], 0
    yield 3, 0, [(0, 1, 5), (1, 2, 3)], [None, 1, 0], 1
    yield 3, 0, [(0, 1, 5), (1, 2, 3)], [None, 7, 900], 9
    yield 2, 0, [(0, 1, MOST_CAPACITY)], [None, 1023], 1024
    yield 3, 1, [(1, 0, 2), (1, 2, 2)], [1, None, 0], 2
    # refused
    yield 0, 0, [], [], 0
    yield 2, 2, [], [None, None], 1
    yield 2, 0, [], [0, None], 1
    yield 2, 0, [(0, 2, 1)], [None, 0], 1
    yield 2, 0, [(2, 0, 1)], [None, 0], 1
    yield 2, 0, [(0, 1, MOST_CAPACITY + 1)], [None, 0], 1
    yield 2, 0, [(0, 1, 1)], [None, 1024], 1
    yield 2, 0, [(0, 1, 1)], [None, 0], 1025
    yield 4097, 0, [], [None] * 4097, 1


def random_network(rng, nodes, count, capacity, ranks, ranked):
    rank = [rng.randrange(ranks) if ranks and rng.random() < ranked else None for _ in range(nodes)]
    source = rng.randrange(nodes)
    rank[source] = None
    arcs = [(rng.randrange(nodes), rng.randrange(nodes), rng.randrange(capacity + 1)) for _ in range(count)]
    return nodes, source, arcs, rank, rng.randrange(ranks + 2)


def cases():
    yield from worked()
    yield from edges()
    rng = random.Random(20261118)
    for _ in range(150):
        yield random_network(rng, rng.randrange(2, 9), rng.randrange(0, 24), rng.choice([1, 3, 10]), rng.randrange(0, 5), 0.5)
    for _ in range(40):
        yield random_network(rng, rng.randrange(20, 60), rng.randrange(60, 300), rng.choice([5, 100, 9999]), rng.randrange(1, 12), 0.3)
    yield random_network(rng, 400, 2400, 9999, 20, 0.2)


def main():
    given, wanted = [], []
    for nodes, source, arcs, rank, ranks in cases():
        given.append(" ".join(map(str, [nodes, len(arcs), source, ranks])))
        given.append(" ".join("0" if r is None else str(r + 1) for r in rank))
        given.extend(f"{t} {h} {c}" for t, h, c in arcs)
        why = refusal(nodes, source, arcs, rank, ranks)
        if why is None:
            figures, marks = served(nodes, source, arcs, rank, ranks)
            wanted.append(f"figures {figures} marks {marks}")
        else:
            wanted.append(why)
    crate = pathlib.Path(__file__).resolve().parent.parent / "crates" / "search_trial"
    (crate / "stdin").write_text("\n".join(given) + "\n")
    (crate / "stdout").write_text("\n".join(wanted) + "\n")


if __name__ == "__main__":
    main()
