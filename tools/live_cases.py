#!/usr/bin/env python3
"""The first and the last live period of each yard, from the definition by distances: what crates/live_times_tests expects."""
import heapq


def distances(lanes, start):
    """The smallest sum of transit times from a yard to each that can be reached."""
    known = {start: 0}
    queue = [(0, start)]
    while queue:
        far, yard = heapq.heappop(queue)
        if far > known[yard]:
            continue
        for tail, head, transit in lanes:
            if tail == yard and far + transit < known.get(head, far + transit + 1):
                known[head] = far + transit
                heapq.heappush(queue, (far + transit, head))
    return known


def span(horizon, origin, lanes, depots, yard):
    """From the distance to the origin to the horizon less the distance to the nearest depot, or nothing."""
    come = distances(lanes, origin).get(yard)
    go = [far for depot, far in distances(lanes, yard).items() if depot in depots]
    if come is None or not go or come > horizon - min(go):
        return None
    return come, horizon - min(go)


CASES = [
    ("three lanes and two depots", 3, 0, [(0, 1, 1), (1, 2, 1), (1, 3, 1)], [2, 3], [0, 1, 2, 3, 4]),
    ("the longest lane", 47, 0, [(0, 1, 47)], [1], [0, 1, 2]),
    ("a lane longer than the horizon", 3, 0, [(0, 1, 4)], [1], [0, 1]),
    ("no depots", 3, 0, [(0, 1, 1)], [], [0, 1]),
    ("no lanes", 3, 31, [], [0], [31, 0]),
    ("a depot before another", 5, 7, [(7, 1, 2), (1, 2, 3)], [2, 1], [7, 1, 2]),
    ("a shorter way round, and a loop", 9, 0, [(0, 1, 7), (0, 2, 2), (2, 1, 3), (1, 2, 1), (1, 3, 2)], [3], [0, 1, 2, 3]),
    ("a yard behind the depot", 6, 0, [(0, 1, 2), (1, 4, 3)], [1], [1, 4]),
    ("the horizon 1", 1, 0, [(0, 1, 1)], [1], [0, 1]),
]
for name, horizon, origin, lanes, depots, yards in CASES:
    print(f"{name}:", ", ".join(f"{yard} {span(horizon, origin, lanes, depots, yard)}" for yard in yards))
