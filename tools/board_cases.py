#!/usr/bin/env python3
"""What crates/board_tests expects of plans, quotes, marks and standing rates, by networkx's flows over a network of departures.

Needs Python 3 and networkx. Cuts are read off by definition: the smallest cut for k is what can be reached in what a greatest flow
to the ranks below k, once all owed is brought, leaves free.
"""
import networkx as nx

FAR = 10**9


def live_places(day):
    """The places that a pallet from the origin can be at, and from which it can still reach a depot."""
    graph = nx.DiGraph()
    graph.add_nodes_from((y, t) for y in range(32) for t in range(day["horizon"] + 1))
    for tail, head, transit, row in day["lanes"]:
        for t in range(day["horizon"] + 1 - transit):
            graph.add_edge((tail, t), (head, t + transit))
    starts = [(day["origin"], t) for t in range(day["horizon"] + 1)]
    ends = [(d, t) for d in day["depots"] for t in range(day["horizon"] + 1)]
    come = set(starts).union(*(nx.descendants(graph, p) for p in starts)) if starts else set()
    go = set(ends).union(*(nx.ancestors(graph, p) for p in ends)) if ends else set()
    return come & go


def network(day, owed, rank, k):
    """The departures between live places, a node for what is owed at each depot, and the depot places of ranks below k joined to the end."""
    live = live_places(day)
    graph = nx.DiGraph()
    graph.add_nodes_from(["start", "end"])
    for place in live:
        graph.add_node(place)
        if place[0] == day["origin"]:
            graph.add_edge("start", place, capacity=FAR)

    def joined(a, b, capacity):
        held = graph.edges[a, b]["capacity"] if graph.has_edge(a, b) else 0
        graph.add_edge(a, b, capacity=held + capacity)

    for tail, head, transit, row in day["lanes"]:
        for t in range(day["horizon"] + 1 - transit):
            if (tail, t) in live and (head, t + transit) in live:
                joined((tail, t), (head, t + transit), row[t])
    for place, depot in enumerate(day["depots"]):
        graph.add_edge(("owed", place), "end", capacity=owed[place])
        for t in range(day["horizon"] + 1):
            if (depot, t) in live:
                graph.add_edge((depot, t), ("owed", place), capacity=FAR)
                if k > 0 and rank(place, t) < k:
                    graph.add_edge((depot, t), "end", capacity=FAR)
    return graph


def brought(day, owed, rank, k):
    """The most that comes to all owed and the ranks below k together, and the places of the smallest cut."""
    graph = network(day, owed, rank, k)
    flow = nx.algorithms.flow.preflow_push(graph, "start", "end")
    left = nx.DiGraph()
    left.add_node("start")
    for a, b in flow.edges:
        if flow.edges[a, b]["flow"] < flow.edges[a, b]["capacity"]:
            left.add_edge(a, b)
    reached = nx.descendants(left, "start")
    return flow.graph["flow_value"], {p for p in reached if isinstance(p[0], int)}


def served(day, owed):
    return brought(day, owed, None, 0)[0] == sum(owed)


def quote(day, owed, order):
    """The figures and the marks, those above 0 as (yard, period): mark."""
    ranks = len(day["depots"]) if order == "depot" else day["horizon"] + 1
    rank = (lambda d, t: d) if order == "depot" else (lambda d, t: t)
    rows = [brought(day, owed, rank, k) for k in range(ranks + 1)]
    assert rows[0][0] == sum(owed)
    figures = [rows[k + 1][0] - rows[k][0] for k in range(ranks)]
    marks = {}
    for _, cut in rows:
        for place in cut:
            marks[place] = marks.get(place, 0) + 1
    return figures, [marks.get((y, t), 0) for y in range(32) for t in range(day["horizon"] + 1)]


def standing_rate(day):
    graph = nx.DiGraph()
    graph.add_nodes_from([day["origin"], "end"])
    for tail, head, transit, row in day["lanes"]:
        departures = row[: max(0, day["horizon"] + 1 - transit)]
        held = graph.edges[tail, head]["capacity"] if graph.has_edge(tail, head) else 0
        graph.add_edge(tail, head, capacity=held + min(departures, default=0))
    for depot in day["depots"]:
        graph.add_edge(depot, "end", capacity=FAR)
    return nx.maximum_flow_value(graph, day["origin"], "end")


def three_lanes(horizon=3, lowered=3):
    """Lanes 0 to 1 of 3 pallets, 1 to 2 and 1 to 3 of 2 each; the first of them takes fewer in the period 1 where it is lowered."""
    first = [3, lowered] + [3] * 46
    return {"horizon": horizon, "origin": 0, "depots": [2, 3], "lanes": [(0, 1, 1, first), (1, 2, 1, [2] * 48), (1, 3, 1, [2] * 48)]}


def show(name, day, owed):
    print(f"{name}, owed {owed}:")
    if not served(day, owed):
        print("  no plan")
        return
    for order in "depot", "period":
        figures, marks = quote(day, owed, order)
        rows = {y: marks[y * (day["horizon"] + 1) : (y + 1) * (day["horizon"] + 1)] for y in range(32)}
        print(f"  by {order}: {figures}, marks", {y: row for y, row in rows.items() if any(row)})
    print("  standing rate", standing_rate(day))


def long_lane(horizon):
    return {"horizon": horizon, "origin": 31, "depots": [0], "lanes": [(31, 0, horizon, [9999] * 48)]}


show("three lanes", three_lanes(), [0, 0])
show("three lanes", three_lanes(), [0, 5])
show("three lanes", three_lanes(), [0, 4])
show("three lanes", three_lanes(), [0, 3])
show("lowered to 0", three_lanes(lowered=0), [0, 3])
show("lowered to 1", three_lanes(lowered=1), [0, 3])
show("lowered to 1", three_lanes(lowered=1), [2, 3])
show("lowered to 1", three_lanes(lowered=1), [1, 3])
show("up to the period 1", three_lanes(horizon=1), [0, 0])
show("a lane of 47 periods", long_lane(47), [0])
show("a lane of 47 periods", long_lane(47), [9999])
