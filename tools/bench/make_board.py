#!/usr/bin/env python3
"""Prints a board of the benchmark as the text of a day file, for tools/make_day.py.

    tools/bench/make_board.py SEED PART > board.txt       PART is 1, 2, 4 or 8: the full size, or a half, a quarter, an eighth

A board of full size has 32 yards, 96 lanes and 16 depots. In every size the horizon is 47, so that yards, lanes, depots and
places shrink alike. One lane in six leaves the origin, and each yard can be reached. Capacities are 1 to 60, transit times 1 to
5; two departures of each lane have a capacity of their own. Three holds for each depot follow, of 1 to 59 pallets; some may be
refused.
"""
import random
import sys

YARDS, LANES, DEPOTS, HORIZON = 32, 96, 16, 47


def lanes_of(rng, yards, lanes):
    """From, to, transit and capacity of each lane: one into each yard from an earlier one, and any others."""
    made = [(rng.randrange(y), y) for y in range(1, yards)]
    made += [(0, rng.randrange(1, yards)) for _ in range(lanes // 6 - sum(f == 0 for f, _ in made))]
    while len(made) < lanes:
        f, t = rng.randrange(1, yards), rng.randrange(1, yards)
        if f != t:
            made.append((f, t))
    return [(f, t, rng.randrange(1, 6), rng.randrange(1, 61)) for f, t in made]


def board(seed, part):
    """The lines of a board, without holds, and those of its holds."""
    rng = random.Random(seed)
    lanes = lanes_of(rng, YARDS // part, LANES // part)
    depots = rng.sample(range(1, YARDS // part), DEPOTS // part)
    lines = [f"HZ {HORIZON} 0"]
    lines += [f"LN {f} {t} {transit} {capacity}" for f, t, transit, capacity in lanes]
    lines += [f"DP {yard}" for yard in depots]
    for number, (_, _, transit, _) in enumerate(lanes):
        for _ in range(2):
            lines.append(f"SD {number} {rng.randrange(HORIZON + 1 - transit)} {rng.randrange(1, 61)}")
    holds = [f"HD {yard} {rng.randrange(1, 60)}" for _ in range(3) for yard in depots]
    return lines, holds


def main():
    if len(sys.argv) != 3 or sys.argv[2] not in ("1", "2", "4", "8"):
        sys.exit(__doc__)
    lines, holds = board(int(sys.argv[1]), int(sys.argv[2]))
    print("\n".join(lines + holds))


if __name__ == "__main__":
    main()
