#!/usr/bin/env python3
"""Looks for a bus of equal nodes anywhere on a cable on which an inequality fails, while all hold for up to four of them at the ends (docs/use/settings.md).

usage: settings_nodes.py COUNT [SEED]     COUNT random buses, most with the longest cable with which the inequalities hold; three random places for each

The inequalities are those of margin.py, by exact fractions.
"""
import random
import sys
from math import gcd

import margin
import plain


def plan_of(node, places):
    """Returns the plan of equal nodes at these places, each with a frame."""
    lines = ["version = 4", "end = 1", f"per = {node['per']}", 'sync = "book"']
    keys = [f"{key} = {node[key]}" for key in ("num", "den", "tseg1", "tseg2", "sjw", "out", "in", "tolerance")]
    for n, x in enumerate(places):
        lines += ["[[node]]", f'name = "n{n}"', "offset = 0", f"x = {x}", *keys]
        lines += ["[[node.frame]]", f"id = {100 + n}", "dlc = 1", "ready = 30", "bytes = [1]"]
    return "\n".join(lines) + "\n"


def failing(node, places, one):
    """Returns the first inequality that fails on the bus of nodes at these places, or None."""
    text = plan_of(node, places).encode()
    family = margin.Family(plain.read_plan(text), margin.clocks_of(plain.read_toml(text)))
    return next(family.failures(one), None)


def at_ends(count, length):
    return [[0, length][n % 2] for n in range(min(count, 4))]


def node_of(rng):
    tseg1, (num, den) = rng.choice([8, 13, 16, 16, 30, 60]), rng.choice([(50, 1), (62, 1), (125, 1), (125, 2), (250, 3), (500, 1), (1000, 3)])
    tseg2 = rng.randint(2, min(tseg1 + 1, 20))
    return {"tseg1": tseg1, "tseg2": tseg2, "sjw": rng.randint(1, min(tseg1 - 1, tseg2)), "num": num, "den": den, "per": rng.choice([1, 5, 10]),
            "out": rng.choice([0, 10, 60, 120]), "in": rng.choice([10, 60, 130]), "tolerance": rng.choice([0, 10, 100, 100, 1000, 3000])}


def main(count, seed="1"):
    rng, held, found = random.Random(f"{seed} nodes"), 0, 0
    for _ in range(int(count)):
        node, one, nodes = node_of(rng), rng.random() < 0.3, rng.choice([3, 3, 4, 4, 5, 6])
        assert gcd(node["num"], node["den"]) == 1
        longest = margin.greatest(lambda length: failing(node, at_ends(nodes, 1 + length), one) is None, 20_000)
        if longest is None: continue
        held, length = held + 1, 1 + (longest if rng.random() < 0.7 else rng.randint(0, longest))
        for _ in range(3):
            places = [rng.choice([0, length, rng.randint(0, length), rng.randint(0, length)]) for _ in range(nodes)]
            failure = failing(node, places, one)
            if failure is not None:
                found += 1
                print(f"{node}, {'one' if one else 'any'}, places {places} of {length}: {failure[:3]}", flush=True)
    print(f"{count} buses, the inequalities hold at the ends on {held}, {found} of {3 * held} with other places fail")
    sys.exit(found > 0)


if __name__ == "__main__":
    if not 2 <= len(sys.argv) <= 3: sys.exit(__doc__)
    main(*sys.argv[1:])
