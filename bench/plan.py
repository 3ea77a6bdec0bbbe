#!/usr/bin/env python3
"""Writes the busy plan to standard output: 16 nodes with about 60,000 quanta each, drifting clocks, 64 frames at each node, some disturbances.

usage: plan.py [SEED [QUANTA [RATES]]]      the same numbers give the same plan; a tick is 1 ns, a bit 10 quanta of 100 ns (1 Mbit/s)

QUANTA a node, up to 1,047,000 and 60,000 by default (6 ms); the frames are ready in the first half. With RATES (1 to 16) it is a plan of
version 2, each clock with so many rates, spread over the plan.
"""
import random
import sys

NODES, FRAMES, QUANTUM = 16, 64, 100
SEED, QUANTA, RATES = (int(word) for word in sys.argv[1:] + ["21", "60000", "0"][len(sys.argv) - 1:])
DRIFT = 3_000 if QUANTA <= 1_045_000 else 1_000  # ppm; no node has more than 1,048,576 quanta


def rate(rng: random.Random, by_ppm: bool) -> tuple[str, str]:
    drift = rng.randint(-DRIFT, DRIFT)
    if by_ppm: return f"quantum = {QUANTUM}", f"ppm = {drift}"
    den = rng.randint(1_000, 1_000_000)
    return f"num = {QUANTUM * den + QUANTUM * den * drift // 1_000_000}", f"den = {den}"


def main() -> None:
    rng = random.Random(SEED)
    end = QUANTA * QUANTUM
    print(f"version = {2 if RATES else 1}\nend = {end}\nper = 5")
    for node in range(NODES):
        print(f'\n[[node]]\nname = "node-{node}"\noffset = {rng.randrange(5 * QUANTUM)}')
        rates = [rate(rng, node % 2 == 0) for _ in range(max(1, RATES))]
        starts = [QUANTA * number // len(rates) for number in range(len(rates))]
        if RATES: print("rates = [" + ", ".join(f"{{ from = {start}, {one}, {two} }}" for start, (one, two) in zip(starts, rates)) + "]")
        else: print("\n".join(rates[0]))
        print(f"prop = 4\nps1 = 3\nps2 = 2\nsjw = 2\nx = {rng.randint(0, 12)}\nout = 40\nin = 50")
        for _ in range(FRAMES):
            dlc = rng.randint(0, 8)
            data = ", ".join(str(rng.randrange(256)) for _ in range(dlc))
            # An identifier is one node's alone, as on a real bus: its low four bits are the node.
            print(f"\n[[node.frame]]\nid = {rng.randrange(128) << 4 | node}\ndlc = {dlc}\nbytes = [{data}]\nready = {rng.randrange(QUANTA // 2)}")
    for _ in range(16):
        start = rng.randrange(end)
        print(f"\n[[disturbance]]\nx = {rng.randint(0, 12)}\nfrom = {start}\nto = {start + rng.randint(1, 20) * QUANTUM}")


main()
