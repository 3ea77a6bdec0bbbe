#!/usr/bin/env python3
"""The table of buses from practice in docs/proof/margins-tried.md: for each what `check` and `margin` say, and in how many power-ups `sweep` finds it not clean.

usage: buses.py PROGRAM [--texts N] [--runs N] [ROW..]     rows by their numbers from 0, all without any
       buses.py answers                                    how many are sound, by margin.py, and how many of these have room for acknowledgements and to rest

Each row is run with N texts of random frames, of long frames with edges ten bits apart, and of frames whose last edge is ten bits before the
acknowledgement, by turns; each text with N power-ups, at any offsets and with each clock at either limit of its tolerance.
"""
import argparse
import random
import re
import sys
from copy import deepcopy

import margin
import plain
from border import Node, Program, frames, long_frames, plan_text, powered

# What a node takes out and in, in ns
ISO, OPTO, USUAL = (125, 125), (210, 210), (120, 130)
# prop, ps1, ps2, sjw; quantum in ns; out and in in ns; places in metres, 5 ns each; tolerance in ppm; how many nodes send, the first ones
CIA = [((2, 3, 2, 1), 125, 25), ((3, 4, 2, 1), 125, 50), ((6, 7, 2, 1), 125, 100), ((6, 7, 2, 1), 250, 250), ((6, 7, 2, 1), 500, 500),
       ((6, 7, 2, 1), 1250, 1000), ((6, 7, 2, 1), 3125, 2500), ((6, 7, 2, 1), 6250, 5000)]
ROWS = [(segments, quantum, loop, (0, length), 100, 2) for segments, quantum, length in CIA for loop in (ISO, OPTO)] + [
    ((2, 3, 2, 1), 125, USUAL, (0, 40), 50, 2),
    ((8, 7, 4, 1), 50, (75, 75), (0, 40), 50, 2),
    ((7, 7, 5, 1), 50, (100, 120), (0, 25, 12), 100, 2),
    ((3, 4, 2, 1), 125, USUAL, (0, 50), 50, 2),
    ((6, 7, 2, 1), 125, USUAL, (0, 100), 100, 2),
    ((6, 7, 2, 1), 125, USUAL, (0, 100, 55), 100, 2),
    ((6, 7, 2, 1), 125, USUAL, (0, 20, 40), 50, 2),
    ((6, 7, 2, 1), 125, USUAL, (0, 2, 4, 6), 50, 4),
    ((6, 7, 2, 1), 125, (170, 180), (0, 0, 0, 0, 0), 100, 5),
    ((6, 7, 2, 1), 125, USUAL, (0, 5, 10, 15, 20, 25, 30, 35), 100, 8),
    ((8, 4, 3, 3), 125, USUAL, (0, 5, 10, 15, 20, 25, 30, 35), 100, 8),
    ((7, 4, 4, 3), 125, USUAL, (0, 100), 100, 2),
    ((7, 4, 4, 1), 125, USUAL, (0, 60), 100, 2),
    ((8, 5, 6, 1), 100, USUAL, (0, 60), 100, 2),
    *(((7, 4, 4, sjw), 125, USUAL, (0, 5), 5000, 1) for sjw in (1, 2, 3, 4)),
    *(((6, 7, 2, 1), 125, USUAL, (0, 112), ppm, 2) for ppm in (0, 100, 2000, 3000)),
    ((6, 7, 2, 1), 125, USUAL, (0, 112), 3000, 1),
    *(((7, 4, 4, 4), 125, USUAL, (0, 75), ppm, 2) for ppm in (0, 100, 2000, 3000)),
    ((7, 4, 4, 4), 125, USUAL, (0, 75), 3000, 1),
    *(((8, 4, 3, 3), 125, USUAL, (0, 87), ppm, 2) for ppm in (0, 100, 2000, 3000)),
    ((8, 4, 3, 3), 125, USUAL, (0, 87), 3000, 1),
    *(((6, 7, 2, 2), 125, USUAL, (0, 112), ppm, 1) for ppm in (0, 500, 1000, 2000, 4000)),
    *(((7, 4, 4, 4), 125, USUAL, (0, 87), ppm, 1) for ppm in (0, 500, 1000, 2000, 4000)),
    *(((8, 4, 3, 3), 125, USUAL, (0, 99), ppm, 1) for ppm in (0, 500, 1000, 2000, 4000)),
    ((8, 4, 3, 3), 125, USUAL, (0, 98), 7000, 1),
    ((6, 7, 2, 1), 250, USUAL, (0, 8, 20, 33, 40), 50, 4),
    ((6, 7, 2, 1), 500, (180, 190), (0, 250, 500), 50, 3),
    ((1, 4, 4, 4), 800, USUAL, (0, 5), 15_000, 2),
    ((7, 5, 2, 2), 2000, (1000, 1000), (0, 10), 3000, 2),
    ((6, 7, 2, 1), 3125, USUAL, (0, 2500), 50, 2),
]


def nodes_of(row):
    segments, quantum, (out, into), places, ppm, senders = row
    nodes = [Node(*segments, quantum, out, into, 5 * place, tolerance=ppm) for place in places]
    for i in range(senders): nodes[i].frames = [(False, i, False, [], 30 * nodes[i].quanta())]
    return nodes


def spared(margin):
    """In words whether it holds, and by how many metres the cable may grow."""
    first, senders = margin.partition("\n")[0], ("any senders", "one sender at a time")
    grown = re.search(r"^cable: one sender at a time (\d+)?.*any senders (\d+)?", margin, re.M)
    longer = [None if units is None else int(units) // 5 for units in grown.groups()]
    if first.startswith("holds for any"): return "holds" + (f", {longer[1]} m longer" if longer[1] is not None else "")
    if first.startswith("holds for one"): return f"holds for one sender at a time, {longer[0]} m longer"
    times = re.findall(r"([0-9.]+) ns", first)
    return f"doesn't hold: {float(times[0]):.1f} > {float(times[1]):.1f} ns"


def power_ups(program, rng, nodes, senders, texts, runs):
    """How many of the power-ups weren't clean, and how many there were."""
    counts = [0, 0]
    for n in range(texts):
        waiting = long_frames(rng, senders) if n % 3 else frames(rng, senders, 1)
        total, bad, _ = program.sweep(powered(rng, nodes, waiting), runs, rng.randrange(2**32), "--step", "1")
        counts = [counts[0] + bad, counts[1] + total]
    return counts


def line_of(program, k, texts, runs):
    segments, quantum, (out, into), places, ppm, senders = ROWS[k]
    nodes = nodes_of(ROWS[k])
    checked = re.search(r"ppm (\d+)$", program.said(nodes, "check").partition("\n")[0])[1]
    bad, total = power_ups(program, random.Random(k), deepcopy(nodes), senders, texts, runs)
    rate = 1_000_000 // (quantum * nodes[0].quanta())
    said = f"{rate} | {', '.join(map(str, segments))} | {quantum} | {out + into} | {', '.join(map(str, places))} | {senders} | {ppm} | {checked}"
    return f"| {said} | {spared(program.said(nodes, 'margin'))} | {bad} of {total} |", total


def answers():
    """How many of the buses are sound for any senders, and how many of these have room for acknowledgements and to rest, as wl_bound has it."""
    sound, roomy = 0, 0
    for row in ROWS:
        text = plan_text(nodes_of(row)).encode()
        family = margin.Family(plain.read_plan(text), margin.clocks_of(plain.read_toml(text)))
        if next(family.failures(False), None) is None:
            sound += 1
            roomy += family.buses(False)[0].leaves_room()
    print(f"{len(ROWS)} buses, {sound} sound, {roomy} of these with room for acknowledgements and to rest")


def main():
    if sys.argv[1:] == ["answers"]: return answers()
    asked = argparse.ArgumentParser(usage=__doc__.split("usage: ")[1].split("  ")[0])
    asked.add_argument("program")
    asked.add_argument("--texts", type=int, default=30)
    asked.add_argument("--runs", type=int, default=100)
    asked.add_argument("rows", type=int, nargs="*")
    asked = asked.parse_intermixed_args()
    program, rows, every = Program(asked.program), asked.rows or range(len(ROWS)), 0
    print("| kbit/s | prop, ps1, ps2, sjw | quantum, ns | loop, ns | places, m | send | tolerance, ppm | `check`, ppm | `margin` | not clean |")
    print("|---|---|---|---|---|---|---|---|---|---|")
    for k in rows:
        line, total = line_of(program, k, asked.texts, asked.runs)
        every += total
        print(line, flush=True)
    print(f"\n{len(rows)} buses, {every} power-ups")


if __name__ == "__main__":
    main()
