#!/usr/bin/env python3
"""Quanta per second of one idle node, and of a busy one with another that acknowledges, by `wl_sim run`.

usage: node.py [PROGRAM]      PROGRAM is the built wl_sim. Wall time, the least of 20 runs, less that of the same plan with end 0.
KEEP=1 keeps the figures as rows of results.tsv.
"""
import os
import subprocess
import sys
import time

sys.dont_write_bytecode = True
import results

QUANTA, QUANTUM, RUNS = 65_536, 100, 20


def plan(frames: list[int], end: int) -> bytes:
    """A plan of one node for each number of frames."""
    lines = [f"version = 1\nend = {end}\nper = 1"]
    for node, count in enumerate(frames):
        lines.append(f'[[node]]\nname = "n{node}"\noffset = 0\nnum = {QUANTUM}\nden = 1\nprop = 3\nps1 = 3\nps2 = 3\nsjw = 2\nx = {node}\nout = 0\nin = 1')
        lines += ["[[node.frame]]\nid = 1\ndlc = 8\nbytes = [1, 2, 3, 4, 5, 6, 7, 8]"] * count
    return "\n".join(lines).encode()


def least(program: str, text: bytes) -> float:
    """The least wall time of some runs, in seconds."""
    times = []
    for _ in range(RUNS):
        start = time.perf_counter()
        subprocess.run([program, "run"], input=text, stdout=subprocess.DEVNULL, check=True)
        times.append(time.perf_counter() - start)
    return min(times)


def main() -> None:
    here = os.path.dirname(os.path.abspath(__file__))
    program = sys.argv[1] if len(sys.argv) > 1 else os.path.join(here, "../crates/wl_sim/out/wl_sim")
    for name, frames in [("idle node", [0]), ("busy pair", [64, 0])]:
        spent = least(program, plan(frames, QUANTA * QUANTUM)) - least(program, plan(frames, 0))
        print(f"{name}: {QUANTA * len(frames) / spent / 1e6:.1f} million quanta a second")
        results.keep_if_asked([(f"node / {name} / quanta", QUANTA * len(frames) / spent / 1e6, "million a second")])


main()
