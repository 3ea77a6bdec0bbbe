#!/usr/bin/env python3
"""Measures runs by two workers beside runs by one thread, on the busy plan of plan.py (16 nodes, 60,000 quanta each).

usage: workers.py PROGRAM [ROUNDS]     PROGRAM is the built wl_sim; 9 rounds by default

Whole processes, in turns: processor time of one thread and of two workers over either link, the median of the rounds in milliseconds, and their ratio.
The reports have to be the same. No bar is on the time of workers.
"""
import os
import statistics
import subprocess
import sys
import tempfile
from pathlib import Path

LIMIT = 600  # for how many seconds a process may run


def ran(words, source):
    """One process that reads a file: its processor time in milliseconds, and what it wrote."""
    source.seek(0)
    before = os.times()
    done = subprocess.run(words, stdin=source, capture_output=True, timeout=LIMIT)
    after = os.times()
    if done.returncode: sys.exit(f"{words}: status {done.returncode}")
    return 1e3 * (after.children_user + after.children_system - before.children_user - before.children_system), done.stdout


def main():
    if len(sys.argv) not in (2, 3): sys.exit(__doc__)
    program, rounds = sys.argv[1], int(sys.argv[2]) if len(sys.argv) == 3 else 9
    plan = subprocess.run([sys.executable, Path(__file__).resolve().parent / "plan.py"], capture_output=True, check=True).stdout
    print("| Run | Processor, ms: one thread, workers | Ratio |\n|---|---|---|")
    with tempfile.TemporaryFile() as source:
        source.write(plan)
        for link in "hub", "mail":
            words = ["--workers", "2", "--link", link]
            alone, many = zip(*((ran([program, "run"], source), ran([program, "run", *words], source)) for _ in range(rounds)))
            if len({said for _, said in alone + many}) != 1: sys.exit(f"{words}: the reports differ")
            one, two = (statistics.median(time for time, _ in runs) for runs in (alone, many))
            print(f"| `{' '.join(words)}` | {one:.1f}, {two:.1f} | {two / one:.1f} |", flush=True)
    print(f"\n{os.cpu_count()} processors, load {os.getloadavg()[0]:.1f}, the median of {rounds} rounds")


main()
