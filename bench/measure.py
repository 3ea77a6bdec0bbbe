#!/usr/bin/env python3
"""Runs a program three times (or RUNS times) over an input file and prints the least wall time and the peak memory.

usage: measure.py NAME INPUT PROGRAM [WORD..]      KEEP=1 keeps both as rows of results.tsv
"""
import os
import subprocess
import sys
import time

sys.dont_write_bytecode = True
import results


def main() -> None:
    name, path, words = sys.argv[1], sys.argv[2], sys.argv[3:]
    walls, peak, status, size = [], 0, 0, 0
    for _ in range(int(os.environ.get("RUNS", "3"))):
        with open(path, "rb") as source, open(path + ".out", "wb") as sink:
            start = time.monotonic()
            child = subprocess.Popen(words, stdin=source, stdout=sink)
            _, status, usage = os.wait4(child.pid, 0)
            walls.append(time.monotonic() - start)
            peak = max(peak, usage.ru_maxrss)
        size = os.path.getsize(path + ".out")
    status = os.waitstatus_to_exitcode(status)
    print(f"{name}: status {status}, {size} bytes out, wall {min(walls):.3f} s, peak {peak / 1024:.1f} MiB")
    if status == 0: results.keep_if_asked([(f"processes / {name} / wall", min(walls), "s"), (f"processes / {name} / peak", peak / 1024, "MiB")])


main()
