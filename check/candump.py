#!/usr/bin/env python3
"""Logs as can-utils reads them: runs plans, and has `log2long` and `log2asc` read what `candump` writes.

usage: candump.py PROGRAM PLAN..     needs can-utils; candump.sh installs it

Each frame that the report says was sent has to stand in the log once, as each of the two tools reads it: identifier and format, kind, length, bytes.
The times are compared with the ticks of the plan's clocks, and have to rise. Left out is what neither tool shows: a data length code above 8.
"""
import subprocess
import sys
import tomllib
from fractions import Fraction

NANOSECONDS = {"1ns": Fraction(1), "125ps": Fraction(1, 8), "3us": Fraction(3000)}


def said(words, text):
    return subprocess.run(words, input=text, text=True, capture_output=True, check=True).stdout.splitlines()


def tick_of(node, quantum):
    """The tick of a node's quantum, by its rates."""
    rates = node.get("rates") or [dict(node, **{"from": 0})]
    tick = node["offset"]
    for rate, later in zip(rates, rates[1:] + [None]):
        num, den = (rate["num"], rate["den"]) if "num" in rate else (rate["quantum"] * (10**6 + rate["ppm"]), 10**6)
        last = quantum if later is None else min(quantum, later["from"])
        tick += (last - rate["from"]) * num // den
        if last == quantum: return tick


def sent_frames(plan, report, tick):
    """What the report says was sent, by the time of completion."""
    for words in map(str.split, report):
        if words[0] != "frame" or words[2] != "sent": continue
        us = int(tick_of(plan["node"][int(words[1])], int(words[3])) * NANOSECONDS[tick] // 1000)
        remote, length = words[5] == "remote", min(int(words[6]), 8)
        yield us, (words[4].upper(), remote, length, words[7].strip("-").upper())


def by_log2long(lines):
    """`(seconds.microseconds)  can0  ID   [n]  BYTES  'text'`, with `remote request` in place of the bytes."""
    for line in lines:
        time, _, name, length, *rest = line.split("'")[0].split()
        seconds, us = time.strip("()").split(".")
        remote = rest == ["remote", "request"]
        yield int(seconds) * 10**6 + int(us), (name, remote, int(length.strip("[]")), "" if remote else "".join(rest))


def by_log2asc(lines):
    """`seconds 1  ID[x]  Rx   d|r n BYTES`, the identifier without leading zeros; times begin at the first line, so they are left out."""
    for words in map(str.split, lines):
        if len(words) < 6 or words[3] != "Rx": continue
        extended = words[2].endswith("x")
        yield words[2].strip("x").zfill(8 if extended else 3), words[4] == "r", int(words[5]), "".join(words[6:])


def frames_of(program, path, tick):
    """How many frames were sent, each of which both tools read."""
    with open(path) as file: text = file.read()
    sent = sorted(sent_frames(tomllib.loads(text), said([program, "run"], text), tick))
    log = subprocess.run([program, "candump", "--tick", tick], input=text, text=True, capture_output=True, check=True).stdout
    long = list(by_log2long(said(["log2long"], log)))
    if sorted(long) != sent: sys.exit(f"{path}: log2long reads {long}, sent was {sent}")
    if [us for us, _ in long] != sorted(us for us, _ in long): sys.exit(f"{path}: the times don't rise")
    asc = list(by_log2asc(said(["log2asc", "can0"], log)))
    if asc != [frame for _, frame in long]: sys.exit(f"{path}: log2asc reads {asc}, log2long {long}")
    return len(sent)


def main():
    program, paths = sys.argv[1], sys.argv[2:]
    all_sent = sum(frames_of(program, path, tick) for path in paths for tick in NANOSECONDS)
    print(f"{len(paths)} plans at {len(NANOSECONDS)} ticks: log2long and log2asc read {all_sent} frames as the report says")


if __name__ == "__main__":
    main()
