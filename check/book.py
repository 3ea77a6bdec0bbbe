#!/usr/bin/env python3
"""The tables of docs/use/from-the-book.md: settings of the literature as plans, and what `margin`, `check` and `explain` say of them.

usage: book.py PROGRAM       the tables
       book.py PROGRAM say   of each row all that `margin` and `explain` write
       book.py plan ROW      the plan of a row, by its name
"""
import re
import subprocess
import sys
import tempfile
from pathlib import Path

# name, kbit/s, quantum in ns, prop, ps1, ps2, sjw, out and in in ns, cable in ns, tolerance in ppm
HARTWICH = [
    ("hartwich_1m", 1000, 100, 6, 1, 2, 1, 50, 30, 220, 3906),
    ("hartwich_100k", 100, 1000, 1, 4, 4, 4, 200, 80, 220, 15873),
    ("hartwich_125k", 125, 800, 1, 4, 4, 4, 200, 80, 220, 15873),
]

# kbit/s, metres, quantum in ns, quanta a bit, quanta up to the sample, and what a node takes from its cable and to it, in ns
CIA = [
    (1000, 25, 125, 8, 6, 210),
    (800, 50, 125, 10, 8, 210),
    (500, 100, 125, 16, 14, 300),
    (250, 250, 250, 16, 14, 300),
    (125, 500, 500, 16, 14, 450),
    (50, 1000, 1250, 16, 14, 1875),
    (20, 2500, 3125, 16, 14, 4687),
    (10, 5000, 6250, 16, 14, 9375),
]


def cia_rows():
    for rate, metres, quantum, bit, sample, own in CIA:
        prop = (sample - 1) // 2
        for name, loop in (("cia", own), ("250ns", 250), ("420ns", 420)):
            yield f"{name}_{rate}k", rate, quantum, prop, sample - 1 - prop, bit - sample, 1, loop - loop // 2, loop // 2, 5 * metres, 100


ROWS = {row[0]: row for row in [*HARTWICH, *cia_rows()]}


def plan(row):
    """Two nodes that send at once, the first frame with edges ten bits apart; a place is in nanoseconds of cable."""
    _, _, quantum, prop, ps1, ps2, sjw, out, into, cable, tolerance = row
    bit = 1 + prop + ps1 + ps2
    text = f'version = 1\nend = {300 * bit * quantum}\nper = 1\nsync = "book"\n'
    for name, place, number in (("a", 0, 0x100), ("b", cable, 0x101)):
        text += (f'\n[[node]]\nname = "{name}"\noffset = 0\nquantum = {quantum}\nppm = 0\ntolerance = {tolerance}\n'
                 f"prop = {prop}\nps1 = {ps1}\nps2 = {ps2}\nsjw = {sjw}\nx = {place}\nout = {out}\nin = {into}\n"
                 f"frame = [\n  {{ id = {number:#x}, dlc = 8, bytes = [{', '.join(['0xC3'] * 8)}], ready = {12 * bit} }},\n]\n")
    return text


def said(program, command, row):
    with tempfile.TemporaryDirectory() as folder:
        path = Path(folder, "plan.toml")
        path.write_text(plan(row), encoding="utf-8")
        return subprocess.run([program, command, path], capture_output=True, check=True, text=True).stdout


def found(text, pattern, otherwise="none"):
    it = re.search(pattern, text)
    return it[1] if it else otherwise


def spared(margin):
    """By how many metres the cable may grow, with both nodes sending."""
    grown = found(margin, r"cable:.*?any senders (\d+) units", None)
    return "does not hold" if grown is None else f"holds, {int(grown) // 5} m longer"


def tables(program):
    print("| Row | there and back, ns | sample, ns | `check`: ppm | `margin` | wider, ppm | cable longer, ns |")
    print("|---|---|---|---|---|---|---|")
    for row in HARTWICH:
        margin, check = said(program, "margin", row), said(program, "check", row)
        name, _, quantum, prop, ps1, _, _, out, into, cable, _ = row
        words = [f"`{name}`", 2 * (out + into + cable), (1 + prop + ps1) * quantum, found(check, r" ppm (\d+)"),
                 margin.splitlines()[0].split(",")[0].split(" of ")[0], found(margin, r"tolerance:.*?any senders (\d+) ppm"),
                 found(margin, r"cable:.*?any senders (\d+) units")]
        print("| " + " | ".join(map(str, words)) + " |")
    print("\n| kbit/s | length, m | prop, ps1, ps2, sjw | quantum, ns | in and out, ns | `margin` | with 250 ns | with 420 ns |")
    print("|---|---|---|---|---|---|---|---|")
    for rate, length, quantum, *_, own in CIA:
        rows = [ROWS[f"{name}_{rate}k"] for name in ("cia", "250ns", "420ns")]
        words = [spared(said(program, "margin", row)) for row in rows]
        print(f"| {rate} | {length} | {', '.join(map(str, rows[0][3:7]))} | {quantum} | {own} | " + " | ".join(words) + " |")


def main():
    if sys.argv[1] == "plan":
        print(plan(ROWS[sys.argv[2]]), end="")
    elif sys.argv[2:] == ["say"]:
        for row in ROWS.values():
            print(f"== {row[0]}\n{said(sys.argv[1], 'explain', row)}{said(sys.argv[1], 'margin', row)}", end="")
    else:
        tables(sys.argv[1])


if __name__ == "__main__":
    main()
