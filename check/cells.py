#!/usr/bin/env python3
"""What `margin` says of 504 buses at the rates and lengths of CiA 301: 14 settings, each with 2, 3, 4, 8 and 16 nodes that all send, and with 16 of which two send.

usage: cells.py PROGRAM [say]     with `say` a line of each setting, loop and tolerance, too

The nodes are spread evenly along the cable, with loops of 250 and 420 ns and tolerances of 50, 100 and 300 ppm. Of buses of up to 4 nodes all
lines have to be those of margin.py.
The sums say of how many buses the bus is proved for any senders, is only searched, and doesn't hold; and of how many of the proved ones a jump leaves
something of ten bits' drift, a look and what gathers.
"""
import subprocess
import sys
from collections import Counter

sys.dont_write_bytecode = True
import border
import margin
import plain

# kbit/s, metres, quantum in ns, segments
SETTINGS = [(1000, 25, 62, (5, 6, 4, 1)), (800, 50, 125, (3, 4, 2, 1))]
SETTINGS += [(rate, length, 62_500 // rate, own) for rate, length in ((500, 100), (250, 250), (125, 500), (50, 1000), (20, 2500), (10, 5000))
             for own in ((6, 7, 2, 1), (6, 6, 3, 3))]
SIZES = (2, 2), (3, 3), (4, 4), (8, 8), (16, 16), (16, 2)


def bus(length, quantum, own, loop, tolerance, count, senders):
    """Returns the text of a bus; of two senders one is at each end."""
    nodes = [border.Node(*own, quantum, loop // 2, loop - loop // 2, 5 * (length * i // (count - 1)), 0, 0, tolerance) for i in range(count)]
    for i, node in enumerate(nodes):
        if senders == count or i in (0, count - 1): node.frames = [(False, i, False, [], 40 * node.quanta())]
    return border.plan_text(nodes)


def answer(program, text):
    """Returns what `margin` says, as a word, and whether a jump leaves something."""
    said = subprocess.run([program, "margin"], input=text, capture_output=True, text=True, check=True).stdout
    if text.count("[[node]]") <= 4 and said != margin.margin_text(text.encode(), 1_000): raise SystemExit(f"margin.py says something else of\n{text}")
    if not said.startswith("holds for any senders"): return "no", False
    found = margin.Family(plain.read_plan(text.encode()), margin.clocks_of(plain.read_toml(text.encode()))).buses(False)[0]
    return "proved" if border.PROVED in said.split("\n", 1)[0] else "searched", any(found.left_over(found.chases()[2]))


def main(program, say=""):
    counts = Counter()
    for rate, length, quantum, own in SETTINGS:
        for loop in (250, 420):
            for tolerance in (50, 100, 300):
                answers = [answer(program, bus(length, quantum, own, loop, tolerance, *size)) for size in SIZES]
                counts.update(answers)
                if say: print(rate, *own, f"loop {loop} ns, {tolerance} ppm:", *(word for word, _ in answers), flush=True)
    sums = {word: counts[word, False] + counts[word, True] for word in ("proved", "searched", "no")}
    print(f"{sum(sums.values())} buses: {sums['proved']} proved, {counts['proved', True]} of these where a jump leaves something, {sums['searched']} only searched, "
          f"{sums['no']} don't hold")


if __name__ == "__main__":
    sys.exit(main(*sys.argv[1:]) if len(sys.argv) in (2, 3) else sys.stderr.write(__doc__) and 2)
