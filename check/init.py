#!/usr/bin/env python3
"""Compares the plans that `init` writes with those of a second writer, and asks `check` and `margin` about each: each has to be taken, and to hold.

usage: init.py PROGRAM            all numbers of nodes, all kinds, the bit rates of CiA 301 with their lengths of cable: 6,048 plans
       init.py PROGRAM few        of the numbers of nodes only 2, 3, 6, 17 and 64
       init.py PROGRAM refused    what `init` answers of wishes that no plan meets

A second number of lengths is tried, too: no cable at all, and the longest one that is allowed.
"""
import subprocess
import sys
from concurrent.futures import ThreadPoolExecutor
from fractions import Fraction

RATES = {10_000: 5000, 20_000: 2500, 50_000: 1000, 125_000: 500, 250_000: 250, 500_000: 100, 800_000: 50, 1_000_000: 25}  # CiA 301: bit/s, m
# MHz, prescaler, whether it is even, TSEG1, TSEG2, whether the jump width is below TSEG2
KINDS = {
    "sja1000": (8, 1, 64, False, 1, 16, 1, 8), "c_can": (24, 1, 1024, False, 2, 16, 1, 8), "bxcan": (36, 1, 1024, False, 1, 16, 1, 8),
    "mcp2515": (16, 2, 128, True, 2, 16, 2, 8), "at91": (16, 2, 128, False, 2, 16, 2, 8), "xilinx": (24, 1, 256, False, 1, 16, 1, 8),
    "flexcan": (40, 1, 1024, False, 2, 96, 2, 32), "m_can": (80, 1, 512, False, 2, 256, 2, 128), "fdcan": (80, 1, 512, False, 2, 256, 2, 128),
    "tcan4550": (40, 1, 512, False, 2, 256, 2, 128), "mcp2518fd": (40, 1, 256, False, 2, 256, 1, 128), "book": (16, 1, 1024, False, 2, 16, 2, 8),
}
CYCLES = [10, 20, 50, 100, 200, 500, 1000, 2000, 5000, 10_000, 20_000, 50_000]
REMARKS = {
    "[[node]]": "a controller on the cable", "name": "up to 32 letters, digits, _ and -", "controller": "the table above; a key here goes before its",
    "offset": "when it is powered up", "x": "its place on the cable", "[[node.frame]]": "a message of the node, which may have several",
    "id": "identifier: of two the lesser goes first", "dlc": "data length code: the number of bytes", "bytes": "the data", "at": "when it is ready to be sent",
    "cycle": "after which time it is ready again, and again", "deadline": "within which time it has to be sent",
}


def shapes():
    """Returns TSEG1 and TSEG2 of all bits of 8 to 25 quanta with sample points from 70 to 90 %, the nearest to 87.5 % first."""
    found = []
    for quanta in range(8, 26):
        for tseg2 in range(2, 9):
            tseg1 = quanta - 1 - tseg2
            sample = Fraction(1 + tseg1, quanta)
            if 2 <= tseg1 <= 16 and Fraction(7, 10) <= sample <= Fraction(9, 10): found.append((abs(sample - Fraction(7, 8)), -quanta, tseg1, tseg2))
    return [it[2:] for it in sorted(found)]


SHAPES = shapes()


def setting(kind, rate):
    """Returns prescaler, TSEG1, TSEG2 and jump width, or None: a jump width of 2 with a sample point from 80 % on, or one of 1."""
    clock, least, most, even, first, last, low, high = KINDS[kind]
    if clock * 1_000_000 % rate: return None
    for jump in (2, 1):
        for tseg1, tseg2 in SHAPES:
            prescaler, rest = divmod(clock * 1_000_000, rate * (1 + tseg1 + tseg2))
            if jump == 2 and 10 * (1 + tseg1) < 8 * (1 + tseg1 + tseg2): continue
            if rest or not least <= prescaler <= most or (even and prescaler % 2) or jump + (kind == "mcp2515") > tseg2: continue
            if first <= tseg1 <= last and low <= tseg2 <= high: return prescaler, tseg1, tseg2, jump
    return None


def longest(rate, tseg1, tseg2, _jump):
    bit = 1_000_000_000 // rate
    quantum = bit // (1 + tseg1 + tseg2)
    return max((max(quantum * (1 + tseg1) - 2 * max(quantum - 150, 0) - (bit // 50 + 3), 0)) // 2 - 150, 0)


def metres(units):
    return f"{units // 5}m" if units % 5 == 0 else f"{units // 5}.{units % 5 * 2}m"


def rate_text(rate):
    return f"{rate // 1000}kbit/s" if rate % 1000 == 0 else f"{rate}bit/s"


def plan(kind, rate, units, nodes):
    prescaler, tseg1, tseg2, jump = setting(kind, rate)
    cycle = next(it for it in CYCLES if rate * it % 1000 == 0 and nodes * 450_000 <= rate * it)
    lines = [
        f"# A bus of {nodes} nodes at {rate_text(rate)} on a cable of {metres(units)}, to begin from: change what differs on yours.",
        "version = 4  # of the format of this text", 'tick = "1ns"  # what the run counts time in',
        'unit = "20cm"  # what it counts lengths in: each `x` is a whole number of them', f'end = "{3 * cycle}ms"  # when the run ends',
        'per = "5ns/m"  # how long a level takes along the cable', 'sync = "book"  # edges synchronise by the rules of Bosch CAN 2.0', "",
        "[controller.ecu]  # what the nodes have in common", f'kind = "{kind}"  # which settings the controller can have',
        f'clock = "{KINDS[kind][0]}MHz"  # the controller\'s', f'bitrate = "{rate_text(rate)}"  # so the prescaler is {prescaler}',
        f"tseg1 = {tseg1}  # PROP_SEG and PHASE_SEG1, in quanta", f"tseg2 = {tseg2}  # PHASE_SEG2, in quanta: it is after the sample",
        f"sjw = {jump}  # resynchronisation jump width, in quanta", 'out = "70ns"  # the transceiver\'s delay from the controller to the cable',
        'in = "80ns"  # its delay from the cable to the controller', "tolerance = 100  # by how many ppm the oscillator may be slow or fast",
    ]
    for i in range(nodes):
        table = [
            "[[node]]", f'name = "ecu{i + 1}"', 'controller = "ecu"', f'offset = "{i}us"', f'x = "{metres(units * i // max(nodes - 1, 1))}"', "", "[[node.frame]]",
            f"id = 0x{0x100 + i:x}", "dlc = 8", "bytes = [1, 2, 3, 4, 5, 6, 7, 8]", f'at = "{cycle}ms"', f'cycle = "{cycle}ms"', f'deadline = "{cycle}ms"',
        ]
        lines += ["", *(f"{it}  # {REMARKS[it.split(' ')[0]]}" if it and i == 0 else it for it in table)]
    return "\n".join(lines) + "\n"


def asked(program, words, text=""):
    it = subprocess.run([program, *words], input=text, capture_output=True, text=True, check=False)
    return it.returncode, it.stdout, it.stderr


def tried(program, kind, rate, units, nodes):
    """Returns what is wrong with a plan, or how sure `margin` is of it."""
    words = ["init", "--nodes", str(nodes), "--bitrate", rate_text(rate), "--cable", metres(units), "--kind", kind]
    status, text, said = asked(program, words)
    if status or said or text != plan(kind, rate, units, nodes): return f"{' '.join(words)}: another plan: {said}"
    status, _, said = asked(program, ["check"], text)
    if status or said: return f"{' '.join(words)}: check: {said}"
    status, text, said = asked(program, ["margin"], text)
    if status or said or not text.startswith("holds for any senders"): return f"{' '.join(words)}: margin: {text[:60]} {said}"
    return "proved" if ", proved: any_senders_are_clean" in text.split("\n", 1)[0] else "holds"


def refused(program):
    """Asks for plans that there aren't. The nearest bit rates and the longest cable are found by trying each."""
    count = wrong = 0
    for kind, rate in [(it, rate) for it in KINDS for rate in (1000, 3000, 33_333, 83_333, 300_000, 333_333, 700_000, 999_999)]:
        if setting(kind, rate): continue
        count += 1
        below = next((it for it in range(rate - 1, 999, -1) if setting(kind, it)), None)
        above = next((it for it in range(rate + 1, 1_000_001) if setting(kind, it)), None)
        rates = [str(it) for it in (below, above) if it is not None]
        status, text, said = asked(program, ["init", "--hint", "--bitrate", f"{rate}bit/s", "--kind", kind])
        if status != 2 or text or not said.startswith("fault: NoSegments\nhint: --bitrate: ") or any(it not in said for it in rates): wrong, _ = wrong + 1, print(kind, rate, said)
    for kind, rate in [(it, rate) for it in KINDS for rate in RATES]:
        count += 1
        most = longest(rate, *setting(kind, rate)[1:])
        status, text, said = asked(program, ["init", "--hint", "--bitrate", rate_text(rate), "--kind", kind, "--cable", metres(most + 1)])
        if status != 2 or text or not said.startswith("fault: TooLong\n") or f"at most {most // 5}.{most % 5 * 2}m" not in said: wrong, _ = wrong + 1, print(kind, rate, said)
    for words, fault in [
        (["--bitrate", "2M"], "Bitrate"), (["--bitrate", "999bit/s"], "Bitrate"), (["--bitrate", "250"], "Bitrate"), (["--bitrate", "250kHz"], "Bitrate"),
        (["--cable", "40"], "Cable"), (["--cable", "12.5m"], "Cable"), (["--cable", "-1m"], "Cable"), (["--kind", "MCP2515"], "Kind"), (["--kind", ""], "Kind"),
        (["--bitrate", "x", "--cable", "x", "--kind", "x"], "Bitrate"), (["--cable", "x", "--kind", "x"], "Cable"),
    ]:
        count += 1
        status, text, said = asked(program, ["init", *(f"{a}={b}" for a, b in zip(words[::2], words[1::2]))])
        if status != 2 or text or said != f"fault: {fault}\n": wrong, _ = wrong + 1, print(words, status, said)
    return count, wrong


def main(program, how="all"):
    if how == "refused":
        count, wrong = refused(program)
        print(f"{count - wrong} passed, {wrong} failed")
        return min(wrong, 1)
    counts = [2, 3, 6, 17, 64] if how == "few" else range(2, 65)
    wishes = [(kind, rate, units * 5, nodes) for kind in KINDS for rate, units in RATES.items() for nodes in counts]
    if how != "few":
        for kind in KINDS:
            for rate in RATES: wishes += [(kind, rate, 0, 2), (kind, rate, longest(rate, *setting(kind, rate)[1:]), 2), (kind, rate, longest(rate, *setting(kind, rate)[1:]), 5)]
    with ThreadPoolExecutor(4) as pool: found = list(pool.map(lambda it: tried(program, *it), wishes))
    wrong = [it for it in found if it not in ("proved", "holds")]
    for it in wrong[:20]: print(it)
    print(f"{len(wishes)} plans: {found.count('proved')} hold and are proved, {found.count('holds')} hold")
    print(f"{len(found) - len(wrong)} passed, {len(wrong)} failed")
    return min(len(wrong), 1)


if __name__ == "__main__":
    sys.exit(main(*sys.argv[1:]) if len(sys.argv) in (2, 3) else sys.stderr.write(__doc__) and 2)
