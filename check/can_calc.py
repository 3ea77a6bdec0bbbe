#!/usr/bin/env python3
"""Compares `settings` with `can-calc-bit-timing` of can-utils: bit rates, sample points and their errors. It makes a table of docs/use/settings-beside.md.

usage: can_calc.py PROGRAM [CAN_CALC] [--cases]     CAN_CALC is `can-calc-bit-timing` if it isn't named; --cases writes a line for each case that differs

Each of the four kinds that both know has nine clocks, nine bit rates of CiA and three others: 432 cases, with 250 ns out of a node and into it, 5 ns a metre,
100 ppm and any senders. `settings` is asked with the rate error of the proposal, once without a sample point, and once with the one that CiA recommends.
Status 1 if a figure of either program isn't the exact one, as it is rounded there, or if a proposal is refused whose longest cable isn't shorter.
"""
import collections
import itertools
import os
import re
import subprocess
import sys
from fractions import Fraction
from math import ceil

sys.dont_write_bytecode = True
sys.path.insert(0, os.path.join(os.path.dirname(os.path.dirname(os.path.realpath(__file__))), "bench"))
import results  # noqa: E402

# What can-calc-bit-timing calls a kind, and how many periods of the controller's clock are one of the clock that it is given.
NAMES = {"sja1000": ("sja1000", 1), "at91": ("at91", 1), "flexcan": ("flexcan", 1), "mcp2515": ("mcp251x", 2)}
CLOCKS = 8, 12, 16, 20, 24, 32, 36, 40, 48  # MHz, of the clock that the prescaler divides; of an MCP2515 of its oscillator
# Metres of cable for each rate in bit/s. The last three rates divide few clocks.
CABLES = {1_000_000: 20, 800_000: 30, 500_000: 40, 250_000: 200, 125_000: 400, 100_000: 500, 50_000: 1000, 20_000: 2000, 10_000: 4000,
          615_384: 30, 95_238: 500, 33_333: 1000}
ROW = re.compile(r"setting (\d+) prescaler (\d+) tseg1 (\d+) tseg2 (\d+) sjw (\d+) quanta (\d+) sample (\S+) % error (\d+) ppm "
                 r".* cable \S+ one (\S+) any margin (\S+)")
Row = collections.namedtuple("Row", "setting sample error cable margin")
Proposal = collections.namedtuple("Proposal", "setting rate rate_error nominal sample sample_error")


# ---- The exact figures of a setting (prescaler, TSEG1, TSEG2, jump width)


def rate_of(clock, setting): return Fraction(clock, setting[0] * (1 + setting[1] + setting[2]))


def sample_of(setting): return Fraction(1 + setting[1], 1 + setting[1] + setting[2])


def error_of(clock, rate, setting): return abs(rate_of(clock, setting) - rate) / rate


def recommended(rate):
    """CiA's sample point in tenths of a percent, as can-calc-bit-timing has it."""
    return 750 if rate > 800_000 else 800 if rate > 500_000 else 875


# ---- The two programs


def proposed(can_calc, kind, clock, rate):
    name, periods = NAMES[kind]
    ran = subprocess.run([can_calc, "-q", "-c", str(clock // periods), "-b", str(rate), name], capture_output=True, check=False)
    words = ran.stdout.decode().split()
    if "possible***" in words or "***bitrate" in words or len(words) < 13: return None
    prop, ps1, ps2, sjw, brp, real = (int(word) for word in words[2:8])
    rate_error, nominal, sample, sample_error = (Fraction(word.rstrip("%")) for word in words[8:12])
    return Proposal((brp * periods, prop + ps1, ps2, sjw), real, rate_error, nominal, sample, sample_error)


def listed(program, kind, clock, rate, rate_error, sample_point, metres=None):
    """The rows of `settings`."""
    wish = f'sample_point = "{sample_point / 10}%"\n' if sample_point else ""
    text = (f'version = 4\nbitrate = {rate}\ncable = {metres or CABLES[rate]}\nper = 5\nout = 120\nin = 130\ntolerance = 100\nsenders = "any"\nrate_error = {rate_error}\n'
            f'{wish}[[controller]]\nname = "{kind}"\nkind = "{kind}"\nclock = {clock}\n')
    lines = subprocess.run([program, "settings"], input=text.encode(), capture_output=True, check=True).stdout.decode().splitlines()
    found = [it.groups() for it in map(ROW.match, lines[1:]) if it]
    return [Row(tuple(int(n) for n in it[1:5]), Fraction(it[6]), int(it[7]), it[8], Fraction(it[9])) for it in found]


# ---- What is compared


def wrong_figures(clock, rate, theirs, rows):
    """What isn't exact in what the two programs print: theirs rounds rates down and percents to tenths, ours rounds samples down and errors up."""
    error = error_of(clock, rate, theirs.setting) * 100
    if theirs.rate != rate_of(clock, theirs.setting) // 1: yield f"rate {theirs.rate}"
    if abs(theirs.sample - sample_of(theirs.setting) * 100) >= Fraction(1, 10): yield f"sample {theirs.sample}"
    if abs(theirs.rate_error - error) > Fraction(1, 10): yield f"rate error {theirs.rate_error}"
    for row in rows:
        if row.error != ceil(error_of(clock, rate, row.setting) * 1_000_000): yield f"our error {row}"
        if row.sample != Fraction(sample_of(row.setting) * 1000 // 1, 10): yield f"our sample {row}"


def why_absent(theirs):
    if theirs.setting[2] < 2: return "no plan: PHASE_SEG2 of 1 quantum"
    if 1 + theirs.setting[1] + theirs.setting[2] < 8: return "no plan: a bit of fewer than 8 quanta"
    return "refused: its longest cable is shorter"


def is_refused(program, kind, clock, rate, allowed, setting):
    """True if the longest cable of a setting is shorter than the one that is asked for."""
    row = next(row for row in listed(program, kind, clock, rate, allowed, None, 1) if row.setting == setting)
    return int(row.cable) < CABLES[rate]


def why_nearer(ours, point):
    """What can-calc-bit-timing doesn't propose: it knows segments of 16 and 8 quanta, and samples no later than is recommended."""
    return "with longer segments" if ours[1] > 16 or ours[2] > 8 else "after the point" if sample_of(ours) > point else "before the point"


def nearer(theirs, ours):
    """Who is nearer to what is wished for, by how far both are off."""
    return "the same" if theirs == ours else "ours nearer" if ours < theirs else "theirs nearer"


def case(program, can_calc, kind, clock, rate, tally):
    """Counts a case, and returns words on what differs."""
    theirs = proposed(can_calc, kind, clock, rate)
    allowed = min(ceil(error_of(clock, rate, theirs.setting) * 1_000_000), 100_000) if theirs else 0
    rows, wished = (listed(program, kind, clock, rate, allowed, it) for it in (None, recommended(rate)))
    if not theirs or not rows:
        what = "neither has one" if not theirs and not rows else "only ours" if rows else f"only theirs, {why_absent(theirs)}"
        tally["proposals", what] += 1
        return [] if what == "neither has one" else [what]
    own = next((row for row in rows if row.setting == theirs.setting), None)
    listing = why_absent(theirs) if not own else "listed, with the first row's margin" if own.margin == rows[0].margin else "listed, with a lesser margin"
    tally["proposals", listing] += 1
    if listing.startswith("refused"): tally["refusals", "right" if is_refused(program, kind, clock, rate, allowed, theirs.setting) else "wrong"] += 1
    best, point = wished[0], Fraction(recommended(rate), 1000)
    tally["rate error", nearer(error_of(clock, rate, theirs.setting), error_of(clock, rate, best.setting))] += 1
    off = nearer(abs(sample_of(theirs.setting) - point), abs(sample_of(best.setting) - point))
    if off == "theirs nearer": off += f", {why_absent(theirs) if not own else 'by less than a tenth of a percent'}"
    if off == "ours nearer": off += f", {why_nearer(best.setting, point)}"
    tally["sample point", off] += 1
    wrong = list(wrong_figures(clock, rate, theirs, rows))
    tally["figures", "exact" if not wrong else "wrong"] += 1
    return wrong + [it for it in (listing, off) if it not in ("the same", "listed, with the first row's margin", "listed, with a lesser margin")]


def main(program, can_calc="can-calc-bit-timing", *words):
    tally, cases = collections.Counter(), list(itertools.product(NAMES, CLOCKS, CABLES))
    for kind, mega, rate in cases:
        found = case(program, can_calc, kind, mega * 1_000_000, rate, tally)
        if found and "--cases" in words: print(f"{kind} {mega} MHz {rate} bit/s: {'; '.join(found)}", flush=True)
    print(f"| What | Outcome | Cases of {len(cases)} |\n|---|---|---|")
    for (what, outcome), count in sorted(tally.items()): print(f"| {what} | {outcome} | {count} |")
    results.keep_if_asked([(f"beside can-calc-bit-timing / {what}, {outcome} / cases", count, "cases") for (what, outcome), count in sorted(tally.items())])
    return tally["figures", "wrong"] + tally["refusals", "wrong"] > 0


if __name__ == "__main__":
    if len(sys.argv) < 2: sys.exit(__doc__)
    sys.exit(main(*sys.argv[1:]))
