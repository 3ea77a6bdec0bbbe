#!/usr/bin/env python3
"""Makes a table of 20 pairs of a clock and a bit rate, by the built program wl_sim: count, first row, sweeps at its longest cable.

usage: settings_tables.py PROGRAM pairs
"""
import re
import subprocess
import sys
import time
from fractions import Fraction
from functools import cache

# metres for each rate in kbit/s, with 5 ns a metre and 250 ns for a node's transceiver and controller, there and back once
CABLES = {1000: 20, 800: 30, 500: 40, 250: 200, 125: 400, 100: 500, 50: 1000, 20: 2000, 10: 4000}
ROW = re.compile(r"setting (\d+) prescaler (\d+) prop (\d+) ps1 (\d+) ps2 (\d+) sjw (\d+) quanta (\d+) sample (\S+) % error (\d+) ppm "
                 r"tolerance (\S+) one (\S+) any cable (\S+) one (\S+) any margin (\S+)")


def text(name, clock, rate):
    return (f'bitrate = {rate * 1000}\ncable = {CABLES[rate]}\nper = 5\nout = 120\nin = 130\ntolerance = 100\nsenders = "any"\n'
            f'[[controller]]\nname = "{name}"\nclock = {clock}\n')


def ask(program, given, *words):
    """Returns the lines of the settings of a text, with ticks of a nanosecond."""
    return subprocess.run([program, "settings", *words], input=given.encode(), capture_output=True, check=False).stdout.decode().splitlines()


@cache
def swept(program, plan, step, signs):
    """Returns what a sweep says of a plan whose two clocks lie at the ends of their tolerance, if there are signs: 1,000 power-ups."""
    clocks = iter(signs)

    def at_end(found):
        num, den, tolerance = (int(n) for n in found.group(1, 2, 4))
        rate = Fraction(num, den) * (1_000_000 + next(clocks) * tolerance) / 1_000_000
        return f"num = {rate.numerator}\nden = {rate.denominator}\n{found[3]}"

    plan = re.sub(r"num = (\d+)\nden = (\d+)\n((?:\w+ = .*\n)*?)tolerance = (\d+)\n", at_end, plan)
    words = [program, "sweep", "--runs", "1000", "--step", str(step)]
    return subprocess.run(words, input=plan.encode(), capture_output=True, check=False).stdout.decode().splitlines()[0]


def pairs(program):
    for clock in 16, 20, 40, 80:
        for rate in 1000, 500, 250, 125, 50:
            given = text(f"c{clock}", clock * 1_000_000, rate)
            begun = time.monotonic()
            lines = ask(program, given)
            took = time.monotonic() - begun
            row = ROW.match(lines[1]).groups()
            plan = "\n".join(ask(program, given, "--plan")[1:]).replace(f"\nx = {CABLES[rate]}\n", f"\nx = {row[12]}\n") + "\n"
            step = 1_000_000 // rate // 1000  # of the ticks of a bit, so that there are 1,000 offsets
            found = [swept(program, plan, step, signs) for signs in ((0, 0), (1, -1), (-1, 1))]
            count = lines[0].split(": ")[1].split()[0]
            clean = "all" if set(found) == {"clean in 1000 of 1000"} else "; ".join(found)
            print(f"| {clock} | {rate} | {CABLES[rate]} | {count} | {row[1]} | {row[2]}/{row[3]}/{row[4]}/{row[5]} | {row[7]} | {row[10]} | {row[12]} | {row[13]} | {clean} |"
                  f"  <!-- {took:.2f} s -->", flush=True)


def main():
    if sys.argv[2:] != ["pairs"]: sys.exit(__doc__)
    pairs(sys.argv[1])


if __name__ == "__main__":
    main()
