#!/usr/bin/env python3
"""Compares the settings of random texts with `version = 4` with what settings.py has of them, and lists, plans, faults and statuses byte for byte.

usage: settings_texts.py PROGRAM [SEED [COUNT]]     seed 1 and 300 texts if none are named
"""
import collections
import random
import subprocess
import sys

import settings as independent

TICKS = {"1ns": 1_000, "10ns": 10_000, "125ps": 125, "2us": 2_000_000}
KINDS = [None, None, *independent.KINDS]
WRONG = ["nodes = 1", "sample_point = 87", "cable = 0", "x = 1", "clock = 0", "", "version = 3", "version = 4.0", 'kind = "m-can"', "kind = 1", "tseg1 = 1", "tseg1 = 257", "tseg2 = 1", "tseg2 = 129",
         "sjw = 0", "sjw = 129", "prop = 8", "ps1 = 8", "ps2 = 8", "prescaler = 1025"]


def controller_lines(rng, name, rate):
    """A controller with few settings: of all its bits one or two have the rate."""
    kind, quanta, prescaler = rng.choice(KINDS), rng.choice([8, 9, 10, 16, 20, 40, 80, 160, 385, rng.randint(8, 385)]), rng.choice([1, 1, 1, 2, 4])
    clock = rng.choice([*[rate * quanta * prescaler + rng.choice([0, 0, 0, 0, 0, 0, 1, -7])] * 4, 8_000_000, 40_000_000])
    lines = ["[[controller]]", f'name = "{name}"', f"clock = {min(10**9, max(1, clock))}", f"prescaler = {rng.choice([1, prescaler, 2 * prescaler])}"]
    if kind: lines.append(f'kind = "{kind}"')
    if quanta > 12 or rng.random() < 0.5: lines.append(f"sjw = {rng.choice([1, 2, 3, rng.randint(1, 128) if quanta < 24 else 2])}")
    if quanta > 24 or rng.random() < 0.5: lines.append(f"tseg2 = {rng.choice([2, 3, 5, 8, rng.randint(2, 128) if quanta < 42 else 6])}")
    if rng.random() < 0.5: lines.append(f"tseg1 = {rng.choice([2, 16, quanta, 256, rng.randint(2, 256)]) if 2 <= quanta <= 256 else 256}")
    return lines


def text_of(rng):
    rate = rng.choice([1_000_000, 500_000, 250_000, 125_000, 83_333, rng.randint(10_000, 1_000_000)])
    lines = ["version = 4", f"bitrate = {rate}", f"cable = {rng.choice([1, 10, 40, 100, rng.randint(1, 1_000)])}", f"per = {rng.choice([1, 5, 6])}"]
    lines += [f"out = {rng.choice([0, 60, 120, 210])}", f"in = {rng.choice([1, 60, 130, 210])}"]
    lines += [f"tolerance = {rng.choice([0, 50, 100, 1_000, 5_000, rng.randint(0, 20_000)])}", f'senders = "{rng.choice(["one", "any", "any"])}"']
    if rng.random() < 0.3: lines.append(f"rate_error = {rng.choice([0, 500, 5_000])}")
    if rng.random() < 0.3: lines.append(f'sample_point = "{rng.choice(["80%", "87.5%", "87.5 %", "75.0%", "50 %", "8%", "99.9%"])}"')
    if rng.random() < 0.3: lines.append(f"nodes = {rng.choice([2, 3, 4, 5, 64])}")
    for number in range(rng.choice([1, 1, 2])): lines += controller_lines(rng, f"c{number}", rate)
    if rng.random() < 0.1: lines[rng.randrange(len(lines))] = rng.choice(WRONG)
    return "\n".join(lines).encode() + b"\n"


def wanted_of(text, tick, best, plan):
    try: return independent.settings_text(text, tick, best, plan), "", 0
    except independent.Fault as fault: return "", f"fault: {fault}\n", 1


def main(program, seed="1", count="300"):
    answers, listed, different = collections.Counter(), 0, 0
    for number in range(int(count)):
        rng = random.Random(f"{seed} {number} settings of version 4")
        text, tick, best, plan = text_of(rng), rng.choice([*TICKS]), rng.choice([None, None, 1, 3]), rng.random() < 0.3
        words = ["--tick", tick] + (["--plan"] if plan else ["--best", str(best)] if best else [])
        wanted = wanted_of(text, TICKS[tick], best, plan)
        ran = subprocess.run([program, "settings", *words], input=text, capture_output=True, check=False)
        got = ran.stdout.decode(), ran.stderr.decode(), ran.returncode
        lines = wanted[0].splitlines()
        listed += sum(int(line.split(": ")[1].split()[0]) for line in lines if line.startswith("controller"))
        answers["a fault" if wanted[2] else "a plan" if plan else lines[1].split()[0]] += 1
        if got != wanted:
            different += 1
            print(f"text {number} of seed {seed}, {' '.join(words)}\n{text.decode()}wanted: {wanted}\ngot: {got}")
    print(f"{count} texts, {listed} settings listed, {different} differ: {dict(sorted(answers.items()))}")
    sys.exit(different > 0)


if __name__ == "__main__":
    if not 2 <= len(sys.argv) <= 4: sys.exit(__doc__)
    main(*sys.argv[1:])
