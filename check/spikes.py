#!/usr/bin/env python3
"""Aims single spikes at the end of frames, on buses whose cable is as long as the test of one spike lets it be: none may hide a frame.

usage: spikes.py PROGRAM [COUNT [SEED [JUMPS]]]     COUNT buses (100); JUMPS are those that the test counts: both, or `receiver`, which is too few

The test is that of margin.py (docs/bus/condition.md, One spike). The frames are those of PROGRAM's `trace`, and its `traffic` says what a spike hides. Each
spike is shorter than a bit, and begins in the last bit but one of a frame's end as one receiver has it: at that receiver alone, or anywhere on the cable.
"""
import random
import subprocess
import sys
from pathlib import Path

sys.dont_write_bytecode = True
import margin
import plain

SETTINGS = [(6, 7, 2, 1), (6, 6, 3, 3), (7, 4, 4, 4), (8, 4, 3, 3), (8, 8, 8, 4), (2, 3, 2, 1), (3, 3, 3, 2), (6, 6, 7, 4), (8, 6, 5, 4), (6, 8, 4, 4)]
SPIKES = 8


def plan_of(bus, scale, spike=None):
    """The text of a bus whose places are so many 64ths of what they are, and of a spike: where, from, to."""
    prop, ps1, ps2, sjw = bus["segments"]
    bit = (1 + prop + ps1 + ps2) * bus["quantum"]
    text = f'version = 3\nend = {420 * bit}\nper = 1\nsync = "book"\n'
    for i, node in enumerate(bus["nodes"]):
        text += (f'\n[[node]]\nname = "n{i}"\noffset = {node["offset"]}\nquantum = {bus["quantum"]}\nppm = {node["ppm"]}\ntolerance = {bus["tolerance"]}\n'
                 f'prop = {prop}\nps1 = {ps1}\nps2 = {ps2}\nsjw = {sjw}\nx = {node["x"] * scale // 64}\nout = {bus["out"]}\nin = {bus["in"]}\n')
        if node["id"] is not None: text += f'frame = [{{ id = {node["id"]}, dlc = 1, bytes = [{node["byte"]}], ready = {node["ready"]} }}]\n'
    return text if spike is None else text + "\n[[disturbance]]\n%s\nfrom = %d\nto = %d\n" % spike


def any_bus():
    segments, quantum, count = random.choice(SETTINGS), random.choice((125, 100, 50)), random.randint(2, 4)
    bit = (1 + sum(segments[:3])) * quantum
    tolerance = random.choice((0, 0, 100, 1000))
    nodes = [{"offset": random.randrange(bit), "ppm": random.choice((-tolerance, 0, tolerance)), "x": random.randrange(64) if i else 0, "byte": random.randrange(256),
              "id": 4 * random.randrange(100) + i if i == 0 or random.random() < .4 else None, "ready": 20 * (bit // quantum) + random.randrange(40)} for i in range(count)]
    nodes[-1]["x"] = 64
    return {"segments": segments, "quantum": quantum, "tolerance": tolerance, "nodes": nodes, "out": random.choice((60, 120)), "in": random.choice((70, 130))}


def passes(text, jumps):
    """Whether a bus holds for any senders, and with the jumps of a spike."""
    family = margin.Family(plain.read_plan(text.encode()), margin.clocks_of(plain.read_toml(text.encode())))
    if not family.holds(False): return False
    bus = family.buses(False)[0]
    for i in family.senders:
        for j in bus.others(i):
            needs = bus.sjw[j] * bus.high[j] + (bus.jump[i] if jumps == "both" else 0)
            if bus.left(margin.LATE, i, j) + needs > bus.right(margin.LATE, i, j): return False
    return True


def longest(bus, jumps):
    """The greatest scale of a bus with which it passes, or None."""
    low, high = 0, 64 * 64
    if not passes(plan_of(bus, low), jumps): return None
    while high - low > 1:
        middle = (low + high) // 2
        low, high = (middle, high) if passes(plan_of(bus, middle), jumps) else (low, middle)
    return low


def said(program, word, text):
    return subprocess.run([program, word], input=text.encode(), capture_output=True, timeout=100, check=False).stdout.decode().splitlines()


def spikes(bus, scale, program):
    """Yields spikes that are aimed at the frames of a bus."""
    sample, quantum = 1 + sum(bus["segments"][:2]), bus["quantum"]
    bit, far = (sample + bus["segments"][2]) * quantum, bus["nodes"][-1]["x"] * scale // 64
    for line in said(program, "trace", plan_of(bus, scale)):
        words = line.split()
        if len(words) < 8 or words[7] != "received": continue
        own = bus["nodes"][int(words[1])]["x"] * scale // 64
        for _ in range(SPIKES):
            begin = int(words[0]) - bus["in"] - random.randrange((sample + 2) * quantum)
            length = random.randrange(1, bit)
            place = random.choice((own, random.randrange(far + 1)))
            yield (f'node = "n{words[1]}"', begin, begin + length) if random.random() < .4 else (f"x = {place}", begin - abs(place - own), begin + length - abs(place - own))


def main():
    program, count, seed, jumps = (sys.argv[1:] + ["100", "1", "both"][len(sys.argv) - 2:])[:4]
    random.seed(int(seed))
    buses = tried = hidden = 0
    for _ in range(int(count)):
        bus = any_bus()
        scale = longest(bus, jumps)
        if scale is None: continue
        buses += 1
        for spike in spikes(bus, scale, str(Path(program).resolve())):
            text = plan_of(bus, scale, spike)
            tried += 1
            if not any(line.startswith("missed ") for line in said(program, "traffic", text)): continue
            hidden += 1
            if hidden == 1: print(text)
    print(f"jumps of {jumps}: {buses} buses, {tried} spikes, {hidden} hid a frame")
    sys.exit(hidden > 0)


if __name__ == "__main__": main()
