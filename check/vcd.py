#!/usr/bin/env python3
"""Waveforms as other tools read them: runs plans, and has GTKWave and sigrok read what `vcd` writes.

usage: vcd.py PROGRAM PLAN..     needs gtkwave (vcd2fst, fst2vcd) and sigrok-cli with its decoders; vcd.sh installs them

GTKWave's reader makes an FST file of each waveform, and what it reads back is compared, signal by signal: tx with the edges of `records`, rx with
those edges a delay later and the plan's disturbances, worked out here, the number of turns of each sample mark with the report, and all values of every
signal with the waveform of plain.py. sigrok's decoder
`can` reads the rx of each node, and has to give back every frame that the report says was sent, in order, and no other. Left out is what that
decoder doesn't know: error frames, which are cut out; remote frames of a data length code above 0, and a code above 8.
"""
import os
import subprocess
import sys
import tempfile
import tomllib

sys.dont_write_bytecode = True
import candump
import plain
import sigrok

TICKS = {"1ns": (1, 10**9), "125ps": (125, 10**12)}  # units a tick, units a second


def said(words, text=None):
    return subprocess.run(words, input=text, text=True, capture_output=True, check=True).stdout


def by_gtkwave(path):
    """What GTKWave reads: the first level and the changes of each signal, by its name, and the last time."""
    said(["vcd2fst", path, f"{path}.fst"])
    names, levels, time = {}, {}, None
    for words in map(str.split, said(["fst2vcd", f"{path}.fst"]).splitlines()):
        if words[:1] == ["$var"]: names[words[3]], levels[words[4]] = words[4], []
        if not words or (time is None and words[0][0] != "#"): continue
        if words[0][0] == "#": time = int(words[0][1:])
        elif words[0][0] in "01": levels[names[words[0][1:]]].append((time, int(words[0][0])))
        elif words[0][0] in "rs": levels[names[words[1]]].append((time, words[0][1:]))
    return levels, time


def by_plain(text, units):
    """The same of plain.py's waveform, read without another tool; times in units."""
    lines, fault, status = plain.answer("vcd", text.encode())
    if status: sys.exit(f"plain.py refuses the plan: {fault}")
    names, levels, time = {}, {}, None
    for words in map(str.split, lines.splitlines()):
        if words[0] == "$var": names[words[3]], levels[words[4]] = words[4], []
        elif words[0][0] == "#": time = int(words[0][1:]) * units
        elif words[0][0] in "01": levels[names[words[0][1:]]].append((time, int(words[0][0])))
        elif words[0][0] in "rs": levels[names[words[1]]].append((time, words[0][1:]))
    return levels


def edges_of(records, nodes):
    changes = [[] for _ in range(nodes)]
    for words in map(str.split, records.splitlines()):
        if words[0] == "E": changes[int(words[1])].append(int(words[3]))
    return changes


def cable_at(plan, changes, j):
    """The intervals in which the cable is dominant at node j, by a sum of what comes and goes; a listener reaches itself alone."""
    to = plan["node"][j]
    turns = []
    for node, ticks in zip(plan["node"], changes):
        if node.get("listen") and node is not to: continue
        delay = node["out"] + abs(node["x"] - to["x"]) * plan["per"] + to["in"]
        turns += [(tick + delay, 1 if n % 2 == 0 else -1) for n, tick in enumerate(ticks)]
    return turns


def disturbed_at(plan, j):
    """The intervals in which a disturbance is at node j."""
    to, turns = plan["node"][j], []
    for d in plan.get("disturbance", []):
        if d.get("node", to["name"]) != to["name"]: continue
        delay = to["in"] + (0 if "node" in d else abs(d["x"] - to["x"]) * plan["per"])
        turns += [(d["from"] + delay, 1), (d["to"] + delay, -1)]
    return turns


def levels_of(turns, end):
    """The first level and the changes of a signal that is low where the turns add up to more than nothing."""
    found, count = [(0, 1)], 0
    for tick in sorted({tick for tick, _ in turns if tick < end}):
        count += sum(step for at, step in turns if at == tick)
        level = int(count == 0)
        if tick == 0: found = [(0, level)]
        elif level != found[-1][1]: found.append((tick, level))
    return found


def compare(path, plan, text, program, tick, room):
    """GTKWave's reading of one plan's waveform."""
    units, _ = TICKS[tick]
    wave = os.path.join(room, "wave.vcd")
    with open(wave, "w") as file: file.write(said([program, "vcd", "--tick", tick], text))
    levels, last = by_gtkwave(wave)
    changes = edges_of(said([program, "records"], text), len(plan["node"]))
    samples = [int(words[11]) for words in map(str.split, said([program, "run"], text).splitlines()) if words[0] == "node"]
    wanted = {}
    for j, node in enumerate(plan["node"]):
        wanted[node["name"] + "_tx"] = levels_of([(tick, 1 if n % 2 == 0 else -1) for n, tick in enumerate(changes[j])], plan["end"])
        cable, shocks = cable_at(plan, changes, j), disturbed_at(plan, j)
        wanted[node["name"] + "_rx"] = levels_of(cable + shocks, plan["end"])
        wanted[node["name"] + "_cable"] = levels_of(cable, plan["end"])
        wanted[node["name"] + "_disturbance"] = [(tick, 1 - level) for tick, level in levels_of(shocks, plan["end"])]
    for name, wave_levels in wanted.items():
        if levels[name] != [(tick * units, level) for tick, level in wave_levels]: sys.exit(f"{path}: {name} is {levels[name]}, wanted {wave_levels}")
    for name, values in by_plain(text, units).items():
        if levels[name] != values: sys.exit(f"{path}: {name} is {levels[name]}, plain.py has {values}")
    turns = [len(levels[node["name"] + "_sample"]) - 1 for node in plan["node"]]
    if turns != samples: sys.exit(f"{path}: the marks turn {turns} times, the report has {samples} samples")
    if last != plan["end"] * units: sys.exit(f"{path}: the waveform ends at {last}")
    return levels


def bit_of(node):
    """The ticks of a bit, and its sample point in percent."""
    rate = (node.get("rates") or [node])[0]
    quantum = rate["num"] / rate["den"] if "num" in rate else rate["quantum"] * (1 + rate["ppm"] / 10**6)
    behind = node["ps2"] if "ps2" in node else node["tseg2"]
    quanta = 1 + sum(node.get(key, 0) for key in ("prop", "ps1", "tseg1")) + behind
    return quanta * quantum, 100 * (quanta - behind) / quanta


def stretches(sent):
    """The frames, each with the stretch of time in which it was on the line: from a bit before its start of frame to 2 bits behind its end. A frame
    that two nodes sent at once counts once."""
    found = []
    for end, bit, frame in sent:
        bits = len(sigrok.plain.stuff(frame.bits())) + len(sigrok.plain.ENDING)
        if not found or end - found[-1][1] > 0: found.append((end - (bits + 1) * bit, end + 2 * bit, frame))
    return found


def by_sigrok(levels, sent, node, room):
    """The frames that the decoder reads in these stretches, which are laid one behind another with 20 bits of idle line between them: it takes
    an error frame for data and reads on, so that it needs the frames alone."""
    bit, point = bit_of(node)
    cut, now = os.path.join(room, "cut.vcd"), round(20 * bit)
    with open(cut, "w") as file:
        file.write("$timescale 1 ns $end\n$var wire 1 ! rx $end\n$enddefinitions $end\n#0\n1!\n")
        for start, end, _ in sent:
            for time, level in levels:
                if start <= time < end: file.write(f"#{round(now + time - start)}\n{level}!\n")
            now += round(end - start + 20 * bit)
            file.write(f"#{now}\n1!\n")
    words = f"can:can_rx=rx:nominal_bitrate={round(10**9 / bit)}:sample_point={point}"
    return [frame for frame, _ in sigrok.said_frames(said(["sigrok-cli", "-i", cut, "-I", "vcd", "-P", words]))]


def known(frame):
    return not (frame.remote and frame.dlc > 0) and frame.dlc <= 8


def main():
    program, paths = sys.argv[1], sys.argv[2:]
    changes = read = 0
    for path in paths:
        with open(path) as file: text = file.read()
        plan = tomllib.loads(text)
        sent = [(end, bit, frame) for end, bit, frame in sent_in_order(plan, said([program, "run"], text)) if known(frame)]
        with tempfile.TemporaryDirectory() as room:
            for tick in TICKS: changes += sum(map(len, compare(path, plan, text, program, tick, room).values()))
            levels = compare(path, plan, text, program, "1ns", room)
            wanted = stretches(sent)
            for node in plan["node"]:
                found = by_sigrok(levels[node["name"] + "_rx"], wanted, node, room)
                if found != [frame for _, _, frame in wanted]: sys.exit(f"{path}: sigrok reads {found} in what {node['name']} sees, sent was {wanted}")
                read += len(found)
    print(f"{len(paths)} plans: GTKWave reads {changes} levels as records and report say, sigrok {read} frames that were sent")


def sent_in_order(plan, report):
    """The frames that the report says were sent, with the tick of their completion and the ticks of their sender's bits."""
    frames = []
    for words in map(str.split, report.splitlines()):
        if words[:1] != ["frame"] or words[2] != "sent": continue
        node = plan["node"][int(words[1])]
        frame = sigrok.plain.Frame(int(words[4], 16), words[5] == "remote", int(words[6]), bytes.fromhex(words[7].strip("-")), len(words[4]) == 8)
        frames.append((candump.tick_of(node, int(words[3])), bit_of(node)[0], frame))
    return sorted(frames, key=lambda found: found[0])


if __name__ == "__main__":
    main()
