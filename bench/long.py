#!/usr/bin/env python3
"""Writes plans of long runs with many nodes, of version 4, and measures `run` on them.

usage: long.py plan NODES QUANTA SECONDS busy|cyclic|idle    writes a plan: 500 kbit/s, by the book, bits of so many quanta
       long.py PROGRAM [SECONDS..]                           measures 2, 16, 32 and 64 nodes, 16 and 160 quanta a bit, for 1 s and for 10 s or as named
       long.py PROGRAM views [SECONDS..]                     measures each of VIEWS on 16 nodes, 16 quanta a bit, busy, for 1 s and for 10 s or as named

A tick is 1 ns; the sample is at 80 %, the jump width a tenth of a bit. All frames have 8 bytes. `busy` asks for 105 % of what the bus takes, `cyclic` for
some 40 %; of `idle` no node has a frame. Prints the least processor time and the peak memory of RUNS (default 3) processes, and the size of the report;
KEEP=1 keeps them as rows of results.tsv, whose row names begin with HOW, 'a build without proof at -O2' by default.
"""
import os
import random
import subprocess
import sys
import tempfile

sys.dont_write_bytecode = True
import results

BIT, FRAME_BITS, LISTS = 2_000, 130, 4  # ns, bits of a frame of 8 bytes with what follows it, messages of a node
NODES, LENGTHS, KINDS = (2, 16, 32, 64), (16, 160), ("busy", "cyclic", "idle")
WINDOW = ["--from", "400000000", "--to", "401000000"]  # a millisecond within the first second
VIEWS = (["run"], ["records"], ["candump"], ["candump", "--errors"], ["traffic"], ["trace"], ["trace", "--only", "error"], ["trace", *WINDOW], ["vcd"], ["vcd", *WINDOW],
         ["page"], ["page", *WINDOW])


def clock(quanta, ppm):
    """The clock keys of a quantum; one that is no whole number of ticks is a fraction."""
    if BIT % quanta == 0: return f"quantum = {BIT // quanta}\nppm = {ppm}"
    return f"num = {BIT * (1_000_000 + ppm) // quanta}\nden = 1000000"


def frames(rng, node, nodes, quanta, seconds, kind):
    share = 1.05 if kind == "busy" else 0.4
    period = nodes * LISTS * FRAME_BITS / share  # bits
    for number in range(LISTS):
        every = int(period * (rng.choice([0.5, 1, 2]) if kind == "cyclic" else 1)) * quanta
        count = max(1, int(seconds * 1e9 / BIT * quanta * 0.98) // every)
        data = ", ".join(str(rng.randrange(256)) for _ in range(8))
        ready = 30 * quanta + rng.randrange(every)
        yield f"  {{ id = {number * 64 + node + 16}, dlc = 8, bytes = [{data}], ready = {ready}, every = {every}, count = {count} }}"


def plan(nodes, quanta, seconds, kind):
    rng, tseg2 = random.Random(1), max(2, quanta // 5)
    lines = [f'version = 4\nend = {int(seconds * 1e9)}\nper = 5\nsync = "book"']
    for node in range(nodes):
        offset, keys = rng.randrange(BIT), clock(quanta, rng.randint(-50, 50))
        lines.append(f'\n[[node]]\nname = "n{node}"\noffset = {offset}\n{keys}\ntseg1 = {quanta - 1 - tseg2}\ntseg2 = {tseg2}\nsjw = {max(1, quanta // 10)}')
        lines.append(f"x = {node}\nout = 120\nin = 130")
        if kind != "idle": lines.append("frame = [\n" + ",\n".join(frames(rng, node, nodes, quanta, seconds, kind)) + "\n]")
    return "\n".join(lines) + "\n"


def once(program, path, out, words=("run",)):
    """Processor seconds and peak memory in MiB of a command; GNU time starts it, so that Python's own memory isn't counted."""
    with open(path, "rb") as source, open(out, "wb") as sink:
        told = subprocess.run(["/usr/bin/time", "-f", "%U %S %M", program, *words], stdin=source, stdout=sink, stderr=subprocess.PIPE, check=True).stderr.split()
    return float(told[-3]) + float(told[-2]), int(told[-1]) / 1024


def measure_views(program, lengths):
    """Measures each of VIEWS on a full bus of 16 nodes. Its output is counted by a pipe, since a waveform of 10 s has gigabytes."""
    runs, how = int(os.environ.get("RUNS", "3")), os.environ.get("HOW", "a build without proof at -O2")
    print("| view, seconds | processor, s | peak, MiB | output, MB |\n|---|---:|---:|---:|")
    for seconds in lengths:
        for words in VIEWS:
            with tempfile.TemporaryDirectory() as room:
                path, pipe = f"{room}/in", f"{room}/out"
                with open(path, "w", encoding="utf-8") as file: file.write(plan(16, 16, seconds, "busy"))
                os.mkfifo(pipe)
                found = []
                for _ in range(runs):
                    with subprocess.Popen(["wc", "-c", pipe], stdout=subprocess.PIPE) as counter:
                        found.append(once(program, path, pipe, words))
                        size = int(counter.stdout.read().split()[0]) / 1e6
            time, peak = min(it[0] for it in found), max(it[1] for it in found)
            row = f"16 nodes, 16 quanta a bit, busy: {' '.join(words)}, {seconds:g} s"
            print(f"| {row} | {time:.2f} | {peak:.1f} | {size:.2f} |", flush=True)
            results.keep_if_asked([(f"views of long runs / {how}: {row} / {column}", number, unit) for column, number, unit in
                                   (("processor", time, "s"), ("peak", peak, "MiB"), ("output", size, "MB"))])


def measure(program, lengths):
    runs, how = int(os.environ.get("RUNS", "3")), os.environ.get("HOW", "a build without proof at -O2")
    print("| nodes, quanta a bit, seconds | processor, s | peak, MiB | report, MB | verdict |\n|---|---:|---:|---:|---|")
    for seconds in lengths:
        for kind in KINDS:
            for nodes, quanta in [(nodes, quanta) for nodes in NODES for quanta in LENGTHS]:
                with tempfile.TemporaryDirectory() as room:
                    path, out = f"{room}/in", f"{room}/out"
                    with open(path, "w", encoding="utf-8") as file: file.write(plan(nodes, quanta, seconds, kind))
                    found = [once(program, path, out) for _ in range(runs)]
                    size = os.path.getsize(out) / 1e6
                    with open(out, "rb") as file: file.seek(max(0, os.path.getsize(out) - 100)); verdict = file.read().decode().splitlines()[-1]
                time, peak = min(it[0] for it in found), max(it[1] for it in found)
                row = f"{nodes} nodes, {quanta} quanta a bit, {seconds:g} s, {kind}"
                print(f"| {row} | {time:.2f} | {peak:.1f} | {size:.2f} | {verdict} |", flush=True)
                results.keep_if_asked([(f"long runs / {how}: {row} / {column}", number, unit) for column, number, unit in
                                       (("processor", time, "s"), ("peak", peak, "MiB"), ("report", size, "MB"))])


def main():
    words = sys.argv[1:]
    if len(words) == 5 and words[0] == "plan": return sys.stdout.write(plan(int(words[1]), int(words[2]), float(words[3]), words[4]))
    if not words: sys.exit(sys.stderr.write(__doc__) and 2)
    if words[1:2] == ["views"]: measure_views(words[0], [float(it) for it in words[2:]] or [1, 10])
    else: measure(words[0], [float(it) for it in words[1:]] or [1, 10])
    print(f"least of {os.environ.get('RUNS', '3')} processes, load {os.getloadavg()[0]:.1f}, {os.cpu_count()} processors")


if __name__ == "__main__":
    main()
