#!/usr/bin/env python3
"""Measures two programs of Wireline beside each other, by turns on the same inputs, so that both meet the same machine.

usage: beside.py OURS OTHER [WORD..]      RUNS (default 15) is the number of runs; only inputs whose name has one of the WORDs, where some are given
       beside.py OURS OTHER commands      the commands that read a run, beside `run` of the other program on the busy plan of plan.py
       beside.py OURS OTHER counts        millions of instructions of whole processes (callgrind), and how those of `run` grow as a plan doubles

Prints for each input the least wall and processor time of both in milliseconds, the ratios, the peak memory in MiB, and whether both wrote the same.
KEEP=1 keeps the figures as rows of results.tsv, from which the tables of docs/change/speed.md are made.
"""
import hashlib
import os
import re
import subprocess
import sys
import tempfile
import time

sys.dont_write_bytecode = True
import results
import worst

HERE = os.path.dirname(os.path.abspath(__file__))


def made(script, *words):
    return subprocess.run([sys.executable, os.path.join(HERE, script), *words], capture_output=True, check=True).stdout


def undisturbed(plan):
    return re.sub(rb"\n\[\[disturbance\]\]\n(?:.+\n)+", b"", plan)


SILENT = """version = 1
end = 68719476736
per = 1
[[node]]
name = "silent"
offset = 0
num = 1048576
den = 1
prop = 3
ps1 = 3
ps2 = 3
sjw = 2
x = 0
out = 0
in = 1
"""

INPUTS = [
    ("run, busy: 16 nodes, 64 frames each", "run", lambda: worst.plan().encode()),
    ("run, busy, drifting, 16 disturbances (plan.py)", "run", lambda: made("plan.py")),
    ("run, the same without disturbances", "run", lambda: undisturbed(made("plan.py"))),
    ("run, the same plan with 1,040,000 quanta a node", "run", lambda: made("plan.py", "21", "1040000")),
    ("run, a pair, one sends all the time", "run", lambda: worst.plan(nodes=2, senders=1).encode()),
    ("run, one silent node to 2^36 ticks, 65,536 quanta", "run", lambda: SILENT.encode()),
    ("run, one silent node, 1,048,000 quanta", "run", lambda: worst.plan(nodes=1, frames=0, quanta=1_048_000, num=65_535).encode()),
    ("run, 16 idle nodes", "run", lambda: worst.plan(frames=0).encode()),
    ("run, busy, 64 disturbances", "run", lambda: worst.plan(disturbances=64).encode()),
    ("run, a small plan: 2 nodes, 700 quanta", "run", lambda: worst.plan(nodes=2, frames=1, quanta=700).encode()),
    ("merge, 64 MiB (records.py)", "merge", lambda: made("records.py", "67108864")),
    ("horizon, 64 MiB (records.py)", "horizon", lambda: made("records.py", "67108864")),
    ("merge, 64 MiB, descending", "merge", lambda: worst.upto(2 ** 26, worst.RECORDS["descending, all nodes"]())),
    ("merge, 64 MiB, all clash", "merge", lambda: worst.upto(2 ** 26, worst.RECORDS["all clash"]())),
    ("merge, 64 MiB, one node", "merge", lambda: worst.upto(2 ** 26, worst.RECORDS["one node"]())),
    ("merge, 64 MiB, highest number alone", "merge", lambda: worst.upto(2 ** 26, worst.RECORDS["highest number alone"]())),
    ("merge, 64 MiB, one record", "merge", lambda: worst.upto(2 ** 26, worst.RECORDS["one record"]())),
]


HEAD = """| input | wall, ms: ours, other | ratio | processor, ms: ours, other | ratio | of it system, ms: ours, other | peak, MiB: ours, other | output |
|---|---:|---:|---:|---:|---:|---:|---|"""


def once(program, command, path, out):
    with open(path, "rb") as source, open(out, "wb") as sink:
        start = time.monotonic()
        child = subprocess.Popen(["/usr/bin/env", "-i", program, command], stdin=source, stdout=sink)
        _, status, usage = os.wait4(child.pid, 0)
        return time.monotonic() - start, usage.ru_utime + usage.ru_stime, usage.ru_stime, os.waitstatus_to_exitcode(status)


def peak(program, command, path, out):
    """Peak memory in MiB, without that of this Python: GNU time starts the program."""
    with open(path, "rb") as source, open(out, "wb") as sink:
        told = subprocess.run(["/usr/bin/time", "-f", "%M", program, command], stdin=source, stdout=sink, stderr=subprocess.PIPE).stderr
    return int(told.split()[-1]) / 1024


def kept(table, row, *cells):
    results.keep_if_asked([(f"{table} / {row} / {column}", number, unit) for column, number, unit in cells])


def said(runs):
    print(f"least of {runs} by turns, load {os.getloadavg()[0]:.1f}, {os.cpu_count()} processors")


COMMANDS = ["run", "records", "candump", "trace", "vcd", "traffic"]

DOUBLED = [  # plans of which each is twice the one before, by one of their parts
    ("nodes: 4, 8, 16", [worst.plan(nodes=n) for n in (4, 8, 16)]),
    ("quanta of a node: 60,000, 120,000, 240,000", [worst.plan(quanta=n) for n in (60_000, 120_000, 240_000)]),
    ("frames of a node: 16, 32, 64, with 1,040,000 quanta", [worst.plan(frames=n, quanta=1_040_000) for n in (16, 32, 64)]),
    ("disturbances: 16, 32, 64", [worst.plan(disturbances=n) for n in (16, 32, 64)]),
]


def instructions(program, command, text):
    """Instructions of a whole process, which callgrind counts."""
    with tempfile.TemporaryDirectory() as room:
        words = ["valgrind", "--tool=callgrind", f"--callgrind-out-file={room}/counts", program, command]
        told = subprocess.run(words, input=text, stdout=subprocess.DEVNULL, stderr=subprocess.PIPE, check=True).stderr
    return int(re.search(rb"Collected : ([0-9]+)", told)[1])


def counts(programs):
    """Prints the instructions of both programs for each input of `run`, of ours for each command, and of ours as plans double."""
    print("| input | millions of instructions: ours, other | ratio |\n|---|---:|---:|")
    for name, command, make in INPUTS:
        if command != "run": continue
        text = make()
        ours, other = [instructions(program, command, text) / 1e6 for program in programs]
        print(f"| {name} | {ours:.2f}, {other:.2f} | {ours / other:.2f} |", flush=True)
        kept("instructions", name, ("ours", ours, "million"), ("plain Rust", other, "million"), ("ratio", ours / other, ""))
    text = made("plan.py")
    print("\n| command on plan.py | millions of instructions |\n|---|---:|")
    for command in COMMANDS:
        count = instructions(programs[0], command, text) / 1e6
        print(f"| `{command}` | {count:.1f} |", flush=True)
        kept("commands", f"`{command}`", ("instructions", count, "million"))
    print("\n| busy plan, doubled | millions of instructions | times the one before |\n|---|---:|---:|")
    for name, plans in DOUBLED:
        found = [instructions(programs[0], "run", text.encode()) / 1e6 for text in plans]
        print(f"| {name} | {', '.join(f'{n:.1f}' for n in found)} | {', '.join(f'{n / m:.2f}' for m, n in zip(found, found[1:]))} |", flush=True)
        kept("doubled", name, *((column, count, "million") for column, count in zip(("first", "second", "third"), found)))


def commands(programs, runs):
    """Prints the processor time of each command of ours on the busy plan, by turns with `run` of the other program."""
    with tempfile.TemporaryDirectory() as room:
        path, out = os.path.join(room, "in"), os.path.join(room, "out")
        with open(path, "wb") as file: file.write(made("plan.py"))
        cases = [(programs[1], "run")] + [(programs[0], command) for command in COMMANDS]
        least, sizes = [1e9] * len(cases), [0] * len(cases)
        for _ in range(runs):
            for case, (program, command) in enumerate(cases):
                _, processor, _, status = once(program, command, path, out)
                assert status == 0, f"{command}: status {status} of {program}"
                least[case], sizes[case] = min(least[case], processor), os.path.getsize(out)
    print("| command | processor, ms | of the other's `run` | bytes out |\n|---|---:|---:|---:|")
    for (_, command), time_, size in zip(cases[1:], least[1:], sizes[1:]):
        print(f"| `{command}` | {time_ * 1000:.1f} | {time_ / least[0]:.2f} | {size:,} |")
        kept("commands", f"`{command}`", ("processor", time_ * 1000, "ms"), ("of plain Rust's `run`", time_ / least[0], ""), ("out", size, "bytes"))
    print(f"`run` of the other program: {least[0] * 1000:.1f} ms")


def compared(programs, runs, name, command, text):
    """Prints the line of an input: wall and processor time, and how much of the latter is the system's, which callgrind doesn't count. Returns our least
    wall and processor time by those of the other program."""
    timed = os.path.exists("/usr/bin/time")
    with tempfile.TemporaryDirectory() as room:
        path, outs = os.path.join(room, "in"), [os.path.join(room, which) for which in ("ours", "other")]
        with open(path, "wb") as file: file.write(text)
        least = [[1e9] * 3, [1e9] * 3]
        for _ in range(runs):
            for which in (0, 1):
                *times, status = once(programs[which], command, path, outs[which])
                assert status == 0, f"{name}: status {status} of {programs[which]}"
                least[which] = [min(pair) for pair in zip(least[which], times)]
        same = len({hashlib.sha256(open(out, "rb").read()).digest() for out in outs}) == 1
        peaks = [peak(programs[which], command, path, outs[which]) if timed else 0 for which in (0, 1)]
    (wall, cpu, system), (wall2, cpu2, system2) = least
    ratio = cpu / max(cpu2, 1e-4)
    print(f"| {name} | {wall * 1000:.1f}, {wall2 * 1000:.1f} | {wall / wall2:.2f} | {cpu * 1000:.1f}, {cpu2 * 1000:.1f} | {ratio:.2f} |",
          f"{system * 1000:.1f}, {system2 * 1000:.1f} |",
          f"{peaks[0]:.0f}, {peaks[1]:.0f} | {'the same' if same else 'DIFFERS'} |", flush=True)
    if same: kept("beside plain Rust", name, ("ours", cpu * 1000, "ms"), ("plain Rust", cpu2 * 1000, "ms"), ("ratio", ratio, ""), ("peak", peaks[0], "MiB"))
    return wall / wall2, ratio


def main():
    if len(sys.argv) < 3: sys.exit(sys.stderr.write(__doc__) and 2)
    programs, words, runs = sys.argv[1:3], sys.argv[3:], int(os.environ.get("RUNS", "15"))
    if words == ["counts"]: return counts(programs)
    if words == ["commands"]:
        commands(programs, runs)
        return said(runs)
    print(HEAD)
    for name, command, make in INPUTS:
        if not words or any(word in name for word in words): compared(programs, runs, name, command, make())
    said(runs)


if __name__ == "__main__":
    main()
