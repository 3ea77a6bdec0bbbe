#!/usr/bin/env python3
"""Measures inputs that are meant to cost the most, each beside half its size: where the cost grows with the size, twice the size takes twice as long.

usage: worst.py PROGRAM [records|texts|plans]...      all three kinds where none is named; RUNS (default 3) is the number of runs

records: record texts at the size limit of 2^27 bytes through `merge` and `horizon`. texts: plan texts at the size limit of 2^20 bytes through `check`.
plans: plans at their limits through `run`. Prints for each the status, processor seconds at half and at full size, their ratio, and the peak memory in
MiB at full size. KEEP=1 keeps the figures at full size as rows of results.tsv.
"""
import os
import subprocess
import sys
import tempfile

sys.dont_write_bytecode = True
import results

SEQS, COUNTS = 262_145, 262_146  # numbers of edges, of silences
RECORD_BYTES, PLAN_BYTES = 1 << 27, 1 << 20


def upto(size, lines):
    """The text of these lines up to a size."""
    out, length = [], 0
    for line in lines:
        length += len(line) + 1
        if length > size: break
        out.append(line)
    return "\n".join(out).encode() + b"\n"


def edges(nodes, seqs, tick=lambda node, seq: 2 ** 47 + seq * 64 + node):
    return (f"E {node} {seq} {tick(node, seq)}" for seq in seqs for node in nodes)


def reversed_bits(number, bits=18):
    return int(f"{number:0{bits}b}"[::-1], 2)


def forever(make):
    while True: yield from make()


ALL = range(16)
RECORDS = {
    "ascending, all nodes": lambda: forever(lambda: edges(ALL, range(SEQS))),
    "descending, all nodes": lambda: forever(lambda: edges(ALL, range(SEQS - 1, -1, -1))),
    "node after node": lambda: forever(lambda: (line for node in ALL for line in edges([node], range(SEQS)))),
    "one node": lambda: forever(lambda: edges([9], range(SEQS))),
    "numbers far apart": lambda: forever(lambda: edges(ALL, map(reversed_bits, range(SEQS - 1)))),
    "highest number alone": lambda: forever(lambda: edges(ALL, [SEQS - 1])),
    "all clash": lambda: forever(lambda: (line for turn in (0, 1) for line in edges(ALL, range(SEQS), lambda node, seq: 2 ** 47 + seq * 64 + turn))),
    "each number clashes downwards": lambda: (line for turn in (0, 1) for line in forever(lambda: edges([0], range(SEQS // 2 - 1, -1, -1), lambda node, seq: seq * 9 + turn))),
    "one record": lambda: forever(lambda: ["E 0 0 100"]),
    "silences, descending": lambda: forever(lambda: (f"S {node} {count} {2 ** 46 + count * 64}" for count in range(COUNTS - 1, -1, -1) for node in ALL)),
    "silences above edges": lambda: forever(lambda: (f"{kind} {node} {n} {2 ** 40 + n * 64 + (kind == 'S') * 70}" for n in range(SEQS - 1, -1, -1) for kind in "ES" for node in ALL)),
    "short lines": lambda: forever(lambda: (f"C {n % 10} {n // 10 % 10}" for n in range(100))),
}

HEAD = "version = 1\nend = 70000\nper = 1\n"
NODE = "offset = 0\nnum = 100\nden = 1\nprop = 3\nps1 = 3\nps2 = 3\nsjw = 2\nx = 0\nout = 0\nin = 1\n"
TEXTS = {
    "a comment": lambda size: "#" * (size - 1) + "\n",
    "a key": lambda size: "a" * (size - 5) + " = 1\n",
    "a string": lambda size: 'x = "' + "a" * (size - 7) + '"\n',
    "a string of escapes": lambda size: 'x = "' + "\\u0041" * ((size - 7) // 6) + '"\n',
    "a string of many lines": lambda size: 'x = """' + "a\n" * ((size - 11) // 2) + '"""\n',
    "blank lines": lambda size: "\n" * size,
    "an array": lambda size: HEAD + "x = [" + "1," * ((size - 60) // 2) + "]\n",
    "an array of tables": lambda size: "x = [" + "{a=1}," * ((size - 8) // 6) + "]\n",
    "an inline table": lambda size: "x = {" + ", ".join(f"k{n}=1" for n in range(size // 11)) + "}\n",
    "keys at the top": lambda size: "".join(f"k{n} = 1\n" for n in range(size // 11)),
    "dotted keys": lambda size: "".join(f"a.b.c.k{n} = 1\n" for n in range(size // 17)),
    "tables": lambda size: "".join(f"[k{n}]\n" for n in range(size // 9)),
    "tables of one table": lambda size: "".join(f"[a.k{n}]\n" for n in range(size // 11)),
    "nodes without keys": lambda size: HEAD + "[[node]]\n" * ((size - 60) // 9),
    "whole nodes": lambda size: HEAD + "".join(f'[[node]]\nname = "n{n}"\n{NODE}' for n in range(size // 112)),
    "nodes with one name": lambda size: HEAD + f'[[node]]\nname = "n"\n{NODE}' * (size // 112),
    "frames of one node": lambda size: HEAD + f'[[node]]\nname = "n"\n{NODE}' + "[[node.frame]]\nid = 1\ndlc = 0\n" * (size // 31 - 6),
    "rates of one node": lambda size: HEAD.replace("1", "2", 1) + '[[node]]\nname = "n"\n' + NODE.replace("num = 100\nden = 1\n", "rates = [" + "{from=0,num=9,den=1}," * (size // 22 - 12) + "]\n"),
    "data bytes of one frame": lambda size: HEAD + f'[[node]]\nname = "n"\n{NODE}[[node.frame]]\nid = 1\ndlc = 8\nbytes = [' + "1," * ((size - 250) // 2) + "]\n",
    "disturbances": lambda size: HEAD + f'[[node]]\nname = "n"\n{NODE}' + "[[disturbance]]\nx = 0\nfrom = 1\nto = 2\n" * (size // 38 - 6),
}


def plan(nodes=16, frames=64, disturbances=0, quanta=60_000, num=100, rates=1, senders=16):
    end = quanta * num
    out = [f"version = 2\nend = {end}\nper = 5\n"]
    for node in range(nodes):
        made = ", ".join(f"{{ from = {quanta * n // rates}, num = {num * 1000 + node * 3 - 20}, den = 1000 }}" for n in range(rates))
        out.append(f'[[node]]\nname = "n{node}"\noffset = {node}\nrates = [{made}]\nprop = 4\nps1 = 3\nps2 = 2\nsjw = 2\nx = {node % 13}\nout = {num // 3}\nin = {num // 2}\n')
        if node < senders: out += [f"[[node.frame]]\nid = {n << 4 | node}\ndlc = 8\nbytes = [{node}, {n}, 0, 255, 1, 2, 3, 4]\nready = 300\n" for n in range(frames)]
    out += [f"[[disturbance]]\nx = 0\nfrom = {end // (disturbances + 1) * (n + 1)}\nto = {end // (disturbances + 1) * (n + 1) + 2 * num}\n" for n in range(disturbances)]
    return "".join(out)


PLANS = {  # the half, the whole
    "quanta: 16 busy nodes": (plan(quanta=520_000), plan(quanta=1_040_000)),
    "quanta: 16 idle nodes": (plan(quanta=520_000, frames=0), plan(quanta=1_040_000, frames=0)),
    "nodes: 8, 16, busy": (plan(nodes=8), plan()),
    "nodes: 8, 16, idle": (plan(nodes=8, frames=0), plan(frames=0)),
    "frames of a node: 32, 64": (plan(frames=32, quanta=240_000), plan(quanta=240_000)),
    "disturbances: 32, 64": (plan(disturbances=32), plan(disturbances=64)),
    "rates of a node: 8, 16": (plan(rates=8), plan(rates=16)),
    "quantum: least (32 ticks)": (plan(quanta=30_000, num=32), plan(num=32)),
    "quantum: greatest (65,536 ticks)": (plan(quanta=30_000, num=65_536), plan(num=65_536)),
    "one node, idle": (plan(nodes=1, frames=0, quanta=520_000), plan(nodes=1, frames=0, quanta=1_040_000)),
    "no one answers": (plan(nodes=1, frames=1, quanta=520_000), plan(nodes=1, frames=1, quanta=1_040_000)),
}


def cost(program, command, path):
    """Status, and the least processor seconds of some runs."""
    least, status = 1e9, 0
    for _ in range(int(os.environ.get("RUNS", "3"))):
        with open(path, "rb") as source:
            child = subprocess.Popen(["/usr/bin/env", "-i", program, command], stdin=source, stdout=subprocess.DEVNULL, stderr=subprocess.DEVNULL)
            _, status, usage = os.wait4(child.pid, 0)
        least = min(least, usage.ru_utime + usage.ru_stime)
    return os.waitstatus_to_exitcode(status), least


def peak(program, command, path):
    """Peak memory in MiB, without that of this Python: GNU time starts the program."""
    if not os.path.exists("/usr/bin/time"): return 0
    with open(path, "rb") as source:
        told = subprocess.run(["/usr/bin/time", "-f", "%M", program, command], stdin=source, stdout=subprocess.DEVNULL, stderr=subprocess.PIPE).stderr
    return int(told.split()[-1]) / 1024


def row(program, command, name, half, full):
    with tempfile.TemporaryDirectory() as room:
        found = []
        for number, text in enumerate((half, full)):
            path = os.path.join(room, str(number))
            with open(path, "wb") as file: file.write(text)
            found.append(cost(program, command, path))
        held = peak(program, command, path)
    (_, least), (status, most) = found
    print(f"| {command} | {name} | {status} | {least:.3f} | {most:.3f} | {most / max(least, 0.0005):.2f} | {held:.0f} |", flush=True)
    results.keep_if_asked([(f"worst / `{command}`: {name} / processor", most, "s"), (f"worst / `{command}`: {name} / peak", held, "MiB")])


def main():
    kinds = sys.argv[2:] or ["records", "texts", "plans"]
    if len(sys.argv) < 2 or any(kind not in ("records", "texts", "plans") for kind in kinds): sys.exit(sys.stderr.write(__doc__) and 2)
    program = sys.argv[1]
    print("| command | input | status | half, s | full, s | ratio | peak, MiB |\n|---|---|---:|---:|---:|---:|---:|")
    if "records" in kinds:
        for name, lines in RECORDS.items():
            texts = [upto(size, lines()) for size in (RECORD_BYTES // 2, RECORD_BYTES)]
            for command in ("merge", "horizon"): row(program, command, name, *texts)
    if "texts" in kinds:
        for name, text in TEXTS.items():
            texts = [text(size).encode()[:size] for size in (PLAN_BYTES // 2, PLAN_BYTES)]
            row(program, "check", name, *texts)
    if "plans" in kinds:
        for name, (half, full) in PLANS.items(): row(program, "run", name, half.encode(), full.encode())


if __name__ == "__main__":
    main()
