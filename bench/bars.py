#!/usr/bin/env python3
"""Measures what has a bar: sweeps by threads beside processes, members beside runs, margins and pages, and runs beside plain Rust.

usage: bars.py PROGRAM [PLAIN]     PROGRAM is the built wl_sim; PLAIN is a program in plain Rust that writes the same, without which its rows are left out

What is compared goes by turns, and the least counts. That takes under four minutes on four idle processors. MEMBERS (default 1,000,000) is the size of the
sweep by threads, TURNS (default 9) how often all else is measured. Prints each figure beside its bar, as rows of results.tsv have them. KEEP=1 keeps them:
then `results.py page` writes the table of docs/change/speed.md.
"""
import os
import subprocess
import sys
import tempfile
import time

sys.dont_write_bytecode = True
import beside
import results

EXAMPLES = os.path.join(results.TOP, "examples")
MEMBERS, TURNS = int(os.environ.get("MEMBERS", "1000000")), int(os.environ.get("TURNS", "9"))
PLAIN = {  # inputs of beside.py, the bars by the clock and by processor time
    "run, busy: 16 nodes, 64 frames each": (None, 0.62),
    "run, busy, drifting, 16 disturbances (plan.py)": (None, 0.62),
    "run, 16 idle nodes": (None, 0.86),
    "merge, 64 MiB (records.py)": (0.95, 0.95),
    "horizon, 64 MiB (records.py)": (1.0, 1.0),
}


def row(name, bar, figure, unit=""):
    """Prints a figure beside its bar, and keeps both if that is asked for."""
    print(f"| {name}{', ' + unit if unit else ''} | {bar} | {results.shown(figure)} |", flush=True)
    name += f", {unit}" if unit else ""
    results.keep_if_asked([(f"bars / {name} / bar", str(bar), ""), (f"bars / {name} / measured", figure, "")])


def begun(words, source, sink):
    """Begins a process that reads a file and writes one, with no environment."""
    files = [(os.POSIX_SPAWN_OPEN, 0, source, os.O_RDONLY, 0), (os.POSIX_SPAWN_OPEN, 1, sink, os.O_WRONLY | os.O_CREAT | os.O_TRUNC, 0o600)]
    return os.posix_spawn(words[0], words, {}, file_actions=files)


def ended(children):
    """Waits for processes. Returns their processor time in seconds; each ends with one of these statuses: 1 is a sweep with members that aren't clean."""
    spent = 0
    for child in children:
        _, status, usage = os.wait4(child, 0)
        if os.waitstatus_to_exitcode(status) not in (0, 1): sys.exit(f"bars.py: a process ended with status {os.waitstatus_to_exitcode(status)}")
        spent += usage.ru_utime + usage.ru_stime
    return spent


def timed(runs):
    """Runs processes at once, each of words, source and sink. Returns seconds by the clock and of processor time."""
    start = time.monotonic()
    spent = ended([begun(*run) for run in runs])
    return time.monotonic() - start, spent


def threads(program, room):
    """A sweep by k threads beside k processes, each with a part; with four of both twice. What both say is the same."""
    plan, words = f"{EXAMPLES}/clean_500k.toml", [program, "sweep", "--runs", str(MEMBERS)]
    sums = {}
    for turn, count in enumerate((2, 3, 4, 4)):
        whole = [([*words, "--workers", str(count)], plan, f"{room}/whole")]
        parts = [([*words, "--workers", "1", "--part", f"{part}/{count}"], plan, f"{room}/part{part}") for part in range(1, count + 1)]
        both = {}
        for kind in (("whole", "parts"), ("parts", "whole"))[turn % 2]: both[kind] = timed(whole if kind == "whole" else parts)
        joined = b"".join(open(f"{room}/part{part}", "rb").read() for part in range(1, count + 1))
        said = subprocess.run([program, "sweep", "--join"], input=joined, capture_output=True, check=False).stdout
        if said != open(f"{room}/whole", "rb").read(): sys.exit("bars.py: the parts don't say what the sweep says")
        for at in (0, 1): sums[count, at] = [one + more for one, more in zip(sums.get((count, at), (0, 0)), (both["whole"][at], both["parts"][at]))]
    for count in (2, 3, 4):
        for at, how in ((0, "by the clock"), (1, "by processor time")):
            ours, theirs = sums[count, at]
            row(f"sweep of {MEMBERS:,} members, {count} threads beside {count} processes, {how}", 1.05, ours / theirs)


def members(program, room):
    """1,000 members of a sweep, beside a run of the program each."""
    plan, runs = f"{EXAMPLES}/clean_500k.toml", []
    for _ in range(3):
        swept = timed([([program, "sweep", "--runs", "1000", "--workers", "1"], plan, f"{room}/swept")])[1]
        runs.append((swept, sum(timed([([program, "run"], plan, f"{room}/run")])[1] for _ in range(1000))))
    swept, alone = (min(times) for times in zip(*runs))
    row("1,000 members of `clean_500k`, of a run each, by processor time", 0.025, swept / alone)
    print(f"  1,000 members take {swept * 1000:.0f} ms, 1,000 runs {alone * 1000:.0f} ms")


def sweeps(program, room):
    """1,000 members by one thread and by four, by the clock and by processor time."""
    for plan in ("clean_500k", "sixteen_nodes"):
        for count, column in ((1, "one thread"), (4, "four threads")):
            words = [program, "sweep", "--runs", "1000", "--workers", str(count)]
            times = [timed([(words, f"{EXAMPLES}/{plan}.toml", f"{room}/swept")]) for _ in range(2)]
            for how, least in zip(("wall", "processor"), map(min, zip(*times))):
                print(f"  `{plan}`, 1000 members, {column}, {how}: {least:.3f} s")
                results.keep_if_asked([(f"sweeps / `{plan}`, 1000 members, {how} / {column}", least, "s")])


def many_nodes(nodes):
    """Returns a plan of nodes that all send, over 40 m at 125 kbit/s, with tolerances of 100 ppm."""
    lines = ['version = 4\nend = 100000000\nper = 5\nsync = "book"']
    for i in range(nodes):
        x, frame = 40 * i // (nodes - 1), f"{{ id = {16 + i}, dlc = 8, bytes = [0, 0, 0, 0, 0, 0, 0, 0], ready = 800 }}"
        lines.append(f'\n[[node]]\nname = "n{i}"\noffset = {100 * i}\nquantum = 500\nppm = 0\ntolerance = 100\nprop = 8\nps1 = 4\nps2 = 3\nsjw = 3')
        lines.append(f"x = {x}\nout = 120\nin = 130\nframe = [{frame}]")
    return "\n".join(lines) + "\n"


def commands(program, path, names, turns, room):
    """Returns the least processor time of commands on a plan, by turns, in milliseconds."""
    least = dict.fromkeys(names, 1e9)
    for _ in range(turns):
        for name in names: least[name] = min(least[name], 1000 * timed([([program, name], path, f"{room}/out")])[1])
    return least


def margins(program, room):
    """`margin`, `explain` and `page` of sixteen nodes beside `run`, and of 32 and 64."""
    took = commands(program, f"{EXAMPLES}/sixteen_nodes.toml", ("run", "margin", "explain", "page"), TURNS, room)
    print(f"  `run` of sixteen nodes takes {took['run']:.1f} ms")
    for name, bar in (("margin", 10), ("explain", 15), ("page", 20)): row(f"`{name}`, 16 nodes", bar, took[name], "ms")
    row("`page`, 16 nodes, beside `run`", 3, took["page"] / took["run"])
    for nodes, bar in ((32, 200), (64, 1000)):
        path = f"{room}/{nodes}.toml"
        with open(path, "w", encoding="utf-8") as it: it.write(many_nodes(nodes))
        took = commands(program, path, ("margin", "explain"), 3, room)
        row(f"`margin`, {nodes} nodes", bar, took["margin"], "ms")
        print(f"  `explain` of {nodes} nodes takes {took['explain']:.0f} ms")


def beside_plain(programs):
    """Runs, `merge` and `horizon` beside plain Rust, and the commands that read a run."""
    print(beside.HEAD)
    found, records = {}, None
    for name, command, make in beside.INPUTS:
        if command != "run" and name not in PLAIN: continue
        text = records or make() if "records.py" in name else make()
        if "records.py" in name: records = text
        found[name] = beside.compared(programs, TURNS, name, command, text)
    for name, bars in PLAIN.items():
        for bar, figure, how in zip(bars, found[name], ("by the clock", "by processor time")):
            if bar: row(f"{name}, beside plain Rust, {how}", bar, figure)
    beside.commands(programs, TURNS)


def main():
    if len(sys.argv) not in (2, 3): sys.exit(sys.stderr.write(__doc__) and 2)
    programs, began = [os.path.abspath(it) for it in sys.argv[1:]], time.monotonic()
    with tempfile.TemporaryDirectory() as room:
        for part in (threads, members, sweeps, margins): part(programs[0], room)
    if len(programs) > 1: beside_plain(programs)
    print(f"{time.monotonic() - began:.0f} s, load {os.getloadavg()[0]:.1f}, {os.cpu_count()} processors")


if __name__ == "__main__":
    main()
