#!/usr/bin/env python3
"""Runs the gate and writes down what each crate costs: processor seconds of its library, its tests and its wrong bodies, and the largest memory.

usage: ledger.py FILE COMMAND..    runs COMMAND; its status is this program's
       ledger.py --keep FILE..     keeps a ledger as rows of bench/results.tsv; of several files, as of a gate that was measured in parts, their sum

The processes below COMMAND are looked at five times a second, so each loses up to a fifth of a second at its end; the last line of the ledger has what the
system itself counted for all of them.
"""
import os
import re
import resource
import subprocess
import sys
import threading
import time

TICK = os.sysconf("SC_CLK_TCK")
KINDS = ("library", "tests", "wrong bodies")


def read(path):
    try:
        with open(path, "rb") as it:
            return it.read().decode(errors="replace")
    except OSError:
        return ""


def stat_of(pid):
    """Returns a process's parent, its start, and the processor ticks that it used itself, or None where it has ended."""
    text = read(f"/proc/{pid}/stat").rpartition(")")[2].split()
    return (int(text[1]), text[19], int(text[11]) + int(text[12])) if len(text) > 20 else None


def what_of(pid, known):
    """Returns the crate and the kind of work of a process, by its words and its folder; or its parent's, or None."""
    words = read(f"/proc/{pid}/cmdline").split("\0")
    if "--crate-name" not in words[:-1]:
        return known
    try:
        folder = os.readlink(f"/proc/{pid}/cwd")
    except OSError:
        return known
    if os.path.basename(folder).startswith("wrong-body-"):
        kind = "wrong bodies"
    else:
        kind = "tests" if "--test" in words or any(it.endswith("_tests.o") for it in words) else "library"
    return words[words.index("--crate-name") + 1], kind


class Sampler(threading.Thread):
    def __init__(self, root):
        super().__init__(daemon=True)
        self.root, self.used, self.largest, self.ended = root, {}, {}, threading.Event()

    def look(self):
        """Adds what each process below the root has used since it was last looked at."""
        found = {int(it): stat_of(it) for it in os.listdir("/proc") if it.isdigit()}
        found = {pid: it for pid, it in found.items() if it}
        below = {}
        for pid in found:
            line, at = [], pid
            while at in found and at != self.root:
                line.append(at)
                at = found[at][0]
            if at == self.root:
                below[pid] = line[::-1]
        for pid, line in below.items():
            what = None
            for at in line:
                what = what_of(at, what)
            if what:
                self.used[pid, found[pid][1]] = what, found[pid][2]
                held = re.search(r"VmHWM:\s+(\d+)", read(f"/proc/{pid}/status"))
                if held:
                    self.largest[what] = max(self.largest.get(what, 0), int(held[1]))

    def run(self):
        while not self.ended.wait(0.2):
            self.look()

    def rows(self):
        seconds = {}
        for what, ticks in self.used.values():
            seconds[what] = seconds.get(what, 0) + ticks / TICK
        return seconds


def measure(file, command):
    began = time.time()
    child = subprocess.Popen(command)
    sampler = Sampler(child.pid)
    sampler.start()
    status = child.wait()
    sampler.ended.set()
    sampler.join()
    clock = time.time() - began
    counted = resource.getrusage(resource.RUSAGE_CHILDREN)
    whole = counted.ru_utime + counted.ru_stime
    seconds = sampler.rows()
    os.makedirs(os.path.dirname(file) or ".", exist_ok=True)
    with open(file, "w", encoding="utf-8") as it:
        it.write("crate\tlibrary s\ttests s\twrong bodies s\tlargest MiB\n")
        for crate in sorted({crate for crate, _ in seconds}):
            parts = [f"{seconds.get((crate, kind), 0):.0f}" for kind in KINDS]
            largest = max(sampler.largest.get((crate, kind), 0) for kind in KINDS) // 1024
            it.write("\t".join([crate, *parts, str(largest)]) + "\n")
        sums = [sum(value for (_, kind), value in seconds.items() if kind == wanted) for wanted in KINDS]
        largest = max(sampler.largest.values(), default=0) // 1024
        it.write("\t".join(["all", *(f"{value:.0f}" for value in sums), str(largest)]) + "\n")
        jobs = os.environ.get("RT_JOBS") or str(len(os.sched_getaffinity(0)))
        it.write(f"# {whole / 60:.0f} processor minutes, {clock / 60:.0f} minutes by the clock, {jobs} jobs, status {status}\n")
    return status


def added(files):
    """Returns the sum of ledgers: of each crate the seconds of each kind and the largest memory, and the minutes of processor time and by the clock."""
    crates, minutes = {}, [0, 0]
    for file in files:
        lines = read(file).splitlines()
        ends = re.match(r"# (\d+) processor minutes, (\d+) minutes by the clock, .*status (-?\d+)", lines[-1] if lines else "")
        if not ends:
            sys.exit(f"ledger.py: {file} is no ledger")
        if ends[3] != "0":
            print(f"{file}: its run failed, with status {ends[3]}; what it cost is counted all the same", file=sys.stderr)
        minutes = [had + int(more) for had, more in zip(minutes, ends.groups())]
        for crate, *numbers in (line.split("\t") for line in lines[1:-1]):
            if crate != "all":
                *had, largest = crates.get(crate, [0] * (len(KINDS) + 1))
                crates[crate] = [*(one + float(more) for one, more in zip(had, numbers)), max(largest, int(numbers[-1]))]
    return crates, minutes


def kept(files):
    """Keeps ledgers: each crate's row, and what all of it took."""
    sys.path.insert(0, os.path.join(os.path.dirname(os.path.realpath(__file__)), "..", "bench"))
    import results
    crates, (whole, clock) = added(files)
    found = [(f"gate by crate / `{crate}` / {column}", f"{number:.0f}", unit) for crate, numbers in sorted(crates.items())
             for number, (column, unit) in zip(numbers, [*((kind, "s") for kind in KINDS), ("largest", "MiB")])]
    library, tests, wrong = (sum(it[at] for it in crates.values()) for at in range(len(KINDS)))
    programs = sum(it[0] for crate, it in crates.items() if re.match("test_|example_", crate))
    parts = {"libraries and the program": library - programs, "programs of rows and the example": programs, "tests": tests, "wrong bodies": wrong}
    found += [(f"gate / {part} / processor", f"{seconds / 60:.0f}", "minutes") for part, seconds in parts.items()]
    both = "all" if len(files) == 1 else f"all, as the sum of {len(files)} parts"
    results.keep([*found, (f"gate / {both} / processor", f"{whole}", "minutes"), (f"gate / {both} / clock", f"{clock}", "minutes")])


if __name__ == "__main__":
    if len(sys.argv) > 2 and sys.argv[1] == "--keep":
        kept(sys.argv[2:])
    elif len(sys.argv) > 2:
        sys.exit(measure(sys.argv[1], sys.argv[2:]))
    else:
        sys.exit(__doc__)
