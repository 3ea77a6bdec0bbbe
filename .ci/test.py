#!/usr/bin/env python3
"""Tests a built program of Wireline without a proof: `./wireline test` runs it.

usage: test.py PROGRAM
       test.py pages        the pages of the third line below, for .ci/program.sh

- the plans of examples/ and plans as no example is, by every command, beside the stored outputs and the independent programs of check/
- the rows of check/rows (check/rows.py), and random inputs beside the independent programs (check/compare.py)
- what README.md and pages of docs/ show below a command (.ci/shown.py)
- refused texts with their faults and hints, settings, JSON and CSV, odd command lines (parts of .ci/program.sh)

A build without proof has run-time checks, and takes up to 600 times as long as the proved program. So it gets fewer inputs, and the first lines say what it
doesn't get at all. As many parts run at once as there are processors; without a proof all of it took seven minutes of processor time. There is a line for each part that has
ended, with what differs, and a last line 'N passed, M failed'. The status is 1 if something failed. Python 3.11 or later.
"""
import os
import re
import signal
import subprocess
import sys
import time
from collections import namedtuple
from concurrent.futures import ThreadPoolExecutor, as_completed
from threading import Timer

sys.dont_write_bytecode = True
TOP = os.path.dirname(os.path.dirname(os.path.realpath(__file__)))
# How many random inputs of each comparison, and how many a build without proof gets.
INPUTS = {
    "commands": (60, 12), "traffic": (100, 30), "margin": (200, 40), "candump": (200, 40), "refusals": (200, 60), "record-texts": (400, 60),
    "plan-texts": (400, 60), "version-3": (200, 40), "settings": (60, 8), "formats": (60, 10), "sweeps": (60, 10), "spikes": (8, 2), "hints": (100, 20), "workers": (20, 1),
}
PARTS = ["examples", "refused", "settings", "formats", "words"]
ROWS = ["init", "margins", "plans", "records", "settings", "sweeps", "waits"]
PAGES = [
    "README.md", *(f"docs/use/{it}.md" for it in ["commands", "examples", "explain", "faults", "first-hour", "formats", "judge", "margins", "plan-text", "record-text", "units"]),
    *(f"docs/use/{it}.md" for it in ["reports", "respond", "settings", "spikes", "sweeps", "trace", "traffic", "views"]), "docs/bus/any-senders.md",
]
# What a build without proof doesn't get, and of the other parts what they leave out then: each of these takes it more than ten seconds.
TOO_LONG = {"settings", "docs/use/sweeps.md"}
LEFT = """left out, since this build takes too long for it: the lists of examples/settings, explain and margin of examples/sixteen_nodes.toml, the rows of
check/rows below `% long`, and of the commands that pages show `settings --best` and sweeps of many runs"""
LINES = 60  # of what a part with failures wrote at most so many are shown
SECONDS = 1800  # a part that hasn't ended by then has failed

RUNNING = set()  # the groups of processes of the parts that run

Part = namedtuple("Part", "name words inputs")


def is_unproved(program):
    """True if a program is a build without proof: that one has AddressSanitizer in it."""
    with open(program, "rb") as it: return b"__asan_init" in it.read()


def parts_of(program, is_light):
    """Returns the parts, those that take longest first, and the names of the pages that are left out."""
    counts = {what: both[is_light] for what, both in INPUTS.items()}
    random = [Part(f"random inputs, {what}", ["check/compare.py", program, what, "--count", str(count)], count) for what, count in counts.items() if count]
    parts = [Part(it, [".ci/program.sh", program, it], 0) for it in PARTS if not (is_light and it in TOO_LONG)]
    rows = [Part(f"rows of {it}", ["check/rows.py", program, f"check/rows/{it}"], 0) for it in ROWS]
    parts += [Part(f"plans that init writes, {it}", ["check/init.py", program, it], 0) for it in ["few", "refused"] if not is_light]
    pages = [Part(f"what {it} shows", [".ci/shown.py", it, program], 0) for it in PAGES if not (is_light and it in TOO_LONG)]
    return [parts[0], random[0], *parts[1:], *random[1:], *rows[::-1], *pages]


def run(part, is_light):
    """Runs a part, and returns how many comparisons passed and failed, what it wrote of those that failed, and its processor time in seconds."""
    known = {**os.environ, "LIGHT": "1" if is_light else ""}
    how = {"stdin": subprocess.DEVNULL, "stdout": subprocess.PIPE, "stderr": subprocess.STDOUT, "start_new_session": True}
    by = [sys.executable, "-B"] if part.words[0].endswith(".py") else []
    with subprocess.Popen([*by, f"./{part.words[0]}", *part.words[1:]], cwd=TOP, env=known, **how) as ran:
        ending = Timer(SECONDS, os.killpg, (ran.pid, signal.SIGKILL))
        ending.start()
        RUNNING.add(ran.pid)
        said = ran.stdout.read().decode(errors="replace")
        RUNNING.discard(ran.pid)
        ending.cancel()
        _, status, used = os.wait4(ran.pid, 0)
        ran.returncode = os.waitstatus_to_exitcode(status)
    passed, failed = counted(said)
    if ran.returncode and not failed: failed, said = 1, f"{said}status {ran.returncode}\n"
    if not ran.returncode and not passed: failed, said = failed + 1, f"{said}nothing was compared\n"
    lines = said.splitlines(keepends=True) if failed else []
    if len(lines) > LINES: lines = [*lines[:LINES], f".. {len(lines) - LINES} lines more, by {' '.join(part.words)}\n"]
    return passed, failed, "".join(lines), used.ru_utime + used.ru_stime


def counted(said):
    """Returns what the last line with numbers counts: 'N passed, M failed', 'WHAT: N inputs .. D differ', 'PAGE: N commands, D outputs differ', 'PROGRAM: N
    rows agree, D differ'."""
    last = re.findall(r"(?m)^(\d+) passed, (\d+) failed$", said)
    if last: return int(last[-1][0]), int(last[-1][1])
    last = re.findall(r"(?m)^.+: (\d+) rows agree, (\d+) differ\b", said)
    if last: return int(last[-1][0]), int(last[-1][1])
    last = re.findall(r"(?m)^.+: (\d+) (?:inputs .*, (\d+) differ|commands, (\d+) outputs differ)\b", said)
    if not last: return 0, 0
    count, differ = int(last[-1][0]), int(last[-1][1] or last[-1][2])
    return max(count - differ, 0), differ


def main(program):
    began, is_light = time.monotonic(), is_unproved(program)
    jobs, parts = len(os.sched_getaffinity(0)), parts_of(program, is_light)
    print(f"testing {os.path.relpath(program)}, {'a build without proof' if is_light else 'an optimised program'}: {len(parts)} parts, {jobs} at once; "
          f"{sum(it.inputs for it in parts)} random inputs", flush=True)
    if is_light: print(LEFT, flush=True)
    passed = failed = used = 0
    with ThreadPoolExecutor(jobs) as pool:
        running = {pool.submit(run, it, is_light): it.name for it in parts}
        try:
            for done, future in enumerate(as_completed(running), 1):
                good, bad, said, seconds = future.result()
                passed, failed, used = passed + good, failed + bad, used + seconds
                print(f"{said}{running[future]}: {good} passed, {bad} failed ({done} of {len(parts)}, {time.monotonic() - began:.0f} s)", flush=True)
        except KeyboardInterrupt:
            pool.shutdown(wait=False, cancel_futures=True)
            for group in list(RUNNING): os.killpg(group, signal.SIGKILL)
            return 130
    print(f"{time.monotonic() - began:.0f} s by the clock, {used:.0f} s of processor time")
    print(f"{passed} passed, {failed} failed")
    return 1 if failed else 0


if __name__ == "__main__":
    if sys.argv[1:] == ["pages"]: sys.exit(print(*PAGES))
    if len(sys.argv) != 2 or sys.argv[1].startswith("-"): sys.exit(sys.stderr.write(__doc__) and 2)
    for ends in signal.SIGTERM, signal.SIGHUP: signal.signal(ends, signal.default_int_handler)
    if sys.version_info < (3, 11): sys.exit(sys.stderr.write("test.py takes Python 3.11 or later\n") and 1)
    sys.exit(main(os.path.abspath(sys.argv[1])))
