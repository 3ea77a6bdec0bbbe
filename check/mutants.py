#!/usr/bin/env python3
"""Changes one rule at a time of what was written beside the program, and shows that the comparison sees each.

usage: mutants.py PROGRAM WHAT [--count N] [--seed S] [--jobs J]      WHAT is candump, refusals or groups (PROGRAM is - then); 200 inputs of seed 1 each by default

Each mutant runs in a copy of this folder. Prints how many answers differ; the status is 1 if a mutant is not seen, or if nothing was changed.
"""
import os
import re
import shutil
import subprocess
import sys
import tempfile
from pathlib import Path

sys.dont_write_bytecode = True
from tally import words_of

HERE = Path(__file__).resolve().parent
LOG, REFUSALS, SCHEDULES = "log.py", "refusals.py", "schedules.py"
MUTANTS = {
    "candump": (
        (LOG, "frame.dlc > 8 else", "frame.dlc > 7 else"),
        (LOG, "\"\" if frame.dlc == 0", "\"\" if frame.dlc < 0"),
        (LOG, "if what == \"sent\"", "if what"),
        (LOG, "key=lambda one: one[:3]", "key=lambda one: one[1:3]"),
        (LOG, "0 < int(digits) < 1000", "0 < int(digits) <= 1000"),
    ),
    "refusals": (
        (REFUSALS, "\"Jump\": [\"sjw\", \"ps1\"]", "\"Jump\": [\"sjw\"]"),
        (REFUSALS, "\"BigOffset\": [\"offset\"], ", ""),
        (REFUSALS, "word == \"id\" and type", "word == \"x\" and type"),
        (REFUSALS, "if kind != \"node\" else \"\")", "if kind == \"rate\" else \"\")"),
        (REFUSALS, "(\"node\", numbers[1]), \"x\", \"in\"]", "(\"node\", numbers[1]), \"x\"]"),
    ),
    "groups": (
        (SCHEDULES, "tick < self.place_horizon(i)", "tick <= self.place_horizon(i)"),
        (SCHEDULES, "max([tick + 1 for", "max([tick + 40 for"),
        (SCHEDULES, "self.slots.known(i)[1] + delay for", "self.slots.known(i)[1] + delay + 1 for"),
        (SCHEDULES, "node.quanta + quiet(node))", "node.quanta + quiet(node) + 9)"),
        (SCHEDULES, "len(node.changes), node.setup", "changed, node.setup"),
        (SCHEDULES, "or world.line.is_disturbed(i, tick)", ""),
        (SCHEDULES, "tick - delay) for j", "tick - delay + 1) for j"),
        (SCHEDULES, "return 0 if has_head else 5", "return 5"),
        (SCHEDULES, "min(5, 7 - count) if has_head else 5", "5"),
        (SCHEDULES, "min(5 - machine.equal, least - len(machine.bits))", "5 - machine.equal"),
    ),
}


def seen(what, module, old, new, program, options):
    with tempfile.TemporaryDirectory() as room:
        copy = Path(shutil.copytree(HERE, Path(room) / "check", ignore=shutil.ignore_patterns("world", "wrong-bodies", "__pycache__")))
        for folder in ("docs", "examples"): (Path(room) / folder).symlink_to(HERE.parent / folder)
        text = (copy / module).read_text()
        if text.count(old) != 1: return f"it is there {text.count(old)} times"
        (copy / module).write_text(text.replace(old, new))
        words = [sys.executable, copy / "compare.py", program, what, "--count", options["count"], "--seed", options["seed"], "--jobs", options["jobs"]]
        done = subprocess.run(words, capture_output=True, text=True)
        found = re.search(r"(\d+) differ", done.stdout)
        return int(found[1]) if found else done.stderr.strip().splitlines()[-1]


def main():
    program, what, options = words_of(__doc__, {what: {"count": "200", "seed": "1", "jobs": "1"} for what in MUTANTS})
    if program != "-": program = os.path.abspath(program)
    missed = 0
    for module, old, new in MUTANTS[what]:
        found = seen(what, module, old, new, program, options)
        missed += not isinstance(found, int) or found == 0
        print(f"{what}: {old!r} as {new!r}: {found} answers differ", flush=True)
    sys.exit(1 if missed else 0)


if __name__ == "__main__": main()
