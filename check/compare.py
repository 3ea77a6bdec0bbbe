#!/usr/bin/env python3
"""Compares a program with another writing of the same, on inputs that are drawn at random.

usage: compare.py PROGRAM WHAT [--count N] [--seed S] [--jobs J] [OPTION..]

Seed 1 and one process by default. Input N of a seed is always the same, in however many processes. README.md has the table of what is compared with what:

  commands      every command but candump, on plans and record texts; --sync book|after|none|wrong|before|mixed, --commands check,run
  record-texts  merge and horizon on strangers' texts: good ones, changed ones, bytes of no sense
  plan-texts    check, run and records on such texts
  examples      each plan of examples/: its report, and what the other commands write of it
  traces        plans with errors, whose traces have to have what their reports count
  traffic       traffic on random plans
  spikes        sweeps of spikes in random plans, each of some 25 members, and a printed member
  candump       candump on random plans, at random lengths of a tick and seconds of tick 0
  refusals      what explain writes of plans that are refused
  margin        margin, and explain of every other plan, on families around the border of the condition
  settings      settings of texts with few settings each
  sweeps        sweeps of a few members over random words, and a member that is printed
  hints         the place that a hint names, on strangers' texts
  formats       JSON and CSV of each command beside its text, on random plans
  pages         the texts of pages beside what the other commands write
  versions      plans of version 1 or 2 beside the same in version 3; --bits N ends each plan after so many bits
  repeats       frames that come again beside their instances as tables; --bits N
  version-3     plans of version 3 with what it has more; --bits N, --workers N
  version-4     plans of version 4, a third of them with values at its limits
  cyclic        repeats, on the plans of plans/
  workers       runs by 2 to 8 workers and either link beside one thread
  work          PROGRAM is test_rows: the same in one process, and workers by threads of its own
  engines       run and records on plans of up to 16 nodes, far apart and with clocks far off, beside plain.py's engine, which goes quantum by quantum
  replicas      PROGRAM is test_rows: lists of takes and joins
  programs      another built program, --beside PROGRAM, on the same inputs
  rooms         PROGRAM is -: when plain.py's nodes have sent their frames beside the least quanta that explain counts for them
  groups        PROGRAM is -: groups under random schedules by plain.py's nodes, beside its one-thread simulation

In the other rows PROGRAM is the built wl_sim. Prints how many answers agreed, and what else was counted. The first inputs on which two answers differ
are kept in files, whose names are printed; the status is then 1.
"""
import importlib
import os
import sys
import time
from multiprocessing import Pool

sys.dont_write_bytecode = True
from tally import Tally, words_of

# The module and the function of each comparison, how many inputs it takes if no number is given, and its own options with their values
WHATS = {
    "commands": ("commands", "commands", 1_000, {"sync": "mixed", "commands": ""}),
    "record-texts": ("strangers", "record_texts", 1_000, {}),
    "plan-texts": ("strangers", "plan_texts", 1_000, {}),
    "examples": ("examples", "examples", 0, {}),
    "traces": ("examples", "traces", 1_000, {}),
    "traffic": ("traffic", "traffic", 1_000, {}),
    "spikes": ("spike_sweeps", "spikes", 100, {}),
    "candump": ("log", "candump", 1_000, {}),
    "refusals": ("refusals", "refusals", 1_000, {}),
    **{name: ("beside", name, 1_000, {}) for name in ("margin", "settings", "sweeps", "formats", "pages")},
    "hints": ("places", "hints", 1_000, {}),
    "versions": ("versions", "versions", 1_000, {"bits": "0"}),
    "repeats": ("versions", "repeats", 1_000, {"bits": "0"}),
    "version-3": ("versions", "version_3", 1_000, {"bits": "0", "workers": ""}),
    "version-4": ("controllers", "version_4", 1_000, {}),
    "cyclic": ("versions", "cyclic", 0, {}),
    **{name: ("threads", name, 500, {}) for name in ("workers", "work")},
    "engines": ("engines", "engines", 500, {}),
    "replicas": ("replicas", "replicas", 1_000, {}),
    "programs": ("programs", "programs", 1_000, {"beside": ""}),
    "rooms": ("rooms", "rooms", 1_000, {}),
    "groups": ("schedules", "groups", 1_000, {}),
}
BATCH = 40


def batch(work):
    module, function, program, seed, numbers, options = work
    tally = Tally()
    getattr(importlib.import_module(module), function)(tally, program, seed, numbers, options)
    return tally


def main():
    program, what, options = words_of(__doc__, {name: {"count": str(row[2]), "seed": "1", "jobs": "1"} | row[3] for name, row in WHATS.items()})
    module, function, *_ = WHATS[what]
    if program != "-": program = os.path.abspath(program)
    found = importlib.import_module(module)
    count, seed, jobs, began, tally = int(options["count"]), options["seed"], int(options["jobs"]), time.monotonic(), Tally()
    if not count: count = found.COUNTS[what]
    with Pool(jobs) as pool:
        work = [(module, function, program, seed, range(start, min(start + BATCH, count)), options) for start in range(0, count, BATCH)]
        for one in pool.imap(batch, work):
            tally.add(one)
            if sys.stderr.isatty(): sys.stderr.write(f"\r{tally.tried} of {count}")
    print(f"{what}: {tally.tried} inputs of seed {seed} in {time.monotonic() - began:.0f} s, {jobs} at a time, {tally.differ} differ")
    tally.say()
    is_well = getattr(found, "is_well", lambda tally: True)(tally)
    sys.exit(1 if tally.differ or not tally.tried or not is_well else 0)


if __name__ == "__main__":
    # Sets are walked in the order of their hashes, so these have to be the same for the same inputs.
    if os.environ.get("PYTHONHASHSEED") != "0": os.execve(sys.executable, [sys.executable, *sys.argv], {**os.environ, "PYTHONHASHSEED": "0"})
    main()
