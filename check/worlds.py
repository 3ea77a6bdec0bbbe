#!/usr/bin/env python3
"""Drives worlds of groups through restarts, repeated deliveries and refused memory, and compares each with the one-thread simulation.

usage: worlds.py PROGRAM restarts
       worlds.py PROGRAM schedules [--count PLANS] [--seed S] [--events N]        10 plans of 2,000 events each, and seed 1 by default
       worlds.py PROGRAM refused

PROGRAM is the built test_rows, whose part `worlds` plays a script over a world. `restarts`: two nodes in two groups, a stored list of events with a restart of either
group before each of its first 60; then on to the end. `schedules`: random plans, random groups, random events (advances, deliveries of any record,
joins, restarts), then on to the end. In both the report has to be that of `plain.py`, and no replica may hold a clash.
`refused`: ten lists of 20 events, each with each allocation refused in turn. The world has to be the one after those events that were handled, and the same
report has to come once memory is there; if memory is refused outside of events, status 1 and no output.
Prints what was counted; the status is 1 if anything differs.
"""
import os
import random
import subprocess
import sys
import tempfile
from collections import Counter

sys.dont_write_bytecode = True
import plain
import random_plans
from tally import words_of

HERE = os.path.dirname(os.path.abspath(__file__))
STORED = "a_restart_and_a_join"  # a script of check/world, whose plan has two nodes and a frame


def stored_plan():
    return open(os.path.join(HERE, "world", STORED), "rb").read().split(b"plan\n", 1)[1]


def played(program, groups, steps, plan, env=None):
    script = "\n".join(["part worlds", f"groups {' '.join(map(str, groups))}", *steps, "plan", ""]).encode()
    done = subprocess.run([program], input=script + plan, capture_output=True, env=env)
    return done.stdout.decode().removeprefix("part worlds\n"), done.stderr.decode(), done.returncode


def report_of(plan):
    out, fault, status = plain.answer("run", plan)
    assert status == 0, fault
    return out


def texts(groups):
    return [f"text {g}" for g in range(max(groups) + 1)]


def ends_well(program, groups, events, plan, wanted):
    """What is wrong with a world after these events once it has settled; nothing, where all is as it should be."""
    out, fault, status = played(program, groups, events + ["settle", "report", *texts(groups)], plan)
    if status or fault: return f"status {status}, {fault}"
    rest = out.split("\n", len(events) + 1)
    if len(rest) < len(events) + 2 or any(answer not in ("Done", "Idle") for answer in rest[:len(events)]): return "an answer is missing"
    report, *replicas = rest[-1].split("\n.\n" if not rest[-1].startswith(".\n") else ".\n")
    if report + "\n" != wanted: return "another report"
    if any(line.startswith("C ") for replica in replicas for line in replica.split("\n")): return "a clash"
    return ""


def event_of(rng, groups, nodes, records):
    """One event; now and then it names a group, a node or a record that there is not."""
    last = max(groups)
    kind = rng.random()
    if kind < 0.5:
        node = rng.randrange(nodes)
        return f"A {groups[node] if rng.random() < 0.9 else rng.randrange(last + 2)} {node}"
    if kind < 0.9: return f"D {rng.randrange(last + 1 + (rng.random() < 0.02))} {int(records * rng.random() ** rng.choice([1, 0.3]))}"
    if kind < 0.97: return f"J {rng.randrange(last + 1)} {rng.randrange(last + 1 + (rng.random() < 0.05))}"
    return f"R {rng.randrange(last + 1 + (rng.random() < 0.05))}"


def restarts(program):
    plan = stored_plan()
    wanted, rng, faults = report_of(plan), random.Random("restarts"), Counter()
    events = [event_of(rng, [0, 1], 2, 40) for _ in range(80)]
    events = [one for one in events if not one.startswith("R")]
    for group in (0, 1):
        for place in range(60):
            faults[ends_well(program, [0, 1], events[:place] + [f"R {group}"] + events[place:], plan, wanted) or "as one thread"] += 1
    return faults


def random_plan(rng):
    while True:
        text = random_plans.plan_input(rng, rng, "mixed")
        try:
            plan = plain.read_plan(text)
        except plain.Fault:
            continue
        quanta = sum(plan.end // max(1, min(rate.num // rate.den for rate in node.clock.rates)) for node in plan.nodes)
        if len(plan.nodes) > 1 and 500 < quanta < 30_000: return text, len(plan.nodes)


def schedules(program, plans, count, seed):
    faults, kinds = Counter(), Counter()
    for number in range(plans):
        rng = random.Random(f"schedules {seed} {number}")
        text, nodes = random_plan(rng)
        groups = [rng.randrange(rng.choice([2, 3, nodes])) for _ in range(nodes)]
        events = [event_of(rng, groups, nodes, 10 + i // 2) for i in range(count)]
        kinds.update(event[0] for event in events)
        fault = ends_well(program, groups, events, text, report_of(text))
        faults[fault or "as one thread"] += 1
        if fault: print(f"plan {number} of seed {seed}: {fault}")
    print("events:", dict(kinds))
    return faults


def refused(program):
    """Lists of 20 events, each run with each allocation refused in turn."""
    plan, groups, counts, total = stored_plan(), [0, 1], Counter(), 0
    after = ["emitted", *texts(groups), "place 0 0", "place 1 1"]
    with tempfile.TemporaryDirectory() as room:
        library = os.path.join(room, "refuse.so")
        subprocess.run(["gcc", "-O2", "-shared", "-fPIC", "-o", library, os.path.join(HERE, "refuse.c"), "-ldl"], check=True)
        for number in range(10):
            rng = random.Random(f"refused {number}")
            events = [event_of(rng, groups, 2, 12) for _ in range(20)]
            rest = {n: played(program, groups, events[:n] + after + ["settle", "report"], plan)[0].split("\n")[n:] for n in range(len(events) + 1)}
            assert rest[len(events)][-2] == "."
            calls = int(played(program, groups, events + after, plan, {"REFUSE": "0", "LD_PRELOAD": library})[1].split("calls ")[1])
            total += calls
            for call in range(1, calls + 1):
                out, fault, status = played(program, groups, events + after + ["settle", "report"], plan, {"REFUSE": str(call), "LD_PRELOAD": library})
                lines = out.split("\n")
                if status == 1 and fault and not out: counts["refused outside of events: status 1, no output"] += 1
                elif status == 0 and lines[len(events):] == rest[len(events)]: counts["nothing of the world was refused"] += 1
                elif status == 0 and lines[0].startswith("Stopped ") and lines[1:] == rest[int(lines[0][8:])]: counts["stopped amid events: the world of those that were handled"] += 1
                else: counts["differs"] += 1
    print(f"{total} allocations")
    return counts


def main():
    program, what, options = words_of(__doc__, {"restarts": {}, "schedules": {"count": "10", "seed": "1", "events": "2000"}, "refused": {}})
    if what == "restarts": counts = restarts(program)
    elif what == "schedules": counts = schedules(program, int(options["count"]), int(options["events"]), int(options["seed"]))
    else: counts = refused(program)
    for name, times in sorted(counts.items()): print(f"{times:>6} {name}")
    good = ("as one thread", "refused outside", "nothing of", "stopped amid")
    sys.exit(0 if all(name.startswith(good) for name in counts) else 1)


if __name__ == "__main__":
    main()
