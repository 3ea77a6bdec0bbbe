#!/usr/bin/env python3
"""Compares runs of random plans of version 4 whose nodes send by priority, or leave the bus, with those of the independent simulator.

usage: priority.py PROGRAM [PLANS [SEED [COMMAND..]]]     300 plans, seed 1, and run, records, trace and traffic if nothing is named

Each plan is a random one whose nodes have `queue` and `until` by chance, with more frames that become ready at once. The commands have to write what plain.py
and traffic.py write. The last line says how many plans there were, in how many a frame overtook an earlier one of its queue, in how many a node left before the
end, and how many answers differ. Status 1 if one does.
"""
import random
import subprocess
import sys
import tempfile

sys.dont_write_bytecode = True
import plain
import random_plans
import traffic
from tally import WAITS


def made(rng):
    plan = random_plans.random_plan(rng)
    if plan["version"] == 2:
        for node in plan["node"]: node.setdefault("rates", [])
    plan["version"] = 4
    for node in plan["node"]:
        if rng.random() < 0.7: node["queue"] = rng.choice(["priority", "priority", "fifo"])
        if rng.random() < 0.3: node["until"] = rng.choice([0, 1, rng.randint(0, plan["end"]), rng.randint(0, 2 * plan["end"]), 2**48 - 1])
        frames = node.get("frame", [])
        for frame in list(frames):
            if rng.random() < 0.4: frames.append(dict(frame, id=rng.randrange(2048), extended=False))
        if rng.random() < 0.5:
            for frame in frames: frame["ready"] = frame.get("ready", 0) // 8
    return plan


def said(program, command, text):
    ran = subprocess.run([program, command], input=text, stdout=subprocess.PIPE, stderr=subprocess.PIPE, check=False)
    return WAITS.sub("", ran.stdout.decode()) or ran.stderr.decode()


def wanted(command, path):
    words = [traffic.__file__, "text"] if command == "traffic" else [plain.__file__, command]
    with open(path, "rb") as source:
        return subprocess.run([sys.executable, "-B", *words], stdin=source, stdout=subprocess.PIPE, stderr=subprocess.STDOUT, check=False).stdout.decode()


def main(program, plans="300", seed="1", *commands):
    rng, differ, overtaken, left = random.Random(int(seed)), 0, 0, 0
    for n in range(int(plans)):
        plan = made(rng)
        text = random_plans.toml_text(plan, rng.random() < 0.5).encode()
        overtaken += any(node.get("queue") == "priority" and len(node.get("frame", [])) > 1 for node in plan["node"])
        left += any(node.get("until", plan["end"]) < plan["end"] for node in plan["node"])
        for command in commands or ("run", "records", "trace", "traffic"):
            with tempfile.NamedTemporaryFile() as file:
                file.write(text), file.flush()
                told = wanted(command, file.name)
            if said(program, command, text) != told:
                differ += 1
                print(f"plan {n} of seed {seed}: {command} differs")
                with open(f"/tmp/priority-{seed}-{n}.toml", "wb") as kept: kept.write(text)
                break
    print(f"{plans} plans, {overtaken} with queues by priority, {left} with nodes that leave, {differ} differ")
    return 1 if differ else 0


if __name__ == "__main__":
    sys.exit(main(*sys.argv[1:]) if 2 <= len(sys.argv) else sys.stderr.write(__doc__) and 2)
