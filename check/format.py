#!/usr/bin/env python3
"""Plans in version 4, as `format` writes them, beside what they were made of.

usage: format.py PROGRAM [COUNT] [SEED] [EACH]     300 plans, seed 1 and `run` of each plan if nothing is named

Of each plan of examples/ and of COUNT random ones of versions 1 to 4, those of version 4 with units and as numbers: `format` writes each key as the plan has it
(this script reads both), `format` of what it wrote writes the same again, and a plan of version 1 or 2 is refused as `Order` exactly if a frame becomes ready before
the one above it. Of every EACH-th plan `run` writes the same report of both.
"""
import random
import sys
import tomllib
from pathlib import Path

sys.dont_write_bytecode = True
import priority
import random_plans
import units
import versions
from tally import asked

TOP = Path(__file__).resolve().parent.parent
DEFAULTS = {"offset": 0, "ready": 0, "remote": False, "extended": False, "listen": False, "bytes": [], "frame": [], "queue": "fifo"}


def order_of(plan):
    """Returns the first frame that becomes ready before the one above it, by the number of its node and its own; None if there is none."""
    for i, node in enumerate(plan["node"]):
        last = 0
        for n, frame in enumerate(node.get("frame", [])):
            ready = frame.get("ready", 0)
            if ready < last: return i, n
            last = ready
    return None


def said_of(table):
    """Returns what a table says: without keys that have their default, and with one rate from quantum 0 on as keys of its own."""
    if "rates" in table and len(table["rates"]) == 1 and table["rates"][0]["from"] == 0:
        table = {key: value for key, value in (table | table["rates"][0]).items() if key not in ("rates", "from")}
    tables = {key: [said_of(one) for one in value] for key, value in table.items() if isinstance(value, list) and value and isinstance(value[0], dict)}
    return {key: value for key, value in (table | tables).items() if DEFAULTS.get(key) != value or key == "offset"}


def plan_of(text):
    """Returns what a plan of numbers says, without its version."""
    plan = {"sync": "after", "disturbance": []} | tomllib.loads(text)
    return said_of({key: value for key, value in plan.items() if key != "version"})


def differs(program, text, numbers, runs):
    """Returns what is wrong with what `format` writes of a plan that is also written as numbers; None if nothing is, and '-' if the plan can't be run."""
    made, said, status = asked(program, "format", text=text.encode())
    plan = tomllib.loads(text)
    early = order_of(plan) if plan["version"] < 3 else None
    if status and not said.startswith("fault: Order"): return "-"
    if early: return None if said.strip() == f"fault: Order({early[0]}, {early[1]})" and not made else f"no Order: {said[:80]}"
    if not made.startswith("version = 4\n"): return f"refused: {said[:80]}"
    if plan_of(made) != plan_of(numbers): return "another key"
    if runs and asked(program, "run", text=made.encode()) != asked(program, "run", text=text.encode()): return "another report"
    return None if asked(program, "format", text=made.encode())[0] == made else "another plan"


def random_texts(rng, k):
    """Returns a random plan, and the same as numbers."""
    if k % 4 == 3:
        while True:
            try:
                plan = units.Plan(rng)
                unit = [f'unit = "{plan.unit}um"' for line in plan.units if line.startswith("unit = ")]
                return "\n".join(plan.units) + "\n", "\n".join([f'tick = "{plan.tick}fs"', *unit, *plan.numbers]) + "\n"
            except LookupError:
                continue
    plan = priority.made(rng) if k % 4 == 2 else random_plans.random_plan(rng)
    plan["end"] = min(plan["end"], 200_000)
    if k % 4 == 1: plan = versions.in_order(plan) | {"version": rng.choice((1, 1, 3)) if not any("rates" in node for node in plan["node"]) else 3}
    text = random_plans.toml_text(plan, rng.random() < 0.5)
    return text, text


def main(program, count=300, seed=1, each=1):
    rng = random.Random(int(seed))
    texts = [(path.read_text(), None) for path in sorted((TOP / "examples").glob("*.toml"))]
    tally, wrong, refused = [0] * 5, [], 0
    for k in range(len(texts) + int(count)):
        text, numbers = texts[k] if k < len(texts) else random_texts(rng, k - len(texts))
        plan = tomllib.loads(text)
        if numbers is None: numbers = text if plan["version"] < 4 else asked(program, "format", text=text.encode())[0]
        said = differs(program, text, numbers, k < len(texts) or k % int(each) == 0)
        if said == "-": continue
        tally[plan["version"]] += 1
        refused += plan["version"] < 3 and order_of(plan) is not None
        if said: wrong.append((text, said))
    runs = ", ".join(f"{many} of version {version}" for version, many in enumerate(tally) if version)
    print(f"{len(texts) + int(count)} plans, {sum(tally)} that can be run ({runs}), {refused} of them refused for their order, {len(wrong)} wrong")
    for text, said in wrong[:3]: print(said, text, sep="\n")
    return 1 if wrong else 0


if __name__ == "__main__": sys.exit(main(*sys.argv[1:]))
