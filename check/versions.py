"""Plans of version 3 beside what they stand for: the comparisons `versions`, `repeats`, `version-3` and `cyclic`.

`versions` has plans of version 1 or 2 beside the same in version 3, `repeats` frames that come again beside each instance as a table of its own, and
`cyclic` the same of the plans of plans/: equal reports. `version-3` has plans in which frames come again, nodes listen and disturbances are at one node,
beside plain.py. PROGRAM - runs plain.py in its place.
"""
import random
import sys
import tomllib
from pathlib import Path

sys.dont_write_bytecode = True
import plain
import random_plans
from tally import asked

PLANS = sorted((Path(__file__).resolve().parent / "plans").glob("*.toml"))
COUNTS = {"cyclic": len(PLANS)}

FEW = 64  # frames that wait at a node before version 3


def report(program, text, workers=""):
    words = ["--workers", workers] if workers else []
    return plain.answer("run", text) if program == "-" else asked(program, "run", *words, text=text)


# ---- Plans


def random_plan(rng, bits):
    plan = random_plans.random_plan(rng)
    sync = rng.choice((None, "after", "book"))
    first = plan["node"][0]
    clock = clock_of(0, first)
    quanta = 1 + first["prop"] + first["ps1"] + first["ps2"]
    if bits: plan["end"] = min(plan["end"], clock.at(bits * quanta))
    return {"sync": sync} | plan if sync else plan


def clock_of(number, node):
    rates = node.get("rates", [node | {"from": 0}])
    return plain.Clock(node["offset"], [plain.table_rate(number, rate["from"], rate) for rate in rates])


def in_order(plan):
    """The plan in version 3: each frame becomes ready no earlier than the one before it, as frames wait in their order."""
    nodes = []
    for node in plan["node"]:
        ready, frames = 0, []
        for frame in node.get("frame", []):
            ready = max(ready, frame.get("ready", 0))
            frames.append(frame | {"ready": ready})
        nodes.append(node | ({"frame": frames} if "frame" in node else {}))
    return plan | {"version": 3, "node": nodes}


def repeat(rng, frame):
    """Lets a frame come again."""
    frame["every"] = rng.choice((1, rng.randint(1, 50), rng.randint(200, 5000)))
    if rng.random() < 0.8: frame["count"] = rng.choice((1, 2, rng.randint(1, 30), 5000))


def with_repeats(rng, plan):
    """A plan of version 3 in which most frames come again."""
    plan = in_order(plan)
    for node in plan["node"]:
        rng.shuffle(node.get("frame", []))
        for frame in node.get("frame", []):
            if rng.random() < 0.8: repeat(rng, frame)
    return plan


def with_traffic(rng, plan):
    """A plan of version 3 with some of what it has more, and which."""
    plan, kinds = in_order(plan), []
    for node in plan["node"]:
        if rng.random() < 0.3:
            node["listen"] = rng.random() < 0.8
            kinds += ["listen"] * node["listen"]
        for frame in node.get("frame", []):
            if rng.random() < 0.4: continue
            repeat(rng, frame)
            kinds.append("every")
    names = [node["name"] for node in plan["node"]] + ["nobody"] * (rng.random() < 0.1)
    for disturbance in plan.get("disturbance", []):
        if rng.random() < 0.5: continue
        del disturbance["x"]
        disturbance["node"] = rng.choice(names)
        kinds.append("node")
    return plan, kinds


# ---- Each instance as a table


def instances(clock, end, frame):
    """The frame once for each time that it becomes ready: if it comes again, before the plan ends."""
    once = {key: value for key, value in frame.items() if key not in ("every", "count")}
    if "every" not in frame: return [once]
    found, ready = [], frame.get("ready", 0)
    while len(found) < frame.get("count", FEW + 1) and len(found) <= FEW and clock.at(ready) < end:
        found.append(once | {"ready": ready})
        ready += frame["every"]
    return found


def written(plan):
    """The plan with each instance as a table of its own, in the order in which they wait: in version 1 or 2; None if more wait than may there."""
    nodes = []
    for number, node in enumerate(plan["node"]):
        frames = [one for frame in node.get("frame", []) for one in instances(clock_of(number, node), plan["end"], frame)]
        if len(frames) > FEW or "listen" in node: return None
        nodes.append(node | ({"frame": sorted(frames, key=lambda frame: frame.get("ready", 0))} if "frame" in node else {}))
    if any("node" in disturbance for disturbance in plan.get("disturbance", [])): return None
    rated = [number for number, node in enumerate(nodes) if "rates" in node]
    if len(rated) not in (0, len(nodes)): return None
    return plan | {"version": 2 if rated else 1, "node": nodes}


# ---- Comparing


def text_of(rng, plan):
    return random_plans.toml_text(plan, rng.random() < 0.3).encode()


def compare(tally, name, text, first, second):
    """Counts the verdict of the first report, or its fault, and compares it with the second."""
    tally.tried += 1
    tally.count("answers", first[1].split("(")[0].strip() or first[0].splitlines()[-1].split()[1])
    tally.compare(name, "run", text, first, second)


def versions(tally, program, seed, numbers, options):
    for number in numbers:
        rng = random.Random(f"{seed} {number}")
        plan = random_plan(rng, int(options["bits"]))
        texts = text_of(rng, in_order(plan)), text_of(rng, plan)
        compare(tally, f"plan {number} of seed {seed}", texts[0], *(report(program, text) for text in texts))


def repeats(tally, program, seed, numbers, options):
    for number in numbers:
        rng, other = random.Random(f"{seed} {number} written"), None
        while other is None:
            plan = with_repeats(rng, random_plan(rng, int(options["bits"])))
            other = written(plan)
        texts = text_of(rng, plan), text_of(rng, other)
        compare(tally, f"plan {number} of seed {seed}", texts[0], *(report(program, text) for text in texts))


def cyclic(tally, program, seed, numbers, options):
    for path in [PLANS[number] for number in numbers]:
        text = path.read_bytes()
        other = random_plans.toml_text(written(tomllib.loads(text.decode())), False).encode()
        compare(tally, path.stem, text, report(program, text), report(program, other))


def version_3(tally, program, seed, numbers, options):
    for number in numbers:
        rng = random.Random(f"{seed} {number} traffic")
        plan, kinds = with_traffic(rng, random_plan(rng, int(options["bits"])))
        text = text_of(rng, plan)
        for kind in set(kinds): tally.count("plans with", kind)
        compare(tally, f"plan {number} of seed {seed}", text, report(program, text, options["workers"]), plain.answer("run", text))
