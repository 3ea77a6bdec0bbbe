"""Two built programs on the same inputs: the comparison `programs`, for a change that may change no output. Bytes, fault and status have to be the same.

Plans of every version, with headers or in line, with either choice of `sync`, families around the border of the condition, busy buses, and record texts.
Some texts are wrong, and some changed at random.
"""
import random
import sys

sys.dont_write_bytecode = True
import families
import random_plans
import strangers
import versions
from tally import asked

PLANS = [("run",), ("check",), ("explain",), ("records",), ("trace",), ("candump",), ("vcd",), ("traffic",), ("margin",), ("run", "--format", "json")]
WORKERS = [("run", "--workers", str(many), "--link", link) for many in (2, 3, 8) for link in ("hub", "mail")]
RECORDS = [("merge",), ("horizon",)]


def busy(rng):
    """A plan of several senders whose frames wait early, so that they meet: much arbitration, and guesses that fail at disturbances."""
    quanta, base, many = rng.choice([8, 10, 16, 20]), rng.choice([10, 50, 125]), rng.randint(2, 16)
    bit, common = quanta * base, random_plans.random_segments(rng, quanta)
    drift, nodes = rng.choice([0, 100, 2_000, 5_000]), []
    for number in range(many):
        node = {"name": f"n{number}", "offset": rng.randint(0, bit)} | random_plans.random_clock(rng, base, drift) | common
        node |= {"x": rng.randint(0, bit // 40), "out": rng.randint(0, base), "in": rng.randint(1, base)}
        node["frame"] = [{"id": rng.randrange(128) << 4 | number, "dlc": 1, "bytes": [rng.randrange(256)], "ready": rng.randrange(60 * quanta)} for _ in range(rng.randint(0, 4))]
        nodes.append(node)
    end = rng.randint(200, 900) * bit
    hits = [rng.randrange(end) for _ in range(rng.choice([0, 0, 1, 4]))]
    plan = {"version": 1, "sync": rng.choice(["book", "after"]), "end": end, "per": 5, "node": nodes}
    return plan | ({"disturbance": [{"x": 0, "from": at, "to": at + rng.randint(1, 2 * bit)} for at in hits]} if hits else {})


def plan_text(rng):
    way = rng.randrange(5)
    if way == 0: return families.text_of(rng)
    if way == 1: return versions.text_of(rng, versions.with_traffic(rng, versions.random_plan(rng, 0))[0])
    if way == 2: return random_plans.toml_text(busy(rng), rng.random() < 0.3).encode()
    return strangers.text_of(rng, "plans") if way == 3 and rng.random() < 0.5 else random_plans.plan_input(rng, rng, "mixed")


def programs(tally, program, seed, numbers, options):
    if not options["beside"]: sys.exit("compare.py: programs wants --beside PROGRAM")
    for number in numbers:
        rng = random.Random(f"{seed} {number} programs")
        records = rng.random() < 0.1
        text = strangers.text_of(rng, "records") if records else plan_text(rng)
        tally.tried += 1
        for words in RECORDS if records else [("run",), rng.choice(PLANS[1:]), rng.choice(PLANS[1:] + WORKERS)]:
            got, wanted = (asked(one, *words, text=text) for one in (program, options["beside"]))
            tally.count("status", f"{words[0]} {wanted[2]}")
            tally.compare(f"input {number} of seed {seed}", " ".join(words), text, got, wanted)
