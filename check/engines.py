"""The comparison `engines`: random plans by the program's engine, which jumps, beside that of plain.py, which goes quantum by quantum.

Half of the plans are those of random_plans.py; the others have 1 to 16 nodes, clocks that are off by up to 5 %, delays up to 800,000 ticks, and
disturbances from tick 0 on. `run` and `records` have to be the same. It counts how many samples, frames and changes that were.
"""
import random
import re
import sys

sys.dont_write_bytecode = True
import plain
import random_plans
from tally import asked

# What the two texts say of how much happened
COUNTED = {"run": {"samples": r"^node .* samples (\d+)", "frames": r"^frame \d+ \S+ ()"}, "records": {"changes": r"^E ()"}}


def wide_plan(rng):
    """A plan of up to 16 nodes on a long or short cable."""
    quanta, base = rng.choice([8, 9, 10, 16, 20, 25]), rng.choice([1, 2, 10, 100, 1_000, 20_000])
    many, bit = rng.randint(1, 16), quanta * base
    end = min(2**36, rng.randint(50, 1_200) * bit)
    drift = rng.choice([0, 100, 3_000, 50_000])
    farthest = rng.choice([0, base, bit // 3, bit, 40 * bit, 800_000])
    ids, common = [rng.randrange(2048) for _ in range(6)], random_plans.random_segments(rng, quanta)
    per = rng.choice([0, 1, 2])
    nodes = []
    for number in range(many):
        node = {"name": f"n{number}", "offset": rng.choice([0, rng.randint(0, min(2**20, 3 * bit))])} | random_plans.random_clock(rng, base, drift)
        node |= common if rng.random() < 0.8 else random_plans.random_segments(rng, quanta)
        node["x"] = rng.randint(0, min(2**19, farthest // 2) // per) if per else 0
        node["out"], node["in"] = rng.randint(0, min(2**18, farthest // 4)), rng.randint(1, max(1, min(2**18, farthest // 4)))
        queue = [random_plans.random_frame(rng, ids, end // base) for _ in range(rng.choice([0, 0, 1, 2, 4, 12]))]
        if queue: node["frame"] = queue
        nodes.append(node)
    starts = [rng.choice([0, rng.randint(0, max(0, end - 1))]) for _ in range(rng.choice([0, 0, 1, 4, 16, 64]))]
    disturbances = [{"x": rng.choice(nodes)["x"], "from": start, "to": min(2**36, start + rng.choice([1, base, bit // 2, bit, 7 * bit]))}
                    for start in starts]
    plan = {"version": 1, "end": end, "per": per, "node": nodes}
    if disturbances: plan["disturbance"] = disturbances
    if rng.random() < 0.4: random_plans.change_rates(rng, plan, base, drift, end // base)
    return plan


def text_of(seed, number):
    rng = random.Random(f"{seed} {number}")
    plan = random_plans.random_plan(rng) if number % 2 else wide_plan(rng)
    if rng.random() < 0.5: plan["sync"] = rng.choice(["book", "after"])
    return random_plans.toml_text(plan, False) + "\n"


def engines(tally, program, seed, numbers, options):
    for number in numbers:
        text = text_of(seed, number).encode()
        tally.tried += 1
        for word in "run", "records":
            wanted = plain.answer(word, text)
            tally.compare(f"plan {number} of seed {seed}", word, text, asked(program, word, text=text), wanted)
            if word == "run": tally.count("plans", "refused" if wanted[2] else "run")
            for what, form in COUNTED[word].items(): tally.count("agreed on", what, sum(int(found or 1) for found in re.findall(form, wanted[0], re.M)))
