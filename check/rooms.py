"""The comparison `rooms`: no node of plain.py's simulation has sent its first frames before the quantum by which `explain` says that there is no room.

For so many frames that is the sample of the last of their bits: eleven recessive ones before the first, the bits of each without stuff bits, the ten after
its CRC sequence, and three between two; each begins right after the sample before it.
"""
import random
import sys

sys.dont_write_bytecode = True
import plain
import random_plans


def least_quantum(node, frames):
    bits = 8 + sum(len(queued.frame.bits()) + 13 for queued in node.setup.queue[:frames])
    return bits * (1 + node.setup.segments.sample_at() - node.setup.segments.book) - 1


def rooms(tally, program, seed, numbers, options):
    for number in numbers:
        rng, plan = random.Random(f"{seed} {number} rooms"), None
        while plan is None:
            text = random_plans.toml_text(random_plans.random_plan(rng) | rng.choice([{}, {"sync": "book"}]), False).encode() + b"\n"
            try:
                plan = plain.read_plan(text)
            except plain.Fault:
                continue
        tally.tried += 1
        for node in plain.simulate(plan):
            sent = [quantum for what, quantum, _ in node.frames if what == "sent"]
            tally.count("frames", "sent", len(sent))
            early = [frames for frames, quantum in enumerate(sent, 1) if quantum < least_quantum(node, frames)]
            tally.compare(f"plan {number} of seed {seed}, node {node.setup.name}", "sent too soon", text, early, [])
