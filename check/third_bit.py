#!/usr/bin/env python3
"""Power-ups whose next start of frame may reach a node in the third bit of its intermission: buses that hold for any senders, and have the room of
margin.py but for the line of twelve bits' drift.

usage: third_bit.py FAMILIES SEED

A family has two to four nodes that all send, mostly with a short PHASE_SEG2 and a wide jump, on a short cable. Its tolerance is the widest with which
only that line lacks, so that ten bits' drift fit and twelve don't. Each clock is at a limit of its tolerance. The frames become ready at about one
time, so that one follows the other. plain.py plays twelve power-ups of each family. Says how many aren't clean, and in how many a node samples the
third bit dominant, without and with a frame to send. A power-up that isn't clean is printed.
"""
import random
import sys

sys.dont_write_bytecode = True
import border
import margin
import plain

RUNS = 12
WIDEST = 60_000
HITS = [0, 0]
INTERMISSION = plain.Machine.intermission


def counted(machine, sample, head, mode):
    """An intermission's bit, counted if it is a dominant third one: without a frame, and with one."""
    if machine.count == 2 and sample == plain.DOMINANT:
        HITS[0] += 1
        HITS[1] += head is not None
    return INTERMISSION(machine, sample, head, mode)


def lacks(nodes, tolerance):
    """The kinds of the room's lines that the bus lacks with this tolerance; None if the condition fails."""
    for node in nodes: node.tolerance = tolerance
    text = border.plan_text(nodes).encode()
    try: plan, top = plain.read_plan(text), plain.read_toml(text)
    except plain.Fault: return None
    family = margin.Family(plan, margin.clocks_of(top))
    return {kind for kind, *_ in family.buses(False)[0].lacks()} if family.holds(False) else None


def short_segments(rng, nodes):
    """PHASE_SEG2 of two or three quanta and a jump of four, alike at all nodes or not."""
    like, first, bit = rng.random() < 0.6, nodes[0], None
    for node in nodes:
        if node is first or not like: node.prop, node.ps1, node.ps2 = rng.randint(2, 8), rng.randint(4, 8), rng.choice([2, 2, 3, 3])
        else: node.prop, node.ps1, node.ps2 = first.prop, first.ps1, first.ps2
        node.sjw = 4
    bit = first.quantum * first.quanta()
    for node in nodes:
        node.quantum = max(10, bit // node.quanta())
        node.out, node.into = rng.choice([(node.quantum // 2, node.quantum // 2 + 2), (node.quantum, 1), (0, 1)])


def family(rng):
    """Nodes with the widest tolerance with which at most the line of twelve bits lacks; None if it doesn't lack there."""
    count = rng.choice([2, 2, 2, 3, 3, 4])
    nodes = border.settings(rng, count)
    border.with_loops(rng, nodes)
    if rng.random() < 0.9: short_segments(rng, nodes)
    nodes = border.placed(nodes, [0, 1000, *(rng.randint(0, 1000) for _ in nodes[2:])], rng.choice([0, 1, 20, 100, 300, 1000]))
    for i, node in enumerate(nodes): node.frames = [(False, i, False, [], 30 * node.quanta())]
    fits = lambda tolerance: (found := lacks(nodes, tolerance)) is not None and found <= {"rest"}
    if not fits(0): return None
    low, high = 0, WIDEST
    while high - low > 1:
        middle = (low + high) // 2
        low, high = (middle, high) if fits(middle) else (low, middle)
    return nodes if "rest" in lacks(nodes, low) else None


def at_one_time(rng, nodes):
    """All frames become ready within two bits of the first one."""
    first = min(frame[4] * node.quantum + node.offset for node in nodes for frame in node.frames)
    for node in nodes:
        soon = max(0, -(-(first - node.offset) // node.quantum))
        node.frames = sorted(((*frame[:4], soon + rng.randint(0, 2 * node.quanta())) for frame in node.frames), key=lambda frame: frame[4])


def powered(rng, nodes):
    """The text of a power-up, each clock at a limit of its tolerance, not all at the same one."""
    frames = border.frames(rng, len(nodes), rng.choice([2, 2, 3])) if rng.random() < 0.8 else border.long_frames(rng, len(nodes))
    run = border.powered(rng, nodes, frames)
    if rng.random() < 0.7: at_one_time(rng, run)
    signs = [rng.choice([-1, 1]) for _ in run]
    if len(set(signs)) == 1: signs[rng.randrange(len(run))] *= -1
    for node, sign in zip(run, signs): node.ppm = sign * node.tolerance
    return border.plan_text(run)


def is_clean(nodes):
    frames = sum(len(node.waiting) + sum(what == "sent" for what, *_ in node.frames) for node in nodes)
    return all(node.errors == node.counters.tec == node.counters.rec == 0 and len(node.frames) == frames for node in nodes)


def main(families, seed):
    plain.Machine.intermission = counted
    rng, found, runs, bad, there, ready = random.Random(seed), 0, 0, 0, 0, 0
    while found < families:
        nodes = family(rng)
        if nodes is None: continue
        found += 1
        for _ in range(RUNS):
            text, before = powered(rng, nodes), list(HITS)
            clean = is_clean(plain.simulate(plain.read_plan(text.encode())))
            runs, bad = runs + 1, bad + (not clean)
            there, ready = there + (HITS[0] > before[0]), ready + (HITS[1] > before[1])
            if not clean: print(f"NOT CLEAN\n{text}", flush=True)
    print(f"{found} families, {runs} power-ups, {bad} not clean; the start was in a third bit in {there}, of a node with a frame in {ready}")
    return bad > 0


if __name__ == "__main__":
    sys.exit(main(int(sys.argv[1]), int(sys.argv[2])) if len(sys.argv) == 3 else sys.stderr.write(__doc__) and 2)
