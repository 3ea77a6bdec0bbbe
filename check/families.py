"""Random families of buses around the border of the condition, as plans: what the comparisons `margin` and `explain` draw.

One to six nodes with equal or unlike settings, loops from a tick to four quanta, a cable up to a tenth longer than the way to the sample bears, and
tolerances of which many are near the greatest that a jump width bears. Some clocks have several rates, some nodes only listen, and some plans lie
outside of the condition: one identifier twice, no frame, a frame that is ready too early, edges that synchronise after a quantum.
"""
import random
import sys

sys.dont_write_bytecode = True
import border
import random_plans

COUNTS = [1] + [2] * 16 + [3] * 16 + [4] * 8 + [5, 5, 6, 6]


def segments(rng):
    """Segments of which few have the same jump width as the next."""
    while True:
        prop, ps1, ps2, sjw = rng.randint(1, 8), rng.randint(1, 8), rng.randint(2, 8), rng.randint(1, 4)
        if sjw <= ps1 and 8 <= 1 + prop + ps1 + ps2 <= 25: return border.Node(prop, ps1, ps2, sjw)


def nodes_of(rng, count):
    if rng.random() < 0.95: nodes = border.settings(rng, count)
    else:
        nodes = [segments(rng) for _ in range(count)]
        for node in nodes: node.quantum = rng.randint(2, 2_000)
    times = rng.choice([1, 1, 1, 7, 50])
    for node in nodes: node.quantum = min(2**20, node.quantum * times)
    border.with_loops(rng, nodes)
    if rng.random() < 0.1: rng.choice(nodes).out = rng.randrange(nodes[0].bit())
    return nodes


def most_tolerance(node):
    """Near the greatest by which two clocks of such nodes may deviate: ten bits' drift within a jump."""
    return 1_000_000 * node.sjw // (20 * node.quanta() + node.sjw)


def tolerances(rng, nodes):
    """A tolerance for each node: of one size, or each at most so great."""
    least = min(map(most_tolerance, nodes))
    size = min(100_000, rng.choice([0, 1, 100, least // 5, least // 2, least * 9 // 10, least, least + 1, rng.randint(0, least), rng.randint(0, 2 * least)]))
    return [rng.choice([size, rng.randint(0, size)]) if rng.random() < 0.5 else size for _ in nodes]


def rate(rng, quantum, tolerance):
    """The clock keys of a quantum of about so many ticks: mostly within the tolerance, at times at its limits or just beyond."""
    if rng.random() < 0.7:
        ppm = rng.choice([0] * 6 + [50, -50, rng.randint(-9_000, 9_000)] + [tolerance, -tolerance] * 2)
        if rng.random() < 0.9: ppm = max(-tolerance, min(tolerance, ppm))
        elif rng.random() < 0.5: ppm += rng.choice([-1, 1])
        return {"quantum": quantum, "ppm": max(-100_000, min(100_000, ppm))}
    den = rng.choice([1, 2, 3, 7, 1_000, 999_983, 1_000_000])
    return {"num": max(den, quantum * den + rng.choice([0, 0, 1, -1, rng.randint(0, den - 1)])), "den": den}


def frame(rng, used):
    """A frame with an identifier of its own, mostly."""
    extended = rng.random() < 0.2
    number = rng.randrange(2**29 if extended else 2**11)
    if used and rng.random() < 0.03: extended, number = rng.choice(used)
    used.append((extended, number))
    made = {"id": number, "dlc": 0}
    if extended: made["extended"] = True
    if rng.random() < 0.1: made["remote"] = True
    return made


def family(rng):
    """The tables of a plan."""
    count, used = rng.choice(COUNTS), []
    nodes = nodes_of(rng, count)
    per = rng.choice([0, 1, 1, 5, 5, 11])
    reach = min(node.quantum * (1 + node.prop + node.ps1) - node.out - node.into for node in nodes) // 2
    length = max(0, min(2**19, int(reach * rng.choice([0, 0.1, 0.3, 0.5, 0.8, 0.9, 1, 1.1]) * rng.uniform(0.9, 1)))) // max(per, 1)
    senders = rng.choice([0] + [1] * 12 + [2] * 16 + [rng.randint(1, count)] * 12)
    rated, listening = rng.random() < 0.15, rng.random() < 0.2
    version = 3 if listening else 2 if rated else rng.choice([1, 1, 3])
    quiet, deviates = 24 * max(node.bit() for node in nodes), tolerances(rng, nodes)
    tables = []
    for i, node in enumerate(nodes):
        table = {"name": f"n{i}", "offset": rng.choice([0, rng.randrange(node.bit() + 1)]) % (2**20 + 1)}
        if rated:
            starts = sorted(rng.sample(range(1, 5_000), rng.choice([0, 1, 1, 2, 15])))
            table["rates"] = [{"from": start} | rate(rng, node.quantum, deviates[i]) for start in [0] + starts]
        else: table |= rate(rng, node.quantum, deviates[i])
        if rng.random() < 0.9: table["tolerance"] = deviates[i]
        table |= {"prop": node.prop, "ps1": node.ps1, "ps2": node.ps2, "sjw": node.sjw, "out": node.out, "in": node.into,
                  "x": 0 if i == 0 else length if i == 1 else rng.randint(0, length)}
        if listening and i and rng.random() < 0.5: table["listen"] = True
        if i < senders and (not table.get("listen") or rng.random() < 0.1):
            ready = rng.randint(0, 25) * node.quanta() if rng.random() < 0.05 else quiet // node.quantum + 1
            table["frame"] = [frame(rng, used) | {"ready": ready} for _ in range(rng.choice([1, 1, 1, 2]))]
        tables.append(table)
    rng.shuffle(tables)
    plan = {"version": version, "end": rng.choice([60, 200]) * max(node.bit() for node in nodes), "per": per, "node": tables}
    if rng.random() < 0.97: plan["sync"] = "book"
    if rng.random() < 0.1: plan["disturbance"] = [{"x": 0, "from": 1, "to": rng.choice([1, 2, 2, 2, 2, 2])}]
    return plan


def text_of(rng):
    plan = family(rng)
    if rng.random() < 0.02: random_plans.spoil(rng, plan)
    # Keys of a table come before the tables below it
    plan = {key: value for key, value in plan.items() if key not in ("node", "disturbance")} | {key: plan[key] for key in ("node", "disturbance") if key in plan}
    return random_plans.toml_text(plan, rng.random() < 0.1).encode() + b"\n"
