"""Plans of version 4 beside plain.py: the comparison `version-4`.

Buses of one to four nodes with bits of 8 to 385 quanta, by either choice of `sync`, through `run`, `check`, `records`, `trace` and `traffic`. Of every third
input some keys are changed, mostly to values at or beyond a limit of version 4 or of the others: there the fault has to be the same.
"""
import random
import sys

sys.dont_write_bytecode = True
import plain
import random_plans
import traffic  # gives plain.py that command
from tally import asked_bare

QUANTA = (8, 10, 16, 25, 40, 64, 80, 100, 128, 129, 160, 200, 256, 320, 385)
OTHERS = ("check", "records", "trace", "traffic")
EDGES = {"tseg1": [0, 1, 2, 3, 255, 256, 257, 2**48], "tseg2": [0, 1, 2, 127, 128, 129, 300], "sjw": [0, 1, 2, 16, 127, 128, 129], "version": [3, 4, 4, 5],
         "offset": [2**20, 2**20 + 1, 2**34, 2**34 + 1], "end": [0, 2**36, 2**36 + 1, 2**40, 2**40 + 1], "prop": [1, 8, 9], "ps1": [1, 8, 9], "ps2": [1, 2, 8, 9],
         "listen": [1], "every": [0, 1], "count": [0, 2], "quantum": [0, 1, 2**20, 2**20 + 1]}


# ---- Plans


def lengths(rng, quanta):
    """Segments of a bit of so many quanta: of a controller, or if they may be, one by one."""
    if quanta <= 25 and rng.random() < 0.4: return random_plans.random_segments(rng, quanta)
    least, most = max(2, quanta - 257), min(128, quanta - 3)
    tseg2 = rng.choice([least, most, rng.randint(least, most), min(most, max(least, quanta // 5))])
    tseg1 = quanta - 1 - tseg2
    widest = min(tseg1 - 1, tseg2)
    return {"tseg1": tseg1, "tseg2": tseg2, "sjw": rng.choice([1, widest, rng.randint(1, widest), max(1, min(widest, quanta // 10))])}


def clock(rng, quantum, drift, bits):
    ppm = rng.choice([-drift, drift, rng.randint(-drift, drift)])
    if quantum == 1: ppm = abs(ppm)
    if rng.random() > 0.2: return {"quantum": quantum, "ppm": ppm}
    return {"rates": [{"from": 0, "quantum": quantum, "ppm": ppm}, {"from": rng.randint(1, bits * 40), "num": quantum * 7 + rng.randint(0, 1), "den": 7}]}


def frames(rng, ids, quanta, bits):
    found = [random_plans.random_frame(rng, ids, bits * quanta) for _ in range(rng.choice([0, 1, 1, 2]))]
    for frame in found:
        if rng.random() < 0.7: frame["ready"] = rng.choice([14, 14, 20, 30]) * quanta
        if rng.random() < 0.2: frame |= {"every": rng.randint(60, 300) * quanta} | ({"count": rng.randint(1, 4)} if rng.random() < 0.6 else {})
    return found


def random_plan(rng):
    quanta, base, ids = rng.choice(QUANTA), rng.choice([1, 2, 3, 5, 10]), [rng.randrange(2048) for _ in range(4)]
    bit, bits, drift = quanta * base, rng.randint(70, max(90, min(400, 40_000 // quanta))), rng.choice([0, 50, 300, 2_000, 20_000])
    common, nodes, sync = lengths(rng, quanta), [], rng.choice([None, "after", "book", "book"])
    for number in range(rng.choice([1, 2, 2, 3, 3, 4])):
        own = quanta if rng.random() < 0.8 else rng.choice([many for many in (8, 16, 40, 80, 160) if many <= bit])
        node = {"name": f"n{number}", "offset": rng.choice([0, rng.randint(0, 2 * bit), rng.randint(0, 40 * bit)])}
        node |= clock(rng, bit // own, drift, bits) | (common if own == quanta else lengths(rng, own))
        node |= {"x": rng.randint(0, max(1, bit // 60)), "out": rng.randint(0, max(1, bit // 12)), "in": rng.randint(1, max(1, bit // 12))}
        if rng.random() < 0.1: node["listen"] = True
        queue = frames(rng, ids, own, bits)
        nodes.append(node | ({"frame": queue} if queue else {}))
    plan = {"version": 4} | ({"sync": sync} if sync else {}) | {"end": bits * bit, "per": rng.choice([0, 1, 5]), "node": nodes}
    hits = [rng.randrange(plan["end"]) for _ in range(rng.choice([0, 0, 1, 2, 4]))]
    places = [{"node": rng.choice(nodes)["name"]} if rng.random() < 0.4 else {"x": rng.randint(0, bit // 50 + 1)} for _ in hits]
    found = [place | {"from": at, "to": at + rng.choice([1, bit // 3 + 1, bit, 7 * bit])} for place, at in zip(places, hits)]
    return plan | ({"disturbance": found} if found else {})


def change(rng, table, keys):
    key = rng.choice(keys)
    table[key] = rng.choice(EDGES[key])


def spoil(rng, plan):
    """Makes one change that is mostly wrong."""
    nodes, way = plan["node"], rng.randrange(9)
    tables = [plan] + nodes * 3 + [it for node in nodes for key in ("frame", "rates") for it in node.get(key, [])] + plan.get("disturbance", [])
    table, node = rng.choice(tables), rng.choice(nodes)
    known = [key for key in table if key in EDGES]
    if way == 0: table.pop(rng.choice([key for key in table if key != "node"]), None)
    elif way <= 2 and known: change(rng, table, known)
    elif way == 3: change(rng, node, ["tseg1", "tseg2", "prop", "ps1", "ps2"])
    elif way == 4:
        for key in ("prop", "ps1", "ps2"): node.pop(key, None)
        tseg1, tseg2 = rng.choice([2, 3, 64, 255, 256]), rng.choice([2, 3, 64, 127, 128])
        node |= {"tseg1": tseg1, "tseg2": tseg2, "sjw": min(tseg1 - 1, tseg2) + rng.randint(0, 1)}
    elif way == 5: plan["node"] = [dict(nodes[number % len(nodes)], name=f"m{number}") for number in range(rng.choice([16, 17, 63, 64, 65]))]
    elif way == 6: plan["disturbance"] = [{"x": 0, "from": 1, "to": rng.choice([2, 2**36, 2**36 + 1, 2**40, 2**40 + 1])}] * rng.choice([1, 64, 65, 255, 256, 257])
    elif way == 7: node["frame"] = [{"id": 5, "dlc": 0, "every": 1, "count": rng.choice([4_096, 4_097, 65_535, 65_536, 65_537])}]
    else:
        for key in ("quantum", "ppm", "num", "den"): node.pop(key, None)
        node["rates"] = [{"from": start, "num": 7, "den": 1} for start in (0, rng.choice([2**20, 2**20 + 1, 2**30, 2**30 + 1]))]


# ---- Comparing


def version_4(tally, program, seed, numbers, options):
    for number in numbers:
        rng = random.Random(f"{seed} {number} version 4")
        plan = random_plan(rng)
        is_spoiled = number % 3 == 2
        for _ in range(rng.choice([1, 1, 2]) if is_spoiled else 0): spoil(rng, plan)
        text = random_plans.toml_text(plan, rng.random() < 0.3).encode()
        tally.tried += 1
        for command in ("check",) if is_spoiled else ("run", rng.choice(OTHERS)):
            wanted = plain.answer(command, text)
            tally.count("answers", wanted[1].split("(")[0].strip() or f"{command} {wanted[0].splitlines()[-1].split()[1] if command == 'run' else ''}".strip())
            tally.compare(f"plan {number} of seed {seed}", command, text, asked_bare(program, command, text=text), wanted)
