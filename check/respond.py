#!/usr/bin/env python3
"""How long messages may wait: the bounds of `respond`, computed by a program of its own, and the waits of runs.

usage: respond.py PROGRAM [BUSES [PLANS [SEED]]]           500 buses, 4 plans of each, and seed 1 if nothing is named
       respond.py search PROGRAM [SECONDS [PLANS [SEED]]]   900 s, 60 plans of each bus

Each bus is a random one of 2 to 6 nodes with 1 to 4 messages each, at 10 to 90 % load, base and extended, with queues of both orders, jitter and deadlines by
chance. The bounds of `respond --format json` have to be those that this file computes (Davis, Burns, Bril, Lukkien 2007, with what frames take at the level of
quanta; docs/use/respond.md), their parts have to add up, and `met` has to follow. So have the doubts that `explain` has of its messages. Then plans of the bus are
run, with other offsets and other first frames: no wait that `traffic` says may be longer. Its bounds have to be those of `respond`, if that says `proved`, and else
there may be none. The last line says how many there were, how many differ, and the longest wait by its bound. Status 1 if anything differs.

`search` looks for long waits: it changes the plan in which one message of a bus, its target, waited longest so far. A line for each order of queues and each
range of loads has the median and the least of the longest wait of the targets by their bounds. Status 1 if any frame waits longer than its bound.
"""
import json
import random
import subprocess
import sys

sys.dont_write_bytecode = True
import longest
import random_plans

T, LIMIT = 1_000_000, 1 << 90
IDLE = 17  # by this bit of its own each node can be idle, as offsets are up to 40 quanta here: four bits
ceil = lambda a, b: -(-a // b)


def crc15(bits):
    r = 0
    for b in bits: r = (r << 1 & 0x7FFF) ^ (0x4599 if (r >> 14) != b else 0)
    return r


def number(v, w): return [v >> (w - 1 - i) & 1 for i in range(w)]


def stuffed(f):
    head = [0] + (number(f["id"] >> 18, 11) + [1, 1] + number(f["id"] % 2**18, 18) if f.get("extended") else number(f["id"], 11))
    body = head + [int(f.get("remote", False)), 0, 0] + number(f["dlc"], 4) + [b for x in f.get("bytes", []) for b in number(x, 8)]
    body += number(crc15(body), 15)
    out, run = [], 0
    for b in body:
        run = run + 1 if out and out[-1] == b else 1
        out.append(b)
        if run == 5: out.append(1 - b); run = 1
    return len(out)


def most_bits(f): return longest.longest(bool(f.get("extended")), f["id"], bool(f.get("remote")), f["dlc"])


def field(f):
    r = int(f.get("remote", False))
    return (f["id"] >> 18) << 21 | 3 << 19 | (f["id"] & 0x3FFFF) << 1 | r if f.get("extended") else f["id"] << 21 | r << 20


class Bus:
    """The terms of a bus, in millionths of a tick, by each node's shortest and longest quantum."""

    def __init__(self, plan):
        nodes = self.nodes = plan["node"]
        self.n = len(nodes)
        self.short, self.long = [], []
        for x in nodes:
            parts = x.get("tolerance", 0)
            rate = x["quantum"] * (T + (0 if "tolerance" in x else x["ppm"]))
            self.short.append(rate * (T - parts) // T), self.long.append(ceil(rate * (T + parts), T))
        self.sample = [1 + x["prop"] + x["ps1"] for x in nodes]
        self.bits = [s + x["ps2"] for s, x in zip(self.sample, nodes)]
        self.d = [[T * (a["out"] + abs(a["x"] - b["x"]) * plan["per"] + b["in"]) for b in nodes] for a in nodes]
        # A node with frames is a sender, even if they come after the plan's end.
        sends, others = [bool(x.get("frame")) for x in nodes], lambda k: [j for j in range(self.n) if j != k]

        def way(k, i):
            late = self.d[k][i] + self.d[i][k] if sends[k] else 0
            for a in others(k):
                if sends[a]: late = max(late, self.long[k] + T if a == i else self.d[a][i] + self.d[i][k] + self.long[k] + T - self.d[a][k])
            return late
        self.bit = max(b * q for b, q in zip(self.bits, self.long))
        self.to_sample = max(s * q for s, q in zip(self.sample, self.long))
        self.shift = max(max([max(0, way(k, j) - self.d[j][k]) for j in others(k)] + [nodes[k]["sjw"] * self.long[k]]) for k in range(self.n) if sends[k])
        self.lead = 1 + max((self.bits[i] - 1) * self.long[i] + max(self.d[i][k] for k in others(i)) for i in range(self.n))
        self.wake = max(x["ps2"] * q for x, q in zip(nodes, self.long))


class Message:
    def __init__(self, bus, node, f, any_data):
        self.node, self.field, self.frame = node, field(f), f
        self.bits = max(stuffed(f), most_bits(f)) if any_data else stuffed(f)
        self.every, self.jitter = f["every"], f.get("jitter", 0)
        apart = max(0, self.every - ceil(self.jitter * T, bus.short[node]))
        self.period = apart * bus.short[node]
        self.cost, self.tail = (self.bits + 13) * bus.bit + bus.shift, (self.bits + 9) * bus.bit + bus.to_sample + bus.shift
        self.due = f["deadline"] * T if "deadline" in f else self.every * bus.short[node]
        self.window = self.wait = 0


def bounds(plan, any_data):
    """The messages with their bounds, or without (wait None)."""
    bus = Bus(plan)
    all_ = [Message(bus, i, f, any_data) for i, x in enumerate(bus.nodes) for f in x.get("frame", [])]
    for m in all_: m.level = m.field if bus.nodes[m.node].get("queue") == "priority" else max(e.field for e in all_ if e.node == m.node)
    if any(m.period == 0 for m in all_): return bus, all_, False
    grew = True
    while grew:
        grew = False
        for m in all_:
            blocked = max([e.cost for e in all_ if e.field > m.level] + [bus.wake])
            while True:
                needed = blocked + sum(ceil(bus.lead + (e.wait if e.level > m.level else 0) + m.window, e.period) * e.cost for e in all_ if e.field <= m.level)
                if needed >= LIMIT or needed > 10**19: return bus, all_, False
                if needed == m.window: break
                m.window, grew = needed, True
            wait, m.j, m.own_window = worst(bus, all_, m, blocked)
            grew, m.wait = grew or wait != m.wait, wait
    return bus, all_, True


def shares(bus, all_, m, j, window):
    """How long frames of each message take in a window of m, up to its instance j."""
    return [j * m.cost if e is m else ceil(bus.lead + (e.wait if e.level > m.level else 0) + window, e.period) * e.cost if e.field <= m.level else 0 for e in all_]


def worst(bus, all_, m, blocked):
    """The longest wait of an instance of m, the first such instance, and its window."""
    window, best = 0, (0, 0, 0)
    for j in range(ceil(bus.lead + m.window, m.period)):
        while True:
            needed = blocked + sum(shares(bus, all_, m, j, window))
            if needed <= window: break
            window = needed
        wait = bus.lead + window + m.tail - j * m.period
        if wait > best[0]: best = wait, j, window
        window += m.cost
    return best


def made(rng):
    quantum, prop, ps1, ps2 = rng.choice([(125, 6, 6, 3), (50, 7, 7, 5), (100, 8, 7, 4), (200, 3, 3, 3)])
    bit, load = quantum * (1 + prop + ps1 + ps2), rng.uniform(0.1, 0.9)
    nodes, fields = [], set()
    for i in range(rng.randint(2, 6)):
        node = dict(name=f"n{i}", offset=0, quantum=quantum, ppm=0, tolerance=rng.choice([0, 50, 100, 300]), prop=prop, ps1=ps1, ps2=ps2, sjw=rng.randint(1, min(4, ps1, ps2)), x=rng.randint(0, 20), out=rng.randint(20, 100))
        node["in"], node["frame"], node["queue"] = rng.randint(20, 100), [], rng.choice(["fifo", "priority"])
        for _ in range(rng.randint(1, 4)):
            extended, size = rng.random() < 0.3, rng.randint(0, 8)
            frame = dict(id=rng.randrange(1 << (29 if extended else 11)), dlc=size, bytes=[rng.choice([0, 255, rng.randrange(256)]) for _ in range(size)], extended=extended)
            if field(frame) not in fields: fields.add(field(frame)), node["frame"].append(frame)
        nodes.append(node)
    shares = [rng.uniform(0.3, 1) for x in nodes for _ in x["frame"]]
    for f, share in zip((f for x in nodes for f in x["frame"]), shares):
        f["every"] = max(1, round((stuffed(f) + 13) * bit / (load * share / sum(shares)) / quantum))
        if rng.random() < 0.2: f["jitter"] = rng.randint(0, f["every"] * quantum // 4)
        if rng.random() < 0.2: f["deadline"] = rng.randint(1, 2 * f["every"] * quantum)
        f["ready"] = 12 * (1 + prop + ps1 + ps2) + rng.choice([0, rng.randrange(2 * f["every"])])
    return dict(version=4, end=rng.randint(2, 6) * 1000 * bit, per=5, sync="book", node=nodes)


def moved(rng, plan):
    """The plan with other offsets, clocks within tolerance, and first frames: often all at once."""
    at = rng.randrange(400, 4000)
    nodes = []
    for x in plan["node"]:
        bit = 1 + x["prop"] + x["ps1"] + x["ps2"]
        node = dict(x, offset=rng.randrange(40 * x["quantum"]), ppm=rng.choice([-1, 0, 1]) * x["tolerance"])
        node["frame"] = [dict(f, ready=IDLE * bit + (at + rng.randrange(bit) if rng.random() < 0.7 else rng.randrange(2 * f["every"]))) for f in x["frame"]]
        nodes.append(node)
    return dict(plan, node=nodes)


def said(program, *words, text):
    ran = subprocess.run([program, *words, "--format", "json"], input=text.encode(), stdout=subprocess.PIPE, stderr=subprocess.PIPE, check=False)
    return json.loads(ran.stdout)["records"] if ran.returncode == 0 else ran.stderr.decode()


def differs(plan, records, any_data):
    """What a text of `respond` has that this file hasn't."""
    bus, all_, bounded = bounds(plan, any_data)
    told = [r for r in records if r["kind"] == "message"]
    if len(told) != len(all_): return f"{len(told)} messages, not {len(all_)}"
    known = {(m.node, m.field): m for m in all_}
    for r in told:
        number_of, extended = int(r["id"], 16), len(r["id"]) == 10
        m = known[r["node"], field(dict(id=number_of, extended=extended))]
        name = f"{m.node} {m.frame['id']:x}"
        if r["bits"] != m.bits + 10 or r["every_quanta"] != m.every: return f"{name}: {r['bits']} bits every {r['every_quanta']}"
        if not bounded:
            if r["bound_us"] is not None: return f"{name} has a bound of {r['bound_us']} us"
            continue
        want = ceil(m.wait, T)  # thousandths of a microsecond, at a tick of a nanosecond
        if r["bound_us"] is None or round(r["bound_us"] * 1000) != want or r["bound_quanta"] != m.wait // bus.short[m.node]: return f"{name}: {r['bound_us']} us, not {want / 1000}"
        parts = [round(r[f"{it}_us"] * 1000) for it in ("start", "blocked", "queue", "others", "frame")]
        if sum(parts) != want: return f"{name}: parts {parts} aren't {want}"
        blocked, late = max([e.cost for e in all_ if e.field > m.level] + [bus.wake]), m.j * m.period
        own, others = (sum(s for e, s in zip(all_, shares(bus, all_, m, m.j, m.own_window)) if (e.node == m.node) == it) for it in (True, False))
        over = max(0, late - blocked)
        wanted = [max(0, blocked - late) // T, max(0, own - over) // T, max(0, others - max(0, over - own)) // T, m.tail // T]
        if parts[1:] != wanted: return f"{name}: parts {parts}, not {wanted}"
        if r["deadline"] != ("met" if m.wait + m.jitter * T <= m.due else "missed"): return f"{name}: deadline {r['deadline']}"
    return None


def doubts(plan):
    """The doubts of messages, with their own data: which, how long it may take, and its deadline, in thousandths of a microsecond; or the load if the bus may be full."""
    bus, all_, bounded = bounds(plan, False)
    digits = lambda m: f"0x{m.frame['id']:0{8 if m.frame.get('extended') else 3}x}"
    if bounded: return [(digits(m), ceil(m.wait, T) + m.jitter, m.due // T) for m in all_ if m.wait + m.jitter * T > m.due]
    jittered = [digits(m) for m in all_ if m.period == 0]
    if jittered: return jittered[:1]
    load = ceil(sum(ceil((m.bits + 13) * bus.bit * 10**8, m.period) for m in all_), 10**4)
    return [load] if load > 10_000 else []


def doubts_of(records):
    """The same of `explain`."""
    said = {"beyond_deadline": lambda r: (r["id"], round(r["taken_us"] * 1000), round(r["available_us"] * 1000)), "jitter_beyond_period": lambda r: r["id"],
            "bus_full": lambda r: round(r["load_percent"] * 100)}
    return [said[r["doubt"]](r) for r in records if r.get("doubt") in said]


def has_other_bounds(program, text, ran):
    """Whether the bounds of `traffic` aren't those of `respond`."""
    records = said(program, "respond", text=text)
    proved = [(r["node"], r["id"], r["bound_quanta"], r["bound_us"]) for r in records if r["kind"] == "message"] if records[0]["kind"] == "proof" else []
    return [(r["node"], r["id"], r["bound_quanta"], r["bound_us"]) for r in ran if r["kind"] == "bound"] != proved


def main(program, buses="500", plans="4", seed="1"):
    rng, differ, longer, frames, greatest, runs, proved, open_ = random.Random(int(seed)), 0, 0, 0, 0.0, 0, 0, 0
    for n in range(int(buses)):
        plan, any_data = made(rng), rng.random() < 0.2
        text = random_plans.toml_text(plan, True)
        records = said(program, "respond", *(["--any-data"] if any_data else []), text=text)
        wrong = records if isinstance(records, str) else differs(plan, records, any_data)
        if wrong:
            differ += 1
            print(f"bus {n} of seed {seed}: {wrong}")
            with open(f"/tmp/respond-{seed}-{n}.toml", "w", encoding="utf-8") as kept: kept.write(text)
            continue
        explained = said(program, "explain", text=text)
        if isinstance(explained, str) or sorted(doubts_of(explained)) != sorted(doubts(plan)):
            differ += 1
            print(f"bus {n} of seed {seed}: {explained if isinstance(explained, str) else doubts_of(explained)} are no doubts, but {doubts(plan)}")
        proved += records[0]["kind"] == "proof"
        bound = {(r["node"], r["id"]): r["bound_quanta"] for r in records if r["kind"] == "message"}
        if None in bound.values():
            open_ += 1
            continue
        for _ in range(int(plans)):
            text = random_plans.toml_text(moved(rng, plan), True)
            ran = said(program, "traffic", text=text)
            if isinstance(ran, str):
                print(f"bus {n} of seed {seed}: {ran}")
                differ += 1
                continue
            runs += 1
            if has_other_bounds(program, text, ran):
                differ += 1
                print(f"bus {n} of seed {seed}: other bounds in traffic")
            for r in ran:
                if r["kind"] != "message" or r["greatest_quanta"] is None: continue
                frames += r["sent"]
                ratio = r["greatest_quanta"] / bound[r["node"], r["id"]]
                greatest = max(greatest, ratio)
                if ratio > 1:
                    longer += 1
                    print(f"bus {n} of seed {seed}: {r['name']} {r['id']} waits {r['greatest_quanta']} quanta, beyond {bound[r['node'], r['id']]}")
    print(f"{buses} buses, {proved} proved, {open_} without bounds, {differ} differ; {runs} runs, {frames} frames, {longer} wait longer, the longest wait is {greatest:.4f} of its bound")
    return 1 if differ or longer else 0


LOADS = [(0.1, 0.5), (0.5, 0.85), (0.85, 0.98)]


def loaded(rng, load, order):
    """A random bus with this load, without jitter. Its queues have this order, or one of the two each."""
    plan = made(rng)
    frames = [(x, f) for x in plan["node"] for f in x["frame"]]
    now = sum((stuffed(f) + 13) * (1 + x["prop"] + x["ps1"] + x["ps2"]) / f["every"] for x, f in frames)
    for x in plan["node"]: x["queue"] = rng.choice(["fifo", "priority"]) if order == "both" else order
    for x, f in frames:
        f.pop("jitter", None), f.pop("deadline", None)
        f["every"], f["ready"] = max(1, round(f["every"] * now / load)), IDLE * (1 + x["prop"] + x["ps1"] + x["ps2"])
    return dict(plan, end=rng.randint(4, 16) * 1000 * plan["node"][0]["quantum"] * 16)


def changed(rng, plan):
    """The plan with another first frame or offset."""
    nodes = [dict(x, frame=[dict(f) for f in x["frame"]]) for x in plan["node"]]
    for _ in range(rng.randint(1, 3)):
        x = rng.choice(nodes)
        f, bit = rng.choice(x["frame"]), 1 + x["prop"] + x["ps1"] + x["ps2"]
        if rng.random() < 0.2: x["offset"] = rng.randrange(40 * x["quantum"])
        else: f["ready"] = max(IDLE * bit, f["ready"] + rng.choice([-1, 1]) * rng.randrange(1, rng.choice([3, bit, 20 * bit, 200 * bit])))
    return dict(plan, node=nodes)


def search(program, seconds="900", plans="60", seed="1"):
    import statistics
    import time
    rng, until, ratios, frames, longer, buses = random.Random(int(seed)), time.monotonic() + float(seconds), {}, 0, 0, 0
    while time.monotonic() < until:
        order, range_ = rng.choice(["fifo", "priority", "both"]), rng.choice(LOADS)
        plan = loaded(rng, rng.uniform(*range_), order)
        records = said(program, "respond", text=random_plans.toml_text(plan, True))
        if isinstance(records, str) or records[0]["kind"] != "proof": continue
        bound = {(r["node"], r["id"]): r["bound_quanta"] for r in records if r["kind"] == "message"}
        target, best, buses = rng.choice(sorted(bound)), (0, plan), buses + 1
        for n in range(int(plans)):
            tried = moved(rng, plan) if n < int(plans) // 3 else changed(rng, best[1])
            ran = said(program, "traffic", text=random_plans.toml_text(tried, True))
            if isinstance(ran, str): continue
            for r in ran:
                if r["kind"] != "message" or r["greatest_quanta"] is None: continue
                frames += r["sent"]
                if r["greatest_quanta"] > bound[r["node"], r["id"]]:
                    longer += 1
                    print(f"bus {buses} of seed {seed}: {r['name']} {r['id']} waits {r['greatest_quanta']} quanta, beyond {bound[r['node'], r['id']]}")
                if (r["node"], r["id"]) == target and r["greatest_quanta"] > best[0]: best = r["greatest_quanta"], tried
        ratios.setdefault((order, range_), []).append(best[0] / bound[target])
    for (order, (low, high)), found in sorted(ratios.items()):
        print(f"{order} {100 * low:.0f} to {100 * high:.0f} %: {len(found)} buses, median {statistics.median(found):.3f}, least {min(found):.3f}, greatest {max(found):.4f}")
    print(f"{buses} buses, {frames} frames, {longer} wait longer")
    return 1 if longer else 0


if __name__ == "__main__":
    if sys.argv[1:2] == ["search"]: sys.exit(search(*sys.argv[2:]))
    sys.exit(main(*sys.argv[1:]) if 2 <= len(sys.argv) <= 5 else sys.stderr.write(__doc__) and 2)
