#!/usr/bin/env python3
"""Sets of messages as they are in practice: the bounds of `respond` beside those of the classical analysis, and beside the longest waits of runs.

usage: practice.py PROGRAM [RUNS [SEED]]     40 runs of each set, and seed 1 if nothing is named

Twenty sets: one in the shape of the SAE benchmark (Tindell and Burns 1994; 17 messages of 7 nodes), six of power trains and bodies with the periods that
are usual there, and the three messages of Davis, Burns, Bril, Lukkien 2007, which have one node each. Each of the first seven has its queues first in, first
out, and by priority. The classical figure is that of Davis, Burns, Bril, Lukkien 2007, for queues that are first in, first out with the jitters of Davis,
Kollmann, Pollex, Slomka 2011: with the lengths that the frames have, and with the books' greatest number of stuff bits.

A line has the set, its load, how many of its messages a run let wait longer than the classical figure by lengths says, and than `respond` says; and the least,
the median and the greatest of three ratios: `respond` by the classical figure by lengths, by the one of the books, and the longest wait by `respond`. Status 1
if a run passes `respond`. A classical figure over a busy period of a thousand times the longest period is none.
"""
import random
import statistics
import sys

sys.dont_write_bytecode = True
import random_plans
from respond import T, Bus, Message, ceil, field, moved, said, stuffed

SAE = [(1, 50, 0), (2, 5, 1), (1, 5, 2), (2, 5, 3), (1, 5, 1), (2, 5, 4), (6, 10, 5), (1, 10, 3), (2, 10, 1), (2, 10, 4), (1, 50, 0), (4, 100, 6), (1, 100, 6), (1, 100, 1),
       (3, 1000, 6), (1, 1000, 0), (1, 1000, 5)]
SEGMENTS = dict(prop=2, ps1=3, ps2=2, sjw=1)  # 8 quanta a bit


def node(i, rate, queue):
    made = dict(name=f"n{i}", offset=0, quantum=1_000_000 // rate // 8, ppm=0, tolerance=50, **SEGMENTS, x=3 * i, out=100, queue=queue)
    made["in"], made["frame"] = 100, []
    return made


def frame(rng, id_, size, every):
    """A frame with many stuff bits."""
    def one(): return dict(id=id_, dlc=size, bytes=[rng.choice([0x78, 0x3C, 0x1E, 0x0F, 0x87, 0xC3, 0xE1, 0xF0, 0, 255]) for _ in range(size)], every=every)
    return max((one() for _ in range(60)), key=stuffed)


def plan_of(nodes, end): return dict(version=4, end=end, per=5, sync="book", node=nodes)


def listed(rng, rate, queue, messages):
    """A set by lines of bytes, period in ms and node."""
    nodes = [node(i, rate, queue) for i in range(1 + max(n for _, _, n in messages))]
    for k, (size, period, n) in enumerate(messages): nodes[n]["frame"].append(frame(rng, 0x50 + 13 * k, size, period * 1_000_000 // nodes[n]["quantum"]))
    return nodes


def drawn(rng, rate, queue, count, load):
    """Eight bytes mostly, the shares of the periods as in power trains: 10, 20, 50, 100 and 1000 ms. Messages up to a load."""
    some, share = [], 0
    while share < load:
        size, period = rng.choice([8, 8, 8, 6, 4, 2]), rng.choice([10, 10, 20, 20, 50, 100, 100, 1000])
        some.append((size, period, len(some) % count))
        share += (55 + 9.5 * size) / rate / period
    return listed(rng, rate, queue, sorted(some, key=lambda m: m[1]))


def davis(rng, queue):
    return [dict(x, frame=[dict(frame(rng, 1 + i, 7, 0), every=e)]) for i, (x, e) in enumerate((node(i, 125, queue), every) for i, every in enumerate([2380, 3332, 3332]))]


def sets(rng):
    for queue in ("fifo", "priority"):
        for rate in (125, 250, 500): yield f"SAE, {rate} kbit/s, {queue}", listed(rng, rate, queue, SAE), 400_000_000
        for rate, count, load in ((125, 4, 0.45), (250, 5, 0.5), (250, 6, 0.65), (500, 8, 0.4), (500, 10, 0.55), (500, 12, 0.7)):
            yield f"{count} nodes, {rate} kbit/s, {queue}", drawn(rng, rate, queue, count, load), 200_000_000
        yield f"Davis and others 2007, {queue}", davis(rng, queue), 60_000_000


def classical(plan, books):
    """The figures of the classical analysis, in millionths of a tick, or none."""
    bus, by_priority = Bus(plan), plan["node"][0]["queue"] == "priority"
    all_ = [Message(bus, i, f, books) for i, x in enumerate(plan["node"]) for f in x["frame"]]
    bit = bus.bits[0] * T * plan["node"][0]["quantum"]
    for m in all_: m.level, m.cost, m.period, m.wait = m.field if by_priority else max(e.field for e in all_ if e.node == m.node), (m.bits + 13) * bit, m.every * T * plan["node"][m.node]["quantum"], 0
    grew, longest = True, max(m.period for m in all_)
    while grew:
        grew = False
        for m in all_:
            blocked, within = max([e.cost for e in all_ if e.field > m.level], default=0), [e for e in all_ if e.field <= m.level]
            jitter = {e: max(0, e.wait - e.cost) if not by_priority and e.level > m.level else 0 for e in within}
            least, busy, wait = 0, m.cost, 0
            while least < busy:
                least, busy = busy, blocked + sum(ceil(busy + jitter[e], e.period) * e.cost for e in within)
                if busy > 1000 * longest: return None
            for x in range(0, busy, m.period):
                w, needed = -1, blocked
                while w < needed:
                    w, needed = needed, blocked + sum((x // m.period if e is m else (x // e.period + 1) if e.node == m.node and not by_priority else ceil(needed + jitter[e] + bit, e.period)) * e.cost for e in within)
                wait = max(wait, w - x + m.cost)
            grew, m.wait = grew or wait > m.wait, max(wait, m.wait)
    return {(m.node, m.field): m.wait for m in all_}


def three(ratios): return f"{min(ratios):.3f} {statistics.median(ratios):.3f} {max(ratios):.3f}"


def main(program, runs="40", seed="1"):
    rng, wrong, passed, frames, longer = random.Random(int(seed)), 0, 0, 0, 0
    for name, nodes, end in sets(rng):
        for x in nodes:
            for f in x["frame"]: f["ready"] = 12 * 8
        plan = plan_of(nodes, end)
        records = said(program, "respond", text=random_plans.toml_text(plan, True))
        if isinstance(records, str): sys.exit(f"{name}: {records}")
        key = lambda r: (r["node"], field(dict(id=int(r["id"], 16))))
        bound = {key(r): r for r in records if r["kind"] == "message"}
        exact, books = classical(plan, False), classical(plan, True)
        worst = dict.fromkeys(bound, 0)
        for _ in range(int(runs)):
            for r in said(program, "traffic", text=random_plans.toml_text(moved(rng, plan), True)):
                if r["kind"] == "message" and r["greatest_quanta"]: worst[key(r)], frames = max(worst[key(r)], r["greatest_quanta"]), frames + r["sent"]
        quantum = {i: x["quantum"] for i, x in enumerate(nodes)}
        wrong += sum(worst[k] > bound[k]["bound_quanta"] for k in bound)
        if not exact or not books:
            print(f"{name}: {records[0].get('proved', 'not proved')}; no classical figure", flush=True)
            continue
        over = sum(worst[k] * quantum[k[0]] * T > exact[k] for k in bound)
        passed, longer = passed + over, longer + (over > 0)
        ours = {k: bound[k]["bound_us"] * 1000 * T for k in bound}
        load = next(r["load_percent"] for r in records if r["kind"] == "bus")
        print(f"{name}: {records[0].get('proved', 'not proved')}; load {load} %; beyond classical {over} of {len(bound)}; ours by classical {three([ours[k] / exact[k] for k in bound])}, by the books' {three([ours[k] / books[k] for k in bound])}; run by ours {three([worst[k] / bound[k]['bound_quanta'] for k in bound])}", flush=True)
    print(f"{frames} frames; {passed} messages of {longer} sets wait longer than the classical figure by lengths, {wrong} longer than `respond` says")
    return 1 if wrong else 0


if __name__ == "__main__":
    sys.exit(main(*sys.argv[1:]) if 2 <= len(sys.argv) <= 4 else sys.stderr.write(__doc__) and 2)
