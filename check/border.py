#!/usr/bin/env python3
"""Power-ups at the border: random families of buses with a cable as long as `margin` allows, run by `sweep`, which should find each of them clean.

usage: border.py PROGRAM [--families N] [--first K] [--seed N] [--followed N] [--listeners] [--heard] [--room] [--beyond-jump]

A family has two to five nodes, equal or unlike settings, loops from a tick to four quanta, one to all nodes that send, and a tolerance for each.
Its cable holds for any senders; one tick more doesn't. At the border it is run with random frames, and with long frames whose edges are far
apart. With --listeners a family has three to five nodes, and one at least that only listens: anywhere on the cable, and some with a loop as long as
the way to its sample. With --heard it is so, and the border is where one of these no longer has room to hear each frame (`hear_all` of wl_proved).
With --room the border is where `margin` no longer says `proved` for any senders, and with --beyond-jump only families count on which a jump there
doesn't put right all of ten bits' drift, a look and what gathers. Then, with --followed, failures of some families with longer cables are followed
back by shorter ones, around their offsets and signs.
"""
import argparse
import random
import re
import subprocess
import sys
from collections import Counter
from copy import deepcopy
from dataclasses import dataclass, field

import margin
import plain

BIT = 1_200
LONGEST = 40_000
LONG = [[byte] * 8 for byte in (0x0F, 0x3C, 0x78, 0x1E, 0xF0, 0x87, 0xE1, 0xC3)]
STARTS = 0xF0F0F0F0, 0x78787878, 0x3C3C3C3C, 0x1E1E1E1E, 0x0F0F0F0F, 0x87878787, 0xAAAAAAAA, 0x55555555, 0, 0xFFFFFFFF, 0x08421084, 0xC300F0F0
BYTES = 0x0F, 0xF0, 0x3C, 0xC3, 0x78, 0x87, 0x1E, 0xE1, 0x00, 0xFF, 0x55
FACTORS = 1050, 1150, 1300, 1600, 2200
POOL = []
PROVED = ", proved: any_senders_are_clean"


@dataclass
class Node:
    prop: int
    ps1: int
    ps2: int
    sjw: int
    quantum: int = 0
    out: int = 0
    into: int = 1
    x: int = 0
    offset: int = 0
    ppm: int = 0
    tolerance: int = 0
    listens: bool = False
    frames: list = field(default_factory=list)

    def quanta(self):
        return 1 + self.prop + self.ps1 + self.ps2

    def bit(self):
        return self.quantum * self.quanta()

    def lines(self, name):
        said = f'\n[[node]]\nname = "{name}"\noffset = {self.offset}\nquantum = {self.quantum}\nppm = {self.ppm}\nprop = {self.prop}\nps1 = {self.ps1}\n'
        said += f"ps2 = {self.ps2}\nsjw = {self.sjw}\nx = {self.x}\nout = {self.out}\nin = {self.into}\n"
        if self.listens: said += "listen = true\n"
        if self.tolerance is not None: said += f"tolerance = {self.tolerance}\n"
        return said + (f"frame = [{', '.join(map(frame_words, self.frames))}]\n" if self.frames else "")


def frame_words(frame):
    extended, number, remote, data, ready = frame
    dlc = f"remote = true, dlc = {data}" if remote else f"dlc = {len(data)}, bytes = {data}"
    return f"{{ id = {number}, extended = {str(extended).lower()}, {dlc}, ready = {ready} }}"


def plan_text(nodes):
    """The text ends when each frame has had time for 200 of the longest bits."""
    bit = max(node.bit() for node in nodes) * 11 // 10
    ready = max([frame[4] * node.quantum + node.offset for node in nodes for frame in node.frames], default=0)
    end = ready * 11 // 10 + bit * (40 + 200 * sum(len(node.frames) for node in nodes))
    version = 3 if any(node.listens for node in nodes) else 1
    return f'version = {version}\nend = {end}\nper = 1\nsync = "book"\n' + "".join(node.lines(f"n{i}") for i, node in enumerate(nodes))


def the_bus(nodes):
    """The bus of these nodes as margin.py has it, with all that have frames as senders."""
    text = plan_text(nodes).encode()
    return margin.Family(plain.read_plan(text), margin.clocks_of(plain.read_toml(text))).buses(False)[0]


class Program:
    def __init__(self, path, room=False, heard=False):
        self.path, self.runs, self.room, self.heard = path, 0, room, heard

    def said(self, nodes, *words):
        ended = subprocess.run([self.path, *words], input=plan_text(nodes), capture_output=True, text=True)
        if ended.returncode > 1 or ended.stderr: raise ValueError(f"{ended.stderr}{plan_text(nodes)}")
        return ended.stdout

    def holds(self, nodes):
        said = self.said(nodes, "margin")
        if not said.startswith("holds for any senders") or self.room and PROVED not in said.split("\n", 1)[0]: return False
        if not self.heard: return True
        bus = the_bus(nodes)
        return bus.leaves_room() and bus.hears_all()

    def wider(self, nodes):
        """By how many ppm every tolerance may grow; None if the bus isn't at the border's better side as it is."""
        found = re.search(r"^tolerance: .*any senders (\d+) ppm wider(?:, proved (\d+))?", self.said(nodes, "margin"), re.M)
        if self.room: return found and found[2] and int(found[2])
        return found and int(found[1])

    def sweep(self, nodes, runs, seed, *words):
        """How many members were run and how many weren't clean, and what the first such one changes."""
        said = self.said(nodes, "sweep", "--workers", "1", "--runs", str(runs), "--seed", str(seed), *words)
        total = re.search(r"^clean in (\d+) of (\d+)(.*)", said, re.M)
        if total[3]: raise ValueError(f"{total[0]}\n{plan_text(nodes)}")
        first = re.search(r"^first that isn't: member \d+(.*):", said, re.M)
        changes = re.findall(r", n(\d+)\.(offset|ppm) = (-?\d+)", first[1]) if first else []
        self.runs += int(total[2])
        return int(total[2]), int(total[2]) - int(total[1]), [(int(node), key, int(value)) for node, key, value in changes]


# ---- A family at the border

def segments(rng):
    while True:
        node = Node(rng.randint(1, 8), rng.randint(1, 8), rng.randint(2, 8), rng.randint(1, 4))
        if node.sjw <= node.ps1 and 8 <= node.quanta() <= 25: return node


def settings(rng, count):
    """Equal nodes, or unlike ones with bits of one length."""
    if rng.random() < 0.5:
        node = segments(rng)
        node.quantum = rng.choice([20, 50, 80, 125, 200])
        return [deepcopy(node) for _ in range(count)]
    bit, nodes = BIT * rng.choice([1, 2, 4]), []
    while len(nodes) < count:
        node = segments(rng)
        if bit % node.quanta() == 0: nodes.append(node)
        node.quantum = bit // node.quanta()
    return nodes


def with_loops(rng, nodes):
    kind = rng.randrange(4)
    for node in nodes:
        q = node.quantum
        node.out, node.into = [(0, 1), (rng.randrange(q), 1 + rng.randrange(q // 2)), (q // 2, q // 2 + 1), (rng.randrange(2 * q), 1 + rng.randrange(2 * q))][kind]


def placed(nodes, shares, length):
    """The same nodes with a cable of a length, each at its share of it in thousandths."""
    nodes = deepcopy(nodes)
    for node, share in zip(nodes, shares): node.x = share * length // 1000
    return nodes


def longest(program, nodes, shares):
    """The longest cable for which `margin` says that it holds for any senders."""
    low, high = 0, LONGEST
    while high - low > 1:
        middle = (low + high) // 2
        low, high = (middle, high) if program.holds(placed(nodes, shares, middle)) else (low, middle)
    return low


def with_listeners(rng, nodes, senders):
    """Some of the nodes without frames only listen, the last one at least; two don't, so that each sender is acknowledged."""
    for node in nodes[max(senders, 2):]:
        node.listens = node is nodes[-1] or rng.random() < 0.5


def with_long_loops(rng, nodes):
    """Some listeners' own bits come back at their sample."""
    for node in nodes:
        sample = node.quantum * (1 + node.prop + node.ps1) * (1_000_000 - node.tolerance) // 1_000_000
        if node.listens and rng.random() < 0.5: node.out = sample - node.into


def family(rng, program, listeners):
    """Nodes without frames at the border, how many of them send, and their shares of the cable; None if they bear no cable at all."""
    count = rng.randint(3 if listeners else 2, 5)
    nodes, senders = settings(rng, count), rng.randint(1, count - listeners)
    if listeners: with_listeners(rng, nodes, senders)
    with_loops(rng, nodes)
    for i in range(senders): nodes[i].frames = [(False, i, False, [], 30 * nodes[i].quanta())]
    shares = [rng.choice([0, 1000, rng.randint(0, 1000)]) for _ in nodes]
    near, far = rng.sample([i for i in range(count) if not nodes[i].listens], 2)
    shares[near], shares[far] = 0, 1000
    wider = program.wider(nodes)
    if wider is None: return None
    most = rng.choice([0, wider, rng.randint(0, wider), wider * 9 // 10])
    for node in nodes: node.tolerance = most * rng.choice([100, rng.randint(0, 100)]) // 100
    with_long_loops(rng, nodes)
    length = longest(program, nodes, shares)
    if length == 0: return None
    assert program.holds(placed(nodes, shares, length)) and not program.holds(placed(nodes, shares, length + 1))
    return nodes, senders, shares, length


# ---- Power-ups

def frames(rng, senders, each):
    """For each sender so many frames, none of which ties with another: edges far apart, identifiers with long common beginnings."""
    while True:
        extended, start = rng.random() < 0.25, rng.choice([rng.getrandbits(32), *STARTS])
        all_frames, seen = [[frame(rng, extended, start) for _ in range(each)] for _ in range(senders)], set()
        for one in all_frames: seen.update(found[:3] for found in one)
        if len(seen) == senders * each: return all_frames


def frame(rng, extended, start):
    extended ^= rng.random() < 1 / 12
    width = 29 if extended else 11
    number = rng.choice([start ^ 1 << rng.randrange(width), start ^ rng.randrange(8), rng.getrandbits(32), start ^ rng.getrandbits(width)])
    remote, dlc = rng.random() < 0.2, rng.choice([0, 0, 0, 0, 1, 1, 2, 2, 3, 4, 6, 8])
    byte = rng.choice(BYTES)
    data = [rng.randrange(256) for _ in range(dlc)] if rng.random() < 1 / 3 else [byte] * dlc
    return extended, number & ((1 << width) - 1), remote, dlc if remote else data


def long_frames(rng, senders):
    """For each sender a frame of 8 bytes whose edges are ten bits apart, or one whose last edge is ten bits before the acknowledgement."""
    if rng.random() < 0.5: return [[late] for late in late_edges(rng, senders)]
    number, data = rng.choice([0x0F1, 0x1E1, 0x3C3, 0x787, 0x70F, 0x61E, 0x0F0]), rng.choice(LONG)
    flips = rng.sample(range(11), senders)
    return [[(False, number ^ (1 << flips[i] if i else 0), False, data)] for i in range(senders)]


def late_edges(rng, count):
    """Frames with identifiers of their own, from a pool that is made once."""
    if not POOL: POOL.extend(late_edge(random.Random(n)) for n in range(40))
    by_id = {late[1]: late for late in rng.sample(POOL, len(POOL))}
    return list(by_id.values())[:count]


def late_edge(rng):
    while True:
        number, data = rng.randrange(0x7F0), [rng.randrange(256) for _ in range(rng.randint(1, 8))]
        line = [bit for bit, _ in plain.stuff(plain.Frame(number, False, len(data), bytes(data)).bits())]
        last = max(k for k in range(len(line)) if line[k] == plain.DOMINANT and (k == 0 or line[k - 1] == plain.RECESSIVE))
        if len(line) + 1 - last == 10: return False, number, False, data


def powered(rng, nodes, waiting):
    """The nodes at random offsets within a bit, with these frames, ready at about the same time, after all have been idle."""
    nodes = deepcopy(nodes)
    for node in nodes: node.offset = rng.randrange(node.bit())
    bit = max(node.bit() for node in nodes)
    start = 18 * bit * 11 // 10 + rng.randrange(2 * bit)
    spread = rng.choice([0, 1, bit // 8, bit // 2, bit, 3 * bit])
    for node, own in zip(nodes, waiting):
        node.frames = []
        for n, one in enumerate(own):
            tick = start + rng.randrange(spread + 1) + (rng.randrange(120 * bit) if n and rng.random() < 1 / 3 else 0)
            node.frames.append((*one, max(-(-(tick - node.offset) // node.quantum), node.frames[-1][4] if n else 0)))
    for node in nodes[len(waiting):]: node.frames = []
    return nodes


def jump_leaves(border):
    """Whether on the bus at the border some jump leaves something of ten bits' drift, a look and what gathers."""
    nodes, _, shares, length = border
    bus = the_bus(placed(nodes, shares, length))
    return any(bus.left_over(bus.chases()[2]))


def at_border(rng, program, border):
    """Power-ups that were run with random frames and with long ones, and how many weren't clean."""
    nodes, senders, shares, length = border
    nodes, counts = placed(nodes, shares, length), Counter()
    for kind, times, runs in (("random frames", 5, 60), ("long frames", 2, 30)):
        for _ in range(times):
            waiting = frames(rng, senders, rng.choice([1, 1, 1, 2])) if kind == "random frames" else long_frames(rng, senders)
            run = powered(rng, nodes, waiting)
            total, bad, changes = program.sweep(run, runs, rng.randrange(2**32), "--step", "1")
            counts[kind] += total
            counts["not clean"] += bad
            if bad: print(f"NOT CLEAN: {changes}\n{plan_text(run)}", flush=True)
    return counts


# ---- Failures followed back

def changed(nodes, changes):
    """A member as nodes without tolerances, by what it changes."""
    nodes = deepcopy(nodes)
    for i, key, value in changes: setattr(nodes[i], key, value)
    for node in nodes: node.tolerance = None
    return nodes


def beyond(rng, program, border):
    """A member that fails with a longer cable, in thousandths of the border's."""
    nodes, senders, shares, length = border
    for factor in FACTORS:
        run = powered(rng, placed(nodes, shares, length * factor // 1000), frames(rng, senders, rng.choice([1, 1, 1, 2])))
        _, bad, changes = program.sweep(run, 60, rng.randrange(2**32), "--step", "1")
        if bad: return changed(run, changes), factor
    return None


def around(rng, program, run, tolerances):
    """A failing member around one: the offset of a node within a quantum, two nodes at either limit, frames that become ready at another quantum."""
    run, scanned = deepcopy(run), rng.randrange(len(run))
    for i in rng.sample(range(len(run)), 2): run[i].ppm, run[i].tolerance = 0, tolerances[i]
    if rng.random() < 0.3:
        node = rng.choice([node for node in run if node.frames])
        later = rng.randint(0, node.quanta() // 2)
        node.frames = [(*one[:4], one[4] + later) for one in node.frames]
    node = run[scanned]
    step = max(1, node.quantum // rng.choice([10, 25]))
    low, high = max(0, node.offset - node.quantum), node.offset + node.quantum
    total, bad, changes = program.sweep(run, 8, 1, "--keep-offsets", "--vary", f"n{scanned}.offset={low}..{high}:{step}")
    return total, changed(run, changes) if bad else None


def follow(rng, program, border, tries=40):
    """The least thousandths of the border's cable at which a failure was found, and how many power-ups were run with no more than the border's."""
    nodes, _, shares, length = border
    found, within = beyond(rng, program, border), 0
    if found is None: return None, 0
    run, least = found
    for _ in range(tries):
        target = least - -(-(least - 1000) * rng.choice([10, 25, 50, 100]) // 100)
        shorter = deepcopy(run)
        for node, share in zip(shorter, shares): node.x = share * (length * target // 1000) // 1000
        total, failing = around(rng, program, shorter, [node.tolerance for node in nodes])
        within += total if target == 1000 else 0
        if failing is None: continue
        run, least = failing, target
        if least <= 1000:
            print(f"FAILS AT THE BORDER\n{plan_text(run)}", flush=True)
            break
    return least, within


def class_of(least):
    if least is None: return "none up to 2.2"
    return next((f"up to {limit / 1000}" for limit in (1000, 1010, 1030, 1100, 1300) if least <= limit), "more")


def main():
    asked = argparse.ArgumentParser(usage=__doc__.split("usage: ")[1].split("\n")[0])
    asked.add_argument("program")
    for name, value in (("families", 3000), ("first", 0), ("seed", 1), ("followed", 0)): asked.add_argument(f"--{name}", type=int, default=value)
    for name in ("listeners", "heard", "room", "beyond-jump"): asked.add_argument(f"--{name}", action="store_true")
    asked = asked.parse_args()
    program, counts, followed, k = Program(asked.program, asked.room, asked.heard), Counter(), Counter(), asked.first
    while counts["families"] < asked.families:
        rng = random.Random(f"{asked.seed} {k}")
        k, border = k + 1, family(rng, program, asked.listeners or asked.heard)
        if border is None or asked.beyond_jump and not jump_leaves(border): continue
        counts["families"] += 1
        counts.update(at_border(rng, program, border))
        if counts["families"] <= asked.followed:
            least, within = follow(random.Random(f"{asked.seed} {k - 1} followed"), program, border)
            followed[class_of(least)] += 1
            counts["followed back, at the border"] += within
        if counts["families"] % 100 == 0: print(k, dict(counts), dict(followed), program.runs, "in all", file=sys.stderr, flush=True)
    for name, count in counts.items(): print(f"{name}: {count}")
    for name, count in followed.items(): print(f"least failing cable over the border's, {name}: {count} families")
    print(f"power-ups in all: {program.runs}")
    return 1 if counts["not clean"] or followed["up to 1.0"] else 0


if __name__ == "__main__":
    sys.exit(main())
