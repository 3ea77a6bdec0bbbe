#!/usr/bin/env python3
"""The room for the one sender of a bus: how many buses that hold for it have that room, and which of its inequalities one sender needs.

    sender_rooms.py count practice|random|border BUSES SEED
                              draws buses that hold for one sender, as margin.py has it: as engineers have them, as families.py draws them, or
                              these with the longest cable or the widest tolerance. Says how many have each room below, which inequalities the
                              others lack, and by how many quanta
    sender_rooms.py count known [PLAN..]
                              the same of the buses of buses.py and of plans, each sender alone
    sender_rooms.py search LEFT BUSES SEED [RUNS]
                              plays buses with the room of pairs that break LEFT alone, with clocks as they are. Says in how many of them a node finds
                              or counts an error, or a frame is late or missed, and how many of these don't fit. LEFT is sender_ or listener_,
                              by the node at which it is asked, and look, drift, late or rest

The rooms; after `sender` each asks less than the one before:

    whole     the room for any senders, as wl_room asks it of each two nodes
    pairs     what it asks of the sender and a listener, in either order, and of listeners that each acknowledgement is over in its slot
    sender    the whole one over the sender's edges: nobody catches up, and what isn't driven isn't counted
    listeners an acknowledgement may come early at a listener
    early     and at the sender
    fits      and the next frame may find the third bit of the intermission: `FitClocks` of wl_buses::one_sender, which each bus has that holds
"""
import math
import random
import statistics
import sys
from collections import Counter, defaultdict
from fractions import Fraction

sys.dont_write_bytecode = True
import buses
import families
import margin
import one_sender
import phase
import plain
from border import LONG, Node, plan_text

ROOMS = "whole", "pairs", "sender", "listeners", "early", "fits"


class Room:
    """Times are whole. Of nodes: the shortest and the longest quantum, quanta of a bit, up to its sample, of PHASE_SEG2 and of a jump."""

    def __init__(self, tick, low, high, bit, sample, ps2, sjw, delay, sender):
        self.tick, self.low, self.high, self.bit, self.sample, self.ps2, self.sjw = tick, low, high, bit, sample, ps2, sjw
        self.delay, self.sender = delay, sender
        self.listeners = [j for j in range(len(low)) if j != sender]
        self.jump = [sjw[i] * low[i] for i in range(len(low))]
        self.look = [max(0, high[i] + tick - delay[i][i]) for i in range(len(low))]

    @classmethod
    def of_bus(cls, bus, sender):
        return cls(bus.tick, bus.low, bus.high, bus.bit, bus.sample, bus.ps2, bus.sjw, bus.times, sender)

    def drift(self, i, k):
        return max(0, self.bit[i] * self.high[i] - self.bit[k] * self.low[k])

    def over(self, a, i, k):
        """How late a bit of node k is at node i if both follow an edge of node a; i looks at the line once a quantum."""
        d = self.delay
        return max(0, d[a][k] + d[k][i] + self.high[i] + self.tick - d[a][i])

    def others(self, *nodes):
        return [j for j in self.listeners if j not in nodes]

    def lines(self, i, k, early, late):
        """The four inequalities of a pair: kind, what is taken, what there is."""
        yield "look", 10 * self.drift(i, k) + early, self.jump[i]
        yield "drift", 10 * self.drift(k, i), self.jump[i]
        yield "late", late + 10 * self.drift(k, i), self.sample[i] * self.low[i]
        yield "rest", early + 12 * self.drift(i, k) + self.tick, self.ps2[i] * self.low[i]

    def own(self):
        yield from (("own", i, self.delay[i][i], self.sample[i] * self.low[i]) for i in range(len(self.low)))

    def pairs(self):
        """What the whole room asks of the sender and each listener."""
        s, d = self.sender, self.delay
        yield from self.own()
        for j in self.listeners:
            for i, k, where in (s, j, "sender"), (j, s, "listener"):
                for kind, left, right in self.lines(i, k, self.look[k], d[i][k] + d[k][i] + self.look[i]):
                    yield f"{where}_{kind}", i, left, right

    def slots(self, thirds=True):
        """`EndsInSlots` and what it rests on, wherever each clock lies: `FitClocks` from `after_sample` on."""
        s, d, t, low, high = self.sender, self.delay, self.tick, self.low, self.high
        for j in self.listeners:
            back = d[s][j] + d[j][s]
            yield "after", s, high[j] + 2 * t + 10 * self.drift(s, j), self.ps2[s] * low[s] + back
            yield "there", s, back + 11 * self.drift(j, s), self.sample[s] * low[s]
        if thirds: yield from self.thirds()

    def thirds(self):
        """Those of them that are about two listeners."""
        s, d, t, low, high = self.sender, self.delay, self.tick, self.low, self.high
        for i in self.listeners:
            for j in self.others(i):
                way = d[s][i] + d[i][j]
                yield "apart", j, high[i] + 2 * t + 10 * self.drift(j, i) + d[s][j], self.ps2[j] * low[j] + way
                yield "ends", j, high[j] + t + 11 * self.drift(i, j) + way, self.sample[j] * low[j] + d[s][j]
                yield "lasts", j, 10 * self.drift(j, i) + t, self.ps2[j] * low[j]
                yield "jumps", j, 10 * self.drift(j, i), self.jump[j]
                for w in range(len(low)):
                    if w in (i, j): continue
                    left = 10 * self.drift(j, i) + self.drift(j, w) + d[s][j] + d[j][w] + high[i] + 2 * t + high[w]
                    yield "moved", w, left, d[s][i] + d[i][w] + self.sample[w] * low[w]

    def clocks(self):
        """The rest of `FitClocks`: each listener follows the sender."""
        s, bit, low, high = self.sender, self.bit, self.low, self.high
        for j in self.listeners:
            slowest, fastest = 10 * bit[j] * high[j], 10 * bit[j] * low[j]
            yield "slow", j, 10 * bit[s] * high[s], fastest + self.jump[j]
            yield "fast", j, slowest, 10 * bit[s] * low[s] + self.sjw[j] * high[j]
            yield "sample", j, slowest + self.tick, 10 * bit[s] * low[s] + self.ps2[j] * high[j]
            yield "jump", s, bit[s] * high[s], bit[j] * low[j] + self.sjw[s] * high[s]
            yield "loops", j, self.delay[j][j], self.sample[j] * low[j]

    def comes_early(self, i, k):
        """How early the acknowledgement of listener k is at node i, over the sender's edge and without drift."""
        s, d = self.sender, self.delay
        return max(0, self.high[k] + self.tick + (d[s][i] if i != s else 0) - d[s][k] - d[k][i])

    def first(self, i, k):
        """The nodes whose edge two nodes may follow: the sender, and each listener whose acknowledgement may come early at node i."""
        return [self.sender] + [a for a in self.others(i, k) if self.comes_early(i, a) + 10 * self.drift(i, a) > 0]

    def restated(self):
        """The whole room over the sender's edges."""
        s, d = self.sender, self.delay
        yield from self.own()
        for j in self.listeners:
            late = max([d[s][j] + d[j][s]] + [self.over(a, s, j) for a in self.first(s, j)[1:]])
            for kind, left, right in self.lines(s, j, self.comes_early(s, j), late): yield f"sender_{kind}", s, left, right
            # The sender begins by itself, but an acknowledgement may move it forward
            early = max([0] + [max(0, self.high[s] + self.tick + (d[a][j] if a != j else 0) - d[a][s] - d[s][j]) for a in self.listeners
                               if self.comes_early(s, a) + 10 * self.drift(s, a) > 0])
            for kind, left, right in self.lines(j, s, 0, self.high[j] + self.tick):
                yield f"listener_{kind}", j, left + (early if kind == "rest" else 0), right
            for k in self.others(j):
                for kind, left, right in self.lines(j, k, self.comes_early(j, k), max(self.over(a, j, k) for a in self.first(j, k))):
                    yield f"third_{kind}", j, left, right

    def of_room(self, room):
        if room == "pairs": yield from self.pairs()
        elif room == "fits": yield from self.clocks()
        else:
            left_out = {"sender": (), "listeners": ("third_",), "early": ("third_", "sender_look")}[room]
            yield from (line for line in self.restated() if not line[0].startswith(left_out or "-"))
        if room != "sender": yield from self.slots()

    def lacks(self, room):
        """Of each inequality that fails the most that it lacks, in quanta of the node at which it fails."""
        found = {}
        for name, i, left, right in self.of_room(room):
            if left > right: found[name] = max(found.get(name, 0), (left - right) / self.low[i])
        return found


def sound(bus):
    return all(bus.left(kind, i, j) <= bus.right(kind, i, j) for kind in margin.KINDS for i in range(bus.n) for j in range(bus.n) if bus.is_asked(kind, i, j))


# ---- Buses that hold for one sender

def practice(rng):
    """A text as engineers have buses: sample points of 60 to 90 %, places along a cable, crystals or less."""
    while True:
        rate, count = rng.choice([1000, 800, 500, 500, 250, 250, 125, 100, 50, 20, 10]), rng.choice([2, 2, 3, 4, 5, 8])
        quanta = rng.choice([8, 10, 12, 16, 16, 20, 25])
        if 1_000_000 % (rate * quanta): continue
        quantum, nodes = 1_000_000 // (rate * quanta), []
        tolerance = rng.choice([20, 50, 100, 100, 100, 200, 500, 1000, 1500, 3000, 5000])
        point = rng.uniform(0.6, 0.9)
        unlike = rng.random() < 0.2
        out, into = rng.choice([(125, 125), (120, 130), (210, 210), (75, 75), (55, 60), (170, 180)])
        length = rng.choice([1, 2, 5, 10, 20, 40, 100, 250, 500, 1000])
        for _ in range(count):
            if not nodes or unlike:
                ps2 = min(8, max(2, round(quanta * (1 - (rng.uniform(0.6, 0.9) if unlike else point)))))
                ps1 = min(8, quanta - ps2 - 2)
                prop = quanta - 1 - ps2 - ps1
                sjw = rng.choice([1, 1, 2, min(3, ps2), min(4, ps2)])
            if not 1 <= prop <= 8 or not sjw <= min(4, ps1, ps2): break
            nodes.append(Node(prop, ps1, ps2, sjw, quantum, out, into, 5 * rng.choice([0, length, rng.randint(0, length)]), tolerance=tolerance))
        if len(nodes) < count: continue
        for i in range(rng.choice([1, 1, 2, count])): nodes[i].frames = [(False, i, False, [], 30 * nodes[i].quanta())]
        return plan_text(nodes).encode()


def at_the_border(rng, plan, clocks, sender):
    """The bus with the longest cable or the widest tolerance with which it holds for this sender."""
    places = [place.x for place in plan.places]
    length = max(places) - min(places)
    if length and plan.per and rng.random() < 0.5:
        made = lambda n: margin.Bus(plan, clocks, [sender], stretch=Fraction(length + n, length))
    else: made = lambda n: margin.Bus(plan, clocks, [sender], wider=n)
    most = margin.greatest(lambda n: sound(made(n)), 100_000 - max(tolerance for _, tolerance in clocks))
    return made(most)


def read(text):
    """A plan and its clocks; None if the law on one sender isn't about such plans."""
    try: plan, top = plain.read_plan(text), plain.read_toml(text)
    except plain.Fault: return None
    clocks = margin.clocks_of(top)
    if not margin.are_clocks(clocks) or margin.outside(plan): return None
    if any(len(rates) > 1 for rates, _ in clocks) or any(place.listens for place in plan.places): return None
    return plan, clocks


def drawn(kind, count, seed):
    number = found = 0
    while found < count:
        rng = random.Random(f"{seed} {number} {kind}")
        number += 1
        plan_and_clocks = read(practice(rng) if kind == "practice" else families.text_of(rng))
        if plan_and_clocks is None: continue
        plan, clocks = plan_and_clocks
        for sender in [i for i, node in enumerate(plan.nodes) if node.queue]:
            bus = margin.Bus(plan, clocks, [sender])
            if found == count or not sound(bus): continue
            found += 1
            yield at_the_border(rng, plan, clocks, sender) if kind == "border" else bus


def known(paths):
    texts = [plan_text(buses.nodes_of(row)).encode() for row in buses.ROWS] if not paths else [open(path, "rb").read() for path in paths]
    for text in texts:
        plan_and_clocks = read(text)
        if plan_and_clocks is None: continue
        plan, clocks = plan_and_clocks
        for sender in [i for i, node in enumerate(plan.nodes) if node.queue]:
            bus = margin.Bus(plan, clocks, [sender])
            if sound(bus): yield bus


def whole_lacks(bus):
    """The same of the whole room: which inequality of two nodes, or of the sender and a listener."""
    found = {}
    for kind, i, k, left, right in bus.lacks():
        where = "" if i == k else "sender_" if i in bus.sends else "listener_" if k in bus.sends else "third_"
        found[where + kind] = max(found.get(where + kind, 0), (left - right) / bus.low[i])
    return found


def kind_of(bus):
    like = all(len(set(of)) == 1 for of in (bus.bit, bus.sample, bus.sjw, bus.low, bus.high))
    return ("like " if like else "unlike ") + ("two" if bus.n == 2 else "more")


def count(all_buses):
    have, lacks, alone, total = Counter(), {room: defaultdict(list) for room in ROOMS}, {room: Counter() for room in ROOMS}, Counter()
    for bus in all_buses:
        room, kind = Room.of_bus(bus, bus.sends[0]), kind_of(bus)
        total[kind] += 1
        for name in ROOMS:
            found = whole_lacks(bus) if name == "whole" else room.lacks(name)
            have[name, kind] += not found
            for inequality, quanta in found.items(): lacks[name][inequality].append(quanta)
            if len(found) == 1: alone[name].update(list(found))
    print(f"{sum(total.values())} buses that hold for one sender, nodes " + ", ".join(f"{kind} {total[kind]}" for kind in sorted(total)))
    for name in ROOMS:
        print(f"{name}: {sum(have[name, kind] for kind in total)} have it, " + ", ".join(f"{kind} {have[name, kind]}" for kind in sorted(total)))
        for inequality, quanta in sorted(lacks[name].items(), key=lambda item: -len(item[1])):
            print(f"    {inequality}: {len(quanta)} lack it, {alone[name][inequality]} this alone; quanta {statistics.median(quanta):.2f} in the middle, "
                  f"{max(quanta):.2f} at most")


# ---- Power-ups

def exact(nodes, delays):
    """The room of nodes of one_sender.py, with clocks as they are: the sender is the first."""
    den = math.lcm(*(one for _, (_, one) in nodes))
    quanta = [num * (den // one) for _, (num, one) in nodes]
    bits, samples = [one_sender.bit_of(lengths) for lengths, _ in nodes], [one_sender.sample_of(lengths) for lengths, _ in nodes]
    times = [[den * time for time in row] for row in delays]
    return Room(den, quanta, quanta, bits, samples, [lengths[2] for lengths, _ in nodes], [lengths[3] for lengths, _ in nodes], times, 0)


def near(rng, sender, rate, den):
    """A listener whose clock is about as far from the sender's as a jump or PHASE_SEG2 bears, or up to a fiftieth farther."""
    while True:
        lengths = phase.random_lengths()
        ten, bit = 10 * one_sender.bit_of(sender) * rate, 10 * one_sender.bit_of(lengths)
        marks = [ten // bit, ten // (bit + lengths[3]), ten // (bit - lengths[3]), ten // (bit - lengths[2]), ten * 5 // (5 * bit + lengths[3] * 4)]
        num = rng.choice(marks) + rng.choice([0, 0, 1, -1])
        if rng.random() < 0.3: num += rng.randint(-(abs(num) // 50), abs(num) // 50)
        if num >= den: return lengths, (num, den)


def breaks(room, left):
    return set(room.lacks("pairs")) == {left}


def bus_without(rng, left):
    """Nodes and delays with the room of pairs, but for this one inequality."""
    while True:
        den = rng.choice([1, 10, 1000])
        sender = phase.random_lengths()
        rate = den * rng.choice([rng.randint(1, 6), rng.randint(1, 60)]) + rng.randrange(den)
        nodes = [(sender, (rate, den))]
        for _ in range(rng.choice([1, 1, 2, 3])):
            nodes.append(near(rng, sender, rate, den) if rng.random() < 0.7 else nodes[0])
        quantum = max(1, rate // den)
        for _ in range(20):
            far = rng.choice([1, quantum, one_sender.sample_of(sender) * quantum // 4, one_sender.sample_of(sender) * quantum // 2])
            loop = rng.choice([1, quantum // 2, quantum, quantum + 1, 2 * quantum, one_sender.sample_of(sender) * quantum * 3 // 4 if left == "own" else 1])
            places = [(rng.randint(0, max(1, far)), rng.randint(0, max(1, loop)), rng.randint(1, max(1, loop))) for _ in nodes]
            delays = [[a[1] + abs(a[0] - b[0]) + b[2] for b in places] for a in places]
            room = exact(nodes, delays)
            if breaks(room, left): return nodes, delays, room


def late_frames():
    """Short frames whose last edge is far before the acknowledgement, and long ones whose edges are ten bits apart."""
    some = [one_sender.random_frame() for _ in range(1000)]
    late = sorted((frame for frame in some if frame.remote or frame.dlc < 2), key=lambda frame: -one_sender.last_run(frame))[:20]
    return late + [plain.Frame(0x787 ^ n, False, 8, bytes(LONG[n]), False) for n in range(len(LONG))]


def search(left, count, seed, runs):
    rng = random.Random(f"{seed} {left}")
    random.seed(f"{seed} {left}")
    waiting = late_frames()
    wrong = unfit = 0
    wrongs, reasons = Counter(), Counter()
    for _ in range(count):
        nodes, delays, room = bus_without(rng, left)
        broken = set(room.lacks("fits"))
        failed = not all(one_sender.goes_through(nodes, delays, rng.sample(waiting, 2)) for _ in range(runs))
        unfit += bool(broken)
        wrong += failed
        reasons.update(broken)
        wrongs.update(broken if failed else [])
        if failed and not broken: print("fits and fails:", nodes, delays)
    said = ", ".join(f"{name} {number}, {wrongs[name]} of these wrong" for name, number in reasons.most_common())
    print(f"{left}: {count} buses of {runs} power-ups, {wrong} wrong; {unfit} don't fit{': ' + said if said else ''}")


def main():
    words = sys.argv[1:]
    if words[:2] == ["count", "known"]: return count(known(words[2:]))
    if words[:1] == ["count"] and len(words) == 4: return count(drawn(words[1], int(words[2]), words[3]))
    if words[:1] == ["search"] and len(words) in (4, 5): return search(words[1], int(words[2]), words[3], int(words[4]) if len(words) == 5 else 1)
    sys.exit(__doc__)


if __name__ == "__main__":
    main()
