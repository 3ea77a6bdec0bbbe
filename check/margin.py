#!/usr/bin/env python3
"""The margin of a bus, by an independent program: what `margin` has to write of a plan, from the three inequalities as docs/bus/condition.md has them.

usage: margin.py [--tick TIME] [--all-send] < PLAN

It reads the plan by plain.py, and takes one sender at a time and any senders by trying all of them. plain.py takes the inequalities from here for
`explain`.
"""
import sys
from fractions import Fraction
from functools import lru_cache
from itertools import product
from math import ceil, floor

import plain

T = 1_000_000
UNITS = {"ps": 1, "ns": 1_000, "us": 1_000_000}
DRIFT, LATE, EARLY = "drift", "late", "early"
KINDS = DRIFT, LATE, EARLY


class Bus:
    """Times are whole: millionths of a tick, each parted as the stretch of the cable wants. `wider` is added to each tolerance, `stretch` is a factor
    of the cable, `changes` are added to ps1, ps2 and sjw of each node."""

    def __init__(self, plan, clocks, senders, wider=0, stretch=Fraction(1), changes=(0, 0, 0)):
        self.plan, self.n = plan, len(plan.nodes)
        self.sends, self.parts = senders, stretch.denominator
        self.listens = [place.listens for place in plan.places]
        self.tick = T * self.parts
        self.low, self.high = [], []
        for rates, tolerance in clocks:
            self.low.append(self.parts * min(num * (T - tolerance - wider) // den for num, den in rates))
            self.high.append(self.parts * max(-(num * -(T + tolerance + wider) // den) for num, den in rates))
        self.turns = [self.tick * (len(rates) - 1) for rates, _ in clocks]
        ps1, ps2, sjw = changes
        own = [node.segments for node in plan.nodes]
        self.bit = [1 + s.prop + s.ps1 + ps1 + s.ps2 + ps2 for s in own]
        self.sample = [1 + s.prop + s.ps1 + ps1 for s in own]
        self.ps2 = [s.ps2 + ps2 for s in own]
        self.sjw = [s.sjw + sjw for s in own]
        self.jump = [self.sjw[i] * self.low[i] for i in range(self.n)]
        self.times = [[self.delay_by(stretch, a, b) for b in plan.places] for a in plan.places]
        self.way = lru_cache(None)(self.way_of)
        self.look = [max(0, self.high[i] + self.tick - self.delay(i, i)) for i in range(self.n)]
        self.early = [self.most_early(i) for i in range(self.n)]
        self.edges = [self.edges_of(i) for i in range(self.n)]

    def delay_by(self, stretch, a, b):
        return T * (self.parts * (a.out_delay + b.in_delay) + abs(a.x - b.x) * self.plan.per * stretch.numerator)

    def delay(self, i, j):
        return self.times[i][j]

    def plan_delay(self, i, j):
        """On the plan's own cable."""
        a, b = self.plan.places[i], self.plan.places[j]
        return self.tick * (a.out_delay + b.in_delay + abs(a.x - b.x) * self.plan.per)

    def drift(self, i, j):
        return max(0, self.bit[i] * self.high[i] - self.bit[j] * self.low[j])

    def others(self, *left_out):
        return [k for k in range(self.n) if k not in left_out]

    def ahead(self, j):
        return sum(self.turns[w] for w in self.others(j))

    def way_of(self, i, j):
        d, trips = self.delay, [0]
        for k in self.others(j):
            if k not in self.sends: continue
            if k == i: trips.append(d(i, j) + d(j, i) + (self.look[i] if self.n > 2 else 0))
            else: trips.append(max(0, d(k, j) + d(j, i) + self.high[i] + self.tick - d(k, i)))
        return max(trips) + max([0] + [self.look[w] for w in self.others(i, j)])

    def most_early(self, i):
        if len(self.sends) < 2: return 0
        return max([0] + [self.way(i, a) + 10 * self.drift(a, i) + self.ahead(a) for a in self.others(i) if a in self.sends])

    def edges_of(self, i):
        far = self.early[i] - self.low[i]
        lost = 10 * max([0] + [self.drift(a, i) for a in self.others(i) if a in self.sends])
        gained = max(0, self.jump[i] - lost)
        if far <= 0: return 0
        if far <= 14 * gained: return -(-far // gained)
        return min(74, -(-(far + 14 * lost) // self.jump[i])) if self.jump[i] else 74

    def spread(self, i, j):
        return 10 * self.drift(j, i) + max(0, self.sjw[j] * self.high[j] - self.jump[i])

    def apart(self, i, j):
        third = any(a in self.sends for a in self.others(i, j))
        return (min(self.edges[i], self.edges[j]) if third else 0) * self.spread(i, j)

    def pulled(self, i, j):
        pull = 0
        if j in self.sends and any(a in self.sends for a in self.others(i, j)): pull = self.look[j]
        elif j in self.sends and i in self.sends: pull = max(0, self.high[j] + self.tick - self.plan_delay(i, j) - self.plan_delay(j, i))
        return max(0, pull - max(0, self.jump[i] - self.jump[j]))

    def tour(self, i, j):
        d = self.delay
        return max([0] + [max(0, self.way(i, a) + 10 * self.drift(a, i) + self.ahead(a) + d(a, j) + d(j, i) - d(a, i))
                          for a in self.others(i, j) if a in self.sends])

    def behind(self, j, a):
        return max(0, self.look[a] + 10 * self.drift(j, a) + self.edges[j] * self.spread(a, j) - self.jump[j])

    def answered(self, i, j):
        """How late the end of j's acknowledgement can be at i, if that of a third moves both."""
        if len(self.sends) < 2: return 0
        d = self.delay
        thirds = [a for a in self.others(i, j) if not self.listens[a] and any(k in self.sends for k in self.others(a, j))]
        return max([0] + [max(0, d(a, j) + d(j, i) + self.high[i] + self.tick - d(a, i)) + self.behind(j, a) for a in thirds])

    def left(self, kind, i, j):
        if kind == DRIFT: return 10 * self.drift(i, j) + self.pulled(i, j)
        if kind == LATE and i == j: return self.delay(i, i) + self.turns[i]
        if kind == LATE:
            way = self.way(i, j)
            late = max(way + min(self.apart(i, j), max(0, self.tour(i, j) - way)), self.answered(i, j))
            return late + 11 * max(self.drift(j, w) for w in self.others(j)) + self.ahead(j)
        return self.look[j] + 10 * self.drift(i, j) + min(self.apart(j, i), max(0, self.early[j] - self.delay(j, j))) + self.tick + self.ahead(i)

    def gathered(self, chase, i, k):
        if not any(a in self.sends for a in self.others(i, k)): return 0
        return chase[k] * (10 * self.drift(i, k) + max(0, self.sjw[i] * self.high[i] - self.jump[k]))

    def chases(self):
        """Returns by pairs how far each node may have to catch up and how much nearer it gets with an edge, and by nodes in how many edges it does."""
        d = self.delay
        far = {(k, w): d(k, w) + d(w, k) + self.look[k] + max(0, self.high[w] - d(w, w)) - self.low[k] for k in range(self.n) for w in self.others(k)}
        step = {(k, w): max(0, self.jump[k] - 10 * self.drift(w, k)) for k, w in far}
        return far, step, [max([0] + [-(-far[k, w] // step[k, w]) - 1 for w in self.others(k) if w in self.sends and step[k, w]]) for k in range(self.n)]

    def left_over(self, chase):
        """Returns what a jump of each node doesn't put right of ten bits' drift, a look and what gathers; a tick more, if there is any."""
        beyond = [max([0] + [10 * self.drift(i, k) + self.look[k] + self.gathered(chase, i, k) - self.jump[i] for k in self.others(i)]) for i in range(self.n)]
        return [over and over + self.tick for over in beyond]

    def lacks(self):
        """Yields what the bus lacks of the room of docs/bus/condition.md (The room), node by node: kind, both nodes, what is taken, and the
        time that there is. One pair's inequalities come in the order of the table."""
        d, nodes = self.delay, range(self.n)
        far, step, chase = self.chases()
        left = self.left_over(chase)
        for i in nodes:
            sample, rest = self.sample[i] * self.low[i], self.ps2[i] * self.low[i]
            if d(i, i) > sample: yield "loop", i, i, d(i, i), sample
            for w in self.others(i):
                if w in self.sends and far[i, w] > (chase[i] + 1) * step[i, w]: yield "chase", i, w, far[i, w], (chase[i] + 1) * step[i, w]
            for k in self.others(i):
                early, late = self.look[k] + self.gathered(chase, i, k) + left[i], self.look[i] + self.gathered(chase, k, i) + left[k]
                taken = {"drift": 10 * self.drift(k, i),
                         "late": d(i, k) + d(k, i) + late + 10 * self.drift(k, i), "rest": early + 12 * self.drift(i, k) + self.tick}
                there = {"drift": self.jump[i], "late": sample, "rest": rest}
                yield from ((kind, i, k, taken[kind], there[kind]) for kind in taken if taken[kind] > there[kind])

    def leaves_room(self):
        return next(self.lacks(), None) is None

    def hears_all(self):
        """Whether no node that only listens sends, and eleven bits' drift fits before the sample of each, as if it spoke."""
        d, (_, _, chase) = self.delay, self.chases()
        left = self.left_over(chase)

        def is_deaf(i, k):
            late = d(i, k) + d(k, i) + self.look[i] + self.gathered(chase, k, i) + left[k]
            return late + 11 * self.drift(k, i) > self.sample[i] * self.low[i]

        return not any(i in self.sends or any(is_deaf(i, k) for k in self.others(i)) for i in range(self.n) if self.listens[i])

    def is_asked(self, kind, i, j):
        """Whether nodes i and j are asked: of one node only whether its own bit is back, of what a listener drives nothing, of two listeners nothing."""
        if kind == LATE: return i == j or not self.listens[j]
        return i != j and not (self.listens[j] and (kind == EARLY or self.listens[i]))

    def right(self, kind, i, j):
        if kind == DRIFT: return min(self.jump[i], self.jump[j])
        return (self.sample[i] if kind == LATE else self.ps2[i]) * self.low[i]


class Silent(Bus):
    """A bus on which nobody sends: of no sender nothing takes time."""

    def left(self, kind, i, j):
        return 0


class Family:
    """`all_send`: each node sends that doesn't only listen, whatever its frames."""

    def __init__(self, plan, clocks, all_send=False):
        self.plan, self.clocks, self.all_send = plan, clocks, all_send
        self.senders = [i for i, node in enumerate(plan.nodes) if (not plan.places[i].listens if all_send else node.queue)]

    def buses(self, one, **changes):
        if one and not self.senders: return [Silent(self.plan, self.clocks, [], **changes)]
        return [Bus(self.plan, self.clocks, senders, **changes) for senders in ([[a] for a in self.senders] if one else [self.senders])]

    def sides(self, buses, kind, i, j):
        return max(bus.left(kind, i, j) for bus in buses), buses[0].right(kind, i, j)

    def failures(self, one, **changes):
        buses = self.buses(one, **changes)
        for kind, i, j in product(KINDS, range(buses[0].n), range(buses[0].n)):
            if not buses[0].is_asked(kind, i, j): continue
            left, right = self.sides(buses, kind, i, j)
            if left > right: yield kind, i, j, left, right

    def reserve(self, one, **changes):
        """Returns the least that is to spare, below 0 if an inequality fails. Here the cable isn't stretched."""
        buses = self.buses(one, **changes)
        pairs = [pair for pair in product(KINDS, range(buses[0].n), range(buses[0].n)) if buses[0].is_asked(*pair)]
        return min(right - left for left, right in (self.sides(buses, *pair) for pair in pairs))

    def holds(self, one, proved=False, **changes):
        """Whether no inequality fails, and `proved`, whether the bus leaves room too."""
        return next(self.failures(one, **changes), None) is None and not (proved and not self.buses(one, **changes)[0].leaves_room())


def rates_of(node, by_ppm):
    """Returns the rates of a node as (num, den), with `ppm` or without it."""
    def parts(rate):
        """Returns the ticks of a quantum as a fraction."""
        num, den = (rate["quantum"], 1) if "quantum" in rate else (rate["num"], rate["den"])
        return (num * (T + by_ppm * rate["ppm"]), den * T) if "ppm" in rate else (num, den)
    return [parts(rate) for rate in node.get("rates", [node])]


def clocks_of(top):
    """Returns of each node its rates, without `ppm` if it has a tolerance, and the tolerance."""
    return [(rates_of(node, "tolerance" not in node), node.get("tolerance", 0)) for node in top["node"]]


def stray(node, clock, low, high):
    """Returns the first quanta that take too few ticks or too many, with these ticks, or None. A clock of one rate is judged by its rate, and each
    rate of several by the ticks of its quanta: up to the next one, of the last one a million."""
    starts = [rate.get("from", 0) for rate in node.get("rates", [node])] if "rates" in node else [0]
    stretches = [(at, later - at) for at, later in zip(starts, starts[1:])] + [(starts[-1], T)]
    for at, quanta in stretches:
        ticks = clock.at(at + quanta) - clock.at(at)
        if len(starts) == 1:
            (num, den), = rates_of(node, True)
            if low * den <= T * num <= high * den: return None
        if len(starts) == 1 or ticks < low * quanta // T or ticks > high * quanta // T: return quanta, ticks
    return None


def stray_line(top, plan, family):
    """Returns the line of the first clock beyond its tolerance, or None."""
    bus = Bus(plan, family.clocks, family.senders)
    for i, node in enumerate(top["node"]):
        found = stray(node, plan.nodes[i].clock, bus.low[i], bus.high[i])
        if found is None: continue
        quanta, ticks = found
        return (f"does not hold: the clock of {plan.nodes[i].name} is outside of its tolerance of {family.clocks[i][1]} ppm: {quanta} quanta take {ticks} "
                f"ticks, and {bus.low[i] * quanta // T} to {bus.high[i] * quanta // T} are within it")
    return None


def are_clocks(clocks):
    """Whether all these rates are those of a clock."""
    return all(den <= num <= 2**20 * den for rates, _ in clocks for num, den in rates)


def outside_for_all(plan):
    """Returns the words of what lies outside of the inequalities if all nodes send that don't only listen, whatever their frames, or None."""
    names = [node.name for node in plan.nodes]
    speak = [name for name, place in zip(names, plan.places) if not place.listens]
    if len(names) < 2: return "does not hold: there is one node, and nobody acknowledges its frames"
    if not speak: return "no bound is known: no node has a frame to send"
    if len(speak) == 1: return f"does not hold: all nodes but {speak[0]} only listen, and nobody acknowledges its frames"
    return not_by_the_book(plan)


def not_by_the_book(plan):
    for node in plan.nodes:
        if not node.segments.book:
            return (f"no bound is known: {node.name} synchronises after an edge, so it can miss a start of frame or an edge at its sample; "
                    'for sync = "book" one is known')
    return None


def outside(plan):
    """Returns the words of what lies outside of the inequalities, or None."""
    names = [node.name for node in plan.nodes]
    if len(names) < 2: return "does not hold: there is one node, and nobody acknowledges its frames"
    if not any(node.queue for node in plan.nodes): return "no bound is known: no node has a frame to send"
    listens = [place.listens for place in plan.places]
    for i, name in enumerate(names):
        if listens[i] and plan.nodes[i].queue: return f"does not hold: {name} only listens, and nobody hears the frames that it has"
    for i, name in enumerate(names):
        if plan.nodes[i].queue and all(listens[j] for j in range(len(names)) if j != i):
            return f"does not hold: all nodes but {name} only listen, and nobody acknowledges its frames"
    if not_by_the_book(plan): return not_by_the_book(plan)
    fields = [{(queued.frame.extended, queued.frame.id, queued.frame.remote) for queued in node.queue} for node in plan.nodes]
    for i, j in product(range(len(names)), repeat=2):
        if i != j and fields[i] & fields[j]:
            return f"does not hold: {names[i]} and {names[j]} have frames of one identifier, which no arbitration parts"
    idle = [node.clock.at(11 * node.segments.bit_quanta()) for node in plan.nodes]
    for i, node in enumerate(plan.nodes):
        if node.queue and not any(node.clock.at(node.queue[0].ready) >= idle[j] for j in range(len(names)) if j != i and not listens[j]):
            return f"does not hold: the first frame of {names[i]} becomes ready before any other node is idle, and nobody may acknowledge it"
    return None


def idle_ticks(plan):
    """Returns of each node the tick at which it has counted its first 11 bits."""
    return [node.clock.at(11 * node.segments.bit_quanta()) for node in plan.nodes]


def waits(plan):
    """Yields each node whose first frame is ready before all others are idle, the first such other, and the first quantum at which all are idle."""
    idle = idle_ticks(plan)
    for i, node in enumerate(plan.nodes):
        if not node.queue: continue
        busy = [j for j in range(len(idle)) if j != i and node.clock.at(node.queue[0].ready) < idle[j]]
        if busy: yield i, busy[0], node.clock.quanta_before(max(idle[j] for j in range(len(idle)) if j != i))


def point(number, digits):
    return f"{number // 10**digits}.{number % 10**digits:0{digits}}"


def are_unlike(one, other):
    """Whether two bits differ by more than those of clocks of one nominal rate can."""
    return floor((max(one, other) - min(one, other)) / min(one, other) * T) > 222_222


def strays(clock, end, low, high):
    """Whether the mean quantum of those before the end is outside of the tolerance, a tick more or less."""
    run = max(1, clock.quanta_before(end))
    taken = clock.at(run) - clock.at(0)
    return floor(Fraction(T * (taken + 1), run)) < low or floor(Fraction(T * (taken - 1), run)) > high


class Text:
    def __init__(self, family, tick):
        self.family, self.tick = family, tick
        self.names = [node.name for node in family.plan.nodes]
        self.quanta = family.buses(False)[0].low

    def amount(self, time, i, whole, sign=""):
        nanoseconds, quanta = whole(Fraction(time * self.tick, T)), whole(Fraction(100 * time, self.quanta[i]))
        return f"{sign}{point(nanoseconds, 3)} ns ({sign}{point(quanta, 2)} quanta)"

    def spare(self, left, right, i):
        return self.amount(right - left, i, floor) if left <= right else self.amount(left - right, i, ceil, "-")

    def failure(self, kind, i, j, left, right):
        a, b = self.names[i], self.names[j]
        taken, there = self.amount(left, i, ceil), self.amount(right, i, floor)
        if kind == DRIFT: return f"in ten bits {a} falls behind {b} by up to {taken}, and an edge puts right {there}"
        if kind == EARLY: return f"the next bit of {b} comes to {a} up to {taken} too early, and its PHASE_SEG2 has {there}"
        if i == j: return f"a bit of {a} comes back to it {taken} after it began, and it samples after {there}"
        return f"a bit of {b} comes to {a} up to {taken} after its own began, and {a} samples after {there}"

    def doubts(self, quanta):
        """Each inequality that fails, for one sender at a time or else for several, and each clock beyond its tolerance, as `explain` says them.
        Unlike bit rates, by the mean quanta of the nodes, are told in the place of inequalities."""
        plan, several = self.family.plan, "if several nodes send at once, "
        bits = [node.segments.bit_quanta() * quantum for node, quantum in zip(plan.nodes, quanta)]
        asked = [("", self.family.buses(True)), (several, self.family.buses(False))]
        for i, j in product(range(len(bits)), repeat=2):
            if are_unlike(bits[i], bits[j]):
                rates = [point(floor(10**9 / bits[k]), 3) for k in (i, j)]
                if i < j: yield f"{self.names[i]} and {self.names[j]} have unlike bit rates, {rates[0]} and {rates[1]} kbit/s"
                continue
            for kind in KINDS:
                if not asked[0][1][0].is_asked(kind, i, j): continue
                fails = [(lead, *self.family.sides(buses, kind, i, j)) for lead, buses in asked]
                for lead, left, right in [one for one in fails if one[1] > one[2]][:1]:
                    yield lead + self.failure(kind, i, j, left, right)
        for node, (_, tolerance), low, high in zip(plan.nodes, self.family.clocks, asked[1][1][0].low, asked[1][1][0].high):
            if strays(node.clock, plan.end, low, high): yield f"the clock of {node.name} deviates by more than its tolerance of {tolerance} ppm"

    def spare_of(self, buses, kind, i, j):
        return self.spare(*self.family.sides(buses, kind, i, j), i) if buses[0].is_asked(kind, i, j) else "none"

    def pairs(self, one):
        buses = self.family.buses(one)
        for i, j in product(range(len(self.names)), repeat=2):
            if i == j: continue
            late, early, drift = (self.spare_of(buses, kind, i, j) for kind in (LATE, EARLY, DRIFT))
            yield f"pair {self.names[i]} {self.names[j]}: late {late}, early {early}, drift {drift}"

    def lack(self, kind, i, k, left, right):
        a, b, taken, there = self.names[i], self.names[k], self.amount(left, i, ceil), self.amount(right, i, floor)
        if kind == "loop": return self.failure(LATE, i, i, left, right)
        if kind == "late": return self.failure(LATE, i, k, left, right)
        if kind == "drift": return f"in ten bits {b} falls behind {a} by up to {taken}, and an edge puts right {there}"
        if kind == "chase": return f"{a} can be {taken} off the bits of {b}, and its edges put right {there}"
        return f"twelve bits after an edge a bit of {b} comes to {a} up to {taken} too early, and its PHASE_SEG2 has {there}"

    def causes(self, room):
        """Yields why no law covers the plan, each cause for itself: those of clocks and of the line, what the room lacks, and the times of first frames."""
        plan = self.family.plan
        yield from (f"the clock of {name} has several rates" for name, (rates, _) in zip(self.names, self.family.clocks) if len(rates) > 1)
        if plan.disturbances and not self.family.all_send: yield "the plan has a disturbance"
        yield from (f"{name} only listens" for name, place in zip(self.names, plan.places) if place.listens)
        if room: yield from (self.lack(*lack) for lack in self.family.buses(False)[0].lacks())
        found = [] if self.family.all_send else list(waits(plan))
        for i, j, _ in found:
            quanta = ", ".join(f"{self.names[k]} {quantum}" for k, _, quantum in found)
            yield (f"{self.names[j]} isn't idle when the first frame of {self.names[i]} is ready; "
                   f"proved if first frames are ready at these quanta or later: {quanta}")

    def lines(self):
        of_any, of_one = (next(self.family.failures(one), None) for one in (False, True))
        why_any, why_one = (next(self.causes(room), None) for room in (True, False))
        who = "of " + " and ".join(self.names[i] for i in self.family.senders)
        searched = "as far as searched"
        if of_any is None:
            for_one = "; for one sender at a time, proved: one_sender_is_clean" if why_one is None else ", not proved"
            yield f"holds for any senders {who}, " + (searched + for_one if why_any else "proved: any_senders_are_clean")
            if why_any: yield f"not proved: {why_any}"
        elif of_one is None:
            yield f"holds for one sender at a time {who}, " + (f"{searched}, not proved" if why_one else "proved: one_sender_is_clean")
            if why_one: yield f"not proved: {why_one}"
            yield f"any senders: {self.failure(*of_any)}"
        else:
            yield f"does not hold: {self.failure(*of_one)}"
        yield from self.pairs(of_any is not None)
        yield from self.searches(proved=of_any is None and why_any is None)
        if of_any is None or of_one is None: yield from self.noise(of_any is not None)

    def worst_spike(self, one):
        """Returns sender, receiver, late and jumps of the pair of which one spike may hide a frame by most, the first of equal ones, or None."""
        buses = self.family.buses(one)
        bus, lacks = buses[0], []
        for i in self.family.senders:
            for j in bus.others(i):
                if bus.listens[j]: continue
                left, right = self.family.sides(buses, LATE, i, j)
                jumps = bus.sjw[j] * bus.high[j] + bus.jump[i]
                lacks.append((jumps - max(0, right - left), -i, -j, left, right, jumps))
        worst = max(lacks, default=None, key=lambda it: it[:3])
        return None if worst is None or worst[0] <= 0 else (-worst[1], -worst[2], *worst[3:])

    def spike(self, one):
        worst = self.worst_spike(one)
        if worst is None: return "noise: no spike shorter than a bit hides a frame from an error active node that acknowledges, as far as searched"
        i, j, left, right, jumps = worst
        return (f"noise: one spike may hide a frame of {self.names[i]} from {self.names[j]}, as far as searched: late {self.spare(left, right, i)}, "
                f"and their jumps take {self.amount(jumps, i, ceil)}")

    def noise(self, one):
        bus = self.family.buses(one)[0]
        time = min(bit * low for bit, low in zip(bus.bit, bus.low)) * 242 * self.tick // T // 1000
        yield "noise: error active nodes that acknowledge are in step again 209 bits after a disturbance, on one wire, proved: active_machines_heal"
        yield (f"noise: n bits raise a TEC by n + 13 at most, so from 0 to bus off it takes more than 242 bits ({point(time, 3)} us), "
               "proved: what_a_disturbance_counts")
        yield self.spike(one)
        yield "noise: an error passive node may need 5 idle bits after each frame to be in step again, as far as searched"

    def searches(self, asked=3, proved=False):
        searches = ("cable", " units longer", longer_cable), ("tolerance", " ppm wider", wider_tolerance), ("help", "", first_help)
        for name, unit, find in searches[:asked]:
            one, other = (find(self.family, one) for one in (True, False))
            still = find(self.family, False, True) if proved and name != "help" else None
            yield f"{name}: one sender at a time {figure(one, unit)}, any senders {figure(other, unit)}" + ("" if still is None else f", proved {still}")


def figure(number, unit):
    return "none" if number is None else f"{number}{unit}"


def greatest(holds, limit):
    """Returns the greatest number up to a limit for which it holds, if it does for 0: it holds up to some number and no further."""
    if not holds(0): return None
    low, high = 0, limit + 1
    while high - low > 1:
        middle = (low + high) // 2
        low, high = (middle, high) if holds(middle) else (low, middle)
    return low


def longer_cable(family, one, proved=False):
    places = [place.x for place in family.plan.places]
    length = max(places) - min(places)
    if not length or not family.plan.per: return None
    return greatest(lambda n: family.holds(one, proved, stretch=Fraction(length + n, length)), (2**20 - length * family.plan.per) // family.plan.per)


def wider_tolerance(family, one, proved=False):
    return greatest(lambda ppm: family.holds(one, proved, wider=ppm), 100_000 - max(tolerance for _, tolerance in family.clocks))


CHANGES = {
    "a jump width wider by a quantum": (0, 0, 1), "a jump width narrower by a quantum": (0, 0, -1),
    "a sample point later by a quantum": (1, -1, 0), "a sample point earlier by a quantum": (-1, 1, 0),
}


def changed_fault(s, ps1, ps2, sjw):
    """Why segments are refused with these quanta added: in the ranges of those that are set one by one, if they are in these without, else of a controller's."""
    made = s._replace(ps1=s.ps1 + ps1, ps2=s.ps2 + ps2, sjw=s.sjw + sjw)
    return plain.controller_fault(made.prop + made.ps1, made.ps2, made.sjw) if s.fault() else made.fault()


def first_help(family, one):
    """Returns the first change that raises the least margin most, of those that every node's segments allow; or None if the condition doesn't hold with it."""
    best = None, family.reserve(one)
    for words, (ps1, ps2, sjw) in CHANGES.items():
        own = [node.segments for node in family.plan.nodes]
        if any(changed_fault(s, ps1, ps2, sjw) for s in own): continue
        reserve = family.reserve(one, changes=(ps1, ps2, sjw))
        if reserve > best[1]: best = words, reserve
    return best[0] if best[1] >= 0 else None


NO_CLOCK = "no bound is known: without its ppm a quantum takes less than a tick or more than 1,048,576"


def margin_text(text, tick, all_send=False):
    plan, top = plain.read_plan(text), plain.read_toml(text)
    clocks = clocks_of(top)
    if not are_clocks(clocks): return NO_CLOCK + "\n"
    family = Family(plan, clocks, all_send)
    said = stray_line(top, plan, family) or (outside_for_all if all_send else outside)(plan)
    return said + "\n" if said else "".join(line + "\n" for line in Text(family, tick).lines())


def main():
    words, tick = sys.argv[1:], 1_000
    if words[:1] == ["--tick"]:
        tick, words = int(words[1][:-2]) * UNITS[words[1][-2:]], words[2:]
    try:
        sys.stdout.write(margin_text(sys.stdin.buffer.read(), tick, words == ["--all-send"]))
    except plain.Fault as fault:
        sys.stderr.write(f"fault: {fault}\n")
        sys.exit(1)


if __name__ == "__main__":
    main()
