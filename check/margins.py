#!/usr/bin/env python3
"""The tables of docs/proof/margins-tried.md: longest cable and greatest tolerance of some settings, by the condition for a sound bus and by the classical rules.

A plain copy of the definition (crates/wl_bound/specs) for clocks of one rate, in whole numbers: millionths of a nanosecond. The nodes sit at 0, X
and X metres, 5 ns a metre, and each takes 250 ns out and in, if nothing else is said.
"""

TICK = 1_000_000
SETTINGS = [(2, 3, 2, 1, 125), (2, 3, 2, 2, 125), (5, 6, 4, 1, 62), (7, 7, 5, 1, 50), (7, 7, 5, 4, 50), (6, 7, 2, 1, 125), (6, 7, 2, 2, 125),
            (7, 4, 4, 1, 125), (7, 4, 4, 3, 125), (1, 4, 4, 4, 200), (3, 4, 4, 4, 83), (8, 4, 3, 3, 125), (6, 7, 2, 1, 250), (2, 3, 2, 1, 1000)]


def down(a, b):
    return max(0, a - b)


def greatest(nodes, test, number):
    return max([number(k) for k in nodes if test(k)], default=0)


class Bus:
    def __init__(self, setting, places, ppm, senders, own=250):
        prop, ps1, self.ps2, self.sjw, quantum = setting
        self.sample = 1 + prop + ps1
        self.bit = self.sample + self.ps2
        self.prop, self.ps1, self.places, self.own = prop, ps1, places, own
        self.nodes, self.senders = range(len(places)), senders
        self.short, self.long = quantum * (TICK - ppm), quantum * (TICK + ppm)
        self.drift = down(self.bit * self.long, self.bit * self.short)
        self.jump = self.sjw * self.short
        self.look = down(self.long + TICK, self.delay(0, 0))

    def delay(self, i, j):
        return TICK * (self.own + 5 * abs(self.places[i] - self.places[j]))

    def sends_but(self, *others):
        return lambda k: k in self.senders and k not in others

    def trip(self, i, j, k):
        if k == i:
            return self.delay(i, j) + self.delay(j, i) + (self.look if len(self.nodes) > 2 else 0)
        return down(self.delay(k, j) + self.delay(j, i) + self.long + TICK, self.delay(k, i))

    def way(self, i, j):
        third = greatest(self.nodes, lambda w: w not in (i, j), lambda w: self.look)
        return greatest(self.nodes, self.sends_but(j), lambda k: self.trip(i, j, k)) + third

    def early(self, i):
        if len(self.senders) < 2:
            return 0
        return greatest(self.nodes, self.sends_but(i), lambda a: self.way(i, a) + 10 * self.drift)

    def edges(self, i):
        far, lost = self.early(i) - self.short, 10 * greatest(self.nodes, self.sends_but(i), lambda a: self.drift)
        if far <= 0:
            return 0
        gained = down(self.jump, lost)
        return -(far // -gained) if far <= 14 * gained else min(74, -((far + 14 * lost) // -self.jump))

    def spread(self):
        return 10 * self.drift + down(self.sjw * self.long, self.jump)

    def apart(self, i, j):
        chase = min(self.edges(i), self.edges(j)) if any(map(self.sends_but(i, j), self.nodes)) else 0
        return chase * self.spread()

    def answered(self, i, j):
        """How late the end of an acknowledgement can be if that of a third comes early."""
        if len(self.senders) < 2:
            return 0
        behind = down(self.look + 10 * self.drift + self.edges(j) * self.spread(), self.jump)
        return greatest(self.nodes, lambda a: a not in (i, j) and any(map(self.sends_but(a, j), self.nodes)), lambda a: self.trip(i, j, a) + behind)

    def late(self, i, j):
        way = self.way(i, j)
        tour = greatest(self.nodes, self.sends_but(i, j), lambda a: down(
            self.way(i, a) + 10 * self.drift + self.delay(a, j) + self.delay(j, i), self.delay(a, i)))
        return max(way + min(self.apart(i, j), down(tour, way)), self.answered(i, j))

    def pull(self, i, j):
        if j not in self.senders:
            return 0
        if any(map(self.sends_but(i, j), self.nodes)):
            return self.look
        return down(self.long + TICK, self.delay(i, j) + self.delay(j, i)) if i in self.senders else 0

    def holds(self):
        return all(
            self.delay(i, i) <= self.sample * self.short if i == j else
            10 * self.drift + self.pull(i, j) <= self.jump
            and self.late(i, j) + 11 * self.drift <= self.sample * self.short
            and self.look + 10 * self.drift + min(self.apart(j, i), down(self.early(j), self.delay(j, j))) + TICK <= self.ps2 * self.short
            for i in self.nodes for j in self.nodes)

    def classical(self):
        """Ten bits' drift within the jump width, 13 bits' but for PHASE_SEG2 within the lesser phase, the round trip within PROP_SEG."""
        flagged = 13 * self.bit - self.ps2
        return (10 * self.drift <= self.jump and flagged * (self.long - self.short) <= min(self.ps1, self.ps2) * self.short
                and self.delay(0, 1) + self.delay(1, 0) <= self.prop * self.short)


def most(holds, limit):
    """The greatest number up to a limit for which the condition holds; it is none for greater ones if it fails for one."""
    if not holds(0):
        return None
    low, high = 0, limit + 1
    while high - low > 1:
        middle = (low + high) // 2
        low, high = (middle, high) if holds(middle) else (low, middle)
    return low


def places(nodes, x):
    return [0] + [x] * (nodes - 1)


def row(setting, bus, limit):
    kinds = [(2, [0]), (3, [0]), (2, [0, 1]), (3, [0, 1, 2])]
    found = [most(lambda n: bus(setting, 2, n, [0]).classical(), limit)]
    found += [most(lambda n, k=k: bus(setting, k[0], n, k[1]).holds(), limit) for k in kinds]
    words = ["none" if n is None else str(n) for n in found]
    print("| " + ", ".join(map(str, setting[:4])) + f" | {setting[4]} | " + " | ".join(words) + " |")


# kbit/s, metres, settings: the rates and lengths of CiA 301, with settings that can-utils' can-calc-bit-timing proposes
CIA = [(1000, 25, (2, 3, 2, 1, 125)), (800, 50, (3, 4, 2, 1, 125)), (500, 100, (6, 7, 2, 1, 125)), (250, 250, (6, 7, 2, 1, 250)),
       (125, 500, (6, 7, 2, 1, 500)), (50, 1000, (6, 7, 2, 1, 1250)), (20, 2500, (6, 7, 2, 1, 3125)), (10, 5000, (6, 7, 2, 1, 6250))]


def cia():
    print("\nCiA 301, two nodes that both send, crystals of 100 ppm: longest cable in metres\n\n| kbit/s | length, m | prop, ps1, ps2, sjw | quantum, ns "
          "| loop 250 ns | loop 420 ns |\n|---|---|---|---|---|---|")
    for rate, length, setting in CIA:
        found = [most(lambda x: Bus(setting, [0, x], 100, [0, 1], own).holds(), 20_000) for own in (250, 420)]
        words = ["none" if n is None else str(n) for n in found]
        print(f"| {rate} | {length} | " + ", ".join(map(str, setting[:4])) + f" | {setting[4]} | " + " | ".join(words) + " |")


def examples():
    """The two worked examples of Hartwich and Bassemir, from memory: 40 m take 220 ns, with 80 and 280 ns out and in."""
    print("\nHartwich and Bassemir's examples: greatest tolerance in ppm\n\n| prop, ps1, ps2, sjw | quantum, ns | theirs | one sender | both send |\n"
          "|---|---|---|---|---|")
    for setting, own, theirs in [((6, 1, 2, 1, 100), 80, 3906), ((1, 4, 4, 4, 1000), 280, 15_873)]:
        found = [most(lambda n: Bus(setting, [0, 44], n, senders, own).holds(), 50_000) for senders in ([0], [0, 1])]
        print("| " + ", ".join(map(str, setting[:4])) + f" | {setting[4]} | {theirs} | {found[0]} | {found[1]} |")


def main():
    head = "| prop, ps1, ps2, sjw | quantum, ns | classical | 2 nodes, one sends | 3, one | 2, both | 3, all |\n|---|---|---|---|---|---|---|"
    print("Longest cable in metres, 100 ppm\n\n" + head)
    for setting in SETTINGS:
        row(setting, lambda s, nodes, x, senders: Bus(s, places(nodes, x), 100, senders), 5000)
    print("\nGreatest tolerance in ppm, 5 m\n\n" + head)
    for setting in SETTINGS:
        row(setting, lambda s, nodes, ppm, senders: Bus(s, places(nodes, 5), ppm, senders), 50_000)
    cia()
    examples()


if __name__ == "__main__":
    main()
