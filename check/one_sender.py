#!/usr/bin/env python3
"""One sender and its listeners from their power-up, by the nodes of plain.py.

    one_sender.py RUNS SEED [LEFT]    plays buses near the border of the conditions or, with LEFT, buses that meet all but that
                                      one (slow, fast, sample, late, early, jump, apart, own or idle), to the acknowledgement
                                      of the first frame; says in how many a listener samples another bit than was sent, a
                                      node finds an error, the sender samples no acknowledgement, or no listener its own
    one_sender.py through RUNS SEED [LEFT]
                                      plays two to four frames on buses on which each acknowledgement is over in time too or,
                                      with LEFT, all but one condition for that (ends, over, fits or moved); says in how many a
                                      node finds an error or counts one, a frame is late or missed, or isn't received before it
                                      is sent
"""

import random
import sys
from bisect import bisect_right
from fractions import Fraction
from heapq import heapify, heapreplace

import phase
import plain


class Node(plain.Node):
    def __init__(self, setup):
        super().__init__(setup)
        self.levels, self.wrong_at = [], None

    def sample(self, level):
        self.levels.append(level)
        super().sample(level)
        if self.errors and self.wrong_at is None:
            self.wrong_at = len(self.levels)


def play(setups, delays, end):
    """The nodes after all quanta before a tick."""
    nodes = [Node(setup) for setup in setups]
    coming = [(node.next_tick(), number) for number, node in enumerate(nodes)]
    heapify(coming)
    while coming[0][0] < end:
        tick, number = coming[0]
        found = any(bisect_right(node.changes, tick - delays[i][number]) % 2 for i, node in enumerate(nodes))
        nodes[number].quantum(plain.DOMINANT if found else plain.RECESSIVE)
        heapreplace(coming, (nodes[number].next_tick(), number))
    return nodes


def random_frame():
    remote, extended = random.random() < 0.2, random.random() < 0.3
    dlc = random.randint(0, 8)
    data = b"" if remote else bytes(random.choice([0, 0xFF, 0x55, 0x0F, random.randrange(256)]) for _ in range(dlc))
    return plain.Frame(random.choice([0, 0x7FF, random.randrange(2**11)]) << (18 if extended else 0), remote, dlc, data, extended)


def last_run(frame):
    """How many bits there are from the last edge to dominant to the CRC delimiter."""
    line = [plain.RECESSIVE] + [bit for bit, _ in plain.stuff(frame.bits())]
    return min(n for n in range(1, len(line)) if line[-n] == plain.DOMINANT and line[-n - 1] == plain.RECESSIVE)


def long_frame():
    """A frame whose last bits have no edge, if there is one among some."""
    return min((random_frame() for _ in range(random.choice([1, 300]))), key=lambda frame: -last_run(frame))


def tick(offset, rate, quantum):
    return offset + quantum * rate[0] // rate[1]


def bit_of(lengths):
    return 1 + sum(lengths[:3])


def sample_of(lengths):
    return 1 + lengths[0] + lengths[1]


def listener_near(sender, sender_rate, left):
    """Segments and a rate that is near the sender's at the border, or beyond it."""
    while True:
        lengths = phase.random_lengths() if left != "jump" else (1, 4, 2, 4)
        den = random.choice([1, random.randint(1, 1000)])
        ten = 10 * den * bit_of(sender) * sender_rate[0]
        least = -(-ten // ((10 * bit_of(lengths) + lengths[3]) * sender_rate[1]))
        most = min(ten // ((10 * bit_of(lengths) - lengths[3]) * sender_rate[1]),
                   (ten - sender_rate[1] * den) // ((10 * bit_of(lengths) - lengths[2]) * sender_rate[1]))
        beyond = random.randint(1, 1 + least // 50) if left in ("slow", "fast", "sample") else 0
        num = random.choice([least - beyond, most + beyond, (least + most) // 2])
        if num >= den:
            return lengths, (num, den)


def apart(one, other, delay_one, delay_other, between):
    """The acknowledgement of one listener comes after another's sample of the CRC delimiter."""
    (lengths, rate), (lengths2, rate2) = one, other
    quantum, quantum2 = Fraction(*rate), Fraction(*rate2)
    bit, bit2 = bit_of(lengths) * quantum, bit_of(lengths2) * quantum2
    return quantum + 2 + 9 * max(0, bit2 - bit) + sample_of(lengths2) * quantum2 + delay_other <= bit + delay_one + between


def broken(nodes, delays):
    """The names of the conditions that don't hold, the sender first."""
    (sender, sender_rate), names = nodes[0], set()
    for j, (lengths, rate) in enumerate(nodes):
        if j == 0:
            continue
        if delays[j][j] * rate[1] > sample_of(lengths) * rate[0]:
            names.add("own")
        near = phase.conditions(sender, sender_rate, lengths, rate)
        way = phase.way_conditions(sender, sender_rate, lengths, rate, delays[0][j] + delays[j][0])
        names |= {name for name, holds in zip(("slow", "fast", "sample", "late", "early", "jump"), near + way) if not holds}
        for i in range(1, len(nodes)):
            if i != j and not apart(nodes[i], nodes[j], delays[0][i], delays[0][j], delays[i][j]):
                names.add("apart")
    return names


def late_ends(nodes, delays):
    """The names of the conditions by which each acknowledgement is over in time that don't hold, the sender first."""
    names, others = set(), range(1, len(nodes))
    quanta = [Fraction(*rate) for _, rate in nodes]
    samples, bits = [sample_of(lengths) for lengths, _ in nodes], [bit_of(lengths) for lengths, _ in nodes]
    long = [bits[i] * quanta[i] for i in range(len(nodes))]
    for j in others:
        if delays[0][j] + delays[j][0] + 11 * max(0, long[j] - long[0]) > samples[0] * quanta[0]:
            names.add("ends")
        for i in others:
            if i == j: continue
            come, jump = delays[0][i] + delays[i][j], nodes[j][0][3] * quanta[j]
            if 2 * long[i] + come + 9 * max(0, long[i] - long[j]) + quanta[j] + 1 > samples[j] * quanta[j] + 2 * long[j] + delays[0][j]:
                names.add("over")
            if samples[j] * quanta[j] + 1 > long[i] or long[j] > long[i] + jump or long[i] + 1 > (samples[j] - 1) * quanta[j] + long[j]:
                names.add("fits")
            for w in range(len(nodes)):
                late = quanta[i] + 2 + 2 * long[j] + delays[0][j] + delays[j][w] + 9 * max(0, long[j] - long[i])
                if w not in (i, j) and late > long[i] + delays[0][i] + delays[i][w] + (samples[w] - 1) * quanta[w] + long[w]:
                    names.add("moved")
    return names


def bus(left):
    """Segments and rates of nodes, and the delays between them."""
    while True:
        sender = phase.random_lengths() if left != "jump" else random.choice([(8, 8, 8, 1), (8, 8, 7, 1), (8, 7, 8, 1)])
        den = random.choice([1, random.randint(1, 1000), 1_000_000])
        sender_rate = den * random.choice([random.randint(1, 6), random.randint(1, 200)]) + random.randrange(den), den
        count = 2 if left == "apart" else random.choice([1, 2, 3])
        nodes = [(sender, sender_rate)] + [listener_near(sender, sender_rate, left) for _ in range(count)]
        quantum = sender_rate[0] // sender_rate[1]
        way = sample_of(sender) * quantum
        for _ in range(20):
            long = random.choice([1, quantum, way // 4, way // 2])
            loop = way // 3 if left == "own" else random.choice([1, quantum])
            places = [(random.randint(0, max(1, long)), random.randint(0, max(1, loop)), random.randint(1, max(1, loop))) for _ in nodes]
            delays = [[a[1] + abs(a[0] - b[0]) + b[2] for b in places] for a in places]
            if broken(nodes, delays) == ({left} if left and left != "idle" else set()):
                return nodes, delays


def run(left):
    nodes, delays = bus(left)
    (sender, sender_rate), others = nodes[0], nodes[1:]
    frame = long_frame()
    line = [bit for bit, _ in plain.stuff(frame.bits())]
    waits = 11 + random.choice([0, 0, random.randint(1, 9)])
    begin = waits * bit_of(sender)
    latest = [tick(0, sender_rate, begin) + delays[0][j] - tick(0, rate, 10 * bit_of(lengths) + sample_of(lengths)) - 1 for j, (lengths, rate) in enumerate(nodes) if j]
    offset = max([0] + [-n for n in latest]) + random.randrange(200)
    offsets = [random.choice([n + offset, random.randint(0, n + offset)]) for n in latest]
    if left == "idle":
        offsets[0] = latest[0] + offset + random.randint(1, 1 + 11 * others[0][1][0] // others[0][1][1])
    ready = 0 if waits == 11 else random.randint((waits - 2) * bit_of(sender) + sample_of(sender) + 1, (waits - 1) * bit_of(sender) + sample_of(sender))
    setups = [plain.Setup("sender", plain.Clock(offset, [plain.Rate(0, *sender_rate)]), plain.Segments(*sender, True), [plain.Queued(frame, ready)])]
    setups += [plain.Setup("listener", plain.Clock(n, [plain.Rate(0, *rate)]), plain.Segments(*lengths, True), []) for n, (lengths, rate) in zip(offsets, others)]
    slot = begin + (len(line) + 1) * bit_of(sender) + sample_of(sender)
    ends = [tick(offset, sender_rate, slot) + 1 + -(-sample_of(lengths) * rate[0] // rate[1]) for lengths, rate in others]
    played = play(setups, delays, max(ends + [tick(offset, sender_rate, slot + sender[3]) + 1]))
    acknowledged = line + [plain.RECESSIVE, plain.DOMINANT]
    listeners = played[1:]
    return (begins(played[0], acknowledged) and all(begins(node, line + [plain.RECESSIVE]) for node in listeners)
            and any(begins(node, acknowledged) for node in listeners))


def begins(node, line):
    """Whether what a node sampled from its first dominant bit on begins with these bits, and it found no error up to there."""
    if plain.DOMINANT not in node.levels:
        return False
    first = node.levels.index(plain.DOMINANT)
    last = first + len(line)
    return node.levels[first:last] == line and (node.wrong_at is None or node.wrong_at > last)


def slot_bus(left):
    """The same, with each acknowledgement over in time, or all but one condition for it."""
    while True:
        nodes, delays = bus("")
        if left in ("over", "fits", "moved") and len(nodes) < 3: continue
        quantum = nodes[0][1][0] // nodes[0][1][1]
        for _ in range(20):
            loop = max(1, random.choice([0, 0, 1, 2, 3]) * quantum)
            long = random.choice([1, quantum, sample_of(nodes[0][0]) * quantum // 4, sample_of(nodes[0][0]) * quantum // 2])
            places = [(random.randint(0, max(1, long)), random.randint(0, loop), random.randint(1, max(1, loop))) for _ in nodes]
            delays = [[a[1] + abs(a[0] - b[0]) + b[2] for b in places] for a in places]
            if not broken(nodes, delays) and late_ends(nodes, delays) == ({left} if left else set()):
                return nodes, delays


def run_through(left):
    return goes_through(*slot_bus(left), (long_frame() for _ in range(random.choice([2, 3, 4]))))


def goes_through(nodes, delays, frames):
    """Whether each of these frames gets through, from a power-up at random offsets."""
    (sender, sender_rate), others = nodes[0], nodes[1:]
    bits = bit_of(sender)
    queue, due, ready = [], 8 * bits, 0
    for frame in frames:
        ready = random.choice([ready, 0, due + random.randint(0, 12 * bits)])
        queue.append(plain.Queued(frame, ready))
        due = max(due, ready) + (len(plain.stuff(frame.bits())) + 15) * bits
    first = max(10, -(-(queue[0].ready - sample_of(sender)) // bits)) + 1
    latest = [tick(0, sender_rate, first * bits) + delays[0][j] - tick(0, rate, 10 * bit_of(lengths) + sample_of(lengths)) - 1 for j, (lengths, rate) in enumerate(nodes) if j]
    offset = max([0] + [-n for n in latest]) + random.randrange(200)
    offsets = [random.choice([n + offset, random.randint(0, n + offset)]) for n in latest]
    setups = [plain.Setup("sender", plain.Clock(offset, [plain.Rate(0, *sender_rate)]), plain.Segments(*sender, True), queue)]
    setups += [plain.Setup("listener", plain.Clock(n, [plain.Rate(0, *rate)]), plain.Segments(*lengths, True), []) for n, (lengths, rate) in zip(offsets, others)]
    played = play(setups, delays, tick(offset, sender_rate, due + random.randint(1, 20 * bits)))
    if any(node.errors or node.counters.tec or node.counters.rec for node in played): return False
    due, sent = 8 * bits, played[0].frames
    if [(what, frame) for what, _, frame in sent] != [("sent", queued.frame) for queued in queue]: return False
    for queued, (_, quantum, frame) in zip(queue, sent):
        due = max(due, queued.ready) + (len(plain.stuff(frame.bits())) + 15) * bits
        if quantum >= due: return False
    for node in played[1:]:
        if [(what, frame) for what, _, frame in node.frames] != [("received", queued.frame) for queued in queue]: return False
        for (_, quantum, _), (_, at, _) in zip(node.frames, sent):
            if node.setup.clock.at(quantum) >= played[0].setup.clock.at(at): return False
    return True


def search_through(runs, left):
    print(f"{runs} runs, {sum(not run_through(left) for _ in range(runs))} wrong")


def search(runs, left):
    print(f"{runs} runs, {sum(not run(left) for _ in range(runs))} wrong")


if __name__ == "__main__":
    words = sys.argv[1:]
    play_all = words[:1] == ["through"]
    if play_all: words.pop(0)
    if len(words) not in (2, 3):
        sys.exit(__doc__)
    random.seed(int(words[1]))
    (search_through if play_all else search)(int(words[0]), words[2] if len(words) == 3 else None)
