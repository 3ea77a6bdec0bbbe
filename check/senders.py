#!/usr/bin/env python3
"""Stations that send at once, beside wl_buses::one_frame: the definitions as a program of their own, and bit clocks that are played.

    senders.py search RUNS SEED [LEFT]    plays 2 to 5 stations on buses that keep the condition, half of them at its border; or, with LEFT
                                          (early_fits, late_fits, is_there, loops or not_early), on buses that break that inequality alone. Says how
                                          many frames were played, bits sampled and starts compared, and how many were refused
    senders.py answer RUNS SEED [LEFT]    the same up to the end of the frame, with its acknowledgement, on buses that have room for one. LEFT is one
                                          of late_fits, is_there and not_early; or chase: each station has an edge less to catch up; or overrun:
                                          what an edge doesn't put right is left out, on buses that have some
    senders.py pace RUNS SEED [LEFT]      how long the same frames last, beside frame_time and tail_time of wl_buses::frame_times. LEFT is a term that is
                                          left out: shift, lag, jump, slowest (the winner's bits in the place of the longest), thirteen (a bit
                                          less) or sample. Says of how many frames a station is later, and by how many bits at most

A station is a bit clock of check/phase.py and a list of bits to send, or none. It begins its start of frame at the first bit that begins
once it is ready, or with the first edge. It sends on as long as it samples what it sends.

The claim. Each station samples each bit as it is on the bus. Each bit begins at each station by itself, or by the first edge, as
specs/Starts.antt has it. Any two stations are close, as specs/Stations.antt has it, if one of them still sends.

The claim of an acknowledgement. One sender is left, and all others drive the ACK slot dominant. It is sampled dominant by all, each bit before
and after it recessive, and any two stations are as close as specs/Acknowledged.antt has it.
"""
import random
import sys
from fractions import Fraction
from math import ceil

import phase

BITS = 60


def bit_of(lengths): return 1 + sum(lengths[:3])


def sample_of(lengths): return 1 + lengths[0] + lengths[1]


def quantum(clock): return Fraction(clock[1], clock[2])


def tick(clock, k): return clock[0] + k * clock[1] // clock[2]


def instant(clock, k): return clock[0] + k * quantum(clock)


def drift(bus, i, k): return max(Fraction(0), bit_of(bus.lengths[i]) * quantum(bus.clocks[i]) - bit_of(bus.lengths[k]) * quantum(bus.clocks[k]))


def way(bus, k, i):
    """How long after its own the bit of station i reaches station k at most: there and back, or over an edge that k follows."""
    late = quantum(bus.clocks[k]) + 1
    ways = [bus.delay[k][i] + bus.delay[i][k]] if bus.may[k] else []
    if bus.may[i]: ways.append(late)
    ways += [bus.delay[a][i] + bus.delay[i][k] + late - bus.delay[a][k] for a in range(bus.count) if bus.may[a] and a not in (i, k)]
    return max(ways)


def reaches_by(bus, since, i, k, n, p):
    return instant(bus.clocks[i], n) + bus.delay[i][k] < instant(bus.clocks[k], p) + way(bus, k, i) + since * drift(bus, i, k)


def moved_to(aim, jump, n): return max(n - jump, min(n + jump, aim))


class Bus:
    def __init__(self, rng):
        self.count = rng.choice([2, 2, 3, 3, 4, 5])
        ppm, ticks = rng.choice([0, 100, 2000, 10000, 25000]), rng.choice([1, 2, 5, 20, 60])
        loop = rng.choice([1, 3, ticks, 2 * ticks + 1, 2 * ticks + 1])
        same = phase.random_lengths()
        mixed = rng.random() < 0.4
        self.lengths = [phase.random_lengths() if mixed else same for _ in range(self.count)]
        self.clocks = []
        for lengths in self.lengths:
            den = rng.choice([1, 3, 7, 1000])
            deviation = rng.choice([-ppm, ppm, rng.randint(-ppm, ppm)])
            num = int(Fraction(25 * ticks * den, bit_of(lengths)) * (1 + Fraction(deviation, 1000000)))
            self.clocks.append((rng.randint(0, 75 * ticks), max(den, num), den))
        self.out = [rng.randint(1, loop) for _ in range(self.count)]
        self.into = [rng.randint(0, loop) for _ in range(self.count)]
        self.place = [rng.randint(0, rng.choice([1, 10, 100])) for _ in range(self.count)]
        self.may, self.forgets = [False] * self.count, False
        for i in rng.sample(range(self.count), rng.randint(1, self.count)): self.may[i] = True
        self.stretch(1)

    def stretch(self, times):
        nodes = range(self.count)
        self.delay = [[self.out[i] + abs(self.place[i] - self.place[k]) * times + self.into[k] for k in nodes] for i in nodes]

    def any_way(self, k, i):
        """How long after its own the bit of station i reaches station k at most, if both follow any edges, or k begins by itself."""
        return self.delay[k][i] + self.delay[i][k] + max(0, quantum(self.clocks[k]) + 1 - self.delay[k][k])

    def chase(self, k, winner):
        """In how many edges station k catches up with the winner; None if it needn't ever."""
        short = max(Fraction(0), quantum(self.clocks[winner]) - self.delay[winner][winner])
        far = way(self, k, winner) + short - quantum(self.clocks[k])
        gain = self.lengths[k][3] * quantum(self.clocks[k]) - 10 * drift(self, winner, k)
        if gain <= 0: return 0 if far <= 0 else None
        return max(0, -int(-far // gain) - 1)

    def gathered_way(self, chase, k, i):
        """How long after its own the bit of station i reaches station k at most, if k catches up in so many edges; with the winner in none."""
        if None in (chase[i], chase[k]): return self.any_way(k, i)
        jumps = [self.lengths[w][3] * quantum(self.clocks[w]) for w in (i, k)]
        return self.any_way(k, i) + chase[k] * (10 * drift(self, i, k) + max(Fraction(0), jumps[0] - jumps[1]))

    def overrun(self, chase, i):
        """In how many ticks more, since a jump doesn't put all right of what has gathered before an edge."""
        if self.forgets: return 0
        jump = self.lengths[i][3] * quantum(self.clocks[i])
        over = lambda k: self.gathered_way(chase, k, i) + 10 * drift(self, i, k) - self.delay[i][k] - self.delay[k][i] - jump
        return max([0] + [ceil(over(k)) for k in range(self.count) if k != i])

    def chased_way(self, chase, k, i): return self.gathered_way(chase, k, i) + self.overrun(chase, i)

    def chases(self, winner):
        return [None if k == winner else self.chase(k, winner) for k in range(self.count)]

    def answers_broken(self, winner):
        """The inequalities of an acknowledgement that some pair breaks."""
        found = set()
        chase = self.chases(winner)
        if chase.count(None) > 1: return {"catch"}
        for i in range(self.count):
            mine = quantum(self.clocks[i])
            if self.delay[i][i] > sample_of(self.lengths[i]) * mine: found.add("loops")
            for k in range(self.count):
                if i == k: continue
                early = self.chased_way(chase, k, i) + 10 * drift(self, i, k) - self.delay[i][k] - self.delay[k][i]
                if 10 * drift(self, k, i) > self.lengths[i][3] * mine: found.add("late_fits")
                if self.chased_way(chase, i, k) + 10 * drift(self, k, i) > sample_of(self.lengths[i]) * mine: found.add("is_there")
                if early + 1 > self.lengths[i][2] * mine: found.add("not_early")
        return found

    def broken(self):
        """The inequalities that some pair breaks."""
        found = set()
        for i in range(self.count):
            mine = quantum(self.clocks[i])
            for k in range(self.count):
                if i == k or not self.may[k]: continue
                there_and_back = self.delay[i][k] + self.delay[k][i]
                early = way(self, k, i) + 10 * drift(self, i, k) - there_and_back
                if early > self.lengths[i][3] * mine: found.add("early_fits")
                if 10 * drift(self, k, i) > self.lengths[i][3] * mine: found.add("late_fits")
                if way(self, i, k) + 10 * drift(self, k, i) > sample_of(self.lengths[i]) * mine: found.add("is_there")
                if early + 1 > self.lengths[i][2] * mine: found.add("not_early")
            if self.may[i] and self.delay[i][i] > sample_of(self.lengths[i]) * mine: found.add("loops")
        return found


def draw(rng, left, broken_of=lambda bus: bus.broken()):
    while True:
        bus = Bus(rng)
        broken = broken_of(bus)
        if broken - {left}: continue
        if left is None or left == "is_there":
            low, times = 1, 1
            while times < 4096 and not broken_of(bus) and max(map(max, bus.delay)) < 250 * quantum(bus.clocks[0]):
                low, times = times, times * 2
                bus.stretch(times)
            high = times
            while high - low > 1:
                middle = (low + high) // 2
                bus.stretch(middle)
                low, high = (low, middle) if broken_of(bus) else (middle, high)
            if left is None: bus.stretch(low if rng.random() < 0.5 else 1)
            else: bus.stretch(high + rng.randint(0, high))
            broken = broken_of(bus)
        if broken == ({left} if left else set()): return bus


def stuffed(rng):
    bits, run = [True], 1
    chance = rng.choice([0.05, 0.5, 0.5, 0.95])
    while len(bits) < BITS + 2:
        bit = rng.random() < chance if run < 5 else not bits[-1]
        run = run + 1 if bit == bits[-1] else 1
        bits.append(bit)
    return bits


class Station:
    def __init__(self, bus, i, ready, bits, slot=None):
        self.slot = slot
        self.clock, self.lengths, self.state = bus.clocks[i], bus.lengths[i], phase.at_first(bus.lengths[i])
        self.k, self.ready, self.bits, self.sends, self.sent = 0, ready, bits, False, False
        self.samples, self.changes, self.drives = [], [], False
        self.place, self.start, self.begun = [], [], False

    def drove(self, t):
        for at, level in reversed(self.changes):
            if at <= t: return level
        return False

    def next(self, level):
        idle, old = not self.samples, self.state[0]
        self.state, sample, found = phase.step(self.lengths, self.state, level, idle, self.drives)
        starts = self.state[0] == 1 or found == "hard" or (found is not None and old > sample_of(self.lengths) and self.state[0] == 2)
        now = tick(self.clock, self.k)
        if starts and idle and not self.begun:
            decided = self.bits is not None and self.k >= self.ready
            if found == "hard" or decided:
                self.begun = True
                self.sends = self.sent = decided
                self.start.append(self.k)
                if decided: self.drive(now, True)
        elif starts and not idle:
            self.start.append(self.k)
            self.drive(now, not self.sends if len(self.samples) == self.slot else self.sends and self.bit(len(self.samples)))
        if sample is not None and self.begun:
            n = len(self.samples)
            self.samples.append(sample)
            self.place.append(self.k - sample_of(self.lengths))
            if self.sends and self.bit(n) != sample: self.sends = False
        self.k += 1

    def bit(self, n): return n < len(self.bits) and self.bits[n]

    def drive(self, now, level):
        if level != self.drives:
            self.drives = level
            self.changes.append((now, level))


def play(bus, stations, samples=BITS + 1):
    while any(len(s.samples) < samples for s in stations):
        now = min(tick(s.clock, s.k) for s in stations)
        due = [i for i, s in enumerate(stations) if tick(s.clock, s.k) == now]
        levels = [any(now >= bus.delay[k][i] and s.drove(now - bus.delay[k][i]) for k, s in enumerate(stations)) for i in due]
        for i, level in zip(due, levels): stations[i].next(level)
        if stations[due[0]].k > 40000: raise AssertionError("doesn't end")


def finds(clock, edge):
    k = max(0, (edge - clock[0]) * clock[2] // clock[1] - 1)
    while tick(clock, k) < edge: k += 1
    return k


def compare(bus, stations, counts):
    """What is refused: a sample, how a bit begins, or how far apart."""
    nodes = range(bus.count)
    sends = [s.changes != [] for s in stations]
    since, before = 0, False
    for n in range(BITS):
        drives = [sends[i] and stations[i].bits[n] for i in nodes]
        bit = any(drives)
        for i in nodes:
            counts["samples"] += 1
            if stations[i].samples[n] != bit: return f"sample {n} of {i}"
        edge = n == 0 or (bit and not before)
        since = 0 if edge else since + 1
        place = [stations[i].place[n] for i in nodes]
        for i in nodes:
            counts["starts"] += 1
            due = stations[i].place[n - 1] + bit_of(bus.lengths[i]) if n else None
            arrivals = [tick(bus.clocks[k], stations[k].start[n]) + bus.delay[k][i] for k in nodes if drives[k] and k != i]
            start = stations[i].start[n]
            itself = drives[i] and (n == 0 or place[i] == due) and start == place[i] and all(tick(bus.clocks[i], place[i]) < a for a in arrivals)
            found = finds(bus.clocks[i], min(arrivals)) if arrivals else None
            if n == 0: follows = found is not None and place[i] + 1 == found and (start == found)
            elif edge: follows = found is not None and place[i] == moved_to(found - 1, bus.lengths[i][3], due) and (not drives[i] or (found <= due and place[i] <= start <= place[i] + 1 and found <= start))
            else: itself, follows = place[i] == due and start == place[i], False
            if not (itself or follows): return f"start {n} of {i}"
            if n and not stations[i].place[n - 1] + sample_of(bus.lengths[i]) < start: return f"start {n} of {i} before its sample"
        if bit: sends = [sends[i] and drives[i] for i in nodes]
        for i in nodes:
            for k in nodes:
                if i != k and (sends[i] or sends[k]) and not reaches_by(bus, since, i, k, place[i], place[k]): return f"{i} and {k} in bit {n}"
        before = bit
    return None


def starts_soft(bus, stations, drives, n, i):
    """Whether station i begins its bit n by itself, or by the first edge that reaches it."""
    due, place, start = stations[i].place[n - 1] + bit_of(bus.lengths[i]), stations[i].place[n], stations[i].start[n]
    arrivals = [tick(bus.clocks[k], stations[k].start[n]) + bus.delay[k][i] for k in range(bus.count) if drives[k] and k != i]
    if drives[i] and place == due == start and all(tick(bus.clocks[i], place) < a for a in arrivals): return True
    if not arrivals: return False
    found = finds(bus.clocks[i], min(arrivals))
    if start != due and tick(bus.clocks[i], start) < min(arrivals): return False
    return place == moved_to(found - 1, bus.lengths[i][3], due) and (not drives[i] or (found <= due and place <= start <= place + 1 and found <= start))


def compare_answer(bus, stations, length, counts, winner, chase):
    """What is refused: None, a word if the frame isn't one that is acknowledged, or what is wrong."""
    nodes = range(bus.count)
    sends, before, since, far = [s.sent for s in stations], False, 0, []
    bits = []
    for n in range(length):
        drives = [sends[i] and stations[i].bits[n] for i in nodes]
        bit = any(drives)
        since = 0 if n == 0 or (bit and not before) else since + 1
        if bit: sends = [sends[i] and drives[i] for i in nodes]
        bits.append(bit)
        far.append(since)
        before = bit
    if [k for k in nodes if sends[k]] != [winner] or since > 8 or max(far) > 9: return "skipped"
    bits += [False, True] + [False] * 9
    far += [since + 1] + list(range(10))
    for n, bit in enumerate(bits):
        for i in nodes:
            counts["samples"] += 1
            if stations[i].samples[n] != bit: return f"sample {n} of {i}"
    for i in nodes:
        for n in range(length, length + 11):
            counts["starts"] += 1
            old, due = stations[i].place[n - 1], stations[i].place[n - 1] + bit_of(bus.lengths[i])
            if not old + sample_of(bus.lengths[i]) < stations[i].start[n]: return f"start {n} of {i} before its sample"
            if n != length + 1 and not stations[i].place[n] == due == stations[i].start[n]: return f"place {n} of {i}"
            if n == length + 1 and not starts_soft(bus, stations, [k != winner for k in nodes], n, i): return f"start {n} of {i}"
        for k in nodes:
            if i == k: continue
            for n in range(length + 11):
                gap = (bus.chased_way if n > length else bus.gathered_way)(chase, k, i) + far[n] * drift(bus, i, k)
                if not instant(bus.clocks[i], stations[i].place[n]) + bus.delay[i][k] < instant(bus.clocks[k], stations[k].place[n]) + gap: return f"{i} and {k} in bit {n}"
            if not tick(bus.clocks[i], stations[i].place[length] + sample_of(bus.lengths[i])) < tick(bus.clocks[k], stations[k].start[length + 1]) + bus.delay[k][i]: return f"{k} early for {i}"
    return None


def answered_frames(rng, left):
    """Endless: a bus with room for acknowledgements, stations of which the first wins, its bits up to the CRC sequence, and chases."""
    while True:
        length = rng.choice([8, 12, 20, 40, 58])
        # else the edges are ten bits apart, and the last one ten bits before the ACK slot
        bits = stuffed(rng) if rng.random() < 0.5 else [True] + [(length - 1 - n) % 10 >= 4 for n in range(1, BITS + 2)]
        winner = 0
        bus = draw(rng, None if left in ("chase", "overrun") else left, lambda bus: bus.answers_broken(0) | (bus.broken() if bus.may[0] else set()))
        if not bus.may[0] or (left and bus.broken()): continue
        chase = bus.chases(0)
        if left == "overrun":
            if not any(bus.overrun(chase, i) for i in range(bus.count)): continue
            bus.forgets = True
        if left == "chase":
            if not any(chase): continue
            chase = [c and max(0, c - 1) for c in chase]
        wanted = [i for i in range(bus.count) if bus.may[i] and (i == 0 or rng.random() < 0.9)]
        around = rng.choice([1, 1, 3, 40])
        first = rng.randrange(1, length)
        stations = []
        for i in range(bus.count):
            sent = list(bits)
            if i != 0:
                at = rng.choice([n for n in range(first, length) if bits[n]] or [0])
                sent[at] = at == 0
            ready = 14 * bit_of(bus.lengths[i]) + rng.randint(0, around * bit_of(bus.lengths[i])) if i in wanted else 0
            stations.append(Station(bus, i, ready, sent[:length] if i in wanted else None, length + 1))
        yield bus, stations, bits[:length], chase


def answer(runs, seed, left):
    random.seed(seed)
    counts = {"frames": 0, "samples": 0, "starts": 0, "refused": 0}
    for bus, stations, bits, chase in answered_frames(random, left):
        if counts["frames"] >= runs: break
        length, winner = len(bits), 0
        try: play(bus, stations, length + 12)
        except (AssertionError, IndexError) as fault: wrong = str(fault)
        else: wrong = compare_answer(bus, stations, length, counts, winner, chase)
        if wrong == "skipped": continue
        counts["frames"] += 1
        if wrong:
            counts["refused"] += 1
            if left is None: print(wrong, length, bits, bus.lengths, bus.clocks, bus.delay, [(s.ready, s.bits is not None) for s in stations])
    print(" ".join(f"{name} {count}" for name, count in counts.items()))


def times_of(bus, left):
    """The longest bit, sample and shift in ticks, as specs/Pace/Times.antt has them."""
    nodes = range(bus.count)
    time = lambda i, quanta: quanta * quantum(bus.clocks[i])
    bit = max(time(i, bit_of(bus.lengths[i])) for i in nodes) if left != "slowest" else time(0, bit_of(bus.lengths[0]))
    sample = max(time(i, sample_of(bus.lengths[i])) for i in nodes) if left != "sample" else 0
    lags = [way(bus, k, i) - bus.delay[i][k] for k in nodes for i in nodes if bus.may[k] and i != k] if left not in ("lag", "shift") else []
    jumps = [time(k, bus.lengths[k][3]) for k in nodes if bus.may[k]] if left not in ("jump", "shift") else []
    return bit, sample, max(lags + jumps, default=0)


def late_by(bus, stations, length, times, left):
    """By how much a station is later than frame_time or tail_time say, in ticks, at most; the first station has won."""
    bit, sample, shift = times
    begin = instant(bus.clocks[0], stations[0].place[0])
    late = []
    for i, s in enumerate(stations):
        after, passing = s.place[length + 11] + 2 * bit_of(bus.lengths[i]), s.place[length + (8 if i else 9)] + sample_of(bus.lengths[i])
        late.append(instant(bus.clocks[i], after) - begin - (length + (12 if left == "thirteen" else 13)) * bit - shift)
        late.append(instant(bus.clocks[i], passing) - begin - (length + 9) * bit - sample - shift)
    return max(late)


def pace(runs, seed, left):
    random.seed(seed)
    frames, later, most = 0, 0, None
    for bus, stations, bits, chase in answered_frames(random, None):
        if frames >= runs: break
        try: play(bus, stations, len(bits) + 12)
        except (AssertionError, IndexError): continue
        if compare_answer(bus, stations, len(bits), {"samples": 0, "starts": 0}, 0, chase): continue
        frames += 1
        late = late_by(bus, stations, len(bits), times_of(bus, left), left)
        later += late > 0
        most = max([late / times_of(bus, None)[0]] + ([] if most is None else [most]))
        if late > 0 and left is None: print(late, len(bits), bits, bus.lengths, bus.clocks, bus.delay, [(s.ready, s.bits is not None) for s in stations])
    print(f"frames {frames} later {later} by {float(most):.4f} bits at most")


def search(runs, seed, left):
    random.seed(seed)
    rng = random
    counts = {"frames": 0, "samples": 0, "starts": 0, "refused": 0}
    for _ in range(runs):
        bus = draw(rng, left)
        wanted = [i for i in range(bus.count) if bus.may[i] and rng.random() < 0.9] or [bus.may.index(True)]
        around = rng.choice([1, 1, 3, 40])
        bits = stuffed(rng)
        stations = []
        for i in range(bus.count):
            sent = bits[:rng.choice([1, BITS // 2, BITS])]
            sent = (sent + stuffed(rng)[1:])[:BITS + 2] if i in wanted else None
            ready = 14 * bit_of(bus.lengths[i]) + rng.randint(0, around * bit_of(bus.lengths[i])) if sent else 0
            if sent:
                run = 1
                for n in range(1, len(sent)):
                    run = run + 1 if sent[n] == sent[n - 1] else 1
                    if run > 5: sent[n], run = not sent[n], 1
            stations.append(Station(bus, i, ready, sent))
        counts["frames"] += 1
        try: play(bus, stations)
        except (AssertionError, IndexError) as fault: wrong = str(fault)
        else: wrong = compare(bus, stations, counts)
        if wrong:
            counts["refused"] += 1
            if left is None: print(wrong, bus.lengths, bus.clocks, bus.delay, [(s.ready, s.bits is not None) for s in stations])
    print(" ".join(f"{name} {count}" for name, count in counts.items()))


MODES = {"search": search, "answer": answer, "pace": pace}

if __name__ == "__main__":
    if len(sys.argv) < 4 or sys.argv[1] not in MODES: sys.exit(__doc__)
    MODES[sys.argv[1]](int(sys.argv[2]), int(sys.argv[3]), sys.argv[4] if len(sys.argv) > 4 else None)
