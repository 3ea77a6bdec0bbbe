#!/usr/bin/env python3
"""Does a disturbed bus heal, and who gets a frame? Searches over three machines and small frames; the machine is that of wire.py.

usage: heal.py frames [LENGTHS]          one disturbance: every place, every set of machines, every length up to LENGTHS (48): who gets each frame
       heal.py tails                     a bit of the end of a frame, found dominant by every set of machines: the table of docs/bus/noise.md
       heal.py received [COUNT [SEED]]   any disturbances: the law of received frames
       heal.py states                    every three stretches: a silence, six dominant bits, and when they are in step
       heal.py counts [LENGTHS]          one disturbance as above: what the counters reach, with all that follows it
       heal.py passive [COUNT [SEED]]    error passive machines that let so many idle bits pass before each frame
       heal.py wrong [COUNT [SEED [ROW]]]   each condition of a law turned: what happens; from that row on
       heal.py all                       all of them

A disturbance makes some machines find a bit dominant, whatever the bus has. All else is a bit of the bus. A machine that is free is handed the
first frame that it has left; `pause` idle bits come first, if that is not 0.
"""
import random
import sys
from collections import Counter

sys.dont_write_bytecode = True
import wire
from wire import Content, Rules, Table, is_between, read

RULES = Rules()
TABLE = Table(RULES)
FREE = ("idle", "", None)


def base(id, *data, remote=False, dlc=None):
    return Content(False, id, remote, len(data) if dlc is None else dlc, data)


# ---- A bus: machines by number, each with the frames that it has left

class Bus:
    """`queues` are the frames of each machine; a joint state is the stretches and how many frames each has sent."""

    def __init__(self, queues, modes=None, pause=0):
        self.queues, self.modes, self.pause = queues, modes or ["active"] * len(queues), pause
        self.count, self.moves, self.ends = len(queues), {}, {}

    def start(self, *stretches):
        """The joint state of these stretches: their numbers, how many frames each machine has sent, and for how many bits it has been idle."""
        return tuple(TABLE.number(s) for s in stretches or [FREE] * self.count), (0,) * self.count, (0,) * self.count

    def level(self, joint):
        return "d" if any(TABLE.drives[s] == "d" for s in joint[0]) else "r"

    def move(self, joint, hit=0):
        """The next joint state, and what happened: (machine, what happened, the frame that is completed). `hit` has a bit for each machine that finds the bit
        dominant; if it is negative, they find it recessive."""
        key = joint, hit
        known = self.moves.get(key)
        if known is None:
            level, at, sent, told = self.level(joint), [], list(joint[1]), []
            idle = tuple(min(self.pause, n + 1) if TABLE.stretches[s][0] == "idle" else 0 for s, n in zip(joint[0], joint[2]))
            for k, s in enumerate(joint[0]):
                head = self.queues[k][sent[k]] if sent[k] < len(self.queues[k]) and idle[k] >= self.pause else None
                found = level if not abs(hit) >> k & 1 else "d" if hit > 0 else "r"
                happened, ended, next = TABLE.step(s, found, head, self.modes[k])
                if happened != "Nothing" or ended: told.append((k, happened, ended))
                if ended and ended[0] == "sent": sent[k] += 1
                at.append(next)
            known = self.moves[key] = (tuple(at), tuple(sent), idle), tuple(told)
        return known

    def is_over(self, joint):
        """Nothing is left to send, and each machine is idle."""
        return all(n == len(q) for n, q in zip(joint[1], self.queues)) and all(TABLE.stretches[s][0] == "idle" for s in joint[0])

    def rest(self, joint, most=1500):
        """What happens from there on, without a disturbance: who completed which frame how often; None if it isn't over within `most` bits."""
        path = []
        while joint not in self.ends and not self.is_over(joint):
            if len(path) > most: return None
            next, told = self.move(joint)
            path.append((joint, tuple((k, e) for k, _, e in told if e)))
            joint = next
        got = self.ends.get(joint, Counter())
        for joint, ended in reversed(path):
            if ended:
                got = got.copy()
                for e in ended: got[e] += 1
            self.ends[joint] = got
        return got


def fates(bus, start, hits, before=Counter()):
    """How often each machine completed each frame, with these machines hit at these bits; None without an end."""
    got, joint = before.copy(), start
    for hit in hits:
        joint, told = bus.move(joint, hit)
        for k, _, e in told:
            if e: got[k, e] += 1
    rest = bus.rest(joint)
    return None if rest is None else got + rest


def verdict(bus, got):
    """`missed` if somebody lacks a frame that was sent or has another, `twice` if somebody has one twice."""
    if got is None: return "never over"
    word = "once"
    for s in range(bus.count):
        for frame in set(bus.queues[s]):
            sent = got[s, ("sent", frame)]
            for k in range(bus.count):
                if k == s: continue
                taken = got[k, ("received", frame)]
                if taken < sent: return "missed"
                if taken > sent: word = "twice"
    known = {f for q in bus.queues for f in q}
    if any(e[0] == "received" and e[1] not in known for _, e in got): return "another frame"
    return word


def small(n):
    """Queues of three machines with small frames: one sender, two senders, a remote frame, stuff bits at many places."""
    a, b, c = base(0x123), base(0x0F0, 0x55), base(0x7C1)
    return [
        ([a, a], [], []), ([b], [b._replace(id=0x0F1)], []), ([base(0x000)], [], [c]), ([base(0x155, remote=True, dlc=1)], [base(0x156)], []),
        ([base(0x07C, 0x1F)], [], []), ([base(0x400)], [base(0x3FF)], [base(0x200)]), ([Content(True, 0x1234567, False, 0, ())], [a], []),
        ([base(0x7FF)], [base(0x7F0, remote=True)], []),
    ][:n]


def plain_run(bus, start):
    """Each joint state on the way, undisturbed, with what was completed before."""
    way, joint, got = [], start, Counter()
    while not bus.is_over(joint):
        way.append((joint, got.copy()))
        joint, told = bus.move(joint)
        for k, _, e in told:
            if e: got[k, e] += 1
    return way + [(joint, got)]


def frames(lengths=48, low=1):
    """Returns the shortest disturbance that hides a frame, if one does."""
    words, shortest = Counter(), None
    for queues in small(8):
        bus = Bus([list(q) for q in queues])
        for joint, before in plain_run(bus, bus.start()):
            for who in range(1, 8):
                for length in range(low, lengths + 1):
                    word = verdict(bus, fates(bus, joint, [who] * length, before))
                    words[word] += 1
                    if word == "missed": shortest = min(shortest or length, length)
    print(f"frames: one disturbance of {low} to {lengths} bits: {dict(words)}, shortest that hides a frame {shortest}")
    return shortest


def sent_alone(bus, joint, hits, told=()):
    """True if a frame is sent that somebody else hasn't received with the bit before."""
    count = 0
    while count < len(hits) or not bus.is_over(joint):
        before, (joint, told) = told, bus.move(joint, hits[count] if count < len(hits) else 0)
        count += 1
        for k, _, e in told:
            if e and e[0] == "sent" and any((j, ("received", e[1])) not in {(i, g) for i, _, g in before} for j in range(bus.count) if j != k): return True
        if count > 2000: return True
    return False


def intervals(lengths=48, low=1):
    """How many disturbances there are with which a frame is sent that somebody hasn't received with the bit before; by the length."""
    tried, broken = 0, Counter()
    for queues in small(8):
        bus = Bus([list(q) for q in queues])
        told = ()
        for joint, _ in plain_run(bus, bus.start()):
            for who in range(1, 8):
                for length in range(low, lengths + 1):
                    tried += 1
                    if sent_alone(bus, joint, [who] * length, told): broken[length] += 1
            told = bus.move(joint)[1]
    if low == 1 and lengths > 5: print(f"intervals: {tried} disturbances of 1 to {lengths} bits, a frame is sent that somebody hasn't received with the bit before: {dict(broken) or 0}")
    return broken


def tails():
    """Counts the cases in which the table is wrong: a receiver has a frame with the last but one bit of the end of frame if it isn't hit, and the frame is sent
    if nobody is hit there and the sender isn't hit in the last one. So it is taken twice if a receiver isn't hit in the last but one and it isn't sent."""
    wrong = tried = 0
    for queues in small(8):
        bus = Bus([list(q) for q in queues])
        for joint, before in plain_run(bus, bus.start()):
            at = [TABLE.stretches[n] for n in joint[0]]
            if at[0][0] != "frame" or not at[0][1]: continue
            bits, end = read(at[0][1])
            if end is None or len(at[0][1]) - end != 8: continue
            sender = next(k for k in range(3) if wire.role(at[k][2], at[k][1], RULES) == "Tx")
            frame = wire.content_of(bits)
            for here in range(8):
                for last in range(8):
                    next_joint, told = bus.move(joint, here)
                    done = {k: e for k, _, e in told if e}
                    ended = {k: e for k, _, e in bus.move(next_joint, last)[1] if e}
                    sent = here == 0 and not last >> sender & 1
                    tried += 1
                    good = all((done.get(k) == ("received", frame)) == (not here >> k & 1) for k in range(3) if k != sender)
                    good &= (ended.get(sender) == ("sent", frame)) == sent
                    got = fates(bus, joint, [here, last], before) if here != last else fates(bus, joint, [here, last], before)
                    for k in range(3):
                        if k != sender:
                            more = got[k, ("received", frame)] - got[sender, ("sent", frame)]
                            good &= more == (0 if here >> k & 1 or sent else 1)
                    wrong += not good
    print(f"tails: {tried} places and sets, {wrong} not as the table says")
    return wrong


# ---- The law of received frames

QUEUES = [tuple(tuple(q) for q in queues) for queues in small(8)]


def received(count=20000, seed=1, before=10, within=False, modes=None, start=None, noise=(1, 1, 1, 2, 3, 5, 6, 7, 12, 20, 40), to_recessive=False, queues=None, word="received"):
    """A frame that is sent is received with the bit before, if neither its sender nor its receiver is hit from `before` bits before the start of frame up to the
    end of the stuffed part (`within`: if it may be hit there, too)."""
    random.seed(seed)
    checked, broken, buses = 0, 0, {}
    for n in range(count):
        own = queues or random.choice(QUEUES)
        bus = buses.setdefault(own, Bus([list(q) * 3 for q in own], list(modes) if modes else None))
        joint, hits, done = bus.start(*(start or [])), [], []
        load, busy, who = random.choice((.01, .03, .1)), 0, 0
        for bit in range(random.choice((150, 300))):
            if busy == 0 and random.random() < load: busy, who = random.choice(noise), random.randrange(1, 8)
            hit, busy = (who if busy else 0), busy - (busy > 0)
            at, (joint, told) = joint[0], bus.move(joint, -hit if to_recessive else hit)
            hits.append(hit)
            done.append({k: e for k, _, e in told if e})
            for k, e in done[-1].items():
                if e[0] != "sent": continue
                own_bits = TABLE.stretches[at[k]][1]
                begin = bit - len(own_bits)
                window = range(begin - before, begin + (0 if within else read(own_bits)[1]))
                for j in range(3):
                    if j == k or begin < before or any(hits[i] >> k & 1 or hits[i] >> j & 1 for i in window): continue
                    checked += 1
                    broken += done[-2].get(j) != ("received", e[1])
    if word: print(f"{word}: {count} runs, {checked} frames checked, {broken} broken")
    return broken if word else f"{broken} of {checked} frames"


# ---- Every three stretches

def in_step(joint):
    """All between frames, in one bit of an intermission, or at one place of a frame with its sender."""
    facts = [TABLE.facts[s] for s in joint[0]]
    if all(f.between for f in facts): return True
    if all(f.intermission for f in facts) and len({f.place for f in facts}) == 1: return True
    return all(f.framed for f in facts) and len({f.place for f in facts}) == 1 and any(f.sends and f.found for f in facts)


def frame_stretches(content, head, step):
    """Places of a frame, as its sender has them or as a receiver."""
    own = "d"
    while read(own)[1] is None: own += wire.sent(content, own)
    own += "rdrrrrrrr"
    return [("frame", own[:n], head) for n in range(1, len(own) + 1, step)]


def all_stretches(head, step, passive=False):
    """Stretches of a machine that has this head; of frames every so many places."""
    short = [FREE, ("frame", "", head)]
    if passive:
        short += [("flag", level * n, ("passive", False, role)) for role in ("Rx", "Tx") for level in "dr" for n in range(0, 6, 2)]
        short += [("suspension", "r" * n, None) for n in (0, 4, 7)]
    short += [("flag", level * n, (kind, role)) for kind in ("active", "overload") for role in ("Rx", "Tx") for n in range(0, 6, step) for level in "d"]
    short += [("wait", "d" * n, (("active", role), "dddddd")) for role in ("Rx", "Tx") for n in (0, 1, 7)]
    short += [("delimiter", "r" * n, role) for role in ("Rx", "Tx") for n in range(1, 8)]
    short += [("intermission", "r" * n, role) for role in ("Rx", "Tx") for n in range(3)]
    other = base(0x2A5)
    return short + frame_stretches(head, head, step) + frame_stretches(other, None, step) + frame_stretches(head, None, step)


def bits_to_step(bus, joint, known, most=700):
    """How many bits later the machines are in step; None if they aren't within so many. What they have sent is left out."""
    path = []
    while True:
        joint = joint[0], (0,) * bus.count, joint[2]
        if joint in known or in_step(joint): break
        path.append(joint)
        if len(path) > most:
            for joint in path: known[joint] = None
            return None
        joint = bus.move(joint)[0]
    n = known.get(joint, 0)
    for joint in reversed(path):
        n = None if n is None else n + 1
        known[joint] = n
    return n


SMALL = base(0x123), base(0x124), base(0x0F0)


def triples(modes, pause, step, flag=0):
    """How many triples of stretches there are, how many never are in step, and the most bits that one needs, after so many dominant bits; on a full bus."""
    lists = [[TABLE.number(s) for s in all_stretches(h, step, m == "passive")] for h, m in zip(SMALL, modes)]
    tried = never = worst = 0
    for a in lists[0]:
        bus, known = Bus([[h] * 9999 for h in SMALL], list(modes), pause), {}
        for b in lists[1]:
            for c in lists[2]:
                joint = (a, b, c), (0, 0, 0), (0, 0, 0)
                for _ in range(flag): joint = bus.move(joint, 7)[0]
                n = bits_to_step(bus, joint, known)
                tried, never, worst = tried + 1, never + (n is None), max(worst, (n or 0) + flag)
    return tried, never, worst


ACTIVE = ("active",) * 3


def states(step=6):
    tried, never, worst = triples(ACTIVE, 0, step)
    flagged = triples(ACTIVE, 0, step, 6)
    silent = max(silent_bits(s, m) for h in SMALL for p in (False, True) for s in all_stretches(h, 1, p) + wrong_crc() for m in ("active", "passive"))
    print(f"states: {tried} triples of stretches, never in step {never}, at most {worst} bits; after six dominant bits {flagged[1]} and {flagged[2]}; a silence needs {silent}")
    return never, worst, flagged, silent


def passive(step=14):
    """Triples of stretches with so many idle bits before each frame: those that never are in step, and the most bits of the others."""
    for modes in (("passive", "active", "active"), ("passive", "passive", "active"), ("passive",) * 3):
        for pause in (0, 4, 5):
            tried, never, worst = triples(modes, pause, step)
            print(f"passive: {modes.count('passive')} of 3 passive, {pause} idle bits: {tried} triples, never in step {never}, others within {worst} bits")


def wrong_crc():
    """Receivers near the end of the stuffed part of many frames: if recessive bits follow, most have a wrong CRC sequence."""
    places = []
    for id in range(0, 2048, 5):
        own = "d"
        while read(own)[1] is None: own += wire.sent(base(id), own)
        places += [("frame", own[:n], None) for n in range(len(own) - 8, len(own))]
    return places


def silent_bits(stretch, mode):
    """How many recessive samples bring a stretch between frames, if it drives recessive at each; 0 if it doesn't."""
    n = 0
    while not is_between(stretch):
        if wire.drive(stretch, RULES) == "d": return 0
        stretch, n = wire.after(stretch, "r", None, mode, RULES)[2], n + 1
    return n


# ---- Counters

def counted(tec, rec, happened):
    """TEC and REC after it; Bosch CAN 2.0 part B, section 8."""
    word = happened.split()[0]
    if word in ("TxError", "TxFlagBit", "TxLong", "PassiveAck"): return tec + 8, rec
    if word in ("RxAfterFlag", "RxFlagBit", "RxLong"): return tec, rec + 8
    if word == "RxError": return tec, rec + 1
    if word == "Sent": return max(0, tec - 1), rec
    if word == "Acked": return tec, max(0, rec - 1)
    return tec, rec


def counts(lengths=48):
    """Returns how much a TEC and a REC reach beyond the length of the disturbance that came, with all that follows it."""
    most = [0, 0]
    for queues in small(8):
        bus = Bus([list(q) for q in queues])
        for start, _ in plain_run(bus, bus.start()):
            for who in range(1, 8):
                front, held = start, [(0, 0)] * 3
                for length in range(1, lengths + 1):
                    front, told = bus.move(front, who)
                    for k, h, _ in told: held[k] = counted(*held[k], h)
                    joint, after = front, list(held)
                    for _ in range(40):
                        for k in range(3): most = [max(most[0], after[k][0] - length), max(most[1], after[k][1] - length)]
                        joint, told = bus.move(joint)
                        for k, h, _ in told: after[k] = counted(*after[k], h)
    print(f"counts: disturbances of 1 to {lengths} bits: TEC at most n + {most[0]}, REC at most n + {most[1]}")
    return most


# ---- Each condition turned

def silence(bits, head=None, dominant=None):
    """How many stretches aren't between frames after so many recessive samples, of which one may be dominant; of those that drive recessive all along, if no
    head is handed."""
    count = 0
    stretches = {str(s): s for h in SMALL for p in (False, True) for s in all_stretches(h, 1, p) + wrong_crc()}.values()
    for first in stretches:
        for mode in ("active", "passive"):
            stretch, heard = first, True
            for n in range(bits):
                heard &= wire.drive(stretch, RULES) == "r"
                stretch = wire.after(stretch, "d" if n == dominant else "r", head, mode, RULES)[2]
            count += not is_between(stretch) and (heard or head is not None or dominant is not None)
    return count


def two_spikes(count, seed):
    """Of so many pairs of spikes at one receiver, one in the stuffed part and one in the end of frame: those that hide the frame."""
    random.seed(seed)
    missed = 0
    for n in range(count):
        frame = base(random.randrange(2048), *random.choice(((), (0x55,), (0xF8, 0x07))), remote=False)
        frame = random.choice((frame, base(frame.id, remote=True, dlc=random.randrange(9))))
        bus = Bus([[frame], [], []])
        way = plain_run(bus, bus.start())
        own = next(len(TABLE.stretches[j[0][0]][1]) for j, _ in reversed(way) if TABLE.stretches[j[0][0]][0] == "frame") + 1
        first = next(k for k, (j, _) in enumerate(way) if TABLE.stretches[j[0][0]][0] == "frame")
        hits = [0] * (first + own + 1)
        hits[first + random.randrange(1, own - 10)] = 2
        hits[first + own - random.randrange(3, 8)] = 2
        missed += sent_alone(bus, way[0][0], hits)
    return missed


def out_of_step(bits):
    """How many frames are hidden by a disturbance of so many bits at a receiver that is in the wait after a flag when it begins, beside a sender."""
    missed = 0
    for queues in small(8):
        bus = Bus([list(q) for q in queues])
        for joint, _ in plain_run(bus, bus.start()):
            wait = TABLE.number(("wait", "d", (("active", "Rx"), "dddddd")))
            missed += sent_alone(bus, ((joint[0][0], wait, joint[0][2]), joint[1], joint[2]), [2] * bits)
    return missed


def most_counts(count, seed, finds=True):
    """The most that a TEC has reached beyond the number of samples, and the fewest samples to bus off from 0, over random samples of one machine; `finds`: it
    finds each dominant bit that it drives."""
    random.seed(seed)
    beyond, off = 0, None
    for n in range(count):
        head = random.choice(SMALL)
        pool = all_stretches(head, 3)
        stretch, tec = random.choice(pool), 0
        for k in range(1, 260):
            driven = wire.drive(stretch, RULES)
            options = "d" if driven == "d" and finds else "dr"
            steps = [(counted(0, 0, wire.after(stretch, l, head, "active", RULES)[0])[0], random.random(), l) for l in options]
            level = max(steps)[2] if random.random() < .9 else random.choice(options)
            happened, _, stretch = wire.after(stretch, level, head, "active", RULES)
            tec = counted(tec, 0, happened)[0]
            beyond = max(beyond, tec - k)
            if tec >= 256:
                off = min(off or k, k)
                break
    return beyond, off


def errors_with(queues, start, count=400):
    """Errors on a bus that nobody disturbs."""
    bus, joint, errors = Bus(queues), None, 0
    joint = bus.start(*start)
    for _ in range(count):
        joint, told = bus.move(joint)
        errors += sum("Error" in h or h == "TxFree" for _, h, _ in told)
    return errors


INTEGRATES = "integration", "", None


def wrong(count=1500, seed=1, first=0):
    """Prints what happens with each condition turned, from row `first` on."""
    same = ((base(0x123),), (base(0x123),), ())
    rows = [
        ("an error passive receiver", lambda: received(count, seed, modes=("active", "passive", "active"), word="")),
        ("error passive receivers alone", lambda: received(count, seed, modes=("active", "passive", "passive"), word="")),
        ("a receiver that integrates at first", lambda: received(count, seed, start=[FREE, INTEGRATES, FREE], word="")),
        ("a receiver in the wait after a flag, and hit all along: a disturbance of 48 bits", lambda: out_of_step(48)),
        ("the same with 30 bits", lambda: out_of_step(30)),
        ("another sender of the same frame", lambda: received(count, seed, queues=same, word="")),
        ("bits disturbed to recessive", lambda: received(count, seed, to_recessive=True, word="")),
        ("two spikes at one receiver, in the stuffed part and in the end of frame", lambda: two_spikes(count * 2, seed)),
        ("a disturbance in the stuffed part, too", lambda: received(count, seed, within=True, word="")),
        ("one bit as well as six: intervals of 1 to 5 bits", lambda: sum(intervals(5).values())),
        ("one disturbance of 54 bits", lambda: sum(intervals(54, 54).values())),
        ("one disturbance of 55 bits", lambda: sum(intervals(55, 55).values())),
        ("one disturbance of 60 bits", lambda: sum(intervals(60, 60).values())),
        ("a silence of 22 bits", lambda: silence(22)),
        ("a silence of 23 bits", lambda: silence(23)),
        ("23 bits with a head at hand", lambda: silence(23, head=SMALL[0])),
        ("23 bits, the 12th dominant", lambda: silence(23, dominant=12)),
        ("23 bits, the last dominant", lambda: silence(23, dominant=22)),
        ("five dominant bits in place of six: the most bits", lambda: triples(ACTIVE, 0, 14, 5)[2]),
        ("six dominant bits: the most bits", lambda: triples(ACTIVE, 0, 14, 6)[2]),
        ("six dominant bits, one passive: never in step", lambda: triples(("passive", "active", "active"), 0, 14, 6)[1]),
        ("one passive, no idle bit: never in step", lambda: triples(("passive", "active", "active"), 0, 14)[1]),
        ("one passive, two idle bits: never in step", lambda: triples(("passive", "active", "active"), 2, 14)[1]),
        ("two passive, four idle bits: never in step", lambda: triples(("passive", "passive", "active"), 4, 14)[1]),
        ("two passive, five idle bits: never in step", lambda: triples(("passive", "passive", "active"), 5, 14)[1]),
        ("all passive, four idle bits: never in step", lambda: triples(("passive",) * 3, 4, 14)[1]),
        ("all passive, five idle bits: never in step", lambda: triples(("passive",) * 3, 5, 14)[1]),
        ("TEC beyond n, and samples to bus off", lambda: most_counts(count, seed)),
        ("the same if a driven dominant bit may be found recessive", lambda: most_counts(count, seed, finds=False)),
        ("one machine takes part alone: errors", lambda: errors_with([[base(0x123)]], [FREE])),
        ("two in step with one identifier: errors", lambda: errors_with([[base(0x123, 1)] * 3, [base(0x123, 2)] * 3], [FREE, FREE])),
        ("two in step with other identifiers: errors", lambda: errors_with([[base(0x123, 1)] * 3, [base(0x124, 2)] * 3], [FREE, FREE])),
        ("one takes part at once, in the other's frame: errors", lambda: errors_with([[base(0x123, 1)] * 3, [base(0x124, 2)] * 3, []], [("frame", "drrr", base(0x7FF)), FREE, FREE])),
    ]
    for name, row in rows[first:]: print(f"wrong: {name}: {row()}", flush=True)


def main():
    word, numbers = sys.argv[1], [int(n) for n in sys.argv[2:]]
    parts = {"frames": frames, "intervals": intervals, "tails": tails, "received": received, "states": states, "counts": counts, "passive": passive, "wrong": wrong}
    for part in parts.values() if word == "all" else [parts[word]]: part(*numbers)


if __name__ == "__main__": main()
