#!/usr/bin/env python3
"""Machines on one wire: do they ever make an error? A search; the machine is written from docs/bus/machine.md and docs/bus/frames.md.

usage: wire.py same [COUNT [SEED]]      compares the machine with that of plain.py, on random samples
       wire.py search [COUNT [SEED]]    plays random schedules of 2 to 6 machines, and counts those that refuse the claim
       wire.py wrong [COUNT [SEED]]     the same with each condition left out or changed: each has to be refused
       wire.py edges [COUNT [SEED]]     measures the longest way from one edge to the next, in random frames
       wire.py rows < ROWS              answers rows of the part `wire`: those on standard input, or of crates/test_rows/stdin that block

The wire. All machines are idle at first. At a bit of the bus each samples the same level: dominant where some machine drives dominant.
A machine that is between frames (idle, suspended, or in intermission after two bits) and drives recessive may also sample a recessive bit by
itself. Each is handed any head at each sample, of frames that differ from all frames of the others in format, identifier or RTR; and any mode.

The claim. No machine finds an error or begins a flag. At each moment all are between frames, or in the same bit of an intermission, or at
the same place of one frame, whose bits so far each sender sent. All complete the same frames, each sent by one, with the least arbitration
field of those that were begun together.

A machine here is its running stretch: a sort with the whole list of its own samples, as text, d for dominant and r for recessive. Steps
that came before are looked up. The search tries both rules for a dominant third bit of intermission: with a head it is received, or it is
the start of the node's own frame.
"""
import random
import sys
from functools import lru_cache
from typing import NamedTuple

sys.dont_write_bytecode = True
from tally import rows_of_part


class Content(NamedTuple):
    extended: bool
    id: int
    remote: bool
    dlc: int
    bytes: tuple


# ---- Frames: fields, CRC, stuffing (docs/bus/frames.md)

def spelled(number, width):
    return "".join("r" if number >> k & 1 else "d" for k in reversed(range(width)))


@lru_cache(100_000)
def divided(bits):
    rest = [int(b == "r") for b in bits] + [0] * 15
    for k in range(len(bits)):
        if rest[k]:
            for j, g in enumerate("1100010110011001"): rest[k + j] ^= int(g)
    return "".join("dr"[b] for b in rest[-15:])


@lru_cache(None)
def frame_bits(c):
    if c.extended:
        front = "d" + spelled(c.id >> 18, 11) + "rr" + spelled(c.id & 0x3FFFF, 18) + "dr"[c.remote] + "dd"
    else:
        front = "d" + spelled(c.id, 11) + "dr"[c.remote] + "dd"
    front += spelled(c.dlc, 4) + "".join(spelled(b, 8) for b in c.bytes)
    return front + divided(front)


def value(bits, place, width):
    return int("".join("01"[b == "r"] for b in bits[place:place + width]) or "0", 2)


def length_of(bits):
    """Of the frame that begins so, up to the last bit of its CRC sequence; None while its header isn't there."""
    extended = bits[13:14] == "r"
    header = 39 if extended else 19
    if len(bits) < header: return None
    remote = bits[32 if extended else 12] == "r"
    return header + 15 + (0 if remote else 8 * min(8, value(bits, header - 4, 4)))


def content_of(bits):
    extended = bits[13] == "r"
    header = 39 if extended else 19
    id = value(bits, 1, 11) << 18 | value(bits, 14, 18) if extended else value(bits, 1, 11)
    data = range(header, len(bits) - 15, 8)
    return Content(extended, id, bits[32 if extended else 12] == "r", value(bits, header - 4, 4), tuple(value(bits, k, 8) for k in data))


def is_due(own):
    return len(own) >= 5 and own[-5:] in ("ddddd", "rrrrr")


@lru_cache(300_000)
def read(own):
    """The bits without stuff bits up to the end of what is stuffed, and that end; None while it goes on."""
    if not own: return "", None
    bits, end = read(own[:-1])
    if end is not None: return bits, end
    if not is_due(own[:-1]): bits += own[-1]
    return bits, len(own) if length_of(bits) == len(bits) and not is_due(own) else None


def last_arbitration(c):
    return 32 if c.extended else 12


def sent(c, own):
    """What the sender sends at its next place, before the end of what is stuffed."""
    if is_due(own): return "r" if own[-1] == "d" else "d"
    return frame_bits(c)[len(read(own)[0])]


# ---- The machine: a stretch is (sort, own, more); `arb` are the places in which a sender may lose

class Rules(NamedTuple):
    lossless: bool = False  # a sender never loses
    late_role: bool = False  # a sender may lose up to the identifier's end only
    third: bool = True  # a dominant third bit of intermission is the start of one's own frame, if there is a head


@lru_cache(300_000)
def role(head, own, rules):
    if head is None: return "Rx"
    if not own or role(head, own[:-1], rules) == "Rx": return "Rx" if own else "Tx"
    bits, end = read(own[:-1])
    loses = end is None and not is_due(own[:-1]) and 1 <= len(bits) <= last_place(head, rules)
    return "Rx" if loses and sent(head, own[:-1]) == "r" and own[-1] == "d" else "Tx"


def last_place(head, rules):
    if rules.lossless: return 0
    return 11 if rules.late_role else last_arbitration(head)


def drive(stretch, rules):
    sort, own, more = stretch
    if sort == "flag": return "r" if more[0] == "passive" else "d"
    if sort != "frame": return "r"
    bits, end = read(own)
    if end is None: return sent(more, own) if role(more, own, rules) == "Tx" else "r"
    right = divided(bits[:-15]) == bits[-15:]
    return "d" if role(more, own, rules) == "Rx" and len(own) - end == 1 and right else "r"


def free(head):
    return ("idle", "", None) if head is None else ("frame", "", head)


def fails(who, mode, kind, counted=True):
    flag = ("active",) if mode == "active" else ("passive", kind == "Ack" and not counted)
    return f"{who}Error {kind}" if counted else "TxFree", None, ("flag", "", flag + (who,))


def after(stretch, level, head, mode, rules):
    """What happened, the frame that is completed, and the next stretch."""
    sort, own, more = stretch
    happened, ended, next = judged(sort, own, more, level, head, mode, rules)
    return happened, ended, (sort, own + level, more) if next is None else next


def judged(sort, own, more, level, head, mode, rules):
    on, now = ("Nothing", None, None), own + level
    if sort == "integration":
        return ("Nothing", None, free(head)) if now.endswith("r" * 11) else on
    if sort == "idle":
        return "Nothing", None, ("frame", level, None) if level == "d" else free(head)
    if sort == "suspension":
        if level == "d": return "Nothing", None, ("frame", level, None)
        return ("Nothing", None, free(head)) if len(now) == 8 else on
    if sort == "intermission":
        if len(own) < 2: return ("Nothing", None, ("flag", "", ("overload", more))) if level == "d" else on
        if level == "d": return "Nothing", None, ("frame", level, head if rules.third and not (more == "Tx" and mode == "passive") else None)
        return "Nothing", None, ("suspension", "", None) if more == "Tx" and mode == "passive" else free(head)
    if sort == "flag":
        who = more[-1]
        if more[0] != "passive":
            happened = "Nothing" if level == "d" else who + "FlagBit"
            return happened, None, ("wait", "", (more, now)) if len(now) == 6 else None
        happened = "PassiveAck" if more[1] and level == "d" and "d" not in own else "Nothing"
        return happened, None, ("wait", "", (more, now)) if now.endswith(level * 6) else None
    if sort == "wait":
        flag, flagged = more
        who = flag[-1]
        if level == "r": return "Nothing", None, ("delimiter", "r", who)
        if own == "" and who == "Rx" and flag[0] != "overload": return "RxAfterFlag", None, None
        ran, first = (now, 8) if flag[0] == "passive" else (flagged + now, 14)
        run = len(ran) - len(ran.rstrip("d"))
        return who + "Long" if run >= first and (run - first) % 8 == 0 else "Nothing", None, None
    if sort == "delimiter":
        if level == "r": return ("Nothing", None, ("intermission", "", more)) if len(now) == 8 else on
        return ("Nothing", None, ("flag", "", ("overload", more))) if len(now) == 8 else fails(more, mode, "Bit" if more == "Tx" else "Form")
    bits, end = read(own)
    if end is None:
        return sending(own, bits, more, level, mode, rules) if role(more, own, rules) == "Tx" else receiving(own, level, mode)
    return (sent_tail if role(more, own, rules) == "Tx" else received_tail)(len(own) - end, bits, more, level, mode)


def sending(own, bits, head, level, mode, rules):
    on = "Nothing", None, None
    if sent(head, own) == level: return on
    if level == "r": return fails("Tx", mode, "Bit")
    if is_due(own): return fails("Tx", mode, "Stuff", False) if len(bits) <= last_arbitration(head) else fails("Tx", mode, "Bit")
    return on if 1 <= len(bits) <= last_place(head, rules) else fails("Tx", mode, "Bit")


def receiving(own, level, mode):
    return fails("Rx", mode, "Stuff") if is_due(own) and own[-1] == level else ("Nothing", None, None)


def sent_tail(place, bits, head, level, mode):
    if place == 1: return ("Nothing", None, None) if level == "d" else fails("Tx", mode, "Ack", mode != "passive")
    if level == "d": return fails("Tx", mode, "Bit")
    return ("Sent", ("sent", head), ("intermission", "", "Tx")) if place == 9 else ("Nothing", None, None)


def received_tail(place, bits, head, level, mode):
    right = divided(bits[:-15]) == bits[-15:]
    if place == 1: return ("Nothing", None, None) if not right else ("Acked", None, None) if level == "d" else fails("Rx", mode, "Bit")
    if place == 9: return "Nothing", None, ("flag", "", ("overload", "Rx")) if level == "d" else ("intermission", "", "Rx")
    if level == "d": return fails("Rx", mode, "Form")
    if place == 2 and not right: return fails("Rx", mode, "Crc")
    return "Nothing", ("received", content_of(bits)) if place == 8 else None, None


# ---- The wire

def is_between(stretch):
    sort, own, more = stretch
    return sort in ("idle", "suspension") or sort == "intermission" and len(own) == 2 or sort == "frame" and own == ""


class Claim(Exception):
    """What a schedule refuses."""


class Wire:
    """Machines by number; each has its stretch, and the frames that it has completed."""

    def __init__(self, frames, table, wrong=None):
        self.frames, self.count, self.table, self.wrong = frames, len(frames), table, wrong
        first = table.number(("idle", "", None))
        self.at = [first] * self.count
        if wrong == "one integrates": self.at[1:] = [table.number(("integration", "", None))] * (self.count - 1)
        if wrong == "one is a bit behind": self.at[0] = table.number(("intermission", "r", "Rx"))
        if wrong == "one is in a flag": self.at[0] = table.number(("flag", "", ("active", "Rx")))
        self.done = [[] for _ in frames]
        self.told = False  # a frame was completed since they were compared
        self.late = "r"

    def bus(self):
        drives = [self.table.drives[s] for s in self.at]
        if self.wrong == "one isn't heard": drives.pop()
        if self.wrong == "recessive overwrites": return "r" if "r" in drives else "d"
        if self.wrong == "only transmitters are heard":
            drives = [d for d, s in zip(drives, self.at) if not (self.table.stretches[s][0] == "frame" and role(self.table.stretches[s][2], self.table.stretches[s][1], self.table.rules) == "Rx")]
        if self.wrong == "a bit late":
            self.late, now = "d" if "d" in drives else "r", self.late
            return now
        return "d" if "d" in drives else "r"

    def sampled(self, k, level, head, mode):
        before = self.at[k]
        happened, ended, self.at[k] = self.table.step(before, level, head, mode)
        if happened not in ("Nothing", "Sent", "Acked"): raise Claim(happened)
        if ended:
            self.done[k].append(ended)
            self.told = True

    def bit(self, heads, modes):
        level = self.bus()
        missing = random.randrange(self.count) if self.wrong in ("one misses a bit", "one samples twice", "one samples the other level") and random.random() < .02 else None
        for k in range(self.count):
            if k == missing and self.wrong == "one misses a bit": continue
            if k == missing and self.wrong == "one samples the other level":
                self.sampled(k, "d" if level == "r" else "r", heads[k], modes[k])
                continue
            self.sampled(k, level, heads[k], modes[k])
            if k == missing and self.wrong == "one samples twice": self.sampled(k, level, heads[k], modes[k])

    def own(self, k, head, mode):
        stretch = self.table.stretches[self.at[k]]
        recessive = self.table.drives[self.at[k]] == "r"
        early = stretch[0] == "intermission" and len(stretch[1]) >= (1 if self.wrong == "own bits after one of intermission" else 0)
        may = is_between(stretch) and recessive
        if self.wrong == "own bits in a frame": may = recessive
        if self.wrong == "own bits of one that has decided": may = is_between(stretch)
        if self.wrong in ("own bits after one of intermission", "own bits from intermission on"): may = (is_between(stretch) or early) and recessive
        if may: self.sampled(k, "d" if self.wrong == "own dominant bits" else "r", head, mode)

    def check(self):
        """That the machines are in step."""
        facts = [self.table.facts[s] for s in self.at]
        if all(f.between for f in facts) or all(f.intermission for f in facts) and len({f.place for f in facts}) == 1:
            if self.told: self.check_frames()
            return
        if not all(f.framed for f in facts) or len({f.place for f in facts}) > 1: raise Claim("out of step")
        senders = [f for f in facts if f.sends]
        if not senders: raise Claim("no sender")
        if not all(f.found for f in senders): raise Claim("not the sender's bits")
        if senders[0].over:
            if len(senders) != 1: raise Claim("two senders")
            if any(f.head and field(f.head) < field(senders[0].head) for f in facts): raise Claim("not the least")

    def check_frames(self):
        """That all have completed the same frames, each sent by one."""
        self.told = False
        frames = [[frame for _, frame in done] for done in self.done]
        if any(f != frames[0] for f in frames): raise Claim("other frames")
        for n in range(len(frames[0])):
            if [done[n][0] for done in self.done].count("sent") != 1: raise Claim("not one sender")


@lru_cache(None)
def field(c):
    """The arbitration field, in which the least wins: d comes before r."""
    return frame_bits(c)[:last_arbitration(c) + 1]


class Facts(NamedTuple):
    """What a wire asks of a stretch: where it is, and of a sender whether its last bit is what it sends, and whether its stuffed part is over."""
    between: bool
    intermission: bool
    framed: bool
    place: tuple
    sends: bool
    found: bool
    over: bool
    head: object


def facts_of(stretch, rules):
    sort, own, more = stretch
    framed = sort == "frame" and own[:1] == "d"
    sends = framed and role(more, own, rules) == "Tx"
    end = read(own)[1] if framed else None
    last = "rdrrrrrrrr"[len(own) - 1 - end] if sends and end is not None and len(own) > end else sent(more, own[:-1]) if sends else None
    return Facts(is_between(stretch), sort == "intermission", framed, (sort, own), sends, sends and own[-1] == last, end is not None, more if framed else None)


class Table:
    """Stretches by number, and the steps between them."""

    def __init__(self, rules):
        self.rules, self.numbers, self.stretches, self.drives, self.facts, self.steps = rules, {}, [], [], [], {}

    def number(self, stretch):
        n = self.numbers.get(stretch)
        if n is None:
            n = self.numbers[stretch] = len(self.stretches)
            self.stretches.append(stretch)
            self.drives.append(drive(stretch, self.rules))
            self.facts.append(facts_of(stretch, self.rules))
        return n

    def step(self, s, level, head, mode):
        key = s, level, head, mode
        known = self.steps.get(key)
        if known is None:
            happened, ended, next = after(self.stretches[s], level, head, mode, self.rules)
            known = self.steps[key] = happened, ended, self.number(next)
        return known


# ---- Random frames and schedules

def some_content(near=None):
    if near and random.random() < .6:
        c = near
        roll = random.random()
        if roll < .25: return c._replace(remote=not c.remote, bytes=(), dlc=0)
        if roll < .5:
            if c.extended: return Content(False, c.id >> 18, random.random() < .5, 0, ())
            return Content(True, c.id << 18 | random.choice((0, 1, 0x3FFFF, random.getrandbits(18))), random.random() < .5, 0, ())
        return c._replace(id=c.id ^ 1 << random.randrange(29 if c.extended else 11))
    extended = random.random() < .3
    width = 29 if extended else 11
    id = random.choice((0, (1 << width) - 1, random.getrandbits(width), int("000001111100000" * 3, 2) & (1 << width) - 1, random.getrandbits(3), random.getrandbits(width) & random.getrandbits(width)))
    remote = random.random() < .3
    dlc = random.choice((0, 0, 0, 1, 2, 8, 9, 15)) if random.random() < .3 else 0
    return Content(extended, id, remote, dlc, () if remote else tuple(random.choice((0, 255, random.getrandbits(8))) for _ in range(min(8, dlc))))


def pool(size):
    contents = [some_content()]
    while len(contents) < size: contents.append(some_content(random.choice(contents)))
    return contents


def are_apart(a, b, wrong):
    if wrong == "equal identifiers, other data": return a != b
    if wrong == "equal identifiers, other length": return (a.extended, a.id, a.remote, a.dlc) != (b.extended, b.id, b.remote, b.dlc)
    return (a.extended, a.id, a.remote) != (b.extended, b.id, b.remote)


def some_frames(contents, wrong):
    count = 1 if wrong in ("one alone", "a passive one alone") else random.randrange(2, 7)
    frames = []
    for k in range(count):
        mine = []
        for c in random.sample(contents, random.randrange(0, 3)):
            others = [] if wrong == "frames need not be apart" else frames[-1:] if wrong == "neighbours are apart" else frames
            if all(are_apart(c, d, wrong) for other in others for d in other): mine.append(c)
        frames.append(mine)
    return frames


def schedule(wire, length, wrong):
    modes = ["active"] * wire.count
    if wrong is None and random.random() < .2: modes = [random.choice(("active", "passive")) for _ in modes]
    if wrong == "a passive one alone": modes = ["passive"] * wire.count
    heads = [None] * wire.count
    shown = random.random
    for _ in range(length):
        if shown() < .15:
            k = random.randrange(wire.count)
            heads[k] = random.choice(wire.frames[k]) if wire.frames[k] and shown() < .8 else None
            if wrong is None and shown() < .2: modes[k] = random.choice(("active", "passive", "off"))
        if shown() < .25: own_of_one(wire, heads, modes)
        else: wire.bit(heads, modes)
        if wrong is None: wire.check()
        elif wire.told and all(s[0] == "idle" for s in (wire.table.stretches[s] for s in wire.at)): wire.check_frames()


def own_of_one(wire, heads, modes):
    k = random.randrange(wire.count)
    wire.own(k, heads[k], modes[k])


def search(count, seed, rules, wrong=None):
    """The claims that schedules refuse, with how many of them do; of a right condition none."""
    random.seed(seed)
    refused, frames = {}, 0
    for n in range(count):
        if n % 10_000 == 0:
            contents = pool(40)
            if wrong in ("an identifier of twelve bits", "more bytes than the code says"): contents = [spoiled(c, wrong) for c in contents]
            table = Table(rules or Rules(third=n // 10_000 % 2 == 1))
        wire = Wire(some_frames(contents, wrong), table, wrong)
        try:
            schedule(wire, 66 if random.random() < .85 else 200, wrong)
        except (Claim, IndexError) as claim:
            word = str(claim)
            refused[word] = refused.get(word, 0) + 1
        frames += sum(len(done) for done in wire.done)
    return refused, frames


def spoiled(c, wrong):
    if wrong == "an identifier of twelve bits": return c if c.extended else c._replace(id=c.id | 0x800 * random.getrandbits(1))
    return c if c.remote else c._replace(bytes=c.bytes + (7,))


WRONG = (
    "one alone", "a passive one alone", "frames need not be apart", "equal identifiers, other data", "equal identifiers, other length",
    "neighbours are apart", "one integrates", "one is a bit behind", "one is in a flag", "one isn't heard", "recessive overwrites",
    "only transmitters are heard", "a bit late", "one misses a bit", "one samples twice", "one samples the other level", "own bits in a frame",
    "own bits of one that has decided", "own bits after one of intermission",
    "own bits from intermission on", "own dominant bits", "an identifier of twelve bits", "more bytes than the code says",
)


def same(count, seed):
    """The machine beside that of plain.py, which joins by a dominant third bit where it is handed a head."""
    import plain
    rules = Rules(third=True)
    random.seed(seed)
    differ = 0
    for n in range(count):
        contents = pool(4)
        frames = {c: plain.Frame(c.id, c.remote, c.dlc, bytes(c.bytes), c.extended) for c in contents}
        other, stretch = plain.Machine(), ("integration", "", None)
        noise = random.choice((0, .01, .05))
        for step in range(random.choice((60, 250))):
            head, mode = random.choice(contents + [None]), random.choice(("active", "active", "passive"))
            level = drive(stretch, rules)
            if stretch[0] == "frame" and read(stretch[1])[1] is not None and len(stretch[1]) - read(stretch[1])[1] == 1 and random.random() < .9: level = "d"
            if random.random() < noise: level = random.choice("dr")
            happened, ended, stretch = after(stretch, level, head, mode, rules)
            told = other.bit(int(level == "r"), frames.get(head), mode)
            if (told, other.drive() == plain.RECESSIVE) != (happened, drive(stretch, rules) == "r"):
                differ += 1
                print("differs", n, step, stretch, told, happened)
                break
    print(f"same: {count} runs, {differ} differ")
    return differ


def edges(count, seed):
    """From the start of frame to the ACK slot: the longest way from one edge to dominant to the next."""
    random.seed(seed)
    longest = 0
    for _ in range(count):
        c, own = some_content(), ""
        while read(own)[1] is None: own += sent(c, own)
        line = "r" + own + "rd"
        places = [k for k in range(1, len(line)) if line[k - 1:k + 1] == "rd"]
        longest = max([longest] + [b - a for a, b in zip(places, places[1:])])
    print(f"edges: {count} frames, {longest} bits at most")


RULES = Rules()


# ---- Rows

def head_of(word):
    if word == "-": return None
    id, _, bytes_ = word.lstrip("r").partition(".")
    data = tuple(bytes.fromhex(bytes_))
    return Content(len(id) == 8, int(id, 16), word[0] == "r", len(data), data)


def row(line):
    heads, words = line.split(" : ")
    heads = heads.split()
    at = [("integration" if h[0] == "~" else "idle", "", None) for h in heads]
    heads, told, bits = [head_of(h.lstrip("~")) for h in heads], [], 0

    def sampled(k, level):
        happened, ended, at[k] = after(at[k], level, heads[k], "active", RULES)
        if happened not in ("Nothing", "Sent", "Acked"): told.append(f"{k + 1}.{happened.replace(' ', '(') + ')' * (' ' in happened)}@{bits}")
        if ended and ended[0] == "sent":
            heads[k] = None
            told.append(f"{k + 1}.sent@{bits}")
        if ended and ended[0] == "received": told.append(f"{k + 1}.received({ended[1].id:03x})@{bits}")

    for word in words.split():
        if "=" in word:
            k, head = word.split("=")
            heads[int(k) - 1] = head_of(head)
        elif "+" in word:
            k, count = map(int, word.split("+"))
            for _ in range(count): sampled(k - 1, "r")
        else:
            for _ in range(int(word)):
                bits += 1
                level = "d" if any(drive(s, RULES) == "d" for s in at) else "r"
                for k in range(len(at)): sampled(k, level)
    failed = any("Error" in t or "Free" in t for t in told)
    return " ".join(told + ["error" if failed else "no error"])


def rows():
    for line in rows_of_part("wire"):
        if not line or line[0] == "#": print(line)
        else:
            try: print(f"{line} = {row(line)}")
            except ValueError: print(f"{line} = unread")


def main():
    if sys.argv[1] == "rows": return rows()
    word, count, seed = sys.argv[1], int((sys.argv[2:] or ["10000"])[0]), int((sys.argv[3:] or ["1"])[0])
    if word == "same": sys.exit(same(count, seed) > 0)
    if word == "edges": edges(count, seed)
    if word == "search":
        refused, frames = search(count, seed, None)  # both values of `third` by turns
        print(f"search: {count} schedules, {frames} completed frames, refused {sum(refused.values())} {refused or ''}")
        sys.exit(bool(refused))
    if word == "wrong":
        for wrong in WRONG:
            refused, _ = search(count, seed, RULES, wrong)
            print(f"wrong: {wrong}: {sum(refused.values())} of {count} {dict(sorted(refused.items(), key=lambda p: -p[1])[:3])}")
        for name, changed in ("a sender never loses", Rules(lossless=True)), ("a sender loses in its identifier's first part alone", Rules(late_role=True)):
            refused, _ = search(count, seed, changed)
            print(f"wrong: {name}: {sum(refused.values())} of {count} {dict(sorted(refused.items(), key=lambda p: -p[1])[:3])}")


if __name__ == "__main__": main()
