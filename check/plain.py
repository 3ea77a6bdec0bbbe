#!/usr/bin/env python3
"""Wireline in plain Python: what the proved program is compared with.

usage: plain.py merge|horizon|check|records|run|explain|trace|vcd      standard input to standard output

This is a second program, written from the rules and not from the proved one: whole lists, one quantum after another, no cleverness.
Where both answer the same bytes on many inputs, a mistake would have to be in both. It shares no line with the proved program.

Rules of the bus are from the Bosch CAN Specification 2.0 (1991) and ISO 11898-1; the section stands behind each, as (B 3.2.1) for
section 3.2.1 of part B. What they leave open is this project's profile, marked (P), here and in docs/bus/.
Plan texts are read by Python's tomllib, which knows TOML 1.0; the proved program takes TOML 1.1.
"""
import re
import sys
import tomllib
from bisect import bisect_left, bisect_right
from fractions import Fraction
from heapq import heapify, heapreplace
from itertools import takewhile
from typing import NamedTuple

DOMINANT, RECESSIVE = 0, 1
NUMBER_END, SMALL_END = 2**48, 2**31


class Fault(Exception):
    """Why an input is refused."""


# ---- Limits of plans, by the version of their text (P)

class Limits(NamedTuple):
    nodes: int
    offset: int
    start: int  # the last quantum with which a rate begins
    end: int
    quanta: int
    queued: int
    disturbances: int


NARROW = Limits(16, 2**20, 2**20, 2**36, 2**20, 64, 64)
WIDE = Limits(64, 2**34, 2**30, 2**40, 2**30, 65_536, 256)
LIMITS_OF = {1: NARROW, 2: NARROW, 3: NARROW._replace(queued=4096), 4: WIDE}


# ---- Clock: the tick at which a quantum begins (P)

class Rate(NamedTuple):
    start: int  # the quantum with which it begins
    num: int
    den: int


class Clock(NamedTuple):
    offset: int
    rates: list

    def at(self, quantum):
        tick = self.offset
        for rate, after in zip(self.rates, self.rates[1:] + [None]):
            last = quantum if after is None else min(quantum, after.start)
            tick += (last - rate.start) * rate.num // rate.den
            if last == quantum: return tick

    def quanta_before(self, end):
        return bisect_left(range(end), end, key=self.at)

    def fault(self, limits=NARROW):
        starts = [rate.start for rate in self.rates]
        if any(rate.den == 0 for rate in self.rates): return "ZeroDen"
        if any(rate.num < rate.den for rate in self.rates): return "TooFast"
        if any(rate.num > 2**20 * rate.den for rate in self.rates): return "TooSlow"
        if self.offset > limits.offset: return "BigOffset"
        if any(rate.den > 1_000_000 for rate in self.rates): return "BigDen"
        if not starts: return "NoRates"
        if len(starts) > 16: return "TooManyRates"
        if starts[0] != 0 or starts != sorted(set(starts)): return "RateOrder"
        if starts[-1] > limits.start: return "BadFrom"


# ---- Bit clock: segments, samples, synchronisation (B 10)

class Segments(NamedTuple):
    prop: int
    ps1: int
    ps2: int
    sjw: int
    book: bool = False  # by the book: an edge lies in the quantum before the one that finds it

    def sample_at(self):
        return 1 + self.prop + self.ps1

    def bit_quanta(self):
        return 1 + self.prop + self.ps1 + self.ps2

    def greatest_ppm(self):
        behind_a_flag = 1_000_000 * min(self.ps1, self.ps2) // (2 * (13 * self.bit_quanta() - self.ps2))
        between_edges = 1_000_000 * self.sjw // (20 * self.bit_quanta())
        return min(behind_a_flag, between_edges)

    def fault(self):
        if not 1 <= self.prop <= 8: return "Prop"
        if not 1 <= self.ps1 <= 8: return "Phase1"
        if not 2 <= self.ps2 <= 8: return "Phase2"
        if not 1 <= self.sjw <= min(4, self.ps1): return "Jump"
        if not 8 <= self.bit_quanta() <= 25: return "Length"


def controller_fault(tseg1, tseg2, sjw):
    """Segments of which PROP_SEG and PHASE_SEG1 are one (ISO 11898-1; TSEG2 of 2 at least is P)."""
    if not 2 <= tseg1 <= 256: return "Phase1"
    if not 2 <= tseg2 <= 128: return "Phase2"
    if not 1 <= sjw <= min(tseg1 - 1, tseg2): return "Jump"
    if 1 + tseg1 + tseg2 < 8: return "Length"


class BitClock:
    """One step is one quantum: the beat (Start, Sample or Plain) and the synchronisation (Hard, a phase error, or None)."""

    def __init__(self, segments):
        self.segments = segments
        self.before = self.sampled = RECESSIVE
        self.place, self.longer, self.shorter, self.synchronised = segments.bit_quanta() - 1 if segments.book else -1, 0, 0, False
        self.first = True

    def start(self, synchronised):
        self.place, self.longer, self.shorter, self.synchronised = 0, 0, 0, synchronised

    def step(self, level, idle, awaits_start, driving, integrates):
        before, self.before = self.before, level
        if self.segments.book:
            hard = awaits_start and not driving
            again = integrates and hard  # bus integration (ISO 11898-1): by each edge, also by a second one in a bit
            edge = level == DOMINANT and before == RECESSIVE and self.sampled == RECESSIVE and (again or not self.synchronised)
            return self.step_by_the_book(level, hard, driving, edge)
        self.place += 1
        sample_at = self.segments.sample_at() + self.longer
        if self.first or self.place == sample_at + self.segments.ps2 - self.shorter:
            self.first = False
            self.start(False)
            sample_at = self.segments.sample_at()
        if self.place == sample_at:  # an edge in the sample's quantum counts nowhere (P)
            self.sampled = level
            return "Sample", None
        edge = level == DOMINANT and before == RECESSIVE and self.sampled == RECESSIVE and not self.synchronised
        sync = self.synchronise(idle, driving, sample_at) if edge else None
        return ("Start" if self.place == 0 else "Plain"), sync

    def synchronise(self, idle, driving, sample_at):
        if idle:
            self.start(True)
            return "Hard"
        if self.place == 0:
            self.synchronised = True
            return 0
        if self.place < sample_at:  # late: PHASE_SEG1 grows
            error = self.place
            if driving: return None
            self.longer, self.synchronised = min(error, self.segments.sjw), True
            return error
        error = self.place - (sample_at + self.segments.ps2)  # early: PHASE_SEG2 shrinks
        if -error <= self.segments.sjw:
            self.start(True)
        else:
            self.shorter, self.synchronised = self.segments.sjw, True
        return error

    def step_by_the_book(self, level, hard, driving, edge):
        """The same by the book: the place is still that of the quantum before, in which the edge lies."""
        sync = None
        if edge and hard:
            sync, anew = "Hard", True
        elif edge:
            sync, anew = self.resynchronise(driving)
        if sync is not None and anew:
            self.start(True)
            self.place = 1
            return "Start", sync
        self.place += 1
        sample_at = self.segments.sample_at() + self.longer
        if self.place == sample_at + self.segments.ps2 - self.shorter:
            self.start(False)
            return "Start", sync
        if self.place == sample_at:
            self.sampled = level
            return "Sample", sync
        return "Plain", sync

    def resynchronise(self, driving):
        """The phase error, and whether the bit begins anew with the quantum before."""
        if self.place < self.segments.sample_at():
            if self.place > 0 and driving: return None, False
            self.longer, self.synchronised = min(self.place, self.segments.sjw), True
            return self.place, False
        error = self.place - self.segments.bit_quanta()
        if -error > self.segments.sjw:
            self.shorter, self.synchronised = self.segments.sjw, True
            return error, False
        return error, True


# ---- Frames: fields, CRC sequence, bit stuffing (B 3.2.1, 3.2.2, 6)

IDE = 13  # the place of the IDE bit, recessive in an extended frame; the identifier, or its first part, is at places 1 to 11


def header(extended):
    """The place of the RTR bit, and the number of bits up to the DLC."""
    return (32, 39) if extended else (12, 19)


class Frame(NamedTuple):
    id: int
    remote: bool
    dlc: int
    data: bytes
    extended: bool = False

    def bits(self):
        sent_id = bits_of(self.id >> 18, 11) + [1, 1] + bits_of(self.id % 2**18, 18) if self.extended else bits_of(self.id, 11)
        head = [0] + sent_id + [int(self.remote), 0, 0] + bits_of(self.dlc, 4)
        body = head + [bit for byte in self.data for bit in bits_of(byte, 8)]
        return body + bits_of(crc15(body), 15)

    def arbitration(self):
        """Its arbitration field: of two different ones the lesser wins, a part before the whole (B 3.1)."""
        return self.bits()[1:header(self.extended)[0] + 1]

    def fault(self):
        if self.id > 0x7FF and not self.extended: return "Id"
        if self.dlc > 15: return "Dlc"
        if len(self.data) != (0 if self.remote else min(self.dlc, 8)): return "DataLength"
        if self.id > 0x1FFFFFFF: return "ExtendedId"


def bits_of(number, width):
    return [number >> (width - 1 - place) & 1 for place in range(width)]


def number_of(bits):
    return int("".join(map(str, bits)), 2)


def crc15(bits):
    register = 0
    for bit in bits:
        differs = (register >> 14) != bit
        register = (register << 1 & 0x7FFF) ^ (0x4599 if differs else 0)
    return register


def stuff(bits):
    """The bits on the line, each with its place in the frame, or None for a stuff bit."""
    line = []
    for place, bit in enumerate(bits):
        line.append((bit, place))
        if len(line) >= 5 and len({level for level, _ in line[-5:]}) == 1:
            line.append((1 - bit, None))
    return line


def frame_length(bits):
    """How many bits a frame has up to its CRC sequence, once its header tells; None before."""
    rtr, end = header(len(bits) > IDE and bits[IDE])
    if len(bits) < end: return None
    data = 0 if bits[rtr] else min(number_of(bits[end - 4:end]), 8)
    return end + 8 * data + 15


def frame_of(bits):
    extended = bits[IDE] == 1
    rtr, end = header(extended)
    data = bytes(number_of(bits[at:at + 8]) for at in range(end, len(bits) - 15, 8))
    number = number_of(bits[1:12] + bits[14:32] if extended else bits[1:12])
    return Frame(number, bits[rtr] == 1, number_of(bits[end - 4:end]), data, extended)


# ---- Machine: what a node does at each sampled bit (B 3.2, 5, 7, 8)

class Machine:
    """One call of bit is one sampled bit; what happened is told in the words of Counters, the frame that is done stands in done."""

    def __init__(self):
        self.role, self.done = "Rx", None
        self.go("integrating")

    def go(self, state):
        self.state, self.count = state, 0
        return "Nothing"

    def idle(self):
        return self.state in ("waiting", "suspend")

    def integrates(self):
        return self.state == "integrating"

    def awaits_start(self):
        """The next edge may be a start of frame: up to its own, for a node that has decided to send."""
        between = self.state == "intermission" and self.count in (1, 2)
        decided = self.state == "sending" and self.count == 0
        return self.idle() or self.integrates() or between or decided

    def drive(self):
        """The level from the next bit start on."""
        if self.state == "sending": return self.line[self.count][0]
        if self.state == "flag": return DOMINANT
        if self.state == "ending" and self.count == 1 and self.crc_right: return DOMINANT
        return RECESSIVE

    def bit(self, sample, head, mode):
        self.done = None
        return getattr(self, self.state)(sample, head, mode)

    def bus_off(self):
        self.role, self.runs = "Rx", 0
        self.go("off")

    def next_place(self):
        """Where in a frame the next sample falls, in the words of a trace; counts begin at 0."""
        if self.state == "delimiter": return "in", "delimiter", self.count
        if self.state == "ending": return "in", *ending_field(ENDING[self.count])
        if self.state == "receiving":
            after = self.equal == 5
            return "after" if after else "in", *field_at(self.bits, len(self.bits) - after)
        if self.state == "sending":
            place = self.line[self.count][1]
            if isinstance(place, str): return "in", *ending_field(place)
            if place is None: return "after", *field_at(self.frame.bits(), self.line[self.count - 1][1])
            return "in", *field_at(self.frame.bits(), place)

    # Where a bit leads to

    def free(self, head):
        if head is None: return self.go("waiting")
        self.role, self.frame = "Tx", head
        self.rtr, _ = header(head.extended)
        self.line = stuff(head.bits()) + [(RECESSIVE, end) for end in ENDING]
        self.begin_bits()
        return self.go("sending")

    def receive(self, sample):
        self.role = "Rx"
        self.begin_bits()
        self.take(sample)
        return self.go("receiving")

    def overload(self):
        self.flag_kind, self.run = "overload", 0
        return self.go("flag")

    def error(self, kind, mode, counted=True):
        self.owes_ack = kind == "Ack" and not counted
        self.run, self.last = 0, None
        self.flag_kind = "active" if mode == "active" else "passive"
        self.go("flag" if mode == "active" else "passive_flag")
        return f"{self.role}Error {kind}" if counted else "TxFree"

    # The bits between SOF and the last CRC bit, without stuff bits

    def begin_bits(self):
        self.bits, self.equal, self.last = [], 0, None

    def take(self, sample):
        """Takes one bit; False where it is the sixth equal one."""
        stuff_bit = self.equal == 5
        if stuff_bit and sample == self.last: return False
        self.equal = self.equal + 1 if sample == self.last else 1
        self.last = sample
        if not stuff_bit: self.bits.append(sample)
        return True

    # One method for each state

    def integrating(self, sample, head, mode):
        self.count = self.count + 1 if sample == RECESSIVE else 0
        return self.free(head) if self.count == 11 else "Nothing"

    def waiting(self, sample, head, mode):
        return self.receive(sample) if sample == DOMINANT else self.free(head)

    def sending(self, sample, head, mode):
        sent, place = self.line[self.count]
        if place == "ACK slot" and sample == RECESSIVE:
            return self.error("Ack", mode, counted=mode != "passive")
        if place == "ACK slot" or sent == sample:
            self.count += 1
            if place not in ENDING: self.take(sample)
            if place != "EOF 7": return "Nothing"
            self.done = "sent", self.frame
            self.go("intermission")
            return "Sent"
        if sent == RECESSIVE and isinstance(place, int) and 1 <= place <= self.rtr:  # arbitration lost
            self.role = "Rx"
            self.take(sample)
            return self.go("receiving")
        if sent == RECESSIVE and place is None and len(self.bits) <= self.rtr:  # a stuff bit before the RTR bit (B 8, rule 3)
            return self.error("Stuff", mode, counted=False)
        return self.error("Bit", mode)

    def receiving(self, sample, head, mode):
        if not self.take(sample): return self.error("Stuff", mode)
        if len(self.bits) == frame_length(self.bits) and self.equal < 5:
            self.crc_right = crc15(self.bits[:-15]) == number_of(self.bits[-15:])
            self.go("ending")
        return "Nothing"

    def ending(self, sample, head, mode):
        place = ENDING[self.count]
        self.count += 1
        if place == "ACK slot":
            if not self.crc_right: return "Nothing"
            return "Acked" if sample == DOMINANT else self.error("Bit", mode)
        if place == "EOF 7":
            return self.overload() if sample == DOMINANT else self.go("intermission")
        if sample == DOMINANT: return self.error("Form", mode)
        if place == "ACK delimiter" and not self.crc_right: return self.error("Crc", mode)
        if place == "EOF 6": self.done = "received", frame_of(self.bits)
        return "Nothing"

    def flag(self, sample, head, mode):
        self.count += 1
        self.run = self.run + 1 if sample == DOMINANT else 0
        if self.count == 6: self.go("wait")
        return "Nothing" if sample == DOMINANT else self.role + "FlagBit"

    def passive_flag(self, sample, head, mode):
        self.count = self.count + 1 if sample == self.last else 1
        self.last = sample
        if self.count == 6: self.go("wait")
        if sample == RECESSIVE or not self.owes_ack: return "Nothing"
        self.owes_ack = False
        return "PassiveAck"

    def wait(self, sample, head, mode):
        self.count += 1
        self.run += 1
        first = self.count == 1
        if sample == RECESSIVE:
            self.go("delimiter")
            self.count = 1
            return "Nothing"
        if first and self.flag_kind != "overload" and self.role == "Rx": return "RxAfterFlag"
        long = 8 if self.flag_kind == "passive" else 14
        return self.role + "Long" if self.run >= long and (self.run - long) % 8 == 0 else "Nothing"

    def delimiter(self, sample, head, mode):
        if sample == DOMINANT:
            return self.overload() if self.count == 7 else self.error("Bit" if self.role == "Tx" else "Form", mode)
        self.count += 1
        return self.go("intermission") if self.count == 8 else "Nothing"

    def intermission(self, sample, head, mode):
        self.count += 1
        if self.count < 3: return self.overload() if sample == DOMINANT else "Nothing"
        suspended = self.role == "Tx" and mode == "passive"
        self.role = "Rx"
        if sample == RECESSIVE: return self.go("suspend") if suspended else self.free(head)
        if head is None or suspended: return self.receive(sample)
        self.free(head)  # its own start of frame, which others have begun
        return self.sending(sample, head, mode)

    def suspend(self, sample, head, mode):
        self.count += 1
        if sample == DOMINANT: return self.receive(sample)
        return self.free(head) if self.count == 8 else "Nothing"

    def off(self, sample, head, mode):
        self.count = self.count + 1 if sample == RECESSIVE else 0
        if self.count == 11: self.count, self.runs = 0, self.runs + 1
        if self.runs < 128: return "Nothing"
        self.free(head)
        return "Recovered"


ENDING = ("CRC delimiter", "ACK slot", "ACK delimiter") + tuple(f"EOF {n}" for n in range(1, 8))


BASE_FIELDS = (("sof", 1), ("id", 11), ("rtr", 1), ("ide", 1), ("r0", 1), ("dlc", 4))
EXTENDED_FIELDS = (("sof", 1), ("id", 11), ("srr", 1), ("ide", 1), ("ext_id", 18), ("rtr", 1), ("r1", 1), ("r0", 1), ("dlc", 4))


def field_at(bits, place):
    """The field of a frame that begins so, and which of its bits a place is (B 3.2.1)."""
    for word, width in EXTENDED_FIELDS if len(bits) > IDE and bits[IDE] else BASE_FIELDS:
        if place < width: return word, place
        place -= width
    data = frame_length(bits) - header(bits[IDE])[1] - 15
    return ("data", place) if place < data else ("crc", place - data)


def ending_field(place):
    if place.startswith("EOF"): return "eof", int(place[4:]) - 1
    return place.lower().replace(" ", "_"), 0


# ---- Counters: fault confinement (B 8)

class Counters:
    def __init__(self):
        self.tec = self.rec = 0

    def mode(self):
        if self.tec >= 256: return "off"
        return "passive" if max(self.tec, self.rec) >= 128 else "active"

    def apply(self, happened):
        word = happened.split()[0]
        if word in ("TxError", "PassiveAck", "TxFlagBit", "TxLong"): self.tec = min(256, self.tec + 8)
        if word == "RxError": self.rec = min(255, self.rec + 1)
        if word in ("RxAfterFlag", "RxFlagBit", "RxLong"): self.rec = min(255, self.rec + 8)
        if word == "Sent": self.tec = max(0, self.tec - 1)
        if word == "Acked": self.rec = max(0, min(127, self.rec - 1))
        if word == "Recovered": self.tec = self.rec = 0


# ---- Node: one quantum after another

STATES = {"waiting": "idle", "sending": "transmitting", "ending": "receiving", "wait": "waiting", "suspend": "suspended", "off": "bus_off"}


class Node:
    def __init__(self, setup):
        self.setup, self.bit_clock, self.machine, self.counters = setup, BitClock(setup.segments), Machine(), Counters()
        self.waiting = list(setup.queue)
        self.quanta, self.drive = 0, RECESSIVE
        self.changes, self.frames, self.phases = [], [], []
        self.samples = self.hards = self.errors = 0
        self.events = []
        self.starts, self.sampled, self.states = [], [], [(-1, self.state())]

    def next_tick(self):
        return self.setup.clock.at(self.quanta)

    def leave(self):
        """A quantum of a node that has left the bus: it drives recessive and looks no more (P)."""
        if self.drive == DOMINANT: self.changes.append(self.next_tick())
        self.drive = RECESSIVE
        self.quanta += 1

    def quantum(self, level):
        if self.setup.until is not None and self.quanta >= self.setup.until: return self.leave()
        stays = self.machine.idle(), self.machine.awaits_start(), self.drive == DOMINANT, self.machine.integrates()
        beat, sync = self.bit_clock.step(level, *stays)
        if sync == "Hard": self.hards += 1
        elif sync is not None: self.phases.append(sync)
        if sync is not None: self.events.append((self.quanta, self.samples, f"sync {'hard' if sync == 'Hard' else sync}"))
        if beat == "Start" and self.drive != self.machine.drive():
            self.drive = self.machine.drive()
            self.changes.append(self.next_tick())
        if beat == "Start": self.starts.append(self.next_tick())
        if beat == "Sample":
            self.sample(level)
            self.sampled.append(self.next_tick())
            self.states.append((self.next_tick(), self.state()))
        self.quanta += 1

    def state(self):
        """What it is at, in the words of a waveform: error counters, mode, and what it does."""
        word = STATES.get(self.machine.state, self.machine.state)
        if word == "flag": word = self.machine.flag_kind + "_flag"
        return self.counters.tec, self.counters.rec, self.counters.mode(), word

    def head(self):
        """The frame that it would send: its first one or, by priority, the one that wins arbitration among the first ones that are ready (P)."""
        ready = (queued.frame for queued in takewhile(lambda queued: queued.ready <= self.quanta, self.waiting))
        return min(ready, key=Frame.arbitration, default=None) if self.setup.by_priority else next(ready, None)

    def sample(self, level):
        self.samples += 1
        mode = self.counters.mode()
        head = self.head()
        if level == DOMINANT and not self.setup.segments.book: head = None  # a dominant bit is no start of frame of its own (P)
        where, state, role = self.machine.next_place(), self.machine.state, self.machine.role
        happened = self.machine.bit(level, head, mode)
        self.counters.apply(happened)
        self.note(where, state, role, happened, mode)
        if mode != "off" and self.counters.mode() == "off": self.machine.bus_off()
        if happened.startswith(("TxError", "RxError", "TxFree")): self.errors += 1
        if self.machine.done:
            what, frame = self.machine.done
            self.frames.append((what, self.quanta, frame))
            if what == "sent": self.waiting.pop(next(n for n, queued in enumerate(self.waiting) if queued.frame == frame))

    def note(self, where, state, role, happened, mode):
        """What the sample did, in the words of a trace."""
        words, machine = [], self.machine
        if state == "sending" and machine.state == "receiving": words.append(("lost", *where))
        if happened.startswith(("TxError", "RxError", "TxFree")):
            free = "Ack" if where[1] == "ack_slot" else "Stuff"
            kind = free if happened == "TxFree" else happened.split()[1]
            words.append(("error", kind.lower(), role.lower(), *where))
        new = self.counters.mode()
        if machine.state in ("flag", "passive_flag") and machine.count == 0 and new != "off":
            if state not in ("flag", "passive_flag"): words.append(("flag", machine.flag_kind))
        if machine.done: words.append((machine.done[0], frame_words(machine.done[1])))
        if mode != new: words.append(("mode", new, "tec", self.counters.tec, "rec", self.counters.rec))
        self.events += [(self.quanta, self.samples - 1, " ".join(map(str, line))) for line in words]


# ---- Line: what a node finds at a tick (part A, section 2, "Bus values"; fixed delays: P)

class Place(NamedTuple):
    x: int
    out_delay: int
    in_delay: int
    listens: bool = False  # what its node drives comes back to it, and to no other one (ISO 11898-1, bus monitoring)


class Line:
    def __init__(self, plan, nodes):
        self.nodes = nodes
        every = range(len(nodes))
        self.sources = [[(node, plan.delay(i, j)) for i, node in enumerate(nodes) if i == j or not plan.places[i].listens] for j in every]
        self.disturbed = [[(start + delay, end + delay) for node, x, start, end in plan.disturbances if node in (None, j)
                           for delay in [plan.places[j].in_delay if node == j else plan.place_delay(x, j)]] for j in every]

    def driven(self, j, tick):
        for node, delay in self.sources[j]:
            if bisect_right(node.changes, tick - delay) % 2 == 1: return True
        return False

    def is_disturbed(self, j, tick):
        return any(start <= tick < end for start, end in self.disturbed[j])

    def found(self, j, tick):
        return DOMINANT if self.driven(j, tick) or self.is_disturbed(j, tick) else RECESSIVE


# ---- Simulation: from quantum to quantum, in the order of their ticks

def simulate(plan):
    nodes = [Node(setup) for setup in plan.nodes]
    line = Line(plan, nodes)
    coming = [(node.next_tick(), number) for number, node in enumerate(nodes)]
    heapify(coming)
    while coming[0][0] < plan.end:
        tick, number = coming[0]
        nodes[number].quantum(line.found(number, tick))
        heapreplace(coming, (nodes[number].next_tick(), number))
    return nodes


# ---- Plan text (P): what a plan is, and the first fault of a text

class Queued(NamedTuple):
    frame: Frame
    ready: int


class Setup(NamedTuple):
    name: str
    clock: Clock
    segments: Segments
    queue: list
    by_priority: bool = False  # its queue is sent by priority, not in its order
    until: int | None = None  # the quantum from which on it has left the bus


class Plan(NamedTuple):
    nodes: list
    places: list
    per: int
    disturbances: list  # of (number of the one node or None, x, from, to)
    end: int
    limits: Limits = NARROW

    def delay(self, i, j):
        a, b = self.places[i], self.places[j]
        return a.out_delay + abs(a.x - b.x) * self.per + b.in_delay

    def place_delay(self, x, j):
        return abs(x - self.places[j].x) * self.per + self.places[j].in_delay

    def topology_fault(self):
        if not self.places: return "NoNodes"
        if len(self.places) > self.limits.nodes: return "TooManyNodes"
        pairs = [(i, j) for i in range(len(self.places)) for j in range(len(self.places))]
        for i, j in pairs:
            if self.delay(i, j) == 0: return f"ZeroDelay({i}, {j})"
        for i, j in pairs:
            if self.delay(i, j) > 2**20: return f"TooLong({i}, {j})"

    def fault(self):
        if self.end > self.limits.end: return "End"
        for i, node in enumerate(self.nodes):
            short = node.segments.book and node.segments.sample_at() == 3  # it may sample every third quantum
            if node.clock.quanta_before(self.end) > self.limits.quanta * (3 if short else 4) // 4: return f"Quanta({i})"
        for i, node in enumerate(self.nodes):
            if len(node.queue) > self.limits.queued: return f"Queue({i})"
        for n, (node, x, start, end) in enumerate(self.disturbances):
            far = any(self.place_delay(x, j) > 2**20 for j in range(len(self.places))) if node is None else node >= len(self.places)
            if start >= end or end > self.limits.end or n >= self.limits.disturbances or far: return f"Disturbance({n})"


def whole(low, end):
    return lambda value: type(value) is int and low <= value < end


def array_of(kind):
    return lambda value: type(value) is list and all(map(kind, value))


POSITIVE = whole(1, NUMBER_END)
NUMBER, SMALL, BYTE, PPM = whole(0, NUMBER_END), whole(0, SMALL_END), whole(0, 256), whole(-10**9, 10**9 + 1)
TOLERANCE = whole(0, 100_001)
TABLES = array_of(lambda value: type(value) is dict)
TRUTH = lambda value: type(value) is bool
SYNC = lambda value: type(value) is str and value in ("after", "book")
ORDER = lambda value: type(value) is str and value in ("fifo", "priority")
NAME = lambda value: type(value) is str and re.fullmatch("[A-Za-z0-9_-]{1,32}", value)
TOP = {"version": NUMBER, "end": NUMBER, "per": NUMBER, "node": TABLES}
FRACTION, NOMINAL = {"num": NUMBER, "den": NUMBER}, {"quantum": NUMBER, "ppm": PPM}
PLACE = {"x": SMALL, "out": NUMBER, "in": NUMBER}
LENGTHS = dict.fromkeys(("prop", "ps1", "ps2", "sjw"), NUMBER) | PLACE
CONTROLLER = dict.fromkeys(("tseg1", "tseg2", "sjw"), NUMBER) | PLACE
FRAME = {"id": SMALL, "dlc": SMALL}, {"remote": TRUTH, "bytes": array_of(BYTE), "ready": NUMBER, "extended": TRUTH}
INTERVAL = {"from": NUMBER, "to": NUMBER}


def frame_keys(version, table):
    required, optional = FRAME
    if version < 3: return required, optional
    if "count" in table: required = required | {"every": POSITIVE}
    later = {"deadline": NUMBER, "jitter": NUMBER} if version >= 4 else {}  # no run uses them
    return required, optional | {"every": POSITIVE, "count": POSITIVE} | later


def disturbance_keys(version, table):
    return {"node": NAME} | INTERVAL if version >= 3 and "node" in table else {"x": SMALL} | INTERVAL


def test_keys(table, required, optional):
    for key, kind in required.items():
        if key not in table: raise Fault(f"Missing({key})")
        if not kind(table[key]): raise Fault(f"Kind({key})")
    for key, kind in optional.items():
        if key in table and not kind(table[key]): raise Fault(f"Kind({key})")
    for key in sorted(table, key=str.encode):
        if key not in required and key not in optional: raise Fault(f"Unknown({key})")


def refuse(word, fault):
    if fault: raise Fault(word % fault)


def read_toml(text):
    if len(text) > 1_048_576: raise Fault("Size")
    try:
        document = tomllib.loads(text.decode())
    except (ValueError, RecursionError):
        raise Fault("Toml")
    values = [document]
    for value in values:
        if type(value) is int and not -2**63 <= value < 2**63: raise Fault("Toml")
        values += value.values() if type(value) is dict else value if type(value) is list else []
    return document


def clock_keys(table):
    return NOMINAL if "quantum" in table else FRACTION


def length_keys(version, table):
    return CONTROLLER if version >= 4 and ("tseg1" in table or "tseg2" in table) else LENGTHS


def read_plan(text):
    top = read_toml(text)
    if "version" in top and NUMBER(top["version"]) and top["version"] not in LIMITS_OF: raise Fault("Version")
    test_keys(top, TOP, {"disturbance": TABLES, "sync": SYNC})
    version = top["version"]
    for node in top["node"]:
        clock = {"rates": TABLES} if version == 2 or version >= 3 and "rates" in node else clock_keys(node)
        listen = {"listen": TRUTH} if version >= 3 else {}
        if version >= 4: listen |= {"ppm": PPM} if clock is FRACTION else {}
        if version >= 4: listen |= {"queue": ORDER, "until": NUMBER}
        test_keys(node, {"name": NAME, "offset": NUMBER} | clock | length_keys(version, node), {"frame": TABLES, "tolerance": TOLERANCE} | listen)
        for rate in node.get("rates", []): test_keys(rate, {"from": NUMBER} | clock_keys(rate), {})
        for frame in node.get("frame", []): test_keys(frame, *frame_keys(version, frame))
    for disturbance in top.get("disturbance", []): test_keys(disturbance, disturbance_keys(version, disturbance), {})
    if len({node["name"] for node in top["node"]}) < len(top["node"]): raise Fault("SameName")
    book = top.get("sync") == "book"
    nodes = [read_node(i, node, book, top) for i, node in enumerate(top["node"])]
    places = [Place(node["x"], node["out"], node["in"], node.get("listen", False)) for node in top["node"]]
    names = [node["name"] for node in top["node"]]
    number = lambda table: names.index(table["node"]) if table["node"] in names else len(names)
    disturbances = [(number(table) if "node" in table else None, table.get("x", 0), table["from"], table["to"])
                    for table in top.get("disturbance", [])]
    plan = Plan(nodes, places, top["per"], disturbances, top["end"], LIMITS_OF[version])
    refuse("Topology(%s)", plan.topology_fault())
    refuse("Plan(%s)", plan.fault())
    return plan


def table_frame(table):
    return Frame(table["id"], table.get("remote", False), table["dlc"], bytes(table.get("bytes", [])), table.get("extended", False))


def table_rate(i, start, table):
    if "quantum" not in table and "ppm" not in table: return Rate(start, table["num"], table["den"])
    refuse(f"NodeClock({i}, %s)", "" if abs(table["ppm"]) <= 100_000 else "BadPpm")
    if "quantum" in table: return Rate(start, table["quantum"] * (1_000_000 + table["ppm"]), 1_000_000)
    deviated = Fraction(table["num"] * (1_000_000 + table["ppm"]), table["den"] * 1_000_000)
    return Rate(start, deviated.numerator, deviated.denominator)


def instances(clock, end, table, ready, most):
    """The quanta at which a frame becomes ready: those of one that comes again only before the plan ends (P)."""
    if "every" not in table: return [ready]
    last = min(clock.quanta_before(end), ready + table["every"] * min(table.get("count", most), most))
    return range(ready, last, table["every"])


def node_segments(i, node, book):
    if "tseg1" not in node:
        segments = Segments(node["prop"], node["ps1"], node["ps2"], node["sjw"], book)
        refuse(f"NodeSegments({i}, %s)", segments.fault())
        return segments
    tseg1, tseg2, sjw = node["tseg1"], node["tseg2"], node["sjw"]
    refuse(f"NodeSegments({i}, %s)", controller_fault(tseg1, tseg2, sjw))
    ps1 = min(tseg1 - 1, tseg2)
    return Segments(tseg1 - ps1, ps1, tseg2, sjw, book)


def read_node(i, node, book, top):
    if "rates" in node:
        rates = [table_rate(i, table["from"], table) for table in node["rates"]]
    else:
        rates = [table_rate(i, 0, node)]
    clock, limits = Clock(node["offset"], rates), LIMITS_OF[top["version"]]
    refuse(f"NodeClock({i}, %s)", clock.fault(limits))
    segments = node_segments(i, node, book)
    queue = []
    for n, table in enumerate(node.get("frame", [])):
        frame = table_frame(table)
        refuse(f"NodeFrame({i}, {n}, %s)", frame.fault())
        most = limits.queued + 1  # one more than may wait is enough to refuse it
        queue += [Queued(frame, ready) for ready in instances(clock, min(top["end"], limits.end), table, table.get("ready", 0), most)]
        if top["version"] >= 3: queue = queue[:most]
    if top["version"] >= 3: queue.sort(key=lambda queued: queued.ready)
    until = clock.quanta_before(min(node["until"], WIDE.end)) if "until" in node else None
    return Setup(node["name"], clock, segments, queue, node.get("queue") == "priority", until)


# ---- Record text (P): one slot for each change and each silence

NUMERAL = "(0|[1-9][0-9]*)"
SHAPES = {"E": f"E {NUMERAL} {NUMERAL} {NUMERAL}", "C": f"C {NUMERAL} {NUMERAL}", "S": f"S {NUMERAL} {NUMERAL} {NUMERAL}"}
LIMITS = {"E": (16, 262_145, NUMBER_END), "C": (16, 262_145), "S": (16, 262_146, NUMBER_END)}


def read_records(text):
    """The records of a text, as ("E", node, seq, tick), ("C", node, seq) or ("S", node, count, until); or its first fault."""
    records, at, number = [], 0, 1
    while at < len(text):
        end = text.find(b"\n", at, min(at + 41, 2**27))
        if end < 0: raise Fault(f"TooLong({number})" if len(text) > min(at + 40, 2**27) else "Truncated")
        line = text[at:end].decode("latin-1")
        shape = re.fullmatch(SHAPES.get(line[:1], "(?!)"), line)
        if not shape: raise Fault(f"Line({number})")
        numbers = tuple(map(int, shape.groups()))
        if any(n >= limit for n, limit in zip(numbers, LIMITS[line[0]])): raise Fault(f"Range({number})")
        records.append((line[0],) + numbers)
        at, number = end + 1, number + 1
    return records


def slots_of(records):
    """For each node the ticks of its changes ("clash" where two differ), and the greatest end of each of its silences."""
    changes, silences = [{} for _ in range(16)], [{} for _ in range(16)]
    for kind, node, number, *word in records:
        if kind == "S": silences[node][number] = max(word[0], silences[node].get(number, 0))
        if kind == "C": changes[node][number] = "clash"
        if kind == "E" and changes[node].setdefault(number, word[0]) != word[0]: changes[node][number] = "clash"
    return changes, [{count: until for count, until in of_node.items() if until > 0} for of_node in silences]


def merge_text(records):
    lines = []
    for node, (changes, silences) in enumerate(zip(*slots_of(records))):
        for seq, tick in sorted(changes.items()):
            lines.append(f"C {node} {seq}" if tick == "clash" else f"E {node} {seq} {tick}")
        lines += [f"S {node} {count} {until}" for count, until in sorted(silences.items())]
    return lines


def horizon_text(records):
    lines = []
    for node, (changes, silences) in enumerate(zip(*slots_of(records))):
        if not changes and not silences: continue
        run = []
        while (tick := changes.get(len(run), "clash")) != "clash":
            if run and tick <= run[-1] or tick < silences.get(len(run), 0): break
            run.append(tick)
        horizon = max([tick + 1 for tick in run[-1:]] + [until for count, until in silences.items() if count <= len(run)], default=0)
        lines.append(f"H {node} {len(run)} {horizon}")
        ends = run[1::2] + [horizon]
        lines += [f"D {node} {start} {end}" for start, end in zip(run[0::2], ends)]
    return lines


# ---- Output texts (P)

def check_text(plan):
    lines = []
    for i, node in enumerate(plan.nodes):
        timing = node.segments
        lines.append(f"node {i} {node.name} quanta {timing.bit_quanta()} sample {timing.sample_at()} jump {timing.sjw} "
                     f"ppm {timing.greatest_ppm()}")
    pairs = [(i, j) for i in range(len(plan.nodes)) for j in range(i + 1, len(plan.nodes))]
    return lines + [f"pair {i} {j} delay {plan.delay(i, j)} back {plan.delay(j, i)}" for i, j in pairs]


def records_text(plan):
    lines = []
    for i, node in enumerate(simulate(plan)):
        lines += [f"E {i} {seq} {tick}" for seq, tick in enumerate(node.changes)]
        lines.append(f"S {i} {len(node.changes)} {plan.end}")
    return lines


def frame_words(frame):
    kind = "remote" if frame.remote else "data"
    return f"{frame.id:0{8 if frame.extended else 3}x} {kind} {frame.dlc} {frame.data.hex() or '-'}"


def trace_text(plan):
    lines = []
    for i, (setup, node) in enumerate(zip(plan.nodes, simulate(plan))):
        for quantum, bit, words in node.events:
            tick = setup.clock.at(quantum)
            lines.append((tick, f"{tick} {i} {setup.name} q {quantum} b {bit} {words}"))
    return [line for _, line in sorted(lines, key=lambda line: line[0])]


SIGNALS = (("wire 1", "t", "tx"), ("wire 1", "r", "rx"), ("wire 1", "w", "cable"), ("wire 1", "n", "disturbance"), ("wire 1", "s", "sample"), ("wire 1", "b", "start"),
           ("real 64", "e", "tec"), ("real 64", "c", "rec"), ("string 1", "m", "mode"), ("string 1", "d", "state"))


def waves(line, i, node):
    """The signals of a node, each as a list of ticks from which on it has a value; tick -1 is before all."""
    def turning(ticks, first): return [(-1, str(first))] + [(tick, str((first + turns) % 2)) for turns, tick in enumerate(ticks, 1)]

    edges = {tick + delay for other, delay in line.sources[i] for tick in other.changes}
    turns = {tick for disturbance in line.disturbed[i] for tick in disturbance}
    found = [(-1, "1")] + [(tick, str(line.found(i, tick))) for tick in sorted(edges | turns)]
    cable = [(-1, "1")] + [(tick, str(int(not line.driven(i, tick)))) for tick in sorted(edges)]
    disturbed = [(-1, "0")] + [(tick, str(int(line.is_disturbed(i, tick)))) for tick in sorted(turns)]
    states = [[(tick, at[part]) for tick, at in node.states] for part in range(4)]
    tec, rec = ([(tick, f"r{count} ") for tick, count in counts] for counts in states[:2])
    mode, state = ([(tick, f"s{word} ") for tick, word in words] for words in states[2:])
    return turning(node.changes, RECESSIVE), found, cable, disturbed, turning(node.sampled, 0), turning(node.starts, 0), tec, rec, mode, state


def vcd_text(plan):
    """The waveform, with a tick of 1 ns (IEEE 1364-2005, clause 18.2)."""
    nodes = simulate(plan)
    line, lines, first, changes = Line(plan, nodes), ["$timescale 1 ns $end"], [], []
    for i, (setup, node) in enumerate(zip(plan.nodes, nodes)):
        lines += [f"$scope module {setup.name} $end"]
        lines += [f"$var {kind} {letter}{i} {setup.name}_{word} $end" for kind, letter, word in SIGNALS] + ["$upscope $end"]
        for (_, letter, _), wave in zip(SIGNALS, waves(line, i, node)):
            now = [value for tick, value in wave if tick <= 0][-1]
            first.append(f"{now}{letter}{i}")
            for tick, value in wave:
                if 0 < tick < plan.end and value != now: changes.append((tick, f"{value}{letter}{i}"))
                if 0 < tick: now = value
    lines += ["$enddefinitions $end", "#0", "$dumpvars", *first, "$end"]
    last = 0
    for tick, words in sorted(changes, key=lambda change: change[0]):
        if tick != last: lines.append(f"#{tick}")
        last = tick
        lines.append(words)
    return lines + [f"#{plan.end}"]


def report_text(plan):
    nodes, lines = simulate(plan), []
    for i, node in enumerate(nodes):
        least, greatest = min(node.phases, default="-"), max(node.phases, default="-")
        lines.append(f"node {i} tec {node.counters.tec} rec {node.counters.rec} mode {node.counters.mode()} errors {node.errors} "
                     f"samples {node.samples} hard {node.hards} sync {len(node.phases)} least {least} greatest {greatest}")
        for what, quantum, frame in node.frames:
            lines.append(f"frame {i} {what} {quantum} {frame_words(frame)}")
    errors, unsent = sum(node.errors for node in nodes), sum(len(node.waiting) for node in nodes)
    return lines + [f"verdict faulty errors {errors} unsent {unsent}" if errors or unsent else "verdict clean"]


def mean_quantum(clock, end):
    """The mean of the quanta that begin before the end, in whole millionths of a tick, as a fraction of ticks.

    Whole ticks leave a range for the mean of n quanta. Where it meets that of the first million quanta, the million tells the mean.
    """
    def taken(quanta): return clock.at(quanta) - clock.at(0)

    def span(quanta): return Fraction(taken(quanta), quanta), Fraction(taken(quanta) + 1, quanta)

    run, million = max(1, clock.quanta_before(end)), 1_000_000
    (low, high), (least, most) = span(run), span(million)
    return Fraction(int((least if low < most and least < high else low) * million), million)


def pair_doubts(plan, i, j, quanta):
    """What is doubtful of nodes i < j, whose mean quanta are known."""
    one, other = plan.nodes[i], plan.nodes[j]
    bits = sorted(node.segments.bit_quanta() * quantum for node, quantum in ((one, quanta[i]), (other, quanta[j])))
    apart, borne = int((bits[1] - bits[0]) / bits[0] * 1_000_000), 2 * min(one.segments.greatest_ppm(), other.segments.greatest_ppm())
    if apart > 222_222:
        rates = [thousandths(10**9 / (node.segments.bit_quanta() * quantum)) for node, quantum in ((one, quanta[i]), (other, quanta[j]))]
        yield f"doubt: {one.name} and {other.name} have unlike bit rates, {rates[0]} and {rates[1]} kbit/s"
    elif apart > borne:
        yield f"doubt: the clocks of {one.name} and {other.name} are {apart} ppm apart, and their segments bear {borne}"
    trip, room = plan.delay(i, j) + plan.delay(j, i), min(int((plan.nodes[k].segments.sample_at() - 1) * quanta[k]) for k in (i, j))
    if trip > room and not (plan.places[i].listens or plan.places[j].listens):
        yield f"doubt: {one.name} to {other.name} and back takes {trip} ticks, and the earlier sample leaves {room}"


def node_doubts(plan, node, idle):
    if node.segments.sjw > node.segments.ps2:
        yield f"doubt: {node.name} has a jump width of {node.segments.sjw} quanta, above its PHASE_SEG2 of {node.segments.ps2}"
    ticks = [node.clock.at(waiting.ready) for waiting in node.queue]
    for number in [n for n, tick in enumerate(ticks) if tick >= plan.end][:1]:
        yield f"doubt: frame {number} of {node.name} becomes ready at the end or later"
    for number in [n for n, tick in enumerate(ticks) if tick < idle][:1]:
        yield f"doubt: frame {number} of {node.name} becomes ready before tick {idle}, from which on all nodes can be idle"


def room_doubts(plan, node):
    """A node sends its frames one after another, and takes a sample for each of their bits: 11 before, and three between two frames."""
    frames = [(64 if waiting.frame.extended else 44) + 8 * len(waiting.frame.data) for waiting in node.queue]
    bits, way = 11 + sum(frames) + 3 * (len(frames) - 1), node.segments.sample_at() - node.segments.book
    if frames and node.clock.at(bits * (1 + way) - 1) >= plan.end:
        yield f"doubt: 11 bits and the frames of {node.name} take at least {bits} bits, beyond the end"


def thousandths(number):
    whole, part = divmod(int(number), 1000)
    return f"{whole}.{part:03}"


def timing(node, quantum):
    """What each line of figures begins with; a tick is taken for a nanosecond."""
    segments = node.segments
    point = 10_000 * segments.sample_at() // segments.bit_quanta()
    return (f"node {node.name}: {thousandths(10**9 / (segments.bit_quanta() * quantum))} kbit/s, sample point {point // 100}.{point % 100:02} %, "
            f"quantum {thousandths(1000 * quantum)} ns")


def figures(plan, i, quanta):
    """The line of node i without `sync = "book"`. A way there and back and a quantum have to be over by the sample."""
    node, quantum = plan.nodes[i], quanta[i]
    segments, bit = node.segments, node.segments.bit_quanta() * quantum
    left = 2 * segments.greatest_ppm()
    for other, each in zip(plan.nodes, quanta):
        bits = sorted((bit, other.segments.bit_quanta() * each))
        borne = 2 * min(segments.greatest_ppm(), other.segments.greatest_ppm())
        left = min(left, max(0, borne - int((bits[1] - bits[0]) / bits[0] * 1_000_000)))
    cable = int((segments.sample_at() - 1) * quantum / 2) - plan.delay(i, i)
    return (f"{timing(node, quantum)}, tolerance {segments.greatest_ppm()} ppm, left {left // 2} ppm, cable "
            f"{f'{cable} ns, {cable // 5} m at 5 ns a metre' if cable >= 0 else 'none'}")


def explain_text(plan, top):
    """By the inequalities of margin.py with `sync = "book"`, and else by clocks and ways each for itself."""
    import margin
    nodes, book = range(len(plan.nodes)), all(node.segments.book for node in plan.nodes)
    quanta = [mean_quantum(node.clock, plan.end) for node in plan.nodes]
    clocks, outside = margin.clocks_of(top), margin.outside(plan)
    text = margin.Text(margin.Family(plan, clocks), 1_000) if book and margin.are_clocks(clocks) else None
    lines = ["doubt: " + outside.removeprefix("does not hold: ")] if outside else []
    if not book: lines += [line for j in nodes for i in range(j) for line in pair_doubts(plan, i, j, quanta)]
    elif not text: lines.append("doubt: " + margin.NO_CLOCK)
    else: lines += ["doubt: " + said for said in text.doubts(quanta)]
    idle = max(node.clock.at(11 * node.segments.bit_quanta()) for node in plan.nodes)
    lines += [line for node in plan.nodes for line in node_doubts(plan, node, idle)]
    lines += [line for node in plan.nodes for line in room_doubts(plan, node)]
    if not book: return lines + [figures(plan, i, quanta) for i in nodes]
    figured = text.searches(2) if text and len(nodes) > 1 else []
    return lines + [timing(node, quantum) for node, quantum in zip(plan.nodes, quanta)] + list(figured)


COMMANDS = {
    "merge": lambda text: merge_text(read_records(text)),
    "horizon": lambda text: horizon_text(read_records(text)),
    "check": lambda text: check_text(read_plan(text)),
    "records": lambda text: records_text(read_plan(text)),
    "run": lambda text: report_text(read_plan(text)),
    "explain": lambda text: explain_text(read_plan(text), read_toml(text)),
    "trace": lambda text: trace_text(read_plan(text)),
    "vcd": lambda text: vcd_text(read_plan(text)),
}


def answer(command, text):
    """Standard output, standard error and status for an input."""
    try:
        return "".join(line + "\n" for line in COMMANDS[command](text)), "", 0
    except Fault as fault:
        return "", f"fault: {fault}\n", 1


def main():
    if len(sys.argv) != 2 or sys.argv[1] not in COMMANDS:
        sys.exit(sys.stderr.write(__doc__) and 2)
    out, fault, status = answer(sys.argv[1], sys.stdin.buffer.read())
    sys.stdout.write(out)
    sys.stderr.buffer.write(fault.encode())
    sys.exit(status)


if __name__ == "__main__":
    main()
