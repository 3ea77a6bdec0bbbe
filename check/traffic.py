#!/usr/bin/env python3
"""The traffic of plans by a second program, over plain.py's simulation: load and gap of the bus, what each message waited, and why a run
didn't work. It shares no line with the proved program. The definitions are in docs/use/traffic.md, and that of a silence in docs/bus/noise.md.
What `margin` says of a disturbed bus is margin.py's. Bounds of waits are in check/respond.py.

usage: traffic.py [text [TICK]]    the traffic of a plan from standard input

It is the comparison `traffic` of compare.py, too.
"""
import bisect
import random
import re
import sys
from collections import Counter
from itertools import zip_longest
from pathlib import Path

sys.dont_write_bytecode = True
import margin
import plain
import random_plans
from tally import asked_bare

PICOSECONDS = {"ps": 1, "ns": 1_000, "us": 1_000_000}
EXAMPLE = Path(__file__).resolve().parent.parent / "examples/periodic_500k.toml"
TROUBLE = ("waiting", "delimiter")
QUIET = ("idle", "suspended", "integrating", "bus_off")


def spread(values):
    """Least, mean in hundredths, and greatest."""
    if not values: return "least - mean - greatest -"
    return f"least {min(values)} mean {hundredths(100 * sum(values) // len(values))} greatest {max(values)}"


def hundredths(number):
    return f"{number // 100}.{number // 10 % 10}{number % 10}"


def pauses(setups, nodes, end):
    """The times, from one tick to another, in which no node finds the bus busy. A node that leaves the bus finds nothing from then on."""
    begins, stops = Counter(), Counter()
    for setup, node in zip(setups, nodes):
        gone = end if setup.until is None else min(end, setup.clock.at(setup.until))
        ticks = [tick for tick, _ in node.states[1:]] + [gone]
        for (tick, words), after in zip(node.states[1:], ticks[1:]):
            if words[3] in QUIET or after <= tick: continue
            begins[tick] += 1
            stops[after] += 1
    found, at, busy = [], 0, 0
    for tick in sorted(begins | stops) + [end]:
        if not busy and at < tick: found.append((at, tick))
        at, busy = tick, busy + begins[tick] - stops[tick]
    return found


def bus_words(free, end, tick):
    lengths = [after - before for before, after in free]
    load = 10_000 * (end - sum(lengths)) // end if end else 0
    return f"bus load {hundredths(load)} % gap {max(lengths, default=0) * tick // 1_000_000} us"


def key(frame):
    return frame.extended, frame.id


class Watched(plain.Node):
    """A node that keeps its attempts that failed: quantum, frame, and whether it was lost or broken."""

    def __init__(self, setup):
        super().__init__(setup)
        self.tries, self.recessive, self.joined, self.last = [], 0, None, None

    def sample(self, level):
        super().sample(level)
        self.recessive = self.recessive + 1 if level == plain.RECESSIVE else 0
        self.last = self.quanta
        if self.recessive == 11 and self.joined is None: self.joined = self.quanta

    def note(self, *what):
        before = len(self.events)
        super().note(*what)
        for quantum, _, words in self.events[before:]:
            if words.startswith("lost "): self.tries.append((quantum, self.machine.frame, "lost"))
            if words.startswith("error ") and words.split()[2] == "tx" and words.split()[4] != "delimiter":
                self.tries.append((quantum, self.machine.frame, "broken"))


def fates(setup, node):
    """Of each place in the queue the quantum at which it was sent, and how often it was lost and broken: the first unsent place of equal frames is meant."""
    left, sent, failed = list(enumerate(setup.queue)), {}, Counter()
    done = [(quantum, frame, "sent") for what, quantum, frame in node.frames if what == "sent"]
    for quantum, frame, how in sorted(done + node.tries, key=lambda it: it[0]):
        at = next(n for n, (_, waiting) in enumerate(left) if waiting.frame == frame)
        if how == "sent": sent[left.pop(at)[0]] = quantum
        else: failed[left[at][0], how] += 1
    return sent, failed


def last_quantum(setup, node):
    return bisect.bisect_left(range(node.quanta), node.sampled[-1], key=setup.clock.at) if node.sampled else -1


def messages(i, setup, node, tick):
    queue = setup.queue
    done, failed = fates(setup, node)
    last = last_quantum(setup, node)
    for message in dict.fromkeys(key(waiting.frame) for waiting in queue):
        mine = [(place, waiting.ready) for place, waiting in enumerate(queue) if key(waiting.frame) == message]
        sent = [(ready, done[place]) for place, ready in mine if place in done]
        left = [ready for place, ready in mine if place not in done]
        quanta = [end - ready for ready, end in sent]
        ticks = [setup.clock.at(end) - setup.clock.at(ready) for ready, end in sent]
        waits = sent + [(ready, float("inf")) for ready in left]
        waiting = [sum(start <= at < end for start, end in waits) for at, _ in waits if at <= last]
        lost, broken = (sum(failed[place, how] for place, _ in mine) for how in ("lost", "broken"))
        yield (f"message {i} {setup.name} {digits(message)} sent {len(sent)} left {len(left)} waiting {max(waiting, default=0)} "
               f"lost {lost} broken {broken} "
               f"quanta {spread(quanta)} us {spread([time * tick // 1_000_000 for time in ticks])}")


def digits(message):
    return f"{message[1]:0{8 if message[0] else 3}x}"


class Message:
    """The frames of a message that became ready in time: for how many ticks each waits, whether it was sent, and whether others were meanwhile."""

    def __init__(self, setup, node, message):
        done, last = fates(setup, node)[0], last_quantum(setup, node)
        places = [place for place, waiting in enumerate(setup.queue) if key(waiting.frame) == message and waiting.ready <= last]
        ready = [setup.queue[place].ready for place in places]
        ticks = [setup.clock.at(quantum) for quantum in ready]
        until = [setup.clock.at(done.get(place, last)) for place in places]
        received = [quantum for what, quantum, _ in node.frames if what != "sent"]
        self.name, self.message = setup.name, message
        self.frames = []
        for place, begin, before, after in zip(places, ready, ticks, until):
            stop = done.get(place, last)
            self.frames.append((after - before, place in done, any(begin < quantum <= stop for quantum in received)))
        apart = {after - before for before, after in zip(ready, ready[1:])}
        self.period = ticks[1] - ticks[0] if len(ready) > 2 and len(apart) == 1 else 0

    def judge(self, longest):
        self.allowed = self.period or longest
        late = [(waits, sent, passed) for waits, sent, passed in self.frames if waits > self.allowed > 0 and (self.period or not sent)]
        self.waits = max((waits for waits, _, _ in late), default=None)
        self.left = not all(sent for _, sent, _ in late)
        self.starved = all(passed for _, _, passed in late)


def late_messages(setups, nodes):
    found = [Message(setup, node, message) for setup, node in zip(setups, nodes)
             for message in dict.fromkeys(key(waiting.frame) for waiting in setup.queue)]
    longest = max((message.period for message in found), default=0)
    for message in found: message.judge(longest)
    return [message for message in found if message.waits is not None]


def late_words(message, tick):
    word = "starved" if message.starved else "overloads"
    waits, allowed = message.waits * tick // 1_000_000, message.allowed * tick // 1_000_000
    return f"{word} {message.name} {digits(message.message)} waits {waits} us allowed {allowed} us"


def trouble_until(setup, node, end):
    """Until which tick a node is at a flag or its delimiter."""
    gone = end if setup.until is None else min(end, setup.clock.at(setup.until))
    ticks = [tick for tick, _ in node.states[1:]] + [gone]
    return max((max(tick, after) for (tick, words), after in zip(node.states[1:], ticks[1:]) if words[3].endswith("_flag") or words[3] in TROUBLE), default=0)


def healed(plan, nodes, tick):
    """From when on no node is at a flag or its delimiter after the last disturbance, if all is over before the end and no node was bus off."""
    last = max((to for _, _, _, to in plan.disturbances), default=0)
    if not last or any(state[3] == "bus_off" for node in nodes for _, state in node.states): return
    clean = max([last] + [trouble_until(setup, node, plan.end) for setup, node in zip(plan.nodes, nodes)])
    if clean < plan.end: yield f"healed {(clean - last) * tick // 1_000_000} us after the last disturbance, clean from tick {clean} on"


def lack(text, plan, tick):
    """What `margin` names first that the law on a silence lacks of the plan without its disturbances, in its words, or None. Its times of first frames don't count."""
    top = plain.read_toml(text)
    clocks = margin.clocks_of(top)
    if not margin.are_clocks(clocks): return margin.NO_CLOCK
    family = margin.Family(plan, clocks)
    said = margin.stray_line(top, plan, family) or margin.outside(plan)
    if said: return said
    family.all_send, words = True, margin.Text(family, tick)
    of_any, of_one = (next(family.failures(one), None) for one in (False, True))
    if of_any: return f"any senders: {words.failure(*of_any)}" if of_one is None else f"does not hold: {words.failure(*of_one)}"
    turning = any(len(rates) > 1 for rates, _ in clocks)
    leavers = [] if turning else [f"{node.name} leaves the bus" for node in plan.nodes if node.until is not None]
    causes = leavers or list(words.causes(True))
    return f"not proved: {causes[0]}" if causes else None


def fit_since(node):
    """The tick since which a node is on the bus and error active, by its samples up to the last one, or None."""
    since = node.setup.clock.at(0)
    for tick, (_, _, mode, word) in node.states[1:]:
        if mode != "active" or word == "bus_off": since = None
        elif since is None: since = tick
    return since


def first_pause(plan, nodes, settled):
    """The first tick from which on nobody drives dominant for 36 bits of each node and a quantum, after what was driven before has come to it; and the tick after them."""
    way = [max(plan.delay(k, i) for k in range(len(nodes))) for i in range(len(nodes))]
    bits = [setup.clock.at(36 * setup.segments.bit_quanta() + 1) - setup.clock.at(0) for setup in plan.nodes]
    long = max(map(sum, zip(way, bits)))
    driven = [stretch for node in nodes for stretch in zip_longest(node.changes[::2], node.changes[1::2], fillvalue=plan.end)]
    at = settled
    for start, stop in sorted(driven):
        if at + long < start: break
        at = max(at, stop)
    return at, at + long + 1


def silent(text, plan, nodes, tick):
    """From which tick on a disturbed bus is clean, by the law on a silence, or why that isn't proved."""
    if not plan.disturbances: return
    lacking = lack(text, plan, tick)
    if lacking: return (yield f"not proved clean; margin: {lacking}")
    since = [fit_since(node) for node in nodes]
    if None in since: return (yield f"not proved clean: {plan.nodes[since.index(None)].name} is error passive or bus off at the end")
    over = [end for stretches in plain.Line(plan, nodes).disturbed for start, end in stretches if start < plan.end]
    begin, end = first_pause(plan, nodes, max(since + over))
    if end <= plan.end: yield f"clean from tick {end} on, after a silence from tick {begin} on, proved: a_silent_run_speaks_for_each_plan"
    else: yield "not proved clean: no silence of 36 bits follows the disturbances"


def kind_of(frame):
    return frame.extended, frame.id, frame.remote


def ticks_of(setup, node, sent, kind):
    return [setup.clock.at(quantum) for what, quantum, frame in node.frames if (what == "sent") == sent and kind_of(frame) == kind]


def unequal(setups, nodes):
    """Of each kind of frame that one node alone has sent, and each other node: how many it misses, and how many it has taken twice. What it has
    received since the sender's last such frame was sent belongs to the next one."""
    both = list(zip(setups, nodes))
    for i, (setup, node) in enumerate(both):
        for kind in dict.fromkeys(kind_of(frame) for what, _, frame in node.frames if what == "sent"):
            if any(ticks_of(*other, True, kind) for k, other in enumerate(both) if k != i): continue
            sent = ticks_of(setup, node, True, kind)
            for k, (at, other) in enumerate(both):
                if k == i: continue
                taken = ticks_of(at, other, False, kind)
                each = [sum(before < tick <= after for tick in taken) for before, after in zip([-1] + sent, sent)]
                there = lambda tick: other.joined is not None and at.clock.at(other.joined) < tick <= at.clock.at(other.last)
                missed, twice = sum(not n and there(tick) for n, tick in zip(each, sent)), sum(1 < n for n in each)
                for word, count in (("missed", missed), ("twice", twice)):
                    if count: yield f"{word} {at.name} {count} of {len(sent)} frames of {setup.name} {digits(kind)}"


def verdict(setups, nodes, full, tick, words):
    """The lines of the causes, and that of the reason."""
    if any(state[3] == "bus_off" for node in nodes for _, state in node.states): return ["verdict bus off"]
    if any(line.startswith("missed ") for line in words): return ["verdict missed"]
    if any(line.startswith("twice ") for line in words): return ["verdict taken twice"]
    if any(node.errors for node in nodes): return ["verdict errors"]
    late = late_messages(setups, nodes)
    lines = [late_words(message, tick) for message in late]
    stuck = any(message.left and message.allowed < full for message in late)
    if stuck: lines = [f"full for the last {full * tick // 1_000_000} us"] + lines
    if stuck or not all(message.starved for message in late): return lines + ["verdict overloaded"]
    if late: return lines + ["verdict starved"]
    if any(node.waiting for node in nodes): return ["verdict ends too early"]
    passed = [(setup.name, len(node.frames)) for setup, node in zip(setups, nodes) if node.samples]
    most = max((count for _, count in passed), default=0)
    deaf = [f"deaf {name} {count} of {most} frames" for name, count in passed if count < most]
    return deaf + [f"verdict {'deaf' if deaf else 'works'}"]


def traffic_text(text, tick=1_000):
    plan = plain.read_plan(text)
    nodes = plain.simulate(plan)
    free = pauses(plan.nodes, nodes, plan.end)
    full = plan.end - max((after for _, after in free), default=0)
    lines = [bus_words(free, plan.end, tick)]
    for i, (setup, node) in enumerate(zip(plan.nodes, nodes)): lines += messages(i, setup, node, tick)
    words = list(unequal(plan.nodes, nodes))
    return lines + words + list(healed(plan, nodes, tick)) + list(silent(text, plan, nodes, tick)) + verdict(plan.nodes, nodes, full, tick, words)


def picoseconds(word):
    return int(word[:-2]) * PICOSECONDS[word[-2:]]


plain.Node = Watched
plain.COMMANDS["traffic"] = traffic_text


def busy_input(rng):
    """A plan of periodic messages, many of them more often than the bus can take; now and then a node comes late."""
    text = EXAMPLE.read_text()
    text = re.sub(r"every = [0-9_]+", lambda _: f"every = {rng.choice((1_600, 2_400, 3_200, 4_000, 6_000, 8_000, 12_000, 16_000, 24_000))}", text)
    text = re.sub(r"ready = [0-9]+", lambda _: f"ready = {rng.randrange(300, 4_000)}", text)
    text = re.sub(r", every = [0-9]+", lambda found: rng.choice((found[0],) * 3 + ("", f"{found[0]}, count = {rng.randrange(1, 4)}")), text)
    text = re.sub(r", count = 3 \}", " }", text)
    if rng.random() < 0.2: text = text.replace("offset = 900", f"offset = {rng.randrange(900, 900_000)}")
    return re.sub(r"end = [0-9_]+", f"end = {rng.randrange(1_000, 5_000)}_000", text).encode()


def traffic(tally, program, seed, numbers, options):
    for number in numbers:
        rng = random.Random(f"{seed} {number}")
        text = busy_input(rng) if number % 2 else random_plans.plan_input(rng, random.Random(f"{seed} {number} sync"), "mixed")
        wanted = plain.answer("traffic", text)
        tally.tried += 1
        tally.count("answers", (wanted[0].splitlines() or ["refused"])[-1])
        tally.compare(f"plan {number} of seed {seed}", "traffic", text, asked_bare(program, "traffic", text=text), wanted)


def main():
    words = sys.argv[1:]
    if words[:1] not in ([], ["text"]): sys.exit(__doc__)
    try:
        lines = traffic_text(sys.stdin.buffer.read(), picoseconds((words[1:] + ["1ns"])[0]))
    except plain.Fault as fault:
        sys.exit(f"fault: {fault}")
    print("\n".join(lines))


if __name__ == "__main__":
    main()
