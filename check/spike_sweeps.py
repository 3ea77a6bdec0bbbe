#!/usr/bin/env python3
"""Sweeps of spikes by a second program: plain.py runs each member, and traffic.py says why it didn't work. The definitions are in docs/use/spikes.md.
It shares no line with the proved program.

usage: spike_sweeps.py --spike NODE|x=PLACE --length LENGTH [--step TICKS] [--runs N] [--print N] < PLAN      as `sweep` has it; lengths are ticks or units

It is the comparison `spikes` of compare.py, too.
"""
import random
import re
import sys
import tomllib
from fractions import Fraction

sys.dont_write_bytecode = True
import plain
import traffic
from tally import asked

CLASSES = "clean", "healed", "late", "unhealed", "twice", "missed", "bus off", "refused"
FIRSTS = "refused", "bus off", "missed", "twice", "unhealed", "late", "healed"
SECONDS = {"fs": 1, "ps": 10**3, "ns": 10**6, "us": 10**9, "ms": 10**12, "s": 10**15}  # in femtoseconds
METRES = {"um": 1, "mm": 10**3, "cm": 10**4, "m": 10**6, "km": 10**9}  # in micrometres
CLASS_OF = {"bus off": "bus off", "missed": "missed", "taken twice": "twice"}


def target_of(plan, word):
    """The node's number or None, its place, and how the output calls it."""
    if word.startswith("x="): return None, int(word[2:]), word
    names = [setup.name for setup in plan.nodes]
    number = names.index(word) if word in names else int(word)
    return number, 0, names[number]


def with_spike(plan, target, start, length):
    return plan._replace(disturbances=[*plan.disturbances, (target[0], target[1], start, start + length)])


def aftermath(plan, to):
    """The class of a member, the ticks of trouble after its spike, and the greatest counters at its end."""
    if plan.fault(): return "refused", 0, 0, 0
    nodes = plain.simulate(plan)
    free = traffic.pauses(plan.nodes, nodes, plan.end)
    full = plan.end - max((after for _, after in free), default=0)
    reason = traffic.verdict(plan.nodes, nodes, full, 1_000, list(traffic.unequal(plan.nodes, nodes)))[-1].removeprefix("verdict ")
    trouble = max((traffic.trouble_until(setup, node, plan.end) for setup, node in zip(plan.nodes, nodes)), default=0)
    is_open = any(node.waiting for node in nodes) or trouble >= plan.end
    closed = {"works": "clean", "errors": "healed"}.get(reason, "late")
    found = CLASS_OF.get(reason) or ("unhealed" if is_open else closed)
    return found, max(trouble - to, 0), max(node.counters.tec for node in nodes), max(node.counters.rec for node in nodes)


def first_bit(text):
    """The ticks of a bit of the first node, by its quantum without `ppm`."""
    node = tomllib.loads(text.decode())["node"][0]
    rate = node.get("rates", [node])[0]
    quanta = 1 + (node["prop"] + node["ps1"] + node["ps2"] if "prop" in node else node["tseg1"] + node["tseg2"])
    return max(rate["quantum"] if "quantum" in rate else rate["num"] // rate["den"], 1) * quanta


def spikes_text(text, word, length, step=None, runs=1000):
    """The output and the status, and how many members are of which class."""
    plan = plain.read_plan(text)
    target = target_of(plan, word)
    step = step or max(-(-plan.end // runs), 1)
    members = [aftermath(with_spike(plan, target, start, length), start + length) for start in range(0, plan.end, step)]
    classes = [member[0] for member in members]
    count = {name: classes.count(name) for name in CLASSES}
    longest, tec, rec = (max((member[k] for member in members), default=0) for k in (1, 2, 3))
    words = "".join(f", {name} in {count[name]}" for name in CLASSES[1:])
    lines = [f"spike {target[2]} length {length} step {step} clean in {count['clean']} of {len(members)}{words}; "
             f"longest {-(-longest // first_bit(text))} bits; tec {tec}, rec {rec}"]
    lines += [f"first {name}: member {classes.index(name)}, from = {classes.index(name) * step}" for name in FIRSTS if name in classes]
    return "\n".join(lines) + "\n", int(count["clean"] + count["healed"] < len(members)), count


def node_text(rng, i, quantum, segments, bit):
    prop, ps1, ps2 = segments
    frames = [f"{{ id = {0x100 + 16 * i + k}, dlc = {rng.choice((0, 0, 1))}, bytes = [], ready = {rng.randrange(11, 24) * bit} }}"
              for k in range(rng.choice((1, 1, 2) if i == 0 else (0, 0, 1)))]
    frames = [frame.replace("dlc = 1, bytes = []", f"dlc = 1, bytes = [{rng.randrange(256)}]") for frame in frames]
    return f"""
[[node]]
name = "{"abcd"[i]}"
offset = {rng.randrange(bit * quantum)}
quantum = {quantum}
ppm = {rng.choice((0, rng.randrange(-1500, 1501)))}
prop = {prop}
ps1 = {ps1}
ps2 = {ps2}
sjw = {rng.randrange(1, min(ps1, ps2, 4) + 1)}
x = {rng.randrange(12)}
out = {rng.randrange(10, 60)}
in = {rng.randrange(10, 60)}
frame = [{", ".join(frames)}]
"""


def random_input(rng):
    """A short plan of version 3, at times with a disturbance of its own, and a spike in it: a text and the words of `sweep`."""
    quantum, segments = 100, (rng.randrange(3, 5), rng.randrange(2, 4), rng.randrange(2, 4))
    bit = 1 + sum(segments)
    nodes = [node_text(rng, i, quantum, segments, bit) for i in range(rng.choice((2, 3, 3, 4)))]
    end = rng.choice((rng.randrange(80, 140), rng.randrange(110, 190), rng.randrange(150, 260))) * bit * quantum
    text = f'version = 3\nend = {end}\nper = 5\nsync = "{rng.choice(("book", "book", "after"))}"\n' + "".join(nodes)
    if rng.random() < 0.2:
        start = rng.randrange(end)
        text += f"\n[[disturbance]]\nx = {rng.randrange(12)}\nfrom = {start}\nto = {start + rng.randrange(1, 2 * bit * quantum)}\n"
    where = rng.choice(("abcd"[rng.randrange(len(nodes))], str(rng.randrange(len(nodes))), f"x={rng.randrange(12)}"))
    length = rng.choice((rng.randrange(1, quantum * bit), rng.randrange(1, 3 * quantum * bit), rng.randrange(1, 20 * quantum * bit)))
    how = ("runs", rng.randrange(20, 31)) if rng.random() < 0.7 else ("step", end // rng.randrange(20, 31))
    return text.encode(), where, length, how


def spikes(tally, program, seed, numbers, options):
    for number in numbers:
        rng = random.Random(f"{seed} {number}")
        text, where, length, (option, value) = random_input(rng)
        out, status, count = spikes_text(text, where, length, **{option: value})
        words = ["sweep", "--spike", where, "--length", str(length), f"--{option}", str(value), "--workers", str(rng.randrange(1, 4))]
        tally.tried += 1
        for name, times in count.items(): tally.count("members", name, times)
        what = f"plan {number} of seed {seed}"
        tally.compare(f"{what}, {' '.join(words)}", "sweep --spike", text, asked(program, *words, text=text), (out, "", status))
        n = rng.randrange(sum(count.values()))
        plan = plain.read_plan(text)
        step = int(out.split(" step ")[1].split()[0])
        printed = asked(program, *words, "--print", str(n), text=text)[0]
        wanted = with_spike(plan, target_of(plan, where), n * step, length)
        tally.count("printed members", "the same plan" if plain.read_plan(printed.encode()) == wanted else "another plan")
        if plain.read_plan(printed.encode()) != wanted: tally.compare(what, "--print", text, printed, str(wanted))


def said_number(word, units, scale):
    """A whole number, or a text with a unit that is one in ticks or units of length; else None."""
    if word.isascii() and word.isdigit(): return int(word) if int(word) < 2**48 else None
    found = re.fullmatch(r"(\d+)(?:\.(\d+))? ?([a-z]+)", word, re.A)
    if not found or found[3] not in units: return None
    number = Fraction(f"{found[1]}.{found[2] or 0}") * units[found[3]] / scale
    return int(number) if number.denominator == 1 and number < 2**48 else None


def request_of(words, text):
    """Of the words the target, the length and the step, or the first fault."""
    top, plan = tomllib.loads(text.decode()), plain.read_plan(text)
    options = {name.removeprefix("--"): value for name, value in zip(words[::2], words[1::2])}
    key, equals, value = options["spike"].partition("=")
    names = [setup.name for setup in plan.nodes]
    if equals:
        if key != "x": raise plain.Fault("Spike(Node)")
        place = said_number(value, METRES, 10**6)
        if place is None or place >= 2**31: raise plain.Fault("Spike(Place)")
        options["spike"] = f"x={place}"
    elif key not in names and not (key.isdigit() and int(key) < len(names)): raise plain.Fault("Spike(Node)")
    elif top["version"] < 3: raise plain.Fault("Spike(Version)")
    length = said_number(options["length"], SECONDS, 10**6)
    if length is None or not 1 <= length <= plan.end: raise plain.Fault("Spike(Length)")
    step = int(options.get("step", 0)) or max(-(-plan.end // int(options.get("runs", 1000))), 1)
    if -(-plan.end // step) >= 2**32: raise plain.Fault("Spike(Places)")
    return plan, options, length, step


def printed(text, plan, options, length, step):
    """Member N as a plan."""
    import sweeps
    n, target = int(options["print"]), target_of(plan, options["spike"])
    if n * step >= plan.end: raise plain.Fault("Member")
    spot = {"x": target[1]} if target[0] is None else {"node": target[2]}
    top = sweeps.tables(text.decode())
    top["disturbance"] = [*top.get("disturbance", []), spot | {"from": n * step, "to": n * step + length}]
    return f"# member {n}, spike {target[2]} length {length}, from = {n * step}\n{sweeps.plan_text(top)}"


def main():
    words, text = [part for word in sys.argv[1:] for part in word.split("=", word.startswith("--"))], sys.stdin.buffer.read()
    if len(words) % 2 or not {"--spike", "--length"} <= set(words[::2]): sys.exit(__doc__)
    status = 0
    try:
        plan, options, length, step = request_of(words, text)
        if "print" in options: out = printed(text, plan, options, length, step)
        else: out, status, _ = spikes_text(text, options["spike"], length, step)
    except plain.Fault as fault:
        sys.stderr.write(f"fault: {fault}\n")
        sys.exit(2 if str(fault).startswith(("Spike", "Member")) else 1)
    sys.stdout.write(out)
    sys.exit(status)


if __name__ == "__main__":
    main()
