#!/usr/bin/env python3
"""Measures both choices of synchronisation (the key `sync` of a plan) side by side, and prints the tables of docs/bus/bit-clock.md.

usage: sync_tables.py [--program PROGRAM] [--jobs N] [TABLE]..     all of phases pairs pulses deviations cables senders both joins sweeps by default

Without a program check/plain.py answers, which takes some hours in all, and leaves out the sweeps; a proved build takes minutes. A run is clean
where its verdict is, and each node has received what the others sent. Nodes are 5 m apart, a level takes 5 ns a metre and 80 ns through both transceivers,
and all nodes are idle before the first frame, whose edges are ten bits apart: the longest way between two resynchronisations.

With `after` a start of frame that a listener finds in the quantum of its sample is lost, whatever the clocks and the cable. Where a table
says so, the phases with which that happens are left out for `after`, so that what else the choice does is seen.
"""
import os
import random
import re
import subprocess
import sys
import tempfile
from multiprocessing import Pool
from pathlib import Path

sys.dont_write_bytecode = True
import plain

CHOICES = ("after", "book")
FRAME = "{ id = 0x0F1, dlc = 8, ready = %d, bytes = [0x3C, 0x3C, 0x3C, 0x3C, 0x3C, 0x3C, 0x3C, 0x3C] }"
BITS, READY_BITS = 190, 30  # the frame takes 127 bits with its stuff bits and the intermission
# prop, ps1, ps2, sjw and the ticks of a quantum, in ns
PHASES = [(6, 7, 2, 1, 125), (2, 3, 2, 1, 125), (7, 7, 5, 1, 100), (7, 4, 4, 4, 125), (1, 4, 4, 4, 1000), (8, 4, 3, 3, 125)]
DEVIATIONS = [(8, 4, 3, 3, 125), (6, 7, 2, 2, 125), (2, 3, 2, 2, 250), (3, 2, 2, 2, 250), (7, 4, 4, 4, 125), (1, 4, 4, 4, 1000), (6, 7, 2, 1, 125),
              (7, 4, 4, 3, 125), (8, 4, 3, 2, 125), (2, 3, 2, 1, 125), (6, 1, 2, 1, 100)]
# ... and the metres from one cable to the next
CABLES = [("1 Mbit/s", (2, 3, 2, 1, 125), 1), ("500 kbit/s", (6, 7, 2, 1, 125), 1), ("125 kbit/s", (6, 7, 2, 1, 500), 5)]
SENDERS = [("1 Mbit/s", (5, 6, 4, 1, 62)), ("500 kbit/s", (6, 7, 2, 1, 125)), ("500 kbit/s", (7, 4, 4, 1, 125)), ("125 kbit/s", (2, 3, 2, 1, 1000))]
POWER_UPS, JOINS = 400, 24_000
PULSES = [(6, 7, 2, 1, 100), (2, 3, 2, 1, 100), (7, 4, 4, 3, 100)]
SWEPT = ("clean_500k", "sampled_late_500k", "canopen_125k", "j1939_250k", "drifting_listener", "priorities", "sixteen_nodes", "one_megabit_25m")
EXAMPLES = Path(__file__).resolve().parent.parent / "examples"
program = None


def example_text(name, sync):
    """The plan of an example with this choice in the place of its own."""
    return f'sync = "{sync}"\n' + re.sub(r"(?m)^sync = .*\n", "", (EXAMPLES / f"{name}.toml").read_text())


def segments_of(setting):
    return plain.Segments(*setting[:4])


def name_of(setting):
    return ", ".join(map(str, setting[:4]))


# ---- Plans and their runs


def node_text(name, offset, setting, ppm, x, delays, frame=""):
    prop, ps1, ps2, sjw, quantum = setting
    return (f'\n[[node]]\nname = "{name}"\noffset = {offset}\nquantum = {quantum}\nppm = {ppm}\nprop = {prop}\nps1 = {ps1}\nps2 = {ps2}\nsjw = {sjw}\n'
            f"x = {x}\nout = {delays[0]}\nin = {delays[1]}\nframe = [{frame}]\n")


def plan_of(sync, setting, offset, ppms=(0, 0), x=5, delays=(40, 40)):
    """Two nodes, of which the first sends a frame."""
    bit = segments_of(setting).bit_quanta()
    end = BITS * bit * setting[4] * (1_000_000 + max(ppms)) // 1_000_000 + 20 * x
    nodes = node_text("sender", 0, setting, ppms[0], 0, delays, FRAME % (READY_BITS * bit)) + node_text("listener", offset, setting, ppms[1], x, delays)
    return f'version = 1\nend = {end}\nper = 5\nsync = "{sync}"\n{nodes}'


def report_of(text):
    if program is None: return plain.answer("run", text.encode())[0].splitlines()
    return subprocess.run([program, "run"], input=text.encode(), capture_output=True, check=True).stdout.decode().splitlines()


def is_clean(text):
    lines = report_of(text)
    sent, received, nodes = {}, {}, 0
    for line in lines:
        words = line.split()
        nodes += words[0] == "node"
        if words[0] == "frame": (sent if words[2] == "sent" else received).setdefault(words[1], []).append(words)
    all_sent = sum(map(len, sent.values()))
    return lines[-1] == "verdict clean" and all(len(received.get(str(i), [])) == all_sent - len(sent.get(str(i), [])) for i in range(nodes))


def clock_of(offset, quantum, ppm):
    return plain.Clock(offset, [plain.Rate(0, quantum * (1_000_000 + ppm), 1_000_000)])


def is_lost(setting, offset, ppms=(0, 0), x=5, delays=(40, 40)):
    """Whether the listener of plan_of finds the start of frame in the quantum of its sample, where nothing has moved its bits before."""
    lengths, quantum = segments_of(setting), setting[4]
    start = clock_of(0, quantum, ppms[0]).at((READY_BITS + 1) * lengths.bit_quanta()) + sum(delays) + 5 * x
    listener = clock_of(offset, quantum, ppms[1])
    return listener.quanta_before(start) % lengths.bit_quanta() == lengths.sample_at()


def offsets_of(setting, steps=5):
    """Offsets over one bit, so many in a quantum."""
    lengths, quantum = segments_of(setting), setting[4]
    return [k * quantum // steps for k in range(steps * lengths.bit_quanta())]


def clean_in(pool, texts):
    found = list(pool.imap(is_clean, texts, chunksize=4))
    return sum(found), len(found)


def table(head, rows):
    print("| " + " | ".join(head) + " |\n|" + "---|" * len(head))
    for row in rows: print("| " + " | ".join(map(str, row)) + " |", flush=True)
    print(flush=True)


# ---- The tables


def phases(pool):
    """Two nodes with perfect clocks, the listener's offset over one bit in steps of a fifth of a quantum."""
    def rows():
        for setting in PHASES:
            found = [clean_in(pool, [plan_of(sync, setting, offset) for offset in offsets_of(setting)]) for sync in CHOICES]
            yield name_of(setting), segments_of(setting).bit_quanta(), *(f"{clean} of {count}" for clean, count in found)
    table(["prop, ps1, ps2, sjw", "Quanta", *(f"Clean phases, `{sync}`" for sync in CHOICES)], rows())


def pairs(pool):
    """Three nodes of an example: the second one's offset over one bit in steps of 50 ns and the third one's in steps of 100 ns."""
    def rows():
        for name in ("clean_500k", "sampled_late_500k"):
            parts = example_text(name, CHOICES[0]).split("[[node]]")
            moved = [[part.replace(f"offset = {was}", f"offset = {was + by}", 1) for by in range(0, 2000, step)]
                     for part, step in zip(parts[2:], (50, 100)) for was in [int(part.split("offset = ")[1].split()[0])]]
            tops = [example_text(name, sync).split("[[node]]")[0] for sync in CHOICES]
            plans = [["[[node]]".join([top, parts[1], second, third]) for second in moved[0] for third in moved[1]] for top in tops]
            yield f"`{name}`", *("%d of %d" % clean_in(pool, texts) for texts in plans)
    table(["Example", *(f"Clean, `{sync}`" for sync in CHOICES)], rows())


def is_taken(sync, setting, begin, length):
    """Whether a node alone takes a dominant pulse for a start of frame: it then finds a stuff error."""
    quantum = setting[4]
    end = begin + length + 30 * segments_of(setting).bit_quanta() * quantum
    text = (f'version = 1\nend = {end}\nper = 0\nsync = "{sync}"\n{node_text("listener", 0, setting, 0, 0, (1, 1))}'
            f"\n[[disturbance]]\nx = 0\nfrom = {begin}\nto = {begin + length}\n")
    return not report_of(text)[0].split(" errors ")[1].startswith("0 ")


def least_pulse(job):
    sync, setting, begin = job
    low, high = 0, 2 * segments_of(setting).bit_quanta() * setting[4]
    while high - low > 1:
        middle = (low + high) // 2
        if is_taken(sync, setting, begin, middle): high = middle
        else: low = middle
    return high / setting[4]


def pulses(pool):
    """The least dominant pulse that an idle node takes for a start of frame, in quanta, over one bit in steps of a tenth of a quantum."""
    def rows():
        for setting in PULSES:
            lengths, quantum = segments_of(setting), setting[4]
            first = 20 * lengths.bit_quanta() * quantum
            begins = [first + k * quantum // 10 + 1 for k in range(10 * lengths.bit_quanta())]
            # with `after` a pulse that the quantum of the sample finds first is sampled at once
            found = [[one for one, begin in zip(pool.imap(least_pulse, [(sync, setting, begin) for begin in begins], chunksize=2), begins)
                      if sync == "book" or -(-begin // quantum) % lengths.bit_quanta() != lengths.sample_at()] for sync in CHOICES]
            yield name_of(setting), lengths.sample_at(), *(f"{min(one):.2f} to {max(one):.2f} ({len(one)} phases)" for one in found)
    table(["prop, ps1, ps2, sjw", "Sample", *(f"`{sync}`" for sync in CHOICES)], rows())


SIGNS = ((1, -1), (-1, 1))


def counted(sync, setting, ppm, steps):
    """The jobs at a deviation that count: both signs, every phase, but for lost starts with `after`."""
    jobs = [(sync, setting, offset, (ppm * one, ppm * other)) for one, other in SIGNS for offset in offsets_of(setting, steps)]
    return [job for job in jobs if sync == "book" or not is_lost(*job[1:])]


def fails(job):
    return not is_clean(plan_of(*job))


def any_fails(pool, sync, setting, ppm, steps):
    return any(pool.imap_unordered(fails, counted(sync, setting, ppm, steps), chunksize=4))


def deviations(pool):
    """The least deviation, in ppm, of two oscillators in opposite directions with which some of ten phases a quantum isn't clean: by halving, and then no
    lower one of twenty."""
    def least(sync, setting, steps=10):
        low, high = 0, 30_000
        while high - low > 1:
            middle = (low + high) // 2
            if any_fails(pool, sync, setting, middle, steps): high = middle
            else: low = middle
        for part in range(20):
            if any_fails(pool, sync, setting, high * part // 20, steps): return f"{high * part // 20}, not each above"
        return high

    def rows():
        for setting in DEVIATIONS:
            yield name_of(setting), segments_of(setting).greatest_ppm(), *(least(sync, setting) for sync in CHOICES)
    table(["prop, ps1, ps2, sjw", "`check` says, ppm", *(f"First failing, `{sync}`" for sync in CHOICES)], rows())


def cables(pool):
    """The longest cable with which every phase is clean, and each shorter one, with 250 ns through both transceivers. Phases are over one bit in steps
    of a fifth of a quantum, and over one quantum in 25 steps."""
    def longest(sync, setting, step):
        clean = None
        for x in range(0, 1000, step):
            ways = [offset for offset in sorted({*offsets_of(setting), *offsets_of(setting, 25)[:25]})
                    if sync == "book" or not is_lost(setting, offset, (0, 0), x, (120, 130))]
            texts = [plan_of(sync, setting, offset, (0, 0), x, (120, 130)) for offset in ways]
            if not all(pool.imap(is_clean, texts, chunksize=4)): return clean
            clean = x

    def rows():
        for name, setting, step in CABLES:
            sample = segments_of(setting).sample_at() * setting[4]
            yield name, name_of(setting), f"{(sample - 2 * 250) // 10} m", *(f"{longest(sync, setting, step)} m" for sync in CHOICES)
    table(["Bus", "prop, ps1, ps2, sjw", "Round trip at most the sample point", *(f"Every phase clean up to, `{sync}`" for sync in CHOICES)], rows())


def frame_text(rng, ready):
    """A frame with edges far apart, or any; the first bits of its identifier are those of others too."""
    number = rng.choice([0x0F0, 0x3C3, 0x555, 0]) ^ rng.choice([1 << rng.randrange(11), rng.randrange(8), rng.randrange(2048)])
    data = rng.choice([[], [0x3C] * 8, [0xF0] * 4, [rng.randrange(256)]])
    return f"{{ id = {number}, dlc = {len(data)}, ready = {ready}, bytes = {data} }}"


def power_up(sync, setting, x, senders, seed):
    """Nodes at both ends of a cable, three where three send: offsets, signs of 100 ppm, identifiers and when frames are ready at random."""
    rng, bit = random.Random(seed), segments_of(setting).bit_quanta()
    places = [0, x, x] if senders == 3 else [0, x]
    spread, ready = rng.choice([0, 1, bit, 3 * bit]), READY_BITS * bit
    nodes = [node_text(f"n{i}", rng.randrange(2 * bit * setting[4]), setting, rng.choice([-100, 100]), place, (120, 130),
                       frame_text(rng, ready + rng.randint(0, spread)) if i < senders else "") for i, place in enumerate(places)]
    return f'version = 1\nend = {(READY_BITS + 150 * senders) * bit * setting[4] + 20 * x}\nper = 5\nsync = "{sync}"\n{"".join(nodes)}'


def has_two_alike(text):
    """Whether two frames have one identifier, so that both would be sent at once."""
    ids = re.findall("id = ([0-9]+)", text)
    return len(set(ids)) < len(ids)


def senders(pool):
    """The longest cable with which 400 power-ups are clean, in metres, by halving: one, two and three nodes send, at 100 ppm and 250 ns through both
    transceivers, with frames that are ready at once or some bits apart."""
    def longest(setting, count):
        low, high = 0, ((segments_of(setting).sample_at() + 2) * setting[4] - 500) // 10
        while high - low > 1:
            middle = (low + high) // 2
            texts = (power_up("book", setting, middle, count, f"{middle} {k}") for k in range(POWER_UPS))
            if all(pool.imap(is_clean, (text for text in texts if not has_two_alike(text)), chunksize=4)): low = middle
            else: high = middle
        return low

    def rows():
        for name, setting in SENDERS:
            sample = segments_of(setting).sample_at() * setting[4]
            yield name, name_of(setting), f"{(sample - 2 * 250) // 10} m", *(f"{longest(setting, count)} m" for count in (1, 2, 3))
    table(["Bus", "prop, ps1, ps2, sjw", "Round trip at most the sample point", "One sender, `book`", "Two", "Three"], rows())


def both_at_once(sync, metres, seed):
    """The example one_megabit_25m with both frames ready at once, on another cable, and with other offsets and signs of deviations."""
    rng = random.Random(seed)
    text = re.sub(r"ready = [0-9_]+", "ready = 600", example_text("one_megabit_25m", sync))
    text = re.sub(r"(?m)^x = ([0-9]+)", lambda found: f"x = {int(found[1]) * metres // 25}", text)
    text = re.sub(r"(?m)^offset = [0-9_]+", lambda found: f"offset = {rng.randrange(1000)}", text)
    return re.sub(r"(?m)^ppm = (-?[0-9]+)", lambda found: f"ppm = {rng.choice([-1, 1]) * int(found[1])}", text)


def both(pool):
    """The example one_megabit_25m with both frames ready at once, on cables of other lengths: 1,000 power-ups each."""
    def rows():
        for metres in (10, 20, 25, 28, 30, 31, 32):
            found = [clean_in(pool, [both_at_once(sync, metres, f"{metres} {k}") for k in range(1000)]) for sync in CHOICES]
            yield f"{metres} m", *(f"{clean} of {count}" for clean, count in found)
    table(["Cable", *(f"Clean, `{sync}`" for sync in CHOICES)], rows())


def joining(sync, seed):
    """Three or four nodes that send, of which the last powers up amid the others' frames, with two frames ready at once."""
    rng = random.Random(seed)
    while True:
        ps1, ps2, prop = rng.randint(2, 8), rng.randint(2, 8), rng.randint(3, 8)
        setting = prop, ps1, ps2, rng.randint(1, min(4, ps1)), 40
        if 8 <= 1 + prop + ps1 + ps2 <= 25: break
    lengths = segments_of(setting)
    bit, count = lengths.bit_quanta(), rng.choice([3, 4])
    loop = rng.randint(42, 20 * prop)  # a quantum and a tick at least; a way there and back fits into PROP_SEG
    far = (40 * prop - 2 * loop) // 10
    ppm = min(1000, lengths.greatest_ppm() // 2)
    nodes = []
    for i in range(count):
        joins = i == count - 1
        offset = rng.randrange(25 * bit * 40, 400 * bit * 40) if joins else rng.randrange(2 * bit * 40)
        ready = [0, 0] if joins else [READY_BITS * bit + rng.randrange(2 * bit), READY_BITS * bit + rng.randrange(300 * bit)]
        frames = ", ".join(frame_text(rng, one) for one in ready)
        nodes.append(node_text(f"n{i}", offset, setting, rng.randint(-ppm, ppm), rng.randint(0, far) if far else 0, (loop - loop // 2, loop // 2), frames))
    return f'version = 1\nend = {2000 * bit * 40}\nper = 5\nsync = "{sync}"\n{"".join(nodes)}'


def is_sound(text):
    return report_of(text)[-1] == "verdict clean"


def joins(pool):
    """Nodes that power up amid the frames of two or three others, with frames of their own ready at once: equal segments, up to 1,000 ppm, a way there
    and back within PROP_SEG."""
    texts = [[text for k in range(JOINS * 21 // 20) if not has_two_alike(text := joining(sync, k))][:JOINS] for sync in CHOICES]
    found = [(sum(pool.imap(is_sound, some, chunksize=16)), len(some)) for some in texts]
    table([f"Clean power-ups, `{sync}`" for sync in CHOICES], [[f"{clean} of {count}" for clean, count in found]])


def swept(text):
    """How many of the runs of `./wireline sweep` are clean, with tolerances of as many ppm as the clocks deviate."""
    text = re.sub(r"(?m)^ppm = -?([1-9][0-9_]*).*$", r"\g<0>\ntolerance = \1", re.sub(r"(?m)^tolerance = .*$", "", text))
    with tempfile.NamedTemporaryFile("w", suffix=".toml") as file:
        file.write(text)
        file.flush()
        said = subprocess.run([program, "sweep", file.name], capture_output=True, text=True).stdout
    return re.search(r"^clean in (\d+ of \d+)", said, re.M)[1]


def sweeps(pool):
    """The examples as `./wireline sweep` runs them: over the offsets of all nodes but the first, and the signs of all tolerances."""
    if program is None: return
    rows = ((f"`{name}`", *(swept(example_text(name, sync)) for sync in CHOICES)) for name in SWEPT)
    table(["Example", *(f"Clean, `{sync}`" for sync in CHOICES)], rows)


TABLES = {one.__name__: one for one in (phases, pairs, pulses, deviations, cables, senders, both, joins, sweeps)}


def main():
    global program
    words = sys.argv[1:]
    jobs = os.cpu_count()
    while words and words[0].startswith("--"):
        if words[0] == "--program": program = words[1]
        elif words[0] == "--jobs": jobs = int(words[1])
        else: sys.exit(__doc__)
        words = words[2:]
    if any(word not in TABLES for word in words): sys.exit(__doc__)
    with Pool(jobs) as pool:
        for name in words or TABLES:
            print(f"{name}: {' '.join(TABLES[name].__doc__.split())}\n", flush=True)
            TABLES[name](pool)


if __name__ == "__main__":
    main()
