"""What `candump` writes of a plan, over plain.py's simulation: the comparison `candump`.

Written from crates/wl_views/specs (Sent, Candump, Ticks): seconds and microseconds, identifier, bytes; tick by tick, and at one tick node by node.
"""
import random
import sys

sys.dont_write_bytecode = True
import plain
import random_plans
from tally import asked

UNITS = {"ps": 1, "ns": 1_000, "us": 1_000_000}  # in picoseconds
STARTS = [None, None, 0, 1, 1_700_000_000, 2**32 - 1]  # the second of tick 0
WRONG_TICKS = ["0ns", "1000ns", "1000ps", "1000us", "000us", "1", "ns", "ps1", "1ms", "1s", "1 ns", "+1ns", "1.5ns", "1nS", "0x1ns", "1n", "9999ps", "1nss", "٣ns"]


def picoseconds(word):
    """How many picoseconds a tick takes; None if the word says no such time."""
    digits, unit = word[:-2], word[-2:]
    return int(digits) * UNITS[unit] if unit in UNITS and digits.isascii() and digits.isdigit() and 0 < int(digits) < 1000 else None


def log_line(microseconds, frame):
    number = f"{frame.id:08X}" if frame.extended else f"{frame.id:03X}"
    code = f"_{frame.dlc:X}" if frame.dlc > 8 else ""
    content = ("R" + ("" if frame.dlc == 0 else f"{min(frame.dlc, 8)}{code}")) if frame.remote else frame.data.hex().upper() + code
    return f"({microseconds // 10**6:010}.{microseconds % 10**6:06}) can0 {number}#{content}\n"


def log_text(plan, tick, start=0):
    sent = [(node.setup.clock.at(quantum), i, n, frame) for i, node in enumerate(plain.simulate(plan))
            for n, (what, quantum, frame) in enumerate(node.frames) if what == "sent"]
    return "".join(log_line(start * 10**6 + at * picoseconds(tick) // 10**6, frame) for at, _, _, frame in sorted(sent, key=lambda one: one[:3]))


def sending_plan(rng):
    """Two or three nodes that hear each other well, and time for their frames."""
    quanta, base, bits = rng.choice([8, 10, 16]), rng.choice([1, 2, 3]), 14
    segments, nodes = random_plans.random_segments(rng, quanta), []
    for number in range(rng.choice([2, 2, 3])):
        queue = [random_plans.random_frame(rng, [rng.randrange(2048)], 150) for _ in range(rng.choice([0, 1, 1, 2]))]
        bits += sum(150 if "extended" in frame else 130 for frame in queue)
        nodes.append({"name": f"n{number}", "offset": rng.randrange(4), "num": base, "den": 1} | segments | {"x": 0, "out": 0, "in": 1, "frame": queue})
    return {"version": 1, "end": bits * base * quanta, "per": 0, "sync": rng.choice(["after", "book"]), "node": nodes}


def candump(tally, program, seed, numbers, options):
    for number in numbers:
        rng = random.Random(f"{seed} {number} candump")
        text = random_plans.toml_text(sending_plan(rng) if rng.random() < 0.7 else random_plans.random_plan(rng), rng.random() < 0.3).encode() + b"\n"
        tick = rng.choice(WRONG_TICKS) if rng.random() < 0.1 else rng.choice(["1ns", "125ps", "3us", "999us", "007ns", f"{rng.randint(1, 999)}{rng.choice([*UNITS])}"])
        start = rng.choice(STARTS)
        words = ["candump", f"--tick={tick}"] + ([] if start is None else ["--from", str(start)])
        tally.tried += 1
        if picoseconds(tick) is None: wanted = "", None, 2
        else:
            try:
                wanted = log_text(plain.read_plan(text), tick, start or 0), "", 0
            except plain.Fault as fault:
                wanted = "", f"fault: {fault}\n", 1
        out, error, status = asked(program, *words, text=text)
        tally.count("lines", "sent", wanted[0].count("\n"))
        tally.compare(f"plan {number} of seed {seed}", " ".join(words) if wanted[2] else "candump", text, (out, wanted[1] and error, status), wanted)
