#!/usr/bin/env python3
"""Compares `candump --errors` with the events of `trace`, written as can-utils logs error frames (linux/can/error.h), on random plans and on all examples.

usage: check/error_frames.py PROGRAM [--plans N] [--seed N]

Without its error frames the log has to be that of `candump`.
"""
import random
import sys
from pathlib import Path

sys.dont_write_bytecode = True
import random_plans
from tally import Tally, asked, options_of

ERROR, PROT, ACK, BUSERROR, CRTL, BUSOFF, COUNTERS = 0x20000000, 0x08, 0x20, 0x80, 0x04, 0x40, 0x200
KINDS = {"bit": 0x01, "form": 0x02, "stuff": 0x04, "crc": 0, "ack": 0}
SENDS, TX_PASSIVE, RX_PASSIVE, ACTIVE = 0x80, 0x20, 0x10, 0x40
PLACES = {"sof": 0x03, "srr": 0x04, "ide": 0x05, "rtr": 0x0C, "r1": 0x0D, "r0": 0x09, "dlc": 0x0B, "data": 0x0A, "crc": 0x08, "crc_delimiter": 0x18,
          "ack_slot": 0x19, "ack_delimiter": 0x1B, "eof": 0x1A, "delimiter": 0x17}
PIECES = {"id": [(8, 0x02), (11, 0x06)], "ext_id": [(5, 0x07), (13, 0x0F), (18, 0x0E)]}  # up to which bit


def place_of(field, bit):
    return PLACES[field] if field in PLACES else next(code for end, code in PIECES[field] if int(bit) < end)


def error_frame(classes, **data):
    data = [data.get(f"byte{at}", 0) for at in range(8)]
    return f"{ERROR | classes:08X}#" + "".join(f"{byte:02X}" for byte in data)


def frame_of(identifier, kind, code, data):
    above = f"_{int(code):X}" if int(code) > 8 else ""
    if kind == "data": return f"{identifier.upper()}#{data.strip('-').upper()}{above}"
    return f"{identifier.upper()}#R" + (f"{min(int(code), 8)}{above}" if int(code) else "")


def carried(what, more):
    """What a line of the log has after the interface, or nothing."""
    if what == "sent": return frame_of(*more)
    if what == "error":
        kind, role, _, field, bit = more
        classes = PROT | BUSERROR | (ACK if kind == "ack" else 0)
        return error_frame(classes, byte2=KINDS[kind] | (SENDS if role == "tx" else 0), byte3=place_of(field, bit))
    if what == "mode":
        mode, tec, rec = more[0], int(more[2]), int(more[4])
        if mode == "off": return error_frame(BUSOFF)
        status = ACTIVE if mode == "active" else (TX_PASSIVE if tec > 127 else 0) | (RX_PASSIVE if rec > 127 else 0)
        return error_frame(CRTL | COUNTERS, byte1=status, byte6=min(tec, 255), byte7=min(rec, 255))
    return ""


def log_of(trace, picoseconds):
    lines = []
    for tick, _, _, _, _, _, _, what, *more in map(str.split, trace.splitlines()):
        us, said = int(tick) * picoseconds // 10**6, carried(what, more)
        if said: lines.append(f"({us // 10**6:010d}.{us % 10**6:06d}) can0 {said}\n")
    return "".join(lines)


def compare(tally, program, text):
    trace, _, status = asked(program, "trace", text=text)
    if status != 0: return tally.count("plans", "refused")
    tally.count("plans", "taken")
    for words, picoseconds in (((), 1000), (("--tick", "125ps"), 125)):
        log = asked(program, "candump", "--errors", *words, text=text)
        tally.compare("errors", "candump", text, log, (log_of(trace, picoseconds), "", 0))
        bare = "".join(line for line in log[0].splitlines(True) if int(line.split()[2].split("#")[0], 16) < ERROR)
        tally.compare("without errors", "candump", text, bare, asked(program, "candump", *words, text=text)[0])
    return None


def main():
    words = sys.argv[1:]
    if not words: sys.exit(sys.stderr.write(f"{__doc__}") and 2)
    options = options_of(f"{__doc__}", words[1:], {"plans": "300", "seed": "1"})
    rng, tally = random.Random(int(options["seed"])), Tally()
    for plan in sorted((Path(__file__).resolve().parent.parent / "examples").glob("*.toml")): compare(tally, words[0], plan.read_bytes())
    for _ in range(int(options["plans"])):
        compare(tally, words[0], random_plans.toml_text(random_plans.random_plan(rng), False).encode() + b"\n")
    print(tally.counts, f"differ {tally.differ}")
    for name, word, text, got, wanted in tally.kept[:3]: print(name, word, text.decode(), got, wanted, sep="\n")
    sys.exit(1 if tally.differ else 0)


if __name__ == "__main__": main()
