#!/usr/bin/env python3
"""Compares the library for C with the program: the same bytes and statuses of the same plans.

usage: c_library.py PROGRAM LIBRARY [COUNT]     LIBRARY is libwireline.so as tools/c_library.py builds it; COUNT random plans, 100 if none is named

Each plan of examples/, odd texts and random ones, some of them refused, go through every command in every format; plans of many nodes, whose margins take long,
go through `run`, `check` and `traffic` alone. Then come buffers that are too small, ticks,
numbers that name nothing, pointers that are null and parts of memory that overlap. The last line is 'N passed, M failed'.
"""
import ctypes
import os
import random
import sys
from pathlib import Path

sys.dont_write_bytecode = True
TOP = Path(__file__).resolve().parent.parent
sys.path[:0] = [str(TOP / "check"), str(TOP / "examples" / "c")]
import programs
from report import Asked
from tally import asked

DONE, REFUSED, ASKED, MEMORY, ROOM, POINTER = range(6)
COMMANDS, FORMATS = ["run", "check", "explain", "margin", "traffic", "respond", "judge"], ["text", "json", "csv"]
TICKS = {"1ps": 1, "125ps": 125, "999ps": 999, "1ns": 1_000, "25ns": 25_000, "999ns": 999_000, "1us": 1_000_000, "999us": 999_000_000}
NO_TICKS = [1_001, 1_000_000_001, 1_000_000_000, 4_294_967_295, 12_345_678]
EDGE = b"\xa5" * 64
MANY = 8  # nodes


class Counts:
    def __init__(self): self.passed = self.failed = 0

    def same(self, what, got, wanted):
        if got == wanted: self.passed += 1
        else:
            self.failed += 1
            print(f"differs: {what}: {str(got)[:300]} and not {str(wanted)[:300]}")


class Library:
    def __init__(self, path):
        self.library = ctypes.CDLL(os.path.abspath(path))
        for name in COMMANDS: getattr(self.library, f"wireline_{name}").restype = ctypes.c_uint32

    def call(self, command, plan, options=(0, 0, 0), room=1 << 20):
        """Returns the status, the output, the count and the buffer with what lies around it."""
        held = ctypes.create_string_buffer(EDGE + b"\x5a" * room + EDGE, room + 2 * len(EDGE))
        needed, size = ctypes.c_size_t(7), ctypes.c_size_t
        status = getattr(self.library, f"wireline_{command}")(
            plan, size(len(plan)), ctypes.byref(Asked(*options)), ctypes.byref(held, len(EDGE)), size(room), ctypes.byref(needed))
        return status, held.raw, needed.value

    def said(self, command, plan, options=(0, 0, 0)):
        status, held, needed = self.call(command, plan, options)
        if status == ROOM: status, held, needed = self.call(command, plan, options, needed)
        return held[len(EDGE):len(EDGE) + needed].decode("utf-8", "replace"), status


def by_program(program, command, plan, *words):
    """Returns the output and the status: of `judge` the function answers DONE for any judgement, which the program tells by its status."""
    out, _, status = asked(program, command, *words, text=plan)
    return out, DONE if command == "judge" and out else status


def odd_texts():
    clean = (TOP / "examples" / "clean_500k.toml").read_bytes()
    yield from [("empty", b""), ("a zero byte", b"\0"), ("not UTF-8", b"\xff\xfe"), ("UTF-8 that ends early", clean + b"# \xe2\x82"), ("a mark of byte order", b"\xef\xbb\xbf" + clean)]
    yield from [("a surrogate", b"# \xed\xa0\x80\n" + clean), ("carriage returns", clean.replace(b"\n", b"\r\n")), ("no newline at the end", clean.rstrip())]
    for size in 1_048_575, 1_048_576, 1_048_577: yield f"{size} bytes", (clean + b"#" * size)[:size]
    yield "deep", b"x = " + b"[" * 400 + b"]" * 400


def plans(count):
    for path in sorted((TOP / "examples").glob("*.toml")): yield path.name, path.read_bytes()
    yield from odd_texts()
    for number in range(count): yield f"random plan {number}", programs.plan_text(random.Random(f"1 {number} programs"))


def compare(counts, program, library, name, plan):
    for command in ["run", "check", "traffic"] if plan.count(b"name") > MANY else COMMANDS:
        for number, form in enumerate(FORMATS):
            counts.same(f"{command} --format {form} of {name}", library.said(command, plan, (number, 0, 0)), by_program(program, command, plan, "--format", form))


def options(counts, program, library, plan):
    for word, tick in TICKS.items():
        for command in "margin", "traffic", "respond", "judge":
            counts.same(f"{command} --tick {word}", library.said(command, plan, (0, tick, 0)), by_program(program, command, plan, "--tick", word))
    for all_send in 1, 2, 4_294_967_295:
        counts.same(f"margin --all-send, {all_send}", library.said("margin", plan, (1, 0, all_send)), by_program(program, "margin", plan, "--all-send", "--format", "json"))
    for tick in NO_TICKS:
        for command in COMMANDS:
            status = library.call(command, plan, (0, tick, 0))[0]
            counts.same(f"{command} with a tick of {tick} ps", status, ASKED if command in ("margin", "traffic", "respond", "judge") else DONE)
    for form in 3, 256, 4_294_967_295:
        for command in COMMANDS: counts.same(f"{command} with format {form}", library.call(command, plan, (form, 0, 0))[::2], (ASKED, 0))


def rooms(counts, library, plan, status):
    """Each byte around the output stays as it was, in a buffer that is too small and in one that isn't."""
    for command in COMMANDS:
        text = library.said(command, plan)[0].encode()
        for room in {0, 1, max(len(text) - 1, 0), len(text), len(text) + 1, len(text) + 100}:
            got, held, needed = library.call(command, plan, room=room)
            fits = room >= len(text)
            wanted = EDGE + (text if fits else b"") + b"\x5a" * (room - (len(text) if fits else 0)) + EDGE
            counts.same(f"{command} with room for {room} of {len(text)}", (got, needed, held), (status if fits else ROOM, len(text), wanted))


def pointers(counts, library, plan):
    size, asks = ctypes.c_size_t, ctypes.byref(Asked(0, 0, 0))
    room = 1 << 16
    out = ctypes.create_string_buffer(room)
    for command in COMMANDS:
        does, needed = getattr(library.library, f"wireline_{command}"), size(7)
        whole = does(plan, size(len(plan)), None, out, size(room), ctypes.byref(needed)), out.raw[:needed.value].decode()
        counts.same(f"{command} without options", whole[::-1], library.said(command, plan))
        empty = does(None, size(0), asks, out, size(room), ctypes.byref(needed)), out.raw[:needed.value].decode()
        counts.same(f"{command} of no plan", empty[::-1], library.said(command, b""))
        none = does(plan, size(len(plan)), asks, None, size(0), ctypes.byref(needed)), needed.value
        counts.same(f"{command} without a buffer", none, (ROOM, library.call(command, plan)[2]))
        for what, words in {
            "a null plan": (None, size(3), asks, out, size(room), ctypes.byref(needed)), "a null buffer": (plan, size(len(plan)), asks, None, size(room), ctypes.byref(needed)),
            "no count": (plan, size(len(plan)), asks, out, size(room), None), "a plan too long": (plan, size(2**63), asks, out, size(room), ctypes.byref(needed)),
            "a buffer too long": (plan, size(len(plan)), asks, out, size(2**64 - 1), ctypes.byref(needed)),
            "a plan in the buffer": (ctypes.byref(out, 10), size(5), asks, out, size(room), ctypes.byref(needed)),
            "a buffer in the plan": (out, size(room), asks, ctypes.byref(out, room - 1), size(1), ctypes.byref(needed)),
            "the count in the buffer": (plan, size(len(plan)), asks, out, size(room), ctypes.byref(out, 8)),
            "the count in the plan": (out, size(room), asks, ctypes.byref(needed), size(0), ctypes.byref(out, 8)),
            "options in the buffer": (plan, size(len(plan)), ctypes.byref(out, 16), out, size(room), ctypes.byref(needed)),
        }.items():
            before = out.raw
            counts.same(f"{command}, {what}", (does(*words), out.raw == before), (POINTER, True))


def main(program, path, count="100"):
    counts, library = Counts(), Library(path)
    for name, plan in plans(int(count)): compare(counts, program, library, name, plan)
    clean = (TOP / "examples" / "clean_500k.toml").read_bytes()
    options(counts, program, library, clean)
    rooms(counts, library, clean, DONE)
    rooms(counts, library, clean.replace(b"sjw = 3", b"sjw = 5"), REFUSED)
    pointers(counts, library, clean)
    print(f"{counts.passed} passed, {counts.failed} failed")
    return 1 if counts.failed or not counts.passed else 0


if __name__ == "__main__":
    sys.exit(main(*sys.argv[1:]) if 3 <= len(sys.argv) <= 4 else sys.stderr.write(__doc__) and 2)
