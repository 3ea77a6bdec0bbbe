#!/usr/bin/env python3
"""How long a frame is at most, with its stuff bits, if its data are not known: by the states that stuffing has, and not by a formula.

usage: longest.py [HEADERS [SEED]]     200 random headers, and seed 1 if nothing is named

`longest` goes through the bits of a frame. Those of the header are known; each of the others, data and CRC sequence, may be of either level. It keeps the most
stuff bits for each level and run of equal bits that may be at the end (Bosch CAN 2.0 part B, section 6).

Compared with frames, stuffed bit by bit: all base frames without bytes, and with one byte; and random ones of either format, with 100 lists of bytes each that
have runs of four equal bits. None may be longer. A line of each kind has how many headers there were, and by how many bits the longest frame of each header is below
its greatest length: `below 0: N` are N headers that reach it. Status 1 if a frame is longer.
"""
import random
import sys

sys.dont_write_bytecode = True
START = (1, 0)  # the level of the last bit, and how many equal ones are at the end


def number(value, width): return [value >> (width - 1 - i) & 1 for i in range(width)]


def header(extended, ident, remote, dlc):
    named = number(ident >> 18, 11) + [1, 1] + number(ident % 2**18, 18) if extended else number(ident, 11)
    return [0] + named + [int(remote), 0, 0] + number(dlc, 4)


def byte_count(remote, dlc): return 0 if remote else min(dlc, 8)


def after(state, bit):
    """The state after a bit, and how many stuff bits come with it."""
    last, run = state
    if bit != last: return (bit, 1), 0
    return ((1 - bit, 1), 1) if run == 4 else ((bit, run + 1), 0)


def longest(extended, ident, remote, dlc):
    known = header(extended, ident, remote, dlc)
    parts = [[bit] for bit in known] + [[0, 1]] * (8 * byte_count(remote, dlc) + 15)
    most = {START: 0}
    for part in parts:
        now = {}
        for state, count in most.items():
            for bit in part:
                then, more = after(state, bit)
                now[then] = max(now.get(then, 0), count + more)
        most = now
    return len(parts) + max(most.values())


def crc15(bits):
    register = 0
    for bit in bits: register = (register << 1 & 0x7FFF) ^ (0x4599 if (register >> 14) != bit else 0)
    return register


def stuffed_length(bits):
    line = []
    for bit in bits:
        line.append(bit)
        if len(line) >= 5 and len(set(line[-5:])) == 1: line.append(1 - bit)
    return len(line)


def length(extended, ident, remote, dlc, data):
    bits = header(extended, ident, remote, dlc) + [bit for byte in data for bit in number(byte, 8)]
    return stuffed_length(bits + number(crc15(bits), 15))


def compared(name, headers, frames_of):
    """Writes the line of some headers, and returns whether a frame is longer than its greatest length."""
    below = {}
    for it in headers:
        spare = longest(*it) - max(length(*it, data) for data in frames_of(it))
        below[spare] = below.get(spare, 0) + 1
    print(f"{name}: {sum(below.values())} headers, " + ", ".join(f"below {spare}: {count}" for spare, count in sorted(below.items())))
    return min(below) < 0


def with_long_runs(rng, count):
    """Bytes of runs of four equal bits, from a random place and level on, and a random last byte."""
    place, level = rng.randrange(4), rng.randrange(2)
    bits = [(level + (i + place) // 4) % 2 for i in range(8 * count)]
    made = [int("".join(map(str, bits[8 * k:8 * k + 8])), 2) for k in range(count)]
    return made[:-1] + [rng.randrange(256)]


def main(headers="200", seed="1"):
    rng = random.Random(int(seed))
    none = [(False, ident, remote, dlc) for ident in range(2048) for remote, dlc in [(False, 0), *((True, dlc) for dlc in range(16))]]
    one = [(False, ident, False, 1) for ident in range(2048)]
    some = [(extended, rng.randrange(2**29 if extended else 2048), False, rng.randrange(2, 16)) for extended in (False, True) for _ in range(int(headers) // 2)]
    longer = compared("base, no byte", none, lambda it: [[]])
    longer |= compared("base, one byte", one, lambda it: ([byte] for byte in range(256)))
    longer |= compared("random", some, lambda it: (with_long_runs(rng, byte_count(False, it[3])) for _ in range(100)))
    return 1 if longer else 0


if __name__ == "__main__":
    sys.exit(main(*sys.argv[1:]))
