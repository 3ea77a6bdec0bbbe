#!/usr/bin/env python3
"""Writes a record text of about BYTES bytes to standard output: shuffled, repeated edges and silences of 16 nodes.

usage: records.py BYTES [SEED]      the same numbers give the same text
"""
import random
import sys


def main() -> None:
    size = int(sys.argv[1])
    rng = random.Random(int(sys.argv[2]) if len(sys.argv) > 2 else 20)
    out = sys.stdout.buffer
    written = 0
    while written < size:
        lines = []
        for _ in range(min(50_000, (size - written) // 19 + 1)):
            node = rng.randrange(16)
            if rng.randrange(10) < 9:
                seq = rng.randrange(65_536)
                # The tick is that of the number, so a repeated record is the same one; now and then it clashes.
                tick = seq * 1_048_573 + node * 64 + (rng.randrange(1_000) == 0)
                lines.append(f"E {node} {seq} {tick}\n")
            else:
                count = rng.randrange(1_000)
                lines.append(f"S {node} {count} {rng.randrange(1 << 36)}\n")
        block = "".join(lines).encode()
        if written + len(block) > size:
            block = block[: block.rfind(b"\n", 0, size - written) + 1]
            out.write(block)
            break
        out.write(block)
        written += len(block)


main()
