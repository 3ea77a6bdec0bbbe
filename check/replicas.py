#!/usr/bin/env python3
"""Lists of takes and joins for the part `replica` of `test_rows`, and what it has to write after them, by plain.py: the comparison `replicas`.

usage: replicas.py rows COUNT [SEED]     lists, one a line; the same numbers give the same lists
       replicas.py answers < ROWS        the lines that the part has to write, also of that block of crates/test_rows/stdin

A list is of two holders: a record is taken, `join` joins in what the other holder knows, `tell` tells what is known; after `+` the second one does so.
Ticks and numbers are small, so that records meet in their slots, clash, and lie in silences; now and then one is the greatest that there may be.
"""
import random
import sys

sys.dont_write_bytecode = True
import plain
from tally import asked, rows_of_part

GREATEST_SEQ, GREATEST_COUNT, GREATEST_TICK = 262_144, 262_145, 2 ** 48 - 1


def a_record(rng, nodes, spread):
    node, number = rng.choice(nodes), rng.randrange(spread)
    tick = number * 10 + rng.randrange(rng.choice([1, 1, 1, 12]))
    kind = rng.choice("EEEEEESSSC")
    if rng.randrange(40) == 0: number, tick = (GREATEST_COUNT if kind == "S" else GREATEST_SEQ), GREATEST_TICK
    if kind == "C": return f"C {node} {number}"
    if kind == "S": return f"S {node} {number} {rng.choice([0, tick, tick, rng.randrange(10 * spread)])}"
    return f"E {node} {number} {tick}"


def a_list(rng):
    nodes, spread = rng.sample(range(16), rng.choice([1, 1, 2, 4])), rng.choice([2, 4, 8, 16])
    steps = []
    for _ in range(rng.choice([3, 8, 20, 60])):
        word = rng.choice(["join", "tell"]) if rng.randrange(6) == 0 else a_record(rng, nodes, spread)
        steps.append(("+ " if rng.randrange(3) == 0 else "") + word)
    return "; ".join(steps)


def lists(count, seed):
    rng = random.Random(seed)
    return [a_list(rng) for _ in range(count)]


def told(records):
    return " =" + "".join(f" {line};" for line in plain.merge_text(records) + plain.horizon_text(records))


def step_of(text):
    """Which holder, and what it does: "join", "tell", or a record; a fault where it is none of them."""
    words = text.split()
    which = words[:1] == ["+"]
    words = words[which:]
    if words in (["join"], ["tell"]): return which, words[0]
    return which, plain.read_records(" ".join(words).encode() + b"\n")[0]


def answer(row):
    """The row and what is told: a holder is the list of the records that reached it, each once."""
    if not row or row.startswith("#"): return row
    try:
        steps = [step_of(text) for text in row.split(";")]
    except plain.Fault:
        return row + " = unread"
    holders, said = ([], []), ""
    for which, what in steps:
        if what == "join": holders[which][:] = dict.fromkeys(holders[which] + holders[not which])
        elif what == "tell": said += told(holders[which])
        else: holders[which].append(what)
    return row + said + told(holders[0])


def replicas(tally, program, seed, numbers, options):
    rows = [a_list(random.Random(f"{seed} {number}")) for number in numbers]
    lines = asked(program, text="".join(f"{row}\n" for row in ["part replica", *rows]).encode())[0].splitlines()[1:]
    for number, row, line in zip(numbers, rows, lines + [""] * (len(rows) - len(lines))):
        tally.tried += 1
        tally.compare(f"list {number} of seed {seed}", "lists", row.encode(), line, answer(row))


def main():
    words = sys.argv[1:]
    if words == ["answers"]:
        for line in rows_of_part("replica"): print(answer(line))
    elif words[:1] == ["rows"] and len(words) in (2, 3): print("\n".join(lists(*map(int, [*words[1:], 1][:2]))))
    else: sys.exit(sys.stderr.write(__doc__) and 2)


if __name__ == "__main__": main()
