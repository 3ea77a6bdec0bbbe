"""The comparison `hints`: strangers' plan texts that are refused, and whether the place that `--hint` names is what it shows, and in the fault's table.

The fault is plain.py's, and has to be the program's, too; its table is that of refusals.py. Tables are counted by their headers, so texts whose nodes are in line are left out.
"""
import random
import re
import sys
import tempfile
import tomllib
from pathlib import Path

sys.dont_write_bytecode = True
import plain
import refusals
import strangers
from tally import asked

HINT = re.compile(r"fault: .*\nhint: line (\d+), column (\d+)(?:, `(.*?)`)?: .*\n")
HEADERS = {"frame": "[[node.frame]]", "rate": "[[node.rates]]"}


def refused_text(rng):
    """A text that is TOML within the reader's limits and refused, with its document and its first fault; None if it is none."""
    text = strangers.text_of(rng, "plans")
    try:
        top = tomllib.loads(text.decode())
        plain.read_plan(text)
    except plain.Fault as fault:
        return None if strangers.goes_beyond(text) else (text, top, str(fault))
    except (ValueError, RecursionError):
        pass
    return None


def is_in_table(lines, path):
    """Whether the last of these lines is below the header of a table, counted from 0."""
    kind, *numbers = path
    said = [re.sub(r"\s|#.*", "", line) for line in lines]
    if kind == "plan": return True
    if kind == "disturbance": return said.count("[[disturbance]]") == numbers[0] + 1
    if said.count("[[node]]") != numbers[0] + 1: return False
    own = said[len(said) - said[::-1].index("[[node]]"):]
    return kind == "node" or own.count(HEADERS[kind]) == numbers[1] + 1 or any(re.match(r"(frame|rates)=", line) for line in own)


def wrong_of(said, text, top, fault):
    """What is wrong with a hint, or an empty text; None if it has no place."""
    found = HINT.fullmatch(said)
    if not found: return None
    line, column, shown = int(found[1]), int(found[2]), found[3]
    lines = text.decode().split("\n")
    there = (lines + [""])[line - 1][column - 1:]
    if shown and not there.startswith(shown.removesuffix("..").rstrip()): return f"{there!r} is there, and not {shown!r}"
    paths = [word for word in refusals.paths_of(top, fault) if isinstance(word, tuple)]
    return "" if not paths or is_in_table(lines[:line], paths[0]) else f"line {line} isn't in {paths[0]}"


def hints(tally, program, seed, numbers, options):
    with tempfile.TemporaryDirectory() as folder:
        file = Path(folder, "plan.toml")
        for number in numbers:
            rng, found = random.Random(f"{seed} {number} hints"), None
            while found is None or len(found[0]) > 20_000 or re.search(rb'(?m)^\s*"?(node|disturbance)"?\s*=', found[0]): found = refused_text(rng)
            text, top, fault = found
            file.write_bytes(text)
            said, name = asked(program, "check", "--hint", str(file))[1], f"text {number} of seed {seed}"
            wrong = wrong_of(said, text, top, fault)
            tally.tried += 1
            tally.count("faults", fault.split("(")[0])
            tally.compare(name, "fault", text, said.split("\n")[0], f"fault: {fault}")
            if wrong is None: tally.count("places", "none")
            else: tally.compare(name, "place", text, wrong, "")


def is_well(tally):
    """Whether hints had places at all."""
    return tally.tried < 10 or tally.counts.get("agreed", {}).get("place", 0) > 0
