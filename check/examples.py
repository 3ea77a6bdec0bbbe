"""The comparisons `examples` and `traces`.

Of each plan of examples/ the report has to be the one that is stored beside it; what check, records, explain, trace and vcd write has to be plain.py's,
what traffic writes traffic.py's, and what candump writes log.py's. A trace has to have the errors, the synchronisations and the frames that
the report of its run counts.
"""
import random
import sys
from collections import Counter
from pathlib import Path

sys.dont_write_bytecode = True
import log
import plain
import random_plans
import traffic  # gives plain.py that command
from tally import asked, asked_bare

WHOLE_SECOND = "thirty_nodes_29bit"  # 120 million quanta: the gate asks its report, and what check and candump write
WITH_UNITS = ("six_ecus", "noisy_bus")  # plain.py reads no units and no noise: units.py and noise.py compare such plans with those of numbers
PLANS = sorted(it for it in (Path(__file__).resolve().parent.parent / "examples").glob("*.toml") if it.stem not in (WHOLE_SECOND, *WITH_UNITS))
COUNTS = {"examples": len(PLANS)}


def counts_alike(trace, report):
    """Whether a trace has what a report counts."""
    lines = [line.split() for line in trace.splitlines()]
    told = Counter((words[1], " ".join(words[7:9]) if words[7] == "sync" and words[8] == "hard" else words[7]) for words in lines)
    frames = [(words[1], words[4], words[7:]) for words in lines if words[7] in ("sent", "received")]
    for words in map(str.split, report.splitlines()):
        if words[0] != "node": continue
        number, sync = words[1], int(words[words.index("sync") + 1])
        wanted = {"error": int(words[words.index("errors") + 1]), "sync hard": int(words[words.index("hard") + 1]), "sync": sync}
        if any(told[number, what] != count for what, count in wanted.items()): return False
    reported = [(words[1], words[3], [words[2]] + words[4:]) for words in map(str.split, report.splitlines()) if words[0] == "frame"]
    return sorted(frames) == sorted(reported)


def is_traced(tally, program, name, text, wanted):
    """Compares a trace with plain.py's, and with the report."""
    got = asked(program, "trace", text=text)
    if tally.compare(name, "trace", text, got, wanted) and got[2] == 0 and not counts_alike(got[0], asked(program, "run", text=text)[0]):
        tally.differs(name, "trace", text, "a trace", "what the report counts")


def examples(tally, program, seed, numbers, options):
    for path in [PLANS[number] for number in numbers]:
        text, tables = path.read_bytes(), plain.read_plan(path.read_bytes())
        wanted = {command: plain.answer(command, text) for command in ("check", "records", "explain", "vcd")}
        wanted |= {"run": (path.with_suffix(".report").read_text(), "", 0), "candump": (log.log_text(tables, "1ns"), "", 0)}
        wanted["traffic"] = plain.answer("traffic", text)
        tally.tried += 1
        for command, answer in wanted.items(): tally.compare(path.stem, command, text, asked_bare(program, command, text=text), answer)
        is_traced(tally, program, path.stem, text, plain.answer("trace", text))


def traces(tally, program, seed, numbers, options):
    for number in numbers:
        rng, answer = random.Random(f"{seed} {number} trace"), ("",)
        while " error " not in answer[0]:
            text = random_plans.plan_input(rng, rng, "mixed")
            answer = plain.answer("trace", text)
        tally.tried += 1
        for line in answer[0].splitlines(): tally.count("lines", line.split()[7])
        is_traced(tally, program, f"plan {number} of seed {seed}", text, answer)
