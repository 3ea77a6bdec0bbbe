"""Random plans by workers and either link beside one thread: the comparisons `workers` and `work`. A run has to end within 300 seconds.

`workers` are the program's, 2 to 8 of them: bytes, fault and status have to be the same, and those of one thread plain.py's. In `work` PROGRAM is
test_rows, whose part `workers` runs the same in one process, and by 3 workers in threads of its own. It is asked about many plans at once, so it tries
many more of them. Half of its plans are wide ones, of engines.py.
"""
import random
import sys

sys.dont_write_bytecode = True
import plain
import random_plans
from engines import wide_plan
from tally import asked

RUNS = [(str(workers), link) for workers in range(2, 9) for link in ("hub", "mail")]
STEPS = [f"{mail}{step} 1" for mail in ("", "mail ") for step in (*(f"simulate {workers}" for workers in range(2, 9)), "work 3")]
LIMIT = 300


def workers(tally, program, seed, numbers, options):
    for number in numbers:
        rng = random.Random(f"{seed} {number} workers")
        text = random_plans.toml_text(random_plans.random_plan(rng), False).encode() + b"\n"
        wanted = asked(program, "run", text=text, limit=LIMIT)
        tally.tried += 1
        tally.count("plans", "refused" if wanted[2] else "run")
        tally.compare(f"plan {number} of seed {seed}", "run", text, wanted, plain.answer("run", text))
        for many, link in RUNS:
            got = asked(program, "run", "--workers", many, "--link", link, text=text, limit=LIMIT)
            tally.compare(f"plan {number} of seed {seed} by {many} workers", f"run by {link}", text, got, wanted)


def answers(program, plans):
    """The lines that PROGRAM answers to STEPS of each plan; none of a plan that is refused."""
    text = "".join("\n".join(["part workers", *STEPS, "plan", plan, ""]) for plan in plans).encode()
    out, said, status = asked(program, text=text, limit=LIMIT)
    blocks, size = [block.splitlines() for block in out.split("part workers\n")[1:]], len(STEPS)
    if status == 0 and len(blocks) == len(plans): return [None if block[:1] and block[0].startswith("fault: ") else (block + [said] * size)[:size] for block in blocks]
    if len(plans) == 1: return [[said] * size]
    half = len(plans) // 2
    return answers(program, plans[:half]) + answers(program, plans[half:])


def work(tally, program, seed, numbers, options):
    plans = []
    for number in numbers:
        rng = random.Random(f"{seed} {number} work")
        plans.append(random_plans.toml_text(wide_plan(rng) if number % 2 else random_plans.random_plan(rng), False))
    for number, plan, lines in zip(numbers, plans, answers(program, plans)):
        tally.tried += 1
        tally.count("plans", "run" if lines else "refused")
        for step, line in zip(STEPS, lines or []): tally.compare(f"plan {number} of seed {seed}", step, plan.encode(), line, f"{step}: as one thread")
