#!/usr/bin/env python3
"""Settles worlds of groups by the part `worlds` of the built `test_rows`, with twice as many quanta at each step, and prints a table: seconds of
processor time (the least of RUNS, 3 by default) and peak memory; where COUNT is set, also the instructions (in millions, by valgrind's cachegrind), and how many
times as many as in the row before, which a busy machine does not change. KEEP=1 keeps the row with the most quanta of each world in results.tsv.

usage: groups.py [PROGRAM [MOST_OF_TWO [MOST_OF_SIXTEEN]]]      the most quanta a node, 64,000 and 16,000 by default: of the plan of two nodes with
                                                               one frame, one group a node; of the busy plan of 16 nodes (bench/plan.py 21), in
                                                               one group, in two and in sixteen
"""
import os
import re
import subprocess
import sys
import tempfile
from pathlib import Path

sys.dont_write_bytecode = True
import results

HERE = Path(__file__).resolve().parent
WORDS = sys.argv[1:] + [str(HERE / "../crates/test_rows/out/test_rows"), "64000", "16000"][len(sys.argv) - 1:]


def of_two(quanta: int) -> str:
    nodes = "".join(f'\n[[node]]\nname = "{name}"\noffset = 0\nnum = 100\nden = 1\nprop = 3\nps1 = 3\nps2 = 3\nsjw = 2\nx = {x}\nout = 0\nin = 1\n{frame}'
                    for name, x, frame in (("a", 0, "\n[[node.frame]]\nid = 0\ndlc = 0\n"), ("b", 50, "")))
    return f"version = 1\nend = {100 * quanta}\nper = 1\n{nodes}"


def of_sixteen(quanta: int) -> str:
    return subprocess.run([sys.executable, HERE / "plan.py", "21", str(quanta)], check=True, capture_output=True, text=True).stdout


def measured(script: str, work: Path) -> tuple[float, float, list[str]]:
    (work / "in").write_text(script)
    least, peak = float("inf"), 0
    for _ in range(int(os.environ.get("RUNS", "3"))):
        with open(work / "in", "rb") as source, open(work / "out", "wb") as sink:
            # GNU time forks the program, so that the peak is not that of this script.
            subprocess.run(["/usr/bin/time", "-o", work / "time", "-f", "%U %S %M", WORDS[0]], stdin=source, stdout=sink, check=True)
        user, system, memory = (work / "time").read_text().split()
        least, peak = min(least, float(user) + float(system)), max(peak, int(memory))
    return least, peak / 1024, (work / "out").read_text().removeprefix("part worlds\n").split()


def counted(work: Path) -> float:
    with open(work / "in", "rb") as source:
        words = ["valgrind", "--tool=cachegrind", "--cache-sim=no", "--cachegrind-out-file=/dev/null", WORDS[0]]
        told = subprocess.run(words, stdin=source, check=True, capture_output=True, text=True).stderr
    return int(re.search(r"I\s+refs:\s+([0-9,]+)", told).group(1).replace(",", "")) / 1e6


def times(now: float, before: float) -> str:
    return f"{now / before:.2f}" if before else ""


def main() -> None:
    print("| World | Quanta a node | Rounds | Records | Seconds | Times the row before | Peak memory | Instructions | Times the row before |")
    print("|---|---|---|---|---|---|---|---|---|")
    worlds = [("2 nodes, 2 groups", [0, 1], of_two, int(WORDS[1]))]
    worlds += [(f"16 nodes, {count} group{'s' * (count > 1)}", [node % count for node in range(16)], of_sixteen, int(WORDS[2])) for count in (1, 2, 16)]
    with tempfile.TemporaryDirectory() as folder:
        for name, groups, plan_of, most in worlds:
            quanta, before, steps_before = 1_000, 0.0, 0.0
            while quanta <= most:
                script = f"part worlds\ngroups {' '.join(map(str, groups))}\nsettle\nemitted\nplan\n{plan_of(quanta)}"
                seconds, peak, told = measured(script, Path(folder))
                steps = counted(Path(folder)) if os.environ.get("COUNT") else 0.0
                row = [name, f"{quanta:,}", f"{int(told[0]):,}", f"{int(told[1]):,}", f"{seconds:.2f}", times(seconds, before), f"{peak:.1f} MiB"]
                print(f"| {' | '.join([*row, f'{steps:,.0f}', times(steps, steps_before)])} |", flush=True)
                if 2 * quanta > most:
                    cells = [("rounds", told[0], ""), ("records", told[1], ""), ("processor", seconds, "s"), ("peak", peak, "MiB")]
                    cells += [("instructions", steps, "million")] * bool(steps)
                    results.keep_if_asked([(f"groups / {name}, {quanta} quanta a node / {column}", number, unit) for column, number, unit in cells])
                quanta, before, steps_before = 2 * quanta, seconds, steps


main()
