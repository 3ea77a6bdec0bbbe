#!/usr/bin/env python3
"""Keeps measurements as rows of bench/results.tsv, and writes the tables of pages from them.

usage: results.py keep WHAT NUMBER UNIT [WHAT NUMBER UNIT]..   keeps rows of this day, commit and machine
       results.py page                                         writes the tables of docs/change/gate.md and docs/change/speed.md
       results.py check                                        status 1 if a table isn't that of the rows

A row has the date, the commit, the machine, what was measured, the number and the unit. WHAT is `TABLE / ROW / COLUMN`. A row takes the place of the
one with the same machine, WHAT and unit; rows of a table of the gate take the place of all that the machine had in it. The scripts of bench/ keep their
rows if KEEP is set, as in `KEEP=1 bench/run.sh`.

In a page the lines between `<!-- results: TABLE -->` and `<!-- results end -->` are a table: of each row and column the newest number, whatever the
machine. Words after the name, as `<!-- results: TABLE; most 12 by COLUMN -->`, keep the twelve rows with the greatest numbers in that column. The tables
of the gate are of one run: of the newest commit and machine alone.
"""
import os
import re
import subprocess
import sys
from datetime import date

sys.dont_write_bytecode = True
TOP = os.path.dirname(os.path.dirname(os.path.realpath(__file__)))
FILE, PAGES = f"{TOP}/bench/results.tsv", [f"{TOP}/docs/change/gate.md", f"{TOP}/docs/change/speed.md"]
ONE_RUN = {"gate", "gate by crate"}  # tables that have rows of one run, the newest
HEAD = "date\tcommit\tmachine\twhat\tnumber\tunit\n"
BLOCK = re.compile(r"(<!-- results: ([^;>]*?)(?:; most (\d+) by ([^>]*?))? -->\n)(.*?)(<!-- results end -->\n)", re.S)


def rows():
    if not os.path.exists(FILE): return []
    with open(FILE, encoding="utf-8") as it: return [line.rstrip("\n").split("\t") for line in it][1:]


def machine():
    """Returns the processor's name and model, and how many of them there are."""
    with open("/proc/cpuinfo", encoding="utf-8") as it: said = dict(line.split("\t: ", 1) for line in it.read().splitlines() if "\t: " in line)
    said = {key.strip(): value for key, value in said.items()}
    name = re.sub(r"\((R|TM)\)| CPU| Processor", "", said.get("model name", "unknown")).replace(" @ ", " ")
    return f"{' '.join(name.split())}, model {said.get('model', '?')}, {os.cpu_count()} processors"


def keep(found):
    """Keeps rows of WHAT, number and unit."""
    commit = subprocess.run(["git", "-C", TOP, "rev-parse", "--short=8", "HEAD"], capture_output=True, text=True, check=False).stdout.strip() or "-"
    new = [[date.today().isoformat(), commit, machine(), what, shown(number), unit] for what, number, unit in found]
    for row in new:
        if row[3].count(" / ") != 2: sys.exit(f"results.py: '{row[3]}' is no TABLE / ROW / COLUMN")
    keys = {(row[2], row[3], row[5]) for row in new}
    whole = {(row[2], row[3].split(" / ")[0]) for row in new} & {(machine(), it) for it in ONE_RUN}
    write([row for row in rows() if (row[2], row[3], row[5]) not in keys and (row[2], row[3].split(" / ")[0]) not in whole] + new)


def write(all_rows):
    with open(FILE, "w", encoding="utf-8") as it: it.write(HEAD + "".join("\t".join(row) + "\n" for row in all_rows))


def keep_if_asked(found):
    if os.environ.get("KEEP"): keep(found)


def shown(number):
    return number if isinstance(number, str) else f"{number:.4g}" if abs(number) < 1000 else f"{number:.0f}"


def table(name, most, by):
    """Returns a table's lines in Markdown: its rows and columns in the order in which they were first kept."""
    found, columns = {}, {}
    own = [it for it in rows() if it[3].startswith(f"{name} / ")]
    newest = max(reversed(own), key=lambda it: it[0], default=[])[:3]
    for day, commit, machine, what, number, unit in own:
        _, row, column = what.split(" / ")
        if name in ONE_RUN and [day, commit, machine] != newest: continue
        columns.setdefault(column, unit)
        cells = found.setdefault(row, {})
        if day >= cells.get(column, ("", ""))[0]: cells[column] = day, number
    chosen = list(found)
    if most: chosen = sorted(chosen, key=lambda row: -float(found[row].get(by, ("", "0"))[1]))[: int(most)]
    lines = ["| | " + " | ".join(f"{column}, {unit}" if unit else column for column, unit in columns.items()) + " |", "|---|" + "---:|" * len(columns)]
    return lines + [f"| {row} | " + " | ".join(found[row].get(column, ("", ""))[1] for column in columns) + " |" for row in chosen]


def paged(text):
    return BLOCK.sub(lambda it: it[1] + "".join(f"{line}\n" for line in table(it[2], it[3], it[4])) + it[6], text)


def main(words):
    if words[:1] == ["keep"] and len(words) > 1 and len(words) % 3 == 1:
        keep([(words[at], words[at + 1], words[at + 2]) for at in range(1, len(words), 3)])
        return 0
    if words not in (["page"], ["check"]): sys.exit(sys.stderr.write(__doc__) and 2)
    differ = 0
    for page in PAGES:
        with open(page, encoding="utf-8") as it: old = it.read()
        new = paged(old)
        if words == ["page"]:
            with open(page, "w", encoding="utf-8") as it: it.write(new)
        elif old != new:
            differ += 1
            print(f"{os.path.relpath(page, TOP)}: a table isn't that of bench/results.tsv: bench/results.py page writes it")
    return 1 if differ else 0


if __name__ == "__main__":
    sys.exit(main(sys.argv[1:]))
