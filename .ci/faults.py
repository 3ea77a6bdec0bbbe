#!/usr/bin/env python3
"""Holds the table of faults in docs/use/faults.md against the sources and against .ci/refused.txt. It prints what differs; status 1 if something does.

usage: faults.py          the last column of each row has the words of wl_explain or wl_hint, each fault of theirs has a row, and each row a refused input with its
                          change; so has each row of the table of version 4, in which some words are others
       faults.py write    writes these columns from the sources
"""
import re
import sys
from pathlib import Path

TOP = Path(__file__).resolve().parent.parent
PAGE = TOP / "docs/use/faults.md"
# Faults that no refused input has: .ci/program.sh makes them by devices and limits.
MADE_ELSEWHERE = {"Read", "Write", "Memory", "Worker(n)"}
# What a fault is called that has another one in it, by the function of remedies.rt with its words.
WITHIN = {
    "missing": "Missing(%s)", "kind": "Kind(%s)", "unknown": "Unknown(%s)", "clock": "NodeClock(i, %s)", "segments": "NodeSegments(i, %s)",
    "frame": "NodeFrame(i, n, %s)", "topology": "Topology(%s)", "plan": "Plan(%s)", "": "%s",
}
VALUES = {"ZeroDelay": "ZeroDelay(i, j)", "TooLong": "TooLong(i, j)", "Quanta": "Quanta(i)", "Queue": "Queue(i)", "Disturbance": "Disturbance(n)"}
# No text has it: its nodes are its places.
IN_NO_TEXT = {"Plan(Nodes)"}
TEXT = r'"((?:[^"\\]|\\.)*)"'


def source(path):
    return (TOP / "crates" / path).read_text(encoding="utf-8")


def constants(text):
    return {name: words.replace('\\"', '"') for name, words in re.findall(rf"const (\w+): &str =\s*{TEXT};", text)}


def tables_of(text):
    return {
        name: {key: words.replace('\\"', '"') for key, words in re.findall(rf'^    \("(\w+)", {TEXT}\),$', rows, re.M)}
        for name, rows in re.findall(r"^const (\w+): \[\(&str, &str\); \d+\] = \[\n(.*?)^\];", text, re.M | re.S)
    }


def names_of(text):
    """Yields each fault that has numbers of its own, with its name in the tables."""
    for kind, body in re.findall(r"^fn (\w+)_name\(.*?^\{\n(.*?)^\}", text, re.M | re.S):
        for variant, name in re.findall(r'^ +\w+::(\w+)(?:\([^)]*\))? => "(\w+)",$', body, re.M):
            yield WITHIN["" if kind == "fault" else kind] % VALUES.get(variant, variant), name


def wide_remedies():
    """Returns what to change at each fault in version 4, if that is something else then."""
    text = source("wl_explain/src/remedies.rt")
    tables = tables_of(text)
    found = {WITHIN[kind] % key: words for kind in ("missing", "kind", "unknown") for key, words in tables["WIDE_" + kind.upper()].items()}
    for fault, name in names_of(text):
        for table in ("WIDE_CHANGES", "CONTROLLER_CHANGES"):
            if name in tables[table]: found[fault] = tables[table][name]
    return found


def remedies():
    """Returns what to change at each fault, as the sources have it."""
    text = source("wl_explain/src/remedies.rt")
    named, tables = constants(text), tables_of(text)
    found = {}
    for kind in ("missing", "kind", "unknown"):
        for key, words in tables[kind.upper()].items() | {("key", named[kind.upper() + "_OTHER"])}:
            found[WITHIN[kind] % key] = words
    for fault, name in names_of(text):
        if name in tables["CHANGES"]: found[fault] = tables["CHANGES"][name]
    records = re.findall(rf'TextFault::(\w+)(\(\w+\))? =>.*?{TEXT}', source("wl_hint/src/records.rt"), re.S)
    found |= {f"{name}(n)" if value else name: re.sub(r"^(\{place\}|line \{n\}\. )", "", words) for name, value, words in records}
    named = constants(source("wl_hint/src/table.rt"))
    found |= {fault: named[name] for fault, name in (("Read", "READ"), ("Write", "WRITE"), ("Worker(n)", "THREADS"), ("Memory", "FREE_MEMORY"))}
    return {fault: words for fault, words in found.items() if fault not in IN_NO_TEXT}


def table(text, heading):
    """Returns the rows of the table below a heading: the line, the fault's pattern and what to change."""
    text = text.split(f"\n## {heading}\n")[1].split("\n## ")[0]
    cells = [(line, line.strip("| ").split(" | ")) for line in text.splitlines() if line.startswith("| `")]
    return [(line, cell[0].strip("`"), cell[-1]) for line, cell in cells]


def matched(fault, rows):
    """Returns the first row whose pattern is this fault."""
    for _, pattern, remedy in rows:
        form = re.sub(r"\b(?:n|i|j)\b(?=,|\\\))", r"\\d+", re.escape(pattern))
        if re.fullmatch(re.sub(r"\bkey\b", ".*", form), fault):
            return pattern, remedy
    return None


def table_differences(rows, words):
    for _, pattern, remedy in rows:
        if pattern not in words: yield f"{pattern}: the sources have no such fault"
        elif words[pattern] != remedy: yield f"{pattern}: the page has '{remedy}', the sources '{words[pattern]}'"
    for pattern in words.keys() - {row[1] for row in rows}: yield f"{pattern}: the page has no row of it"


def differences(rows, wide):
    """What the refused inputs lack: each row with its change, by the one table or the other."""
    seen, fault = set(), ""
    for line in (TOP / ".ci/refused.txt").read_text(encoding="utf-8").splitlines():
        if line.startswith("change: "):
            found = {("", matched(fault, rows)), ("version 4: ", matched(fault, wide))}
            named = {where + row[0] for where, row in found if row is not None and row[1] == line.removeprefix("change: ")}
            if not named: yield f"{fault}: the change is not the table's"
            seen |= named
        elif re.match(r"\w+\|", line):
            fault = line.split("|", 4)[3].removeprefix("fault: ")
    for pattern in [row[1] for row in rows] + ["version 4: " + row[1] for row in wide]:
        if pattern not in seen | MADE_ELSEWHERE: yield f"{pattern}: no row of .ci/refused.txt has it with its change"


def main():
    text, found, rows = PAGE.read_text(encoding="utf-8"), [], []
    for heading, words in (("Faults", remedies()), ("Faults in version 4", wide_remedies())):
        if sys.argv[1:] == ["write"]:
            for line, pattern, remedy in table(text, heading): text = text.replace(line, line.replace(f" | {remedy} |", f" | {words.get(pattern, remedy)} |"))
            PAGE.write_text(text, encoding="utf-8")
        rows.append(table(text, heading))
        found += table_differences(rows[-1], words)
    found += differences(*rows)
    print("\n".join(found), end="\n" if found else "")
    return 1 if found else 0


if __name__ == "__main__":
    sys.exit(main())
