#!/usr/bin/env python3
"""Compares the formats of a command's output with its text: `--format json` and `--format csv` of each command over each example.

usage: formats.py PROGRAM [PLAN..]

Without plans it takes all examples, plans with every doubt, plans that are refused, and those of formats/, whose records stand beside them, written by hand
from docs/use/formats.md. Of each line of the text it looks for the values of
its record in their order, digit by digit, and says if a digit of the line is in no value. The rows of CSV have to be the records of JSON.
The status and standard error have to be those of the text. It knows no shape of a line.
"""
import csv
import io
import json
import re
import subprocess
import sys
from pathlib import Path

TOP = Path(__file__).resolve().parent.parent
COMMANDS = [
    ["run"], ["run", "--workers", "2"], ["check"], ["explain"], ["margin"], ["margin", "--tick", "125ps"], ["trace"], ["traffic"],
    ["traffic", "--strict"], ["respond"], ["respond", "--any-data"], ["sweep", "--runs", "3"], ["sweep", "--runs", "2", "--worst"], ["sweep", "--runs", "2", "--vary", "sjw=1..2"],
    ["sweep", "--runs", "2", "--vary", "sjw=1..2", "--vary", "end=50000..60000:10000"],
    ["sweep", "--runs", "2", "--vary", "sjw=1..2", "--vary", "ps2=2..3", "--vary", "end=50000..60000:10000"],
]
# Fields whose value is no part of the line, and digits that are in every line of a kind.
SAID_OF_LINE = {"doubt", "senders", "inequality", "note", "room", "proved_for"}
FIXED = re.compile(r"doubt: 11 bits and|at 5 ns a metre$|PHASE_SEG2|no frame has edges ten|^each sender| (?:ps|tseg)[12] ")
# Refused plans: what is wrong has commas, quotes and backslashes.
REFUSED = [
    "", "version = 1\n", "version = 9\n", 'version = 1\nend = "a\\"b,c"\n', "version = 1\nend = 10\nper = 5\n\"a,\\\"b\\\\\" = 1\n",
    "version = 1\nend = 10\nper = 5\n\"\\u0007x\" = 1\n", "[[[\n",
]
# Texts for `settings`, with few settings each, or none.
SETTINGS = ["narrow_registers", "no_bit_rate", "odd_clock", "too_far", "wide_registers", "wide_too_far"]
# A plan with strange names of nodes.
NAMES = ["-", "in", "0x1F", "_", "n11", "1e5"]


def run(program, words, plan):
    """Returns status, standard output and standard error."""
    made = subprocess.run([program, *words], input=plan.encode(), capture_output=True, timeout=300)
    return made.returncode, made.stdout, made.stderr


def shown(name, value):
    """Returns a value as the text has it, or None if it has another form there."""
    if value is None:
        return None
    if name in {"id", "by_id", "bytes"}:
        return value[2:] or "-"
    return value


def place_of(text, line, at):
    """Returns where a line has a value from a place on, or -1: a number not within a word."""
    if not re.fullmatch(r"-?[0-9.]+", text):
        return line.find(text, at)
    found = re.compile(rf"(?<![\w.]){re.escape(text)}(?!\w|\.\d)").search(line, at)
    return found.start() if found else -1


def line_differs(line, record):
    """Says what of a record isn't what its line says."""
    at, left = 0, ""
    for name, value in record.items():
        if name == "kind" or name in SAID_OF_LINE:
            continue
        text = shown(name, value)
        if text is None:
            continue
        found = place_of(text, line, at)
        if found < 0:
            # Given of lines that don't say it: no count is none, and a clean run has none.
            if value == "0" and name in {"too_early", "refused", "errors", "unsent"} or value in {"does not hold", "deadlines missed"}:
                continue
            return f"{name} = {value} is not there"
        left += line[at:found] + " "
        at = found + len(text)
    left = FIXED.sub("", left + line[at:])
    named = [record.get("name"), record.get("other_name"), *(record.get("senders") or "").split(" and ")]
    for name in named:  # a sentence may say a name twice
        left = re.sub(rf"(?<![\w-]){re.escape(name or ' ')}(?![\w-])", " ", left)
    return f"a number is in no field: {left}" if re.search(r"\d", left) else None


def cells(record, columns):
    """Returns the cells that a record has."""
    return ["" if record.get(name) is None else record[name] for name in columns]


def differences(program, words, plan):
    """Yields what differs of one command over one plan."""
    status, text, said = run(program, words, plan)
    lines = text.decode().splitlines()
    made = run(program, [*words, "--format", "json"], plan)
    if made[0] != status or made[2] != said:
        yield f"json: status {made[0]}, wanted {status}; {made[2]!r}"
    if status and not lines:
        for form in ("json", "csv"):
            if run(program, [*words, "--format", form], plan) != (status, b"", said):
                yield f"{form}: something was written of a plan that is refused"
        return
    whole = json.loads(made[1], parse_int=str, parse_float=str)
    numbers = json.loads(made[1])["records"]
    if whole["command"] != words[0]:
        yield f"json: command {whole['command']}"
    records = whole["records"]
    if len(records) != len(lines):
        yield f"json: {len(records)} records of {len(lines)} lines"
    for line, record in zip(lines, records):
        wrong = line_differs(line, record)
        if wrong:
            yield f"json: {line}: {wrong}"
    for raw, read in zip(records, numbers):
        for name, value in read.items():
            if isinstance(value, (int, float)) and value != float(raw[name]):
                yield f"json: {name} = {raw[name]} reads as {value}"
            if isinstance(value, int) and abs(value) > 2**53:
                yield f"json: {name} = {value} is above 2^53"
    made = run(program, [*words, "--format", "csv"], plan)
    if made[0] != status or made[2] != said:
        yield f"csv: status {made[0]}, wanted {status}; {made[2]!r}"
    table = list(csv.reader(io.StringIO(made[1].decode(), newline=""), strict=True))
    columns = table[0]
    if columns[0] != "kind" or len(set(columns)) != len(columns):
        yield f"csv: header {columns}"
    if not made[1].endswith(b"\r\n") or len(table) != len(records) + 1:
        yield f"csv: {len(table)} rows of {len(records)} records"
    for row, record in zip(table[1:], records):
        if set(record) - set(columns) or row != cells(record, columns):
            yield f"csv: {row}, json: {record}"
    if run(program, [*words, "--format", "text"], plan) != (status, text, said):
        yield "text: differs from what is written without the word"


def unlike_stored(program):
    """Yields what differs of the plans of formats/ from the records that stand beside them, PLAN.COMMAND.json."""
    for path in sorted((TOP / "check/formats").glob("*.json")):
        name, command = path.stem.split(".")
        made = run(program, [command, "--format", "json"], path.with_name(f"{name}.toml").read_text())[1]
        for one, wanted in zip(json.loads(made)["records"], json.loads(path.read_text())["records"], strict=True):
            if one != wanted:
                yield f"{name}, {command}: {one}, wanted {wanted}"


def renamed(plan):
    """Returns a plan whose nodes have strange names."""
    names = iter(NAMES)
    return re.sub(r'(?m)^name = ".*"', lambda found: f'name = "{next(names, found[0][8:-1])}"', plan)


def main():
    program, paths = sys.argv[1], [Path(name) for name in sys.argv[2:]]
    paths = paths or sorted((TOP / "examples").glob("*.toml")) + sorted((TOP / ".ci").glob("*.toml"))
    plans = [(path.name, path.read_text()) for path in paths]
    plans += [(f"{name}, renamed", renamed(text)) for name, text in plans[:4]]
    plans += [(f"refused {number}", text) for number, text in enumerate(REFUSED)]
    runs = wrong = 0
    for name, plan in plans:
        for words in COMMANDS:
            runs += 1
            for found in differences(program, words, plan):
                wrong += 1
                print(f"{name}, {' '.join(words)}: {found}")
    for name in SETTINGS:
        for words in (["settings"], ["settings", "--best", "1", "--tick", "125ps"]):
            runs += 1
            for found in differences(program, words, (TOP / f"check/rows/settings/{name}.toml").read_text()):
                wrong += 1
                print(f"{name}, {' '.join(words)}: {found}")
    for words in (["candump"], ["vcd"], ["page"], ["records"], ["merge"], ["horizon"]):
        runs += 1
        if run(program, [*words, "--format", "json"], "")[0] != 2:
            wrong += 1
            print(f"{' '.join(words)}: --format is not refused")
    for words in (["run", "--format", "xml"], ["sweep", "--format="], ["check", "--format", "JSON"]):
        runs += 1
        if run(program, words, plans[0][1])[0] != 2:
            wrong += 1
            print(f"{' '.join(words)} is not refused")
    for found in unlike_stored(program) if not sys.argv[2:] else []:
        wrong += 1
        print(found)
    print(f"{runs} runs in other formats, {wrong} differ")
    sys.exit(1 if wrong else 0)


if __name__ == "__main__":
    main()
