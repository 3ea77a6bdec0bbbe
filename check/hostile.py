#!/usr/bin/env python3
"""Hostile texts through every command, and whether the commands agree with one another. No other program is asked.

usage: hostile.py PROGRAM [--runs N] [--seed S] [--jobs J] [--workers SHARE]     SHARE of the accepted plans run by workers, too: 0.3 by default

Texts are strangers' (strangers.py), and good ones with hostile comments and names. Of each plan text all commands have to give one status and one fault;
only `traffic`, `margin` and `page` may have more to say. Of an accepted plan: workers give the report of one thread; the trace has what the report counts,
and candump its sent frames; the waveform's times rise and no value comes twice; the records are their own merge, and their horizon is the end;
JSON and CSV have a record for each line; a page has the plan's text once, and no letter of it as a tag. A file of `-o` has the bytes of standard
output, or what it had before if the text is refused, and its folder nothing else. Of a record text: merge of merge is merge, in any order and repeated,
and so is the horizon of it. The plan of a setting is one of a bus that works; a sweep says the same by one thread and by three. Standard error is a line, without a letter that steers a terminal; nothing is on standard output after a refusal.
Prints how many runs each command had. The first inputs that are answered wrong are kept in files; the status is then 1.
"""
import csv
import io
import json
import os
import random
import re
import shutil
import sys
import tempfile
from collections import Counter
from multiprocessing import Pool
from pathlib import Path

sys.dont_write_bytecode = True
import random_plans
import strangers
import versions
from examples import counts_alike
from tally import options_of

STEERS = re.compile("[\x00-\x09\x0b-\x1f\x7f-\x9f\u200b-\u200f\u2028-\u202e\u2060-\u2069\ufeff]")  # but the end of a line
HOSTILE = ["</script><script>alert(1)</script>", "<!--", "]]>", "\u2028", "\u009b31m", "\u202e", "'\"&<>`${x}", "é\U0001f697", "\x7f"]
MOST_BYTES = 20_000  # longer texts are left out: they take the time of many
FORMATS = ["run", "check", "explain", "margin", "trace", "traffic"]
PLAIN = ["check", "run", "explain", "records", "trace", "candump", "vcd"]


class Wrong(Exception): pass


def want(holds, fault):
    if not holds: raise Wrong(fault)


class Asker:
    """Runs the program, with files of its own for what it reads and writes."""

    def __init__(self, program, folder, share):
        self.program, self.folder, self.share, self.runs = program, folder, share, Counter()
        self.input, self.out, self.err = (str(folder / name) for name in ("in", "out", "err"))

    def __call__(self, text, *words):
        with open(self.input, "wb") as file: file.write(text)
        opens = [(os.POSIX_SPAWN_OPEN, fd, path, flags, 0o600) for fd, path, flags in (
            (0, self.input, os.O_RDONLY), (1, self.out, os.O_WRONLY | os.O_CREAT | os.O_TRUNC), (2, self.err, os.O_WRONLY | os.O_CREAT | os.O_TRUNC))]
        child = os.posix_spawn(self.program, [self.program, *words], {"PATH": "/usr/bin"}, file_actions=opens)
        status = os.waitstatus_to_exitcode(os.waitpid(child, 0)[1])
        self.runs[words[0] + " by workers" * (words[0] == "run" and "--workers" in words)] += 1
        with open(self.out, "rb") as out, open(self.err, "rb") as err: answer = out.read(), err.read(), status
        self.is_plain(words, *answer)
        return answer

    def is_plain(self, words, out, err, status):
        said = err.decode("utf-8")
        want(status in (0, 1, 2, 3), f"{words}: status {status}")
        want(status != 3, f"{words}: {said!r}")
        want(not STEERS.search(said), f"{words}: standard error has a letter that steers: {said!r}")
        swept = words[0] == "sweep" and status == 1
        want((said == "") == (status == 0) or swept and not said, f"{words}: status {status} and {said!r}")
        want(not said or re.fullmatch(r"fault: [^\n]+\n(hint: [^\n]+\n)?", said), f"{words}: {said!r}")
        want(not said or out == b"" or words[0] == "explain", f"{words}: output after a refusal")
        if words[0] not in ("page", "merge"): want(not STEERS.search(out.decode("utf-8").replace("\r\n", "\n")), f"{words}: standard output has a letter that steers")


# ---- Plans


def plan_faults(ask, rng, text):
    """Asks all commands about a plan text."""
    checked = ask(text, "check")
    if checked[2]: return refused(ask, rng, text, checked)
    told = {command: ask(text, command) for command in PLAIN + ["margin", "traffic"]}
    want(all(answer[2] == 0 for answer in told.values()), f"not all accept it: {[(command, answer[1:]) for command, answer in told.items() if answer[2]]}")
    told = {command: answer[0].decode() for command, answer in told.items()}
    workers = ask(text, "run", "--workers", str(rng.randint(2, 8)), "--link", rng.choice(["hub", "mail"])) if rng.random() < ask.share else None
    want(not workers or workers[0].decode() == told["run"], "workers give another report")
    want(counts_alike(told["trace"], told["run"]), "the trace has other numbers than the report")
    log_of_trace(told)
    waveform(told["vcd"])
    if rng.random() < 0.4: records(ask, told["records"])
    command = rng.choice(FORMATS)
    formats(ask, text, command, told[command])
    if rng.random() < 0.3: a_page(ask(text, "page")[0].decode(), text.decode())
    a_file(ask, rng, text, rng.choice(PLAIN), 0)
    return "accepted"


def refused(ask, rng, text, checked):
    """A refused text has one fault at all commands, and `explain` says what it is."""
    for command in rng.sample(["run", "records", "trace", "candump", "vcd", "margin", "traffic", "page"], 3):
        answer = ask(text, command)
        want(answer == checked, f"{command}: {answer}, and check: {checked}")
    out, err, status = ask(text, "explain")
    want((err, status) == checked[1:] and out.count(b"\n") == 2, f"explain: {status}, {err!r}, {out!r}")
    fault = checked[1].decode().removeprefix("fault: ").rstrip("\n")
    hinted = ask(text, "check", "--hint")
    want(hinted[1].startswith(checked[1]) and hinted[2] == 1, f"the hint has another fault: {hinted}")
    a_file(ask, rng, text, rng.choice(PLAIN[:2] + PLAIN[3:]), 1)
    made = ask(text, "explain", "--format", "json")
    want(made[2] == 1 and len(json.loads(made[0])["records"]) == 2, f"explain as JSON: {made}")
    return fault.split("(")[0]


def log_of_trace(told):
    """The log has the sent frames of the trace, in order."""
    sent = [words[8].upper() for words in map(str.split, told["trace"].splitlines()) if words[7] == "sent"]
    logged = [line.split()[2].split("#")[0] for line in told["candump"].splitlines()]
    want(sorted(sent) == sorted(logged), f"the log has other frames than the trace: {sent}, {logged}")


def waveform(text):
    last, values = -1, {}
    body = text[text.index("$enddefinitions"):]
    for line in body.splitlines()[1:]:
        if line[:1] == "#":
            want(int(line[1:]) > last or (last == 0 and line == "#0"), f"the waveform's times fall at {line}")
            last = int(line[1:])
        elif line[:1] in "01xz":
            want(values.get(line[1:]) != line[0], f"the waveform repeats {line} at {last}")
            values[line[1:]] = line[0]


def records(ask, text):
    merged = ask(text.encode(), "merge")[0].decode()
    kept = [line for line in text.splitlines() if not re.fullmatch(r"S \d+ 0 0", line)]
    want(sorted(merged.splitlines()) == sorted(kept), "the records are not their own merge")


def formats(ask, text, command, lines):
    made = ask(text, command, "--format", "json")
    found = json.loads(made[0])
    want(found["command"] == command and len(found["records"]) == len(lines.splitlines()), f"{command}: JSON has {len(found['records'])} records")
    table = list(csv.reader(io.StringIO(ask(text, command, "--format", "csv")[0].decode(), newline="")))
    want(len(table) == len(found["records"]) + 1 and all(len(row) == len(table[0]) for row in table), f"{command}: CSV has {len(table)} rows")
    want(ask(text, command, "--format", "text")[0].decode() == lines, f"{command}: --format text is another text")


def a_page(page, plan):
    """Nothing of the plan is a tag or ends a script: the page has the tags of the page of any plan."""
    tags = Counter(re.findall(r"<(/?script|!--|/?style|/?html|/?body)\b", page))
    want(tags["script"] == tags["/script"] and tags["html"] == tags["body"] == 1, f"tags of the page: {tags}")
    want("alert(1)</script>" not in page and "<!--" not in page[page.index("<body"):], "a comment of the plan is a tag of the page")


def a_file(ask, rng, text, command, status):
    """What `-o` leaves in its folder."""
    folder = ask.folder / "written"
    folder.mkdir(exist_ok=True)
    file, before = folder / rng.choice(["a", "ü b", "-x", "$(id)"]), rng.choice([None, b"", b"old\n"])
    if before is not None: file.write_bytes(before)
    plain_answer, answer = ask(text, command), ask(text, command, "-o", str(file))
    left = {path.name: path.read_bytes() for path in folder.iterdir()}
    shutil.rmtree(folder)
    want(answer[1:] == plain_answer[1:] and answer[2] == status and answer[0] == b"", f"-o: {answer}")
    wanted = plain_answer[0] if status == 0 else before
    want(left == ({} if wanted is None else {file.name: wanted}), f"{command} -o leaves {left}")


# ---- Record texts


def record_faults(ask, rng, text):
    merged = ask(text, "merge")
    horizon = ask(text, "horizon")
    want(merged[1:] == horizon[1:], f"merge {merged[1:]}, horizon {horizon[1:]}")
    if merged[2]: return merged[1].decode().removeprefix("fault: ").split("(")[0].strip()
    want(ask(merged[0], "merge") == merged, "merge of merge is another text")
    want(ask(merged[0], "horizon") == horizon, "the horizon of merge is another one")
    lines = [line for line in text.split(b"\n") if line]
    lines += rng.sample(lines, len(lines) // 2)
    rng.shuffle(lines)
    want(ask(b"".join(line + b"\n" for line in lines), "merge") == merged, "shuffled and repeated lines merge to another text")
    return "accepted"


# ---- Settings and sweeps


def settings_faults(ask, rng, text):
    told = ask(text, "settings")
    plan = ask(text, "settings", "--plan")
    if told[2]:
        want(plan == told, f"settings --plan: {plan}, and settings: {told}")
        return told[1].decode().removeprefix("fault: ").split("(")[0].strip()
    lines, best = told[0].decode().splitlines(), ask(text, "settings", "--best", "1")[0].decode().splitlines()
    want(sum(line.startswith("setting ") for line in best) == sum(line.startswith("setting 1 ") for line in lines), "the best one is another one")
    want(set(line for line in best if line.startswith("setting ")) <= set(lines), "the best one isn't listed")
    if plan[2]: want(plan[1] == b"fault: NoSetting\n" and not lines[1].startswith("setting "), f"settings --plan: {plan[1]}, beside {lines[1]!r}")
    else: want(ask(plan[0], "margin")[0].startswith(b"holds"), "the plan of a setting isn't one of a bus that works")
    return "accepted"


def sweep_faults(ask, rng, text):
    word = rng.choice(["sjw=1..4", "x=0..90:30", "n0.ppm=-9..9:9", "end=1..1000:500", "prop=0..9", "sjw=4..1", "nobody.x=1..2", "sjw=1..4:0", "name=1..2", "=", "x=1..99999999"])
    words = ["sweep", "--runs", "2", "--vary", word] + rng.choice([[], ["--worst"], ["--keep-offsets"], ["--keep-ppm"], ["--seed", "7"]])
    one, three = ask(text, *words, "--workers", "1"), ask(text, *words, "--workers", "3")
    want(one == three, f"{words}: three workers answer otherwise")
    if one[1]: return one[1].decode().removeprefix("fault: ").split("(")[0].strip()
    want(re.search(r"^clean in \d+ of \d+", one[0].decode(), re.M), f"{words}: no sum in {one[0]!r}")
    made = ask(text, *words, "--format", "json")
    want(made[2] == one[2] and json.loads(made[0])["command"] == "sweep", f"{words}: JSON has status {made[2]}")
    member = ask(text, *words, "--print", "0")
    want(member[2] == 0, f"{words}: member 0 isn't printed: {member[1]}")
    if b"refused" not in one[0]: want(ask(member[0], "check")[2] == 0, f"{words}: member 0 is refused by check")
    a_page(ask(text, *words, "--page")[0].decode(), text.decode())
    return "swept"


# ---- Inputs


def settings_text(rng):
    top = {"bitrate": rng.choice([1_000_000, 500_000, 250_000, 83_333, 33_333, rng.randint(1, 1_000_001)]), "cable": rng.choice([1, 10, 40, 400, 2**20]),
           "per": rng.choice([5, 6, 1, 2**20]), "out": rng.choice([0, 60, 120]), "in": rng.choice([0, 60, 130]), "tolerance": rng.choice([0, 50, 1000, 5000, 100_001])}
    lines = [f"{key} = {value}" for key, value in top.items()] + [f'senders = "{rng.choice(["any", "one", "one", "two"])}"']
    if rng.random() < 0.3: lines.append(f"rate_error = {rng.choice([0, 500, 10_000])}")
    for number in range(rng.choice([1, 1, 2, 3])):
        lines += ["[[controller]]", f'name = "{rng.choice(["a", "b-1", "stm32", "ü"] + ["a"] * 6)}"', f"clock = {rng.choice([8_000_000, 16_000_000, 36_000_000, 7, 10**9])}"]
        lines += [f"{key} = {rng.randint(1, most)}" for key, most in (("prescaler", 64), ("prop", 8), ("ps1", 8), ("ps2", 8), ("sjw", 4)) if rng.random() < 0.2]
    text = "\n".join(lines).encode() + b"\n"
    if rng.random() < 0.3: text = strangers.change_key(rng, text)
    return strangers.mutate(rng, text, strangers.plan_pieces) if rng.random() < 0.2 else text


def hostile_text(rng):
    """A good plan with hostile comments, keys or names."""
    text = random_plans.plan_input(rng, rng, "mixed")
    word = rng.choice(HOSTILE)
    way = rng.randrange(5)
    if way == 0: return b"# " + word.replace("\x7f", "").encode() + b"\n" + text
    if way == 1: return text + b"\n# " + rng.choice(HOSTILE[:7]).encode()
    if way == 2: return json.dumps(word).encode() + b" = 1\n" + text
    if way == 3: return re.sub(rb'name = "[^"]*"', lambda found: b"name = " + json.dumps(word).encode(), text, count=1)
    return re.sub(rb"\bx = ", b"%s = 1\nx = " % json.dumps(word, ensure_ascii=False).replace("\x7f", "").encode(), text, count=1)


def text_of(rng, kind):
    if kind == "hostile": return hostile_text(rng)
    if kind == "settings": return settings_text(rng)
    if kind in ("good", "sweep"): return versions.text_of(rng, versions.with_traffic(rng, versions.random_plan(rng, 200))[0])
    return strangers.text_of(rng, kind)


FAULTS = {"records": record_faults, "plans": plan_faults, "hostile": plan_faults, "good": plan_faults, "settings": settings_faults, "sweep": sweep_faults}


def part(words):
    program, seed, first, runs, share = words
    counts, kept, number = Counter(), [], first
    with tempfile.TemporaryDirectory(dir="/dev/shm" if os.path.isdir("/dev/shm") else None) as folder:
        ask = Asker(program, Path(folder), share)
        while sum(ask.runs.values()) < runs:
            rng = random.Random(f"{seed} {number} hostile")
            number += 1
            kind = rng.choice(["records", "plans", "plans", "hostile", "good", "good", "settings", "sweep"])
            text = text_of(rng, kind)
            if len(text) > MOST_BYTES: continue
            try:
                counts[FAULTS[kind](ask, rng, text)] += 1
            except (Wrong, ValueError, KeyError, IndexError) as fault:
                counts["WRONG"] += 1
                if len(kept) < 5: kept.append((number - 1, text, f"{type(fault).__name__}: {fault}"))
        return ask.runs, counts, kept


def main():
    if len(sys.argv) < 2: sys.exit(sys.stderr.write(__doc__) and 2)
    options = options_of(__doc__, sys.argv[2:], {"runs": "10000", "seed": "1", "jobs": "1", "workers": "0.3"})
    program, runs, jobs, piece = os.path.abspath(sys.argv[1]), int(options["runs"]), int(options["jobs"]), 2_000
    tasks = [(program, options["seed"], number * 10**6, min(piece, runs - number * piece), float(options["workers"])) for number in range(-(-runs // piece))]
    all_runs, all_counts, all_kept = Counter(), Counter(), []
    with Pool(jobs) as pool:
        for done, counts, kept in pool.imap_unordered(part, tasks):
            all_runs, all_counts, all_kept = all_runs + done, all_counts + counts, all_kept + kept
            if sum(all_runs.values()) // 100_000 > (sum(all_runs.values()) - sum(done.values())) // 100_000: print(f"{sum(all_runs.values())} runs, {all_counts['WRONG']} wrong", flush=True)
    print("runs:", sum(all_runs.values()), ", ".join(f"{command} {times}" for command, times in sorted(all_runs.items())))
    print("texts:", sum(all_counts.values()), ", ".join(f"{word} {times}" for word, times in sorted(all_counts.items())))
    for number, text, fault in all_kept[:10]:
        with tempfile.NamedTemporaryFile(prefix="hostile-", delete=False) as file: file.write(text)
        print(f"text {number}: {fault[:1500]}\n  the text is in {file.name}")
    return 1 if all_counts["WRONG"] else 0


if __name__ == "__main__": sys.exit(main())
