#!/usr/bin/env python3
"""Sweeps by an independent program: what `sweep` says of a plan, and the plans of its members, from docs/use/sweeps.md and crates/wl_sweep/specs/Family.antt; members run by plain.py.

usage: sweeps.py [--program PROGRAM] [--jobs N] WORD.. < PLAN      standard output, standard error and status as `sweep WORD..` has them

Words with --spike are answered by spike_sweeps.py.

With --program members are run by a build of wl_sim in the place of plain.py: less independent, and a thousand times as fast.
"""
import importlib
import json
import os
import re
import subprocess
import sys
from collections import Counter
from copy import deepcopy
from functools import cache, partial
from itertools import accumulate
from multiprocessing import Pool

import plain

MASK = 2**64 - 1
MOST = 2**128 - 1  # so many members are counted, and no more
CLOCK = ("num", "den", "quantum", "ppm")
TOP = ("end", "per")
REPEAT = ("every", "count")
SEGMENTS = "prop", "ps1", "ps2", "tseg1", "tseg2"
KEYS = TOP + CLOCK + REPEAT + SEGMENTS + ("offset", "sjw", "x", "out", "in", "tolerance")


class Refused(Exception):
    """Why a sweep isn't run: its fault, and the status, 2 for a fault of a word and 1 for one of the plan."""

    def __init__(self, fault, status=2):
        super().__init__(f"fault: {fault}")
        self.status = status


# ---- A plan's text: a table of its keys, with the rates of each node as a list in all versions

OF_TEXT = "Size", "Toml", "Version", "Missing", "Kind", "Unknown"  # faults by which there is no plan to which frames could be added


def read(text):
    try:
        plain.read_plan(text.encode())
    except plain.Fault as fault:
        raise Refused(fault, 1)
    return tables(text)


def tables(text):
    plan = plain.read_toml(text.encode())
    for node in plan["node"]:
        if "rates" not in node:
            node["rates"] = [{"from": 0} | {key: node.pop(key) for key in CLOCK if key in node}]
    return plan


def clock_lines(rate):
    return "".join(f"{key} = {rate[key]}\n" for key in CLOCK if key in rate)


def frame_lines(frame):
    said = f"\n[[node.frame]]\nid = 0x{frame['id']:x}\ndlc = {frame['dlc']}\nready = {frame.get('ready', 0)}\n"
    said += "".join(f"{key} = {frame[key]}\n" for key in REPEAT if key in frame)
    said += "".join(f"{key} = true\n" for key in ("extended", "remote") if frame.get(key))
    return said + (f"bytes = [{', '.join(f'0x{byte:02x}' for byte in frame['bytes'])}]\n" if frame.get("bytes") else "")


def node_lines(version, node):
    said = f"\n[[node]]\nname = \"{node['name']}\"\noffset = {node['offset']}\n"
    own = version == 1 or version >= 3 and [rate["from"] for rate in node["rates"]] == [0]
    if own: said += clock_lines(node["rates"][0])
    said += "".join(f"{key} = {node[key]}\n" for key in SEGMENTS + ("sjw", "x", "out", "in", "tolerance") if key in node)
    if node.get("listen"): said += "listen = true\n"
    if not own: said += "".join(f"\n[[node.rates]]\nfrom = {rate['from']}\n{clock_lines(rate)}" for rate in node["rates"])
    return said + "".join(map(frame_lines, node.get("frame", [])))


def plan_text(plan):
    said = f"version = {plan['version']}\nend = {plan['end']}\nper = {plan['per']}\nsync = \"{plan.get('sync', 'after')}\"\n"
    said += "".join(node_lines(plan["version"], node) for node in plan["node"])
    return said + "".join(map(disturbance_lines, plan.get("disturbance", [])))


def disturbance_lines(it):
    spot = f"node = \"{it['node']}\"" if "node" in it else f"x = {it['x']}"
    return f"\n[[disturbance]]\n{spot}\nfrom = {it['from']}\nto = {it['to']}\n"


# ---- What is found of a text, by plain.py or by a program's report

def finding(program, text):
    """The word of what is found, with its errors and frames that are left to send."""
    if program: return finding_of_report(subprocess.run([program, "run"], input=text, capture_output=True, text=True))
    try:
        nodes = plain.simulate(plain.read_plan(text.encode()))
    except plain.Fault:
        return "refused", 0, 0
    passed = [[frame for _, _, frame in node.frames] for node in nodes]
    off = any(node.counters.mode() == "off" for node in nodes)
    return found(sum(node.errors for node in nodes), sum(len(node.waiting) for node in nodes), off, passed)


def finding_of_report(ended):
    if ended.returncode: return "refused", 0, 0
    rows = [line.split() for line in ended.stdout.splitlines()]
    nodes = [row for row in rows if row[0] == "node"]
    passed = [[row[4:] for row in rows if row[:2] == ["frame", node[1]]] for node in nodes]
    errors, unsent = (int(rows[-1][3]), int(rows[-1][5])) if rows[-1][1] == "faulty" else (0, 0)
    return found(errors, unsent, any(node[7] == "off" for node in nodes), passed)


def found(errors, unsent, off, passed):
    if errors: return "faulty", errors, unsent
    if off: return "off", 0, unsent
    if unsent: return "early", 0, unsent
    return ("clean" if all(frames == passed[0] for frames in passed) else "missed"), 0, 0


WORDS = {"clean": "clean", "faulty": "verdict faulty errors {} unsent {}", "off": "a node is off the bus",
         "early": "ends too early, without an error: unsent {1}", "missed": "a node has not received every frame", "refused": "refused"}


# ---- A family: offsets over a bit, both limits of each tolerance

def quantum_of(node):
    rate = node["rates"][0]
    return max(1, rate["quantum"] if "quantum" in rate else rate["num"] // max(1, rate["den"]))


def bit_of(node):
    return min(2**48, quantum_of(node) * (1 + sum(node.get(key, 0) for key in SEGMENTS)))


def digits_of(plan, options):
    """For each node how many offsets and how many signs it has, and the ticks between two offsets."""
    nodes = plan["node"]
    step = options["step"] or max(1, min(map(quantum_of, nodes), default=MASK) // 5)
    if is_refused(plan): return [(1, 1)] * len(nodes), step
    radixes = [(1 if options["offsets"] or i == 0 else -(-bit_of(node) // step), 2 if not options["ppm"] and node.get("tolerance") else 1)
               for i, node in enumerate(nodes)]
    return radixes, step


def member_count(plan, options):
    count = 1
    for offsets, signs in digits_of(plan, options)[0]: count *= offsets * signs
    return min(count, MOST)


@cache
def is_refused_text(text):
    try:
        plain.read_plan(text.encode())
    except plain.Fault:
        return True
    return False


def is_refused(plan):
    return is_refused_text(plan_text(plan))


def words_of(seed):
    """SplitMix64 (Steele, Lea, Flood 2014)."""
    while True:
        seed = (seed + 0x9E3779B97F4A7C15) & MASK
        word = (seed ^ seed >> 30) * 0xBF58476D1CE4E5B9 & MASK
        word = (word ^ word >> 27) * 0x94D049BB133111EB & MASK
        yield word ^ word >> 31


def choices(plan, options, run):
    """For each node by how many ticks it begins later, and by how many ppm its clock deviates, if it doesn't keep its rates."""
    radixes, step = digits_of(plan, options)
    flat = [radix for pair in radixes for radix in pair]
    if member_count(plan, options) <= options["runs"] or run == 0:
        digits = [run // before % radix for radix, before in zip(flat, accumulate(flat, int.__mul__, initial=1))]
    else:
        words = words_of((options["seed"] * 2**32 + run) % 2**64)
        digits = [next(words) * radix >> 64 if radix > 1 else 0 for radix in flat]
    kept = options["ppm"] or is_refused(plan)
    limits = [None if kept or "tolerance" not in node else node["tolerance"] for node in plan["node"]]
    return [(step * digits[2 * i], limit and (-limit if digits[2 * i + 1] else limit)) for i, limit in enumerate(limits)]


def deviating(rate, ppm):
    """A rate within the tolerance: of ticks and quanta the one next to the limit, in parts of a denominator up to a million."""
    if "quantum" in rate: return rate | {"ppm": ppm}
    times = max(1, 10**6 // max(1, rate["den"]))
    nominal, towards = rate["num"] * times * 10**6, -1 if ppm < 0 else 1
    return rate | {"num": towards * ((nominal + rate["num"] * times * ppm) * towards // 10**6), "den": rate["den"] * times}


def member(plan, options, run):
    plan = deepcopy(plan)
    for node, (by, ppm) in zip(plan["node"], choices(plan, options, run)):
        node["offset"] += by
        if ppm is None: continue
        node["rates"] = [deviating(rate, ppm) for rate in node["rates"]]
        del node["tolerance"]
    return plan


# ---- Ranges and rows

def size(text):
    return int(text) if text.isascii() and text.isdigit() and int(text) < 2**48 else None


def number(text):
    it = size(text.removeprefix("-"))
    return it if it is None or not text.startswith("-") else -it


def ends_of(text):
    low, dot, rest = text.partition(".")
    high, colon, step = rest.removeprefix(".").partition(":")
    ends = number(low), number(high), number(step) if colon else 0
    return None if not dot or not rest.startswith(".") or None in ends else (*ends, bool(colon))


def named_node(nodes, name):
    names = [node["name"] for node in nodes]
    if name in names: return names.index(name)
    return it if (it := number(name)) is not None and 0 <= it < len(nodes) else None


def tables_of(node, key):
    """The tables of a node in which a key may stand."""
    return node["rates"] if key in CLOCK else node.get("frame", []) if key in REPEAT else [node]


def has(node, key):
    return key not in CLOCK + REPEAT + SEGMENTS or any(key in table for table in tables_of(node, key))


def target_of(nodes, called):
    name, dot, key = called.rpartition(".") if called.count(".") < 2 else (*called.split(".", 1)[:1], ".", called.split(".", 1)[1])
    if key not in KEYS: raise ValueError("Key")
    if dot:
        which = None if key in TOP else named_node(nodes, name)
        if which is None: raise ValueError("Node")
        if not has(nodes[which], key): raise ValueError("Absent")
        return key, [which]
    if key in TOP: return key, []
    if key == "x": return key, [max(range(len(nodes)), key=lambda i: nodes[i]["x"])] if nodes else []
    if not any(has(node, key) for node in nodes): raise ValueError("Absent")
    return key, [i for i, node in enumerate(nodes) if has(node, key)]


def values_of(key, low, high, step, is_said):
    least, most = {"ppm": (-10**9, 10**9), "x": (0, 2**31 - 1), "tolerance": (0, 100_000), "every": (1, 2**48 - 1), "count": (1, 2**48 - 1)}.get(key, (0, 2**48 - 1))
    if not (least <= low <= most and least <= high <= most): raise ValueError("Bounds")
    if high < low: raise ValueError("Order")
    if is_said and step <= 0: raise ValueError("Step")
    if not is_said: step = next(by for n in range(16) for by in (10**n, 2 * 10**n, 5 * 10**n) if (high - low) // by < 20)
    if (high - low) // step >= 10_000: raise ValueError("Rows")
    return range(low, high + 1, step)


def range_of(plan, word):
    called, equals, ends = word.partition("=")
    ends = ends_of(ends) if equals else None
    if ends is None: raise ValueError("Form")
    key, nodes = target_of(plan["node"], called)
    return called, key, nodes, values_of(key, *ends)


def ranges_of(plan, words):
    ranges = []
    for n, word in enumerate(words):
        try:
            ranges.append(range_of(plan, word))
        except ValueError as fault:
            raise Refused(f"Range({n}, {fault})")
    return ranges


def rows_of(plan, ranges):
    """For each row the values of the ranges, and the plan that has them."""
    if not ranges: return [([], plan)]
    called, key, nodes, values = ranges[0]
    rows = []
    for value in values:
        row = deepcopy(plan)
        if key in TOP: row[key] = value
        for i in nodes:
            for table in tables_of(row["node"][i], key):
                if key not in CLOCK + REPEAT or key in table: table[key] = value
        rows += [([(called, value)] + later, it) for later, it in rows_of(row, ranges[1:])]
    return rows


# ---- Frames that test the clocks

def is_edge(line, k):
    return line[k] == plain.DOMINANT and (k == 0 or line[k - 1] == plain.RECESSIVE)


def tests_clocks(frame):
    line = [bit for bit, _ in plain.stuff(frame.bits())] + [plain.RECESSIVE, plain.DOMINANT]
    edges = [k for k in range(len(line)) if is_edge(line, k)]
    return any(later - edge == 10 for edge, later in zip(edges, edges[1:]))


def with_worst(plan):
    plan, nodes, below = deepcopy(plan), plan["node"], 0x7F0
    used = {frame["id"] for node in nodes for frame in node.get("frame", []) if not frame.get("extended")}
    senders = [node for node in plan["node"] if node.get("frame")]
    plan["end"] = min(2**48 - 1, plan["end"] + max(map(bit_of, nodes), default=0) * 160 * len(senders))
    for node in senders:
        below = max(id for id in range(below) if id not in used)
        node["frame"].append({"id": below, "dlc": 8, "bytes": [0x3C] * 8, "ready": node["frame"][-1].get("ready", 0)})
    return plan


# ---- What a sweep says

def counts(tally):
    said = f"clean in {tally['clean']} of {tally.total()}"
    return said + "".join(f", {what} in {tally[key]}" for what, key in (("too early", "early"), ("refused", "refused")) if tally[key])


def changes(row, plan, options, run):
    said = "".join(f", {called} = {value}" for called, value in row)
    for node, (by, ppm) in zip(plan["node"], choices(plan, options, run)):
        if by: said += f", {node['name']}.offset = {node['offset'] + by}"
        if ppm is not None: said += f", {node['name']}.ppm = {ppm}"
    return said


FIRSTS = {
    "unclean": ("first that isn't", lambda word: word not in ("clean", "refused")),
    "refused": ("first refused", lambda word: word == "refused"),
}


class Sweep:
    def __init__(self, text, request):
        self.options = request
        if request["runs"] == 0: raise Refused("Runs")
        if request["step"] == 0: raise Refused("Step")
        if request["print"] is None and not 1 <= request["workers"] <= 8: raise Refused("Workers")
        try:
            plan = read(text)
        except Refused as refused:  # of a refused plan that gets frames the fault is the one that it has with them
            if not request["worst"] or re.match("fault: (" + "|".join(OF_TEXT) + r")\b", str(refused)): raise
            plan = tables(text)
        self.plan = with_worst(plan) if request["worst"] else plan
        read(plan_text(self.plan))  # a node may have no room for one frame more
        ranges = ranges_of(self.plan, request["ranges"])
        rows = 1
        for *_, values in ranges: rows *= len(values)
        if rows > 10_000: raise Refused("Rows")
        self.axes = [(called, values) for called, *_, values in ranges]
        self.rows = rows_of(self.plan, ranges)
        self.runs = [min(member_count(plan, request), request["runs"]) for _, plan in self.rows]

    def members(self):
        return [(row, run) for row, runs in enumerate(self.runs) for run in range(runs)]

    def text(self, row, run):
        return plan_text(member(self.rows[row][1], self.options, run))

    def found(self, pool, program, places):
        """Returns what is found of the members at some places."""
        texts = [self.text(row, run) for row, run in places]
        several = list(dict.fromkeys(texts))
        known = dict(zip(several, pool.map(partial(finding, program), several, chunksize=4)))
        return [known[text] for text in texts]

    def words(self):
        return ["".join(f"{called} {value} " for called, value in settings) for settings, _ in self.rows if settings]

    def members_line(self):
        runs, members = sum(self.runs), min(MOST, sum(member_count(plan, self.options) for _, plan in self.rows))
        if runs == members: return f"all {members} members were run\n"
        return f"{runs} of {'at least ' * (members == MOST)}{members} members were run, drawn by seed {self.options['seed']}\n"

    def tail(self):
        said = "each sender has one frame more, with edges ten bits apart\n" if self.options["worst"] else ""
        frames = {waiting.frame for node in plain.read_plan(plan_text(self.plan).encode()).nodes for waiting in node.queue}
        if any(map(tests_clocks, frames)): return said
        return said + "no frame has edges ten bits apart, so none tests the clocks; --worst adds some that do\n"

    def says(self, pool, program):
        places = self.members()
        all_found, said = self.found(pool, program, places), ""
        for row, words in enumerate(self.words()):
            said += words + counts(Counter(it[0] for (at, _), it in zip(places, all_found) if at == row)) + "\n"
        tally = Counter(it[0] for it in all_found)
        said += counts(tally) + "\n" + self.members_line()
        for label, test in FIRSTS.values(): said += self.first(label, places, all_found, test)[1]
        return said + self.tail(), tally["clean"] == tally.total()

    def part(self, pool, program, k, n):
        """Returns the text of part k of n."""
        places = self.members()
        below = [len(places) * end // n for end in (k - 1, k)]
        places = places[slice(*below)]
        all_found, options = self.found(pool, program, places), self.options
        by_row = [Counter(it[0] for (at, _), it in zip(places, all_found) if at == row) for row in range(len(self.rows))]
        name = f"options --runs {options['runs']} --seed {options['seed']}" + (f" --step {options['step']}" if options["step"] else "")
        name += "".join(f" {flag}" for flag, key in FLAGS.items() if options[key]) + "\n"
        for i, (called, values) in enumerate(self.axes): name += " ".join(["held" if i > 1 else "axis", called, *map(str, values)]) + "\n"
        firsts = {}
        for key, (label, test) in FIRSTS.items():
            number, line = self.first(label, places, all_found, test, below[0])
            firsts[key] = [{"number": number, "line": line}] if line else []
        rows = [{"runs": it.total(), "clean": it["clean"], "early": it["early"], "refused": it["refused"]} for it in by_row]
        return json_of({"part": k, "of": n, "sweep": name + plan_text(self.plan), "words": self.words(), "members": self.members_line(), "tail": self.tail(),
                        "rows": rows, **firsts}) + "\n"

    def first(self, label, places, all_found, test, before=0):
        for n, ((row, run), it) in enumerate(zip(places, all_found), before):
            if test(it[0]):
                return n, f"{label}: member {n}{changes(*self.rows[row], self.options, run)}: {WORDS[it[0]].format(*it[1:])}\n"
        return 0, ""

    def prints(self, n):
        places = self.members()
        if n >= len(places): raise Refused("Member")
        row, run = places[n]
        return f"# member {n}{changes(*self.rows[row], self.options, run)}\n{self.text(row, run)}"


# ---- Parts

def json_of(value):
    """Returns a value as JSON, without spaces; a list has its length first and null last."""
    if isinstance(value, dict): return "{" + ",".join(f"{json_of(key)}:{json_of(it)}" for key, it in value.items()) + "}"
    if isinstance(value, list): return "[" + ",".join([str(len(value)), *map(json_of, value), "null"]) + "]"
    if isinstance(value, int): return str(value)
    return '"' + re.sub(r'["\\]|[\x00-\x1f]', lambda it: "\\" + it[0] if it[0] in '"\\' else f"\\u{ord(it[0]):04x}", value) + '"'


def joined(text):
    """Returns what the texts of all parts of a sweep say together, and whether each member is clean."""
    parts = []
    for n, line in enumerate(text.splitlines(keepends=True), 1):
        try: parts.append(json.loads(line))
        except ValueError: raise Refused(f"Part({n}, Form)", 1) from None
        if not isinstance(parts[-1], dict) or line[-1] != "\n": raise Refused(f"Part({n}, Form)", 1)
    for n, part in enumerate(parts, 1):
        if any(part[key] != parts[0][key] for key in ("sweep", "of")) or not 1 <= part["part"] <= part["of"]: raise Refused(f"Part({n}, Other)", 1)
    numbers = Counter(part["part"] for part in parts)
    for k in range(1, parts[0]["of"] + 1 if parts else 2):
        if numbers[k] != 1: raise Refused(f"Part({k}, {'Doubled' if numbers[k] else 'Missing'})", 1)
    parts.sort(key=lambda part: part["part"])
    rows = [Counter() for _ in parts[0]["rows"][1:-1]]
    for part in parts:
        for row, more in zip(rows, part["rows"][1:-1]): row.update({**more, "late": more["runs"] - more["clean"] - more["early"] - more["refused"]})
    for row in rows: del row["runs"]
    total = sum(rows, Counter())
    said = "".join(words + counts(row) + "\n" for words, row in zip(parts[0]["words"][1:-1], rows)) + counts(total) + "\n" + parts[0]["members"]
    for key in FIRSTS: said += next((part[key][1]["line"] for part in parts if part[key][0]), "")
    return said + parts[0]["tail"], total["clean"] == total.total()


# ---- The command line

FLAGS = {"--keep-offsets": "offsets", "--keep-ppm": "ppm", "--worst": "worst"}


def request_of(words):
    """Returns what the words of a command line ask for."""
    request = {"runs": 1000, "seed": 1, "step": None, "workers": 1, "print": None, "offsets": False, "ppm": False, "worst": False, "ranges": [],
               "join": False, "part": None}
    words = list(words)
    while words:
        word = words.pop(0)
        if word in FLAGS: request[FLAGS[word]] = True
        elif word == "--vary": request["ranges"].append(words.pop(0))
        elif word == "--join": request["join"] = True
        elif word == "--part": request["part"] = words.pop(0)
        else: request[word.removeprefix("--")] = int(words.pop(0))
    return request


def answer(pool, program, text, request):
    """Returns what is written, and whether the status is 0."""
    if request["join"]: return joined(text)
    if request["part"] is not None:
        numbers = re.fullmatch(r"(\d+)/(\d+)", request["part"], re.A)
        share = [int(digits) if int(digits) < 2**32 else 0 for digits in numbers.groups()] if numbers else [0, 0]
        if not 1 <= share[0] <= share[1]: raise Refused("Part")
        return Sweep(text, request).part(pool, program, *share), True
    sweep = Sweep(text, request)
    return (sweep.prints(request["print"]), True) if request["print"] is not None else sweep.says(pool, program)


def main():
    words, program, jobs = sys.argv[1:], None, os.cpu_count()
    while words[:1] in (["--program"], ["--jobs"]):
        if words[0] == "--jobs": jobs = int(words[1])
        else: program = words[1]
        del words[:2]
    if any(word.startswith("--spike") for word in words):
        sys.argv[1:] = words
        return importlib.import_module("spike_sweeps").main()
    try:
        request, text = request_of(words), sys.stdin.read()
    except (IndexError, ValueError):
        sys.exit(sys.stderr.write(__doc__) and 2)
    with Pool(jobs) as pool:
        try:
            said, is_clean = answer(pool, program, text, request)
        except Refused as refused:
            sys.stderr.write(f"{refused}\n")
            sys.exit(refused.status)
    sys.stdout.write(said)
    sys.exit(0 if is_clean else 1)


if __name__ == "__main__":
    main()
