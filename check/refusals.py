"""What `explain` writes of a plan that is refused, beside the first fault by plain.py: the comparison `refusals`.

Written from docs/use/explain.md, "Of a plan that is refused", docs/use/plan-text.md, "Keys", and the table of faults in docs/use/faults.md, whose last
column says what to change. plain.py says which fault is the first; here it gets its table and its keys.
"""
import functools
import random
import re
import sys
import tomllib
from pathlib import Path

sys.dont_write_bytecode = True
import plain
import random_plans
from tally import asked

# ---- The table at which a plan's text is refused, and the keys that are shown of it


def tables(top):
    """Each table with its kind and numbers, and the keys that it must and may have, in the order in which they are read."""
    version = top["version"]
    yield ("plan",), top, plain.TOP, {"disturbance": plain.TABLES, "sync": plain.SYNC}
    for i, node in enumerate(top["node"]):
        clock = {"rates": plain.TABLES} if version == 2 or version >= 3 and "rates" in node else plain.clock_keys(node)
        required = {"name": plain.NAME, "offset": plain.NUMBER} | clock | plain.length_keys(version, node)
        yield ("node", i), node, required, {"frame": plain.TABLES, "tolerance": plain.TOLERANCE} | ({"listen": plain.TRUTH} if version >= 3 else {})
        for n, rate in enumerate(node.get("rates", [])): yield ("rate", i, n), rate, {"from": plain.NUMBER} | plain.clock_keys(rate), {}
        for n, frame in enumerate(node.get("frame", [])): yield ("frame", i, n), frame, *plain.frame_keys(version, frame)
    for n, table in enumerate(top.get("disturbance", [])): yield ("disturbance", n), table, plain.disturbance_keys(version, table), {}


def faulty_table(top):
    """The first table whose keys are wrong."""
    if "version" not in top or not plain.NUMBER(top["version"]): return ("plan",)
    for path, table, required, optional in tables(top):
        try:
            plain.test_keys(table, required, optional)
        except plain.Fault:
            return path


CLOCK = ["quantum", "ppm", "num", "den", "rates"]
KEYS = {
    "BigOffset": ["offset"], "Prop": ["prop"], "Phase1": ["ps1", "tseg1"], "Phase2": ["ps2", "tseg2"], "Jump": ["sjw", "ps1", "tseg1", "tseg2"],
    "Length": ["prop", "ps1", "ps2", "tseg1", "tseg2"],
    "Id": ["id", "extended"], "Dlc": ["dlc"], "DataLength": ["dlc", "remote", "bytes"], "ExtendedId": ["id", "extended"],
}


def paths_of(top, fault):
    """Tables, each with the keys that are shown of it."""
    word, _, inner = fault.partition("(")
    numbers = [int(number) for number in re.findall("[0-9]+", re.sub("[A-Za-z]+[0-9]", "", fault))]
    last = re.findall("[A-Za-z0-9]+", fault)[-1]
    if word in ("Missing", "Kind", "Unknown"): return [faulty_table(top), inner[:-1]]
    if word == "Version": return [("plan",), "version"]
    if word in ("NodeClock", "NodeSegments"): return [("node", numbers[0]), *KEYS.get(last, CLOCK)]
    if word == "NodeFrame": return [("frame", *numbers[:2]), *KEYS[last]]
    if inner in ("NoNodes)", "TooManyNodes)"): return [("plan",), "node"]
    if word == "Topology": return [("node", numbers[0]), "x", "out", ("node", numbers[1]), "x", "in"]
    if inner == "End)": return [("plan",), "end"]
    if inner.startswith("Quanta"): return [("plan",), "end", "sync", ("node", numbers[0]), "offset", *CLOCK]
    if inner.startswith("Queue"): return [("node", numbers[0]), "frame"]
    if inner.startswith("Disturbance"): return [("disturbance", numbers[0]), "x", "node", "from", "to"]
    return []


# ---- Its words

# What is wrong, in the words of crates/wl_explain/specs/Remedies.antt; those on a whole fault first.
CAUSES = {
    "Version": "the version is none that is known", "SameName": "two nodes have one name", "Size": "the text has more than 1,048,576 bytes",
    "Missing": "it has to be there", "Kind": "the value is of another kind or out of its bounds", "Unknown": "the key has no place there",
    "BadPpm": "ppm is out of its bounds", "ZeroDen": "den is 0", "TooFast": "a quantum takes less than a tick",
    "TooSlow": "a quantum takes more than 1,048,576 ticks", "BigOffset": "offset is above 1,048,576 ticks", "BigDen": "den is above 1,000,000",
    "NoRates": "there is no rate", "TooManyRates": "there are more than 16 rates", "RateOrder": "the rates are not in the order of their from, from 0 on",
    "BadFrom": "a rate begins after quantum 1,048,576", "Prop": "prop is out of its bounds", "Phase1": "ps1 is out of its bounds",
    "Phase2": "ps2 is out of its bounds", "Jump": "sjw is out of its bounds or above ps1", "Length": "a bit has fewer than 8 quanta",
    "Id": "id is above 0x7FF in a base frame", "Dlc": "dlc is above 15", "DataLength": "the bytes are not as many as dlc says, or a remote frame has some",
    "ExtendedId": "id is above 0x1FFFFFFF", "NoNodes": "there is no node", "TooManyNodes": "there are more than 16 nodes",
    "ZeroDelay": "a level takes no tick from the one to the other", "TooLong": "a level takes more than 1,048,576 ticks from the one to the other",
    "End": "end is above 68,719,476,736 ticks", "Quanta": "more quanta begin before end than may", "Queue": "more than 64 frames wait, or 4,096 in version 3",
    "Disturbance": "it ends before it begins, ends too late, is too far from a node, names no node, or is one of more than 64", "Toml": "the text is no TOML 1.1",
}
# In version 4; the last three at a node with `tseg1` or `tseg2`.
WIDE_CAUSES = {
    "BigOffset": "offset is above 17,179,869,184 ticks", "BadFrom": "a rate begins after quantum 1,073,741,824",
    "TooManyNodes": "there are more than 64 nodes", "End": "end is above 1,099,511,627,776 ticks", "Queue": "more than 65,536 frames wait",
    "Disturbance": "it ends before it begins, ends too late, is too far from a node, names no node, or is one of more than 256",
    "Phase1": "tseg1 is out of its bounds", "Phase2": "tseg2 is out of its bounds", "Jump": "sjw is out of its bounds, above tseg1 - 1 or above tseg2",
}
ESCAPES = {"\b": "\\b", "\t": "\\t", "\n": "\\n", "\f": "\\f", "\r": "\\r"}


# Control characters, separators of lines, marks of writing direction
def steers(c): return c < 32 or 127 <= c < 160 or c in (0x61C, 0x200E, 0x200F) or 0x2028 <= c <= 0x202E or 0x2066 <= c <= 0x2069


def shown(text):
    return "".join(ESCAPES.get(c) or (f"\\u{ord(c):04X}" if steers(ord(c)) else c) for c in text)


@functools.cache
def faults_table(heading):
    page = (Path(__file__).parent.parent / "docs/use/faults.md").read_text()
    rows = re.findall(r"^\| `([^`]*)` \| .* \| (.*) \|$", page.split(f"\n## {heading}\n")[1].split("\n## ")[0], re.M)
    return [(re.compile(re.sub(r"\b(key|n|i|j)\b", ".*", re.escape(fault)), re.S), change) for fault, change in rows]


def is_wide(top, fault):
    """Whether the words of version 4 are for this fault: on segments they are for those of a controller."""
    if top.get("version") != 4 or type(top["version"]) is not int: return False
    if not fault.startswith("NodeSegments"): return True
    node = top["node"][int(re.search("[0-9]+", fault)[0])]
    return "tseg1" in node or "tseg2" in node


def remedy(top, fault):
    headings = ["Faults in version 4"] * is_wide(top, fault) + ["Faults"]
    return next(change for heading in headings for pattern, change in faults_table(heading) if pattern.fullmatch(fault))


def value_words(value):
    if isinstance(value, bool): return "true" if value else "false"
    if isinstance(value, str): return f'"{shown(value)}"'
    if isinstance(value, list): return f"an array of {len(value)}"
    return str(value) if isinstance(value, int) else "a table" if isinstance(value, dict) else "a number with a fraction" if isinstance(value, float) else "a date or a time"


def beside(word, value):
    """What is said beside an identifier: its hexadecimal digits."""
    return f" (0x{value:X})" if word == "id" and type(value) is int and value >= 0 else ""


def table_at(top, kind, *numbers):
    if kind == "plan": return top
    if kind == "disturbance": return top["disturbance"][numbers[0]]
    table = top["node"][numbers[0]]
    return table if kind == "node" else table[{"rate": "rates", "frame": "frame"}[kind]][numbers[1]]


def path_words(top, kind, *numbers):
    if kind == "plan": return "the plan"
    if kind == "disturbance": return f"disturbance {numbers[0]}"
    name = table_at(top, "node", numbers[0]).get("name")
    return f"node {numbers[0]}" + (f" {shown(name)}" if isinstance(name, str) else "") + (f", {kind} {numbers[1]}" if kind != "node" else "")


def about(top, fault, words):
    """Tables, each with the keys that stand there."""
    said, table = [], None
    for word in words or [("plan",)]:
        if isinstance(word, tuple):
            said.append(path_words(top, *word))
            table = table_at(top, *word)
        elif fault.startswith("Missing"): said[-1] += f", no {shown(word)}"
        elif word in table: said[-1] += f", {shown(word)} = {value_words(table[word])}{beside(word, table[word])}"
    return "; ".join(said)


def refusal_text(text, fault, words):
    """The two lines, as a pattern: where a text is no TOML a place stands there."""
    top = {} if fault in ("Toml", "Size") else tomllib.loads(text.decode())
    causes = CAUSES | WIDE_CAUSES if is_wide(top, fault) else CAUSES
    cause = next(causes[word] for word in re.findall("[A-Za-z0-9]+", fault.split("(")[0] + " " + fault)
                 if word in causes and (word not in ("Missing", "Kind", "Unknown") or fault.startswith(word)))
    if fault == "Toml": return f"wrong: line [0-9]+, column [0-9]+: {re.escape(cause)}\nchange: {re.escape(remedy(top, fault))}\n"
    return re.escape(f"wrong: {about(top, fault, words)}: {cause}\nchange: {remedy(top, fault)}\n")


def refusals(tally, program, seed, numbers, options):
    for number in numbers:
        rng, fault = random.Random(f"{seed} {number} refusals"), None
        while fault is None:
            text = random_plans.plan_input(rng, rng, "mixed")
            try:
                plain.read_plan(text)
            except plain.Fault as found:
                fault = str(found)
        tally.tried += 1
        tally.count("refused", fault.split("(")[0])
        words = [] if fault in ("Toml", "Size", "SameName") else paths_of(tomllib.loads(text.decode()), fault)
        wanted, (out, error, status) = refusal_text(text, fault, words), asked(program, "explain", text=text)
        out = wanted if re.fullmatch(wanted, out) else out
        tally.compare(f"plan {number} of seed {seed}", "explain", text, (out, error, status), (wanted, f"fault: {shown(fault)}\n", 1))
