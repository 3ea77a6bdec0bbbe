"""The comparisons `record-texts` and `plan-texts`: strangers' texts, which are good ones, ones made by mutation of good ones, and ones of no sense at all.

Each text goes through one command: a record text through `merge` or `horizon`, a plan text through `check`, or `run` if it is accepted and short.
A plan text that only one of the two reads as TOML is counted by itself: the program's reader knows TOML 1.1, where an inline table may go over several
lines and a time may lack its seconds, and Python's TOML 1.0; and it refuses what nests deeper than 80 and a number with an exponent that no double holds.
"""
import math
import random
import re
import sys

sys.dont_write_bytecode = True
import plain
import random_plans
from tally import asked

NUMBERS = [0, 1, 9, 10, 15, 16, 63, 64, 65, 2**20, 2**20 + 1, 262_143, 262_144, 262_145, 262_146, 2**31 - 1, 2**31, 2**32, 2**36, 2**36 + 1, 2**48 - 1, 2**48,
           2**53 + 1, 2**63 - 1, 2**63, 2**64 - 1, 2**64, 10**19, 10**20, 10**33, 10**34, 10**300]
BYTES = [b"\x00", b"\xff", b"\xc3", b"\xc3\xa9", b"\xed\xa0\x80", b"\xef\xbb\xbf", b"\xf4\x90\x80\x80", b"\r", b"\r\n", b"\n", b"\n\n", b"\t", b" ", b"  ", b"\x7f", b"\x1a",
         b"-", b"+", b"_", b".", b"0", b"00", b"9" * 40, b"e5", b"#", b"'", b'"', b'"""', b"'''", b"=", b"[", b"]", b"[[", b"]]", b"{", b"}", b",", b"\\", b"\\u0000",
         b"E", b"C", b"S", b"E 0 0 0\n", b"S 0 0 1\n", b"nan", b"inf", b"true", b"0x10", b"1979-05-27T07:32:00Z"]
TOML_PIECES = [b"[node]\n", b"[[node]]\n", b"[[node.frame]]\n", b"[node.frame]\n", b"[[disturbance]]\n", b"version = 1\n", b"version = 2\n", b"sync = \"book\"\n", b"sync = 1\n",
               b"a.b.c = 1\n", b"node.x = 3\n", b"\"x\" = 1\n", b"'end' = 5\n", b"x = {a = 1, b = [1, 2, {c = 3}]}\n", b"x = [\n1,\n2,\n]\n", b"x = \"\"\"a\nb\"\"\"\n",
               b"rates = [{from = 0, quantum = 125, ppm = 0}]\n", b"rates = []\n", b"frame = []\n", b"[node.rates]\n", b"[[node.rates]]\nfrom = 0\nnum = 1\nden = 1\n"]


def nested(rng):
    """A value that lies deep in others: tables and arrays may nest, and a reader has to end all the same."""
    depth, (opens, closes) = rng.choice([2, 30, 79, 80, 81, 127, 128, 129, 400]), rng.choice([(b"[", b"]"), (b"{a=", b"}")])
    return b"x = " + opens * depth + b"1" + closes * depth + b"\n"


def huge_key(rng):
    return rng.choice([b"a", b"x.", b"\xc3\xa9", b"\"a b\"."])[:1] * rng.choice([33, 1000, 60_000]) + b" = 1\n"


def mutate(rng, text, pieces):
    """One change of a text: a few bytes, a line, a number, or a piece that stands elsewhere in such texts."""
    way, at = rng.randrange(10), rng.randrange(len(text) + 1)
    lines = text.split(b"\n")
    if way == 0: return text[:at] + rng.choice(BYTES) + text[at:]
    if way == 1: return text[:at] + text[at + rng.choice([1, 1, 1, 2, 7, 40, 400]):]
    if way == 2 and text: return text[:max(at - 1, 0)] + bytes([rng.randrange(256)]) + text[max(at, 1):]
    if way == 3 and text:
        flipped = bytearray(text)
        flipped[at % len(text)] ^= 1 << rng.randrange(8)
        return bytes(flipped)
    if way == 4:
        line = rng.choice(lines)
        lines.insert(rng.randrange(len(lines) + 1), line)
        return b"\n".join(lines)
    if way == 5 and len(lines) > 2:
        a, b = rng.randrange(len(lines)), rng.randrange(len(lines))
        lines[a], lines[b] = lines[b], lines[a]
        return b"\n".join(lines)
    if way in (6, 7):
        found = [one.span() for one in re.finditer(rb"[0-9]+", text)]
        if found:
            start, end = rng.choice(found)
            near = int(text[start:end][:400] or b"0") + rng.choice([-1, 1])
            number = rng.choice([rng.choice(NUMBERS), max(near, 0)])
            return text[:start] + rng.choice([b"", b"", b"", b"", b"", b"0", b"-", b"+"]) + str(number).encode() + text[end:]
    if way == 8: return text[:at] + rng.choice(pieces(rng)) + text[at:]
    return text[:at] if rng.random() < 0.5 else text[at:]


KEYS = [b"version", b"end", b"per", b"sync", b"node", b"disturbance", b"name", b"offset", b"num", b"den", b"quantum", b"ppm", b"rates", b"from", b"prop", b"ps1", b"ps2", b"sjw",
        b"x", b"out", b"in", b"frame", b"ready", b"id", b"extended", b"remote", b"dlc", b"bytes", b"to", b"tolerance"]
VALUES = [b"true", b"false", b'"x"', b"1.5", b"[]", b"{}", b"-1", b"[1]", b"[256]", b"[[]]", b"0", b"1", b"2", b"9"]


# Values beyond the bounds of keys that few texts have, so that each fault comes often enough.
FAR = {b"ppm": [100_001, -100_001, 10**9], b"den": [1_000_001, 1_000_001, 10**13], b"from": [2**20 + 1, 2**21], b"id": [2**29, 2**29 + 1, 2**32 - 1],
       b"offset": [2**20 + 1, 2**47], b"num": [2**47], b"per": [10**7, 2**40], b"ready": [2**40], b"end": [2**36 + 1, 2**40]}


def go_far(rng, text):
    """A value beyond its bounds for a key that stands in the text, or no rates."""
    there = [key for key in FAR if re.search(rb"\b" + key + rb" *= *-?[0-9]", text)] + [b"rates"] * (b"rates" in text)
    there += [b"extended"] * (b"extended = true" in text)
    if not there: return text
    key = rng.choice(there)
    if key == b"rates":
        last = rng.choice([b"[]", b"1", None, None])
        if last: return re.sub(rb"rates *= *\[[^\]]*\]", b"rates = " + last, text, count=1)
        return re.sub(rb"(rates *= *\[(?:[^\]]*\{)?[^\]{]*\bfrom *= *)[0-9]+", rb"\g<1>1048577", text, count=1)
    if key == b"extended":
        found = list(re.finditer(rb"\bid *= *([0-9]+)(?=[^\[{]{0,80}extended = true)", text)) + list(re.finditer(rb"extended = true[^\[{]{0,40}\bid *= *([0-9]+)", text))
        key = b"id"
    else: found = list(re.finditer(rb"\b" + key + rb" *= *(-?[0-9_]+)", text))
    one = rng.choice(found) if found else None
    return text[:one.start(1)] + str(rng.choice(FAR[key])).encode() + text[one.end(1):] if one else text


def change_key(rng, text):
    """Another value or another name for a key, or the key left out: what stays is TOML in most cases."""
    if rng.random() < 0.15: return go_far(rng, text)
    found = list(re.finditer(rb"\b(\w+)( *= *)([^,\n}\]\[{]+)", text))
    if not found: return text
    one = rng.choice(found)
    key, way = one.group(1), rng.randrange(6)
    if way == 0: return text[:one.start()] + rng.choice(KEYS) + text[one.end(1):]
    if way == 1: return text[:one.start()] + text[one.end():].removeprefix(b"\n" if text[:one.start()].endswith(b"\n") else b", ")
    value = rng.choice(VALUES) if way < 4 else str(rng.choice(NUMBERS)).encode()
    return text[:one.start()] + key + one.group(2) + value + text[one.end():]


def record_pieces(rng):
    return [line.encode("latin-1") + b"\n" for line in (rng.choice(random_plans.EDGE_LINES), rng.choice(random_plans.BAD_LINES))] + [b"E 0 1 7\n", b"C 1 0\n", b"S 2 3 4"]


def plan_pieces(rng):
    return [rng.choice(TOML_PIECES), rng.choice(TOML_PIECES), nested(rng), huge_key(rng)]


def garbage(rng):
    return bytes(rng.randrange(256) for _ in range(rng.choice([0, 1, 5, 41, 200])))


def text_of(rng, kind):
    if rng.random() < 0.02: return garbage(rng)
    text = random_plans.record_input(rng) if kind == "records" else random_plans.plan_input(rng, rng, "mixed")
    if kind == "plans" and rng.random() < 0.6:
        for _ in range(rng.choice([1, 1, 2])): text = change_key(rng, text)
        return text
    for _ in range(rng.choice([0, 1, 1, 1, 2, 3, 8])): text = mutate(rng, text, record_pieces if kind == "records" else plan_pieces)
    return text


def command_of(rng, kind, text):
    """The command that the text goes through: `run` only where it can't take long."""
    if kind == "records": return rng.choice(["merge", "horizon"])
    if rng.random() < 0.8: return "check"
    try:
        plan = plain.read_plan(text)
    except plain.Fault:
        return rng.choice(["run", "records"])
    quanta = sum(plan.end // max(1, min(rate.num // rate.den for rate in node.clock.rates)) for node in plan.nodes)
    return rng.choice(["run", "records"]) if quanta < 30_000 else "check"


def reads_as_newer(text):
    """Whether a text is TOML once no line ends within an inline table (a line end, and a comment before it, gives way to a space), and times have seconds."""
    depth, quote, out, at = [], "", [], 0
    words = text.decode("utf-8", "replace").replace("\r\n", "\n")
    while at < len(words):
        c = words[at]
        if quote:
            if c == "\\" and quote[0] == '"': out.append(words[at:at + 2]); at += 2; continue
            if words.startswith(quote, at): out.append(quote); at += len(quote); quote = ""; continue
        elif c in "\"'":
            quote = c * 3 if words.startswith(c * 3, at) else c
            out.append(quote); at += len(quote); continue
        elif c in "[{": depth.append(c)
        elif c in "]}" and depth: depth.pop()
        elif c == "#" and "{" in depth:
            at = words.find("\n", at) if "\n" in words[at:] else len(words)
            continue
        elif c == "\n" and "{" in depth: c = " "
        out.append(c)
        at += 1
    try:
        plain.tomllib.loads(re.sub(r"(?<![:\d])(\d\d:\d\d)(?![:\d])", r"\1:00", re.sub(r",(\s*})", r"\1", "".join(out))))
    except (ValueError, RecursionError):
        return False
    return True


def nests(value):
    """How deep arrays and tables lie in each other."""
    depth, row = 0, [value]
    while row:
        row = [inner for one in row if isinstance(one, (dict, list)) for inner in (one.values() if isinstance(one, dict) else one)]
        depth += 1
    return depth


def goes_beyond(text):
    """Whether a text is TOML that the program's reader refuses: it nests deeper than 80, or a number with a fraction or exponent is beyond all doubles."""
    overflows = []

    def fraction(word):
        value = float(word)
        overflows.extend([word] * (math.isinf(value) and "inf" not in word))
        return value
    try:
        return nests(plain.tomllib.loads(text.decode(), parse_float=fraction)) > 80 or bool(overflows)
    except RecursionError:
        return True
    except ValueError:
        return False


def compare(kind, tally, program, seed, numbers):
    for number in numbers:
        rng = random.Random(f"{kind} {seed} {number}")
        text = text_of(rng, kind)
        command = command_of(rng, kind, text)
        out, fault, status = plain.answer(command, text)
        name = re.sub(r"\b[0-9]+\b", "n", fault[7:-1]) or "no fault"
        tally.tried += 1
        tally.count("answers", "Unknown" if name.startswith("Unknown(") else name)
        got = asked(program, command, text=text)
        if fault == "fault: Toml\n" != got[1] and reads_as_newer(text): tally.count("read by one alone", "TOML 1.1")
        elif got == ("", "fault: Toml\n", 1) and fault != got[1] and goes_beyond(text): tally.count("read by one alone", "beyond the reader's limits")
        else: tally.compare(f"text {number} of seed {seed}", command, text, got, (out, fault, status))


def record_texts(tally, program, seed, numbers, options):
    compare("records", tally, program, seed, numbers)


def plan_texts(tally, program, seed, numbers, options):
    compare("plans", tally, program, seed, numbers)
