"""Random plans and record texts: a library of what compares and attacks. The same generator of numbers gives the same inputs.

Plans are tables; `toml_text` writes them. `plan_input` and `record_input` give texts of which some are wrong.
"""
import sys

sys.dont_write_bytecode = True
import plain

# ---- Plans, as tables


def random_segments(rng, quanta):
    while True:
        ps1, ps2 = rng.randint(1, 8), rng.randint(2, 8)
        prop = quanta - 1 - ps1 - ps2
        if 1 <= prop <= 8: return {"prop": prop, "ps1": ps1, "ps2": ps2, "sjw": rng.randint(1, min(4, ps1))}


def random_clock(rng, base, drift):
    ppm = rng.randint(-drift, drift)
    if rng.random() < 0.4 and base > 10: return {"quantum": base, "ppm": ppm}
    den = rng.choice([1, 2, 3, 7, 10, 999_983, 1_000_000, rng.randint(1, 1_000_000)])
    return {"num": max(den, base * den + base * den * ppm // 1_000_000), "den": den}


def random_frame(rng, ids, bits):
    remote = rng.random() < 0.2
    dlc = rng.choice([0, 0, 1, 1, 2, 3, 4, 8, rng.randint(0, 15)])
    frame = {"id": rng.choice(ids), "dlc": dlc}
    if remote: frame["remote"] = True
    if rng.random() < 0.4:
        tail = rng.choice([0, 2**18 - 1, 1 << rng.randrange(18), rng.randrange(2**18)])
        frame |= {"id": frame["id"] << 18 | tail, "extended": True}
    elif rng.random() < 0.1: frame["extended"] = False
    size = 0 if remote else min(dlc, 8)
    data = rng.choice([[0] * size, [255] * size, [0x3C] * size, [rng.randrange(256) for _ in range(size)]])
    if data or rng.random() < 0.2: frame["bytes"] = data
    if rng.random() < 0.5: frame["ready"] = rng.randint(0, bits)
    return frame


def random_plan(rng):
    style = rng.choice(["ordinary"] * 5 + ["far", "far", "passive", "passive", "storm", "off"] + ["supported", "ghost"] * 5)
    quanta, base = rng.choice([8, 8, 9, 10, 10, 12, 16, 20, 25]), rng.choice([1, 2, 3, 10, 50, 100, 1_000, 400_000, rng.randint(1, 2**19)])
    if style in ("far", "supported", "ghost"): base = rng.choice([1, 2, 10, 50])
    many = rng.choice([1, 1, 2] if style in ("supported", "ghost", "off") else [1, 2, 2, 2, 3, 3, 4, 5])
    least, most = {"off": (1_800, 2_300), "passive": (700, 1_500), "far": (300, 900), "supported": (200, 200), "ghost": (200, 200)}.get(style, (60, 600))
    bits = min(65_000 // quanta, rng.randint(least, most))
    bit, end = quanta * base, min(2**36, bits * quanta * base)
    per, far = rng.randint(0, 5), min(2**19, rng.choice([0, base, bit // 8, bit // 4, bit // 4, bit // 2, bit]))
    drift = rng.choice([0, 0, 100, 3_000, 10_000, 30_000, 100_000])
    ids = [rng.randrange(2048) for _ in range(rng.randint(1, 4))] + rng.choice([[], [0], [2047], [0x7F0]])
    ids += [ids[0] ^ 1 << rng.randrange(11)]
    common, nodes = random_segments(rng, quanta), []
    for number in range(many):
        node = {"name": f"n{number}", "offset": min(2**20, rng.choice([0, 0, base // 2, rng.randint(0, 30 * bit)]))}
        node |= random_clock(rng, base, drift) | (common if rng.random() < 0.7 else random_segments(rng, quanta))
        node["x"], node["out"] = rng.randint(0, far // per if per else 1_000), random_out(rng, style, base, bit)
        node["in"] = rng.choice([1, 1, max(1, base // 3)])
        queue = [random_frame(rng, ids, bits * quanta) for _ in range(rng.choice([0, 0, 1, 1, 2, 3, 6]))]
        if queue: node["frame"] = queue
        nodes.append(node)
    disturbances = [random_disturbance(rng, end, bit, base, far, per, style) for _ in range(rng.choice([0, 0, 0, 1, 2, 3, 6, 15]))]
    place = nodes[0]["x"]
    if style in ("off", "passive"):
        start, length = rng.randint(12 * bit, 60 * bit), rng.choice([180, 262, 300, 330]) if style == "off" else rng.randint(130, 250)
        disturbances.append({"x": place, "from": start, "to": min(2**36, start + length * bit)})
    if style in ("passive", "storm"): disturbances += [random_disturbance(rng, end, bit, base, far, per, style) for _ in range(30)]
    if style == "storm":  # two pulses in one bit
        for start in [rng.randint(0, end) for _ in range(10)]:
            disturbances += [{"x": place, "from": start + 2 * one * base, "to": start + (2 * one + 1) * base} for one in range(2)]
    if style in ("supported", "ghost") or style == "off" and many == 1: disturbances = spelled(rng, style, nodes, common, quanta, base, ids)
    plan = {"version": 1, "end": end, "per": per, "node": nodes}
    if disturbances: plan["disturbance"] = disturbances[:64]
    if rng.random() < 0.4: change_rates(rng, plan, base, drift if style not in ("supported", "ghost") else 0, bits * quanta)
    return plan


def change_rates(rng, plan, base, drift, quanta):
    """Makes a plan one of version 2: its clocks' rates, and more of them from later quanta on."""
    plan["version"] = 2
    for node in plan["node"]:
        first = {"from": 0} | {key: node.pop(key) for key in ("num", "den", "quantum", "ppm") if key in node}
        many = rng.choice([0, 0, 1, 1, 2, 3, 15]) if drift or rng.random() < 0.2 else 0
        starts = sorted({rng.choice([rng.randint(1, quanta + 9), rng.randint(1, 200), 2**20]) for _ in range(many)})
        node["rates"] = [first] + [{"from": start} | random_clock(rng, base, drift) for start in starts]


def clocks_of(plan):
    """The tables that have the clock keys."""
    nodes = plan["node"] if is_tables(plan.get("node")) else []
    return [table for node in nodes for table in (node["rates"] if is_tables(node.get("rates")) else [node])]


def random_out(rng, style, base, bit):
    """Ticks from a node to the cable; in the style far some nodes hear themselves late or long after."""
    if style == "far" and rng.random() < 0.5: return min(2**18, rng.choice([rng.randint(0, 2 * bit), 30 * bit, 400 * bit]))
    return min(2**18, rng.choice([0, base // 4, rng.randint(0, base)]))


def random_disturbance(rng, end, bit, base, far, per, style):
    start = rng.randint(0, max(1, end - 1))
    length = rng.choice([bit // 2, bit, bit, 2 * bit]) if style in ("passive", "storm") and rng.random() < 0.9 else rng.choice(
        [1, base, 2 * base, bit // 2, bit, bit, 2 * bit, 5 * bit, 7 * bit, rng.randint(1, 30) * bit])
    return {"x": rng.randint(0, far // per if per else 1_000), "from": start, "to": min(2**36, start + max(1, length))}


def spelled(rng, style, nodes, segments, quanta, base, ids):
    """Disturbances that spell a frame, bit by bit, up to some bit; node 0 hears itself long after, if not in the style off.
    supported: the frame is node 0's own, and it finds recessive what it then sends dominant; at its first attempt, or at its fourth, error
    passive, since the three before it cost 8 and 6 times 8 each. ghost: the frame is nobody's, and its end is hit. off: its own, whole, and
    then the line is stuck."""
    node, frame, bit = nodes[0], random_frame(rng, ids, 0) | {"ready": 0}, quanta * base
    if rng.random() < 0.5:
        data = [rng.choice([0xA5, 255]), 255, rng.randrange(256)]
        frame = {"id": rng.choice([*ids, 0x7FF, 0x7C1]), "dlc": 3, "bytes": data}
    node.pop("quantum", None), node.pop("ppm", None)
    node.update(segments, offset=0, num=base, den=1, out=0 if style == "off" else min(2**18, 600 * bit), frame=[frame], **{"in": 1})
    bits = plain.table_frame(frame).bits()
    first = 11 + rng.choice([0, 62])
    if style == "ghost":
        node["frame"] = rng.choice([[], [{"id": 1, "dlc": 0}], [{"id": 1, "dlc": 0}]])
        first = 65 + rng.randrange(8)  # in the suspension behind the third attempt, if there is one
        if rng.random() < 0.3: bits[-1] ^= 1
    if rng.random() < 0.5: [one.pop("frame", None) for one in nodes[1:]]
    line = plain.stuff(bits) + [(int(end != "ACK slot" or style == "ghost" and rng.random() < 0.25), end) for end in plain.ENDING]
    line += [(1, f"intermission {n}") for n in (1, 2, 3)]
    ends = ["intermission", *plain.ENDING]
    inner = ["SOF", "identifier", "RTR", "control", "data", "data", "stuff", "stuff", "stuff"]
    field = rng.choice({"off": ["intermission"], "ghost": ["data", *ends], "supported": inner * 2 + ends}[style])
    places = [n for n, (level, place) in enumerate(line) if field_of(place, frame.get("extended", False)) == field and (level == 0 or type(place) is str)] or [len(line) - 1]
    upto, hit = rng.choice(places), {"off": 280, "ghost": rng.choice([1, 1, 9, 20])}.get(style, int(field in ends))
    said = [(first + n, first + n + 1) for n, (level, _) in enumerate(line[:upto]) if level == 0]
    if hit: said.append((first + upto, first + upto + hit))
    return [{"x": node["x"], "from": start * bit, "to": end * bit} for start, end in said[-64:] if end * bit <= 2**36]


def field_of(place, extended):
    if place is None: return "stuff"
    if type(place) is str: return place.rstrip(" 123") if place.startswith("inter") else place
    if extended and place in (12, 13): return "SRR" if place == 12 else "IDE"
    rtr, end = plain.header(extended)
    return "SOF" if place == 0 else "identifier" if place < rtr else "RTR" if place == rtr else "control" if place < end else "data"


# ---- Texts of tables, and what can be wrong with them


def value_text(value):
    if type(value) is bool: return "true" if value else "false"
    if type(value) is dict: return "{ " + ", ".join(f"{key_text(key)} = {value_text(one)}" for key, one in value.items()) + " }"
    if type(value) is list: return "[" + ", ".join(map(value_text, value)) + "]"
    if type(value) is str: return value if value.startswith("\x01") else '"' + value + '"'
    return repr(value)


def key_text(key):
    return key if key.isascii() and key.replace("-", "a").isalnum() else '"' + key + '"'


def is_tables(value):
    return type(value) is list and value and all(type(one) is dict for one in value)


def toml_text(table, inline, path=""):
    """A table's text. `inline` is whether arrays of tables are in line, or the keys whose arrays are."""
    below = {key: value for key, value in table.items() if is_tables(value) and not (inline is True or inline and key in inline)}
    lines = [f"{key_text(key)} = {value_text(value)}" for key, value in table.items() if key not in below]
    for key, value in below.items():
        for one in value: lines += ["", f"[[{path}{key_text(key)}]]", toml_text(one, inline, f"{path}{key_text(key)}.")]
    return "\n".join(lines).replace("\x01", "")


ODD_KEYS = ["a", "zz", "A", "é", "ppm", "num", "den", "quantum", "frame", "bytes", "extended", "rates", "a.b", "-"]
ODD_VALUES = [-1, 0, 1, 2**31 - 1, 2**31, 2**36, 2**36 + 1, 2**48 - 1, 2**48, 2**63 - 1, 2**63, -2**63, -2**63 - 1, 1.0, True, False, "", "a", "a b",
              "n0", "é", "a" * 32, "a" * 33, [], [0], [256], [-1], [True], [1.5], [[]], {}, [{}], [1, {}], {"id": 0}, "\x010x10", "\x011_000",
              "\x01+5", "\x01-0", "\x011e3", "\x01inf", "\x012026-11-22", "\x0107:32:00", "\x010b11", "\x01'n0'", "\x0101"]
RANGES = {"num": [0, 1, 99, 2**20, 2**40, 2**48 - 1], "den": [0, 1, 7, 1_000_000, 1_000_001], "offset": [2**20, 2**20 + 1],
          "quantum": [0, 1, 2**20, 2**20 + 1], "ppm": [-10**9, -10**9 - 1, 10**9, 10**9 + 1, 100_000, 100_001, -100_000, -100_001],
          "prop": [0, 1, 8, 9], "ps1": [0, 1, 8, 9], "ps2": [1, 2, 8, 9], "sjw": [0, 1, 4, 5], "id": [0x7FF, 0x800, 0x1FFFFFFF, 0x20000000], "dlc": [0, 8, 9, 15, 16],
          "bytes": [[], [0], [0] * 8, [255] * 9], "in": [0, 2**20, 2**20 + 1], "out": [0, 2**20], "x": [0, 2**31 - 1, 2**20], "version": [0, 1, 2, 3],
          "end": [0, 1, 2**36, 2**36 + 1], "per": [0, 1, 2**20, 2**48 - 1], "to": [0, 2**36, 2**36 + 1], "from": [0, 2**36, 2**37],
          "name": ["n0", "n1", "N_-9"]}

SPECIAL = [{"prop": 1, "ps1": 1, "ps2": 2, "sjw": 1}, {"prop": 1, "ps1": 2, "ps2": 3, "sjw": 1}, {"num": 10**9, "den": 1_000_001},
           {"num": 2**20 * 7 + 1, "den": 7}, {"num": 2**20 * 7, "den": 7, "offset": 2**20}, {"num": 0, "den": 0}, {"quantum": 100, "ppm": 100_001},
           {"ps1": 3, "sjw": 4}, {"ps2": 1}, {"ps2": 9}, {"ps1": 9}, {"x": 2**31 - 1, "in": 1}]


ONE = {"from": 0, "num": 100, "den": 1}
SPECIAL_RATES = [[], [ONE] * 2, [ONE, ONE | {"from": 2**20}], [ONE, ONE | {"from": 2**20 + 1}], [ONE | {"from": 1}], [ONE | {"from": 5 * n} for n in range(16)],
                 [ONE | {"from": 5 * n} for n in range(17)], [ONE, ONE | {"from": 9}, ONE | {"from": 5}], [ONE, {"from": 5, "num": 1, "den": 2}],
                 [{"from": 5, "quantum": 100, "ppm": 100_001}, ONE | {"den": 0}], [ONE | {"num": 99, "den": 100}, ONE | {"from": 2, "num": 3, "den": 0}],
                 [ONE | {"num": 10**9, "den": 1_000_001}], [ONE | {"num": 2**20 * 7 + 1, "den": 7}], [{"from": 0, "quantum": 100, "ppm": -100_000}, ONE | {"from": 3}]]


def spoil(rng, plan):
    """Makes one change to a plan's tables that is mostly wrong."""
    nodes = plan["node"] if is_tables(plan.get("node")) else []
    frames = [frame for node in nodes for frame in node.get("frame", []) if type(frame) is dict] if all(
        type(node.get("frame", [])) is list for node in nodes) else []
    disturbances = plan.get("disturbance") if is_tables(plan.get("disturbance")) else []
    clocks = clocks_of(plan)
    rates = clocks if plan.get("version") == 2 else []
    table = rng.choice([plan] + [rng.choice(some) for some in (nodes, nodes, frames, disturbances, rates, rates) if some])
    key = rng.choice(list(table) or ["a"])
    way = rng.randrange(18)
    if way == 0: table.pop(key, None)
    elif way == 1: table[key] = rng.choice(ODD_VALUES)
    elif way == 2: table[rng.choice(ODD_KEYS)] = rng.choice(ODD_VALUES)
    elif way == 3 and nodes: rng.choice(nodes)["name"] = "n0"
    elif way == 4 and rng.random() < 0.2: plan["node"] = []
    elif way == 4 and nodes: plan["node"] = [dict(nodes[i % len(nodes)], name=f"m{i}") for i in range(rng.choice([16, 17, 18]))]
    elif way == 5 and nodes: nodes[-1]["frame"] = [{"id": 1, "dlc": 0}] * rng.choice([64, 65])
    elif way == 6: plan["disturbance"] = [{"x": 0, "from": 1, "to": 2}] * rng.choice([64, 65]) + rng.choice([[], [{"x": 0, "from": 2, "to": 2}]])
    elif way == 9 and nodes and not rates: rng.choice(nodes).update(rng.choice(SPECIAL))
    elif way == 9 and nodes: rng.choice(nodes).update(rates=rng.choice(SPECIAL_RATES))
    elif way == 10 and rates: table["from"] = rng.choice([0, 0, 1, 2**20, 2**20 + 1])
    elif way == 7 and nodes: rng.choice(nodes).update(out=0, **{"in": 0})
    elif way == 8 and nodes:  # the greatest number of quanta takes half a minute here
        plan["end"] = rng.choice([1_048_576] + [1_048_577] * 15) * 100
        one = rng.choice(nodes)
        one["offset"] = 0
        if rates: one["rates"] = [{"from": 0, "num": 100, "den": 1}]
        else: one.update(num=100, den=1)
    elif (picked := [one for one in table if one in RANGES]): table.update({(key := rng.choice(picked)): rng.choice(RANGES[key])})


WRONG_SYNCS = ["", "inside", "Book", "book ", "before", "af", "afterbook", "after\\u0000", "\x01'book'", 0, 1, True, [], ["book"], {}, {"book": True}]


def choose_sync(rng, plan, sync):
    """Gives the plan the key `sync`, or none."""
    if sync == "mixed": sync = rng.choice(["none"] * 6 + ["book"] * 8 + ["after"] * 3 + ["wrong"])
    if sync == "before": sync = rng.choice(["none", "after"])
    if sync == "none": return plan
    if sync == "wrong": sync = rng.choice(WRONG_SYNCS)
    return {"sync": sync} | plan if rng.random() < 0.5 else plan | {"sync": sync}


def choose_tolerances(rng, plan):
    """Gives some nodes of some plans the key `tolerance`."""
    for node in plan["node"] if rng.random() < 0.5 else []:
        if rng.random() < 0.8: node["tolerance"] = rng.choice([0, 100, 2500, 20_000, 100_000, rng.randrange(6_000)])
    return plan


def plan_input(rng, sync_rng, sync):
    plan = choose_tolerances(sync_rng, choose_sync(sync_rng, random_plan(rng), sync))
    kind = rng.random()
    if kind < 0.65: return toml_text(plan, rng.random() < 0.2).encode() + b"\n"
    plan["end"] = min(plan["end"], clocks_of(plan)[0].get("num", 10**12) * 200)
    for _ in range(rng.choice([1, 1, 2, 3, 8])): spoil(rng, plan)
    if kind < 0.9: return toml_text(plan, rng.random() < 0.5).encode()
    text = bytearray(toml_text(plan, False).encode())
    if kind < 0.91: return bytes(text) + b"\n#" + b" " * (1_048_576 - len(text) - 2 + rng.choice([-1, 0, 1]))
    for _ in range(rng.choice([1, 1, 3])):
        at = rng.randrange(len(text) + 1)
        if rng.random() < 0.5: del text[at:at + rng.choice([1, 1, 5, 40])]
        else: text[at:at] = rng.choice([b'"', b"'", b"=", b"[", b"]", b"#", b",", b".", b"\n", b"\r\n", b"\r", b"\t", b" ", b"0", b"_", b"-", b"a",
                                        b"\xff", b"\xc3\xa9", b"\x00", b"\x7f", b"\xed\xa0\x80", b"version = 1\n", b"[node]\n"])
    return bytes(text)


# ---- Record texts


def record_input(rng):
    nodes, seqs = rng.choice([1, 2, 16, 16]), rng.choice([3, 8, 40, 262_145])
    lines = wave_lines(rng) if rng.random() < 0.5 else []
    for _ in range(rng.choice([0, 1, 3, 10, 60, 400])):
        node, number = rng.randrange(nodes), min(rng.randrange(seqs), rng.randrange(seqs))
        kind = rng.random()
        if kind < 0.65: lines.append(f"E {node} {number} {number * 100 + rng.choice([0, 0, 0, 0, 0, 0, 1, 100, 150])}")
        elif kind < 0.67: lines.append(f"C {node} {number}")
        else: lines.append(f"S {node} {number} {rng.choice([0, number * 100, number * 100 - 40, rng.randrange(seqs * 120)])}".replace("-", ""))
    if rng.random() < 0.3: lines += [rng.choice(EDGE_LINES) for _ in range(3)]
    if rng.random() < 0.3: lines.append(rng.choice(BAD_LINES))
    rng.shuffle(lines)
    text = bytearray("".join(line + "\n" for line in lines).encode("latin-1"))
    if rng.random() < 0.15 and text:
        at = rng.randrange(len(text))
        if rng.random() < 0.5: del text[at]
        else: text[at] = rng.choice(b" 0159ECS\n\r\t-\x00\xff")
    if rng.random() < 0.05: text += b"E 0 0 5"
    return bytes(text)


def wave_lines(rng):
    """Some nodes' edges, mostly in order, and silences at and beside their ticks."""
    lines = []
    for node in rng.sample(range(16), rng.choice([1, 2, 5])):
        tick = rng.randrange(5)
        for number in range(rng.choice([1, 2, 5, 20])):
            lines.append(f"E {node} {number} {tick}")
            if rng.random() < 0.3: lines.append(f"S {node} {number + rng.choice([0, 0, 0, 1, 2])} {max(0, tick + rng.choice([-1, 0, 0, 0, 1, 2]))}")
            tick += rng.choice([0, 1, 1, 2, 5, 5, 5, 100]) if rng.random() < 0.2 else rng.randint(1, 50)
        if rng.random() < 0.8: lines.append(f"S {node} {number + 1} {tick}")
        if rng.random() < 0.3: lines.pop(rng.randrange(len(lines)))
    return lines


EDGE_LINES = ["E 15 262144 281474976710655", "S 15 262145 281474976710655", "S 0 0 0", "S 3 0 0", "E 3 0 0", "E 0 0 0", "S 0 262145 1", "C 15 262144"]
BAD_LINES = ["", " ", "E", "E 0 0", "E 0 0 ", "E 0 0 05", "E 00 0 5", "E 0 0 5 ", " E 0 0 5", "E 0 0 5\r", "E  0 0 5", "E 0 0 -5", "E 0 0 +5", "e 0 0 5",
             "C 0 0 5", "C 0", "S 0 0", "D 0 1 2", "E 16 0 5", "E 0 262145 5", "E 0 0 281474976710656", "S 0 262146 1", "S 16 0 1",
             "S 0 0 281474976710656", "C 16 0", "C 0 262145", "E 99999999999999999999 0 0", "E 16 262145 281474976710656", "x" * 40, "x" * 41,
             "E 0 0 " + "9" * 34, "E 0 0 " + "9" * 35, "E 0 0 18446744073709551616", "E 18446744073709551616 0 0", "H 0 0 0", "E 0 0 5\x00", "E\t0 0 5"]
