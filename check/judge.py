#!/usr/bin/env python3
"""Compares `judge` with `run`, `traffic`, `margin`, `respond` and `sweep` on many plans: no line of one may contradict another.

usage: judge.py PROGRAM [RANDOM [RUNS [SEED]]]     RANDOM plans beside the examples, 200 if not said; RUNS members of each sweep, 40; seed 1

Of four random plans one is of check/programs.py and check/families.py, one of `init`, with other tolerances, cables and cycles, and two are buses in version 4
of controllers of several kinds, whose bits have 8 to 160 quanta, unlike at the nodes of one bus. Besides, no wait of a run may pass its bound, if
`respond` says that the bounds are proved.
"""
import collections
import pathlib
import random
import re
import subprocess
import sys
import tempfile

sys.dont_write_bytecode = True
TOP = pathlib.Path(__file__).resolve().parents[1]
sys.path[:0] = [str(TOP / "check")]
import programs  # noqa: E402

WORDS = ["works", "does not work", "not known"]
STATUS = {"works": 0, "does not work": 1, "not known": 4}
OTHERS = ("not proved: ", "any senders: ", "does not hold: ", "no bound is known: ")


def said(program, *words):
    done = subprocess.run([program, *words], capture_output=True, text=True, timeout=300)
    return done.returncode, done.stdout.splitlines()


def judged(lines):
    return next(it for it in WORDS if lines[0].startswith(it))


def wanted(reason, margin):
    """Returns the first word of a judgement, by the verdict of a run and the first line of a margin."""
    if reason not in ("works", "ends too early"): return "does not work"
    if margin.startswith("does not hold"): return "does not work"
    return "works" if reason == "works" and margin.startswith("holds for any senders") else "not known"


def differences(program, plan, runs):
    status, lines = said(program, "judge", plan)
    if not lines:
        refused = said(program, "margin", plan)[0]
        return ([] if status == refused == 1 else [f"status {status} of a plan that margin ends with {refused}"]), None
    found, word = [], judged(lines)
    traffic, margin, report = (said(program, it, plan)[1] for it in ("traffic", "margin", "run"))
    reason = traffic[-1].removeprefix("verdict ")
    if status != STATUS[word]: found.append(f"status {status} of {word}")
    if word != wanted(reason, margin[0]): found.append(f"{word}, {reason}, {margin[0]}")
    if f"run: {reason}" not in lines: found.append(f"no line run: {reason}")
    if word == "works" and report[-1] != "verdict clean": found.append("works, and the run isn't clean")
    if ("proved: any" in lines[0]) != (word == "works" and "proved: any_senders_are_clean" in margin[0]): found.append("the word proved")
    why = [it for it in margin if it.startswith(OTHERS)]
    if [it for it in lines if it.startswith(OTHERS)] != why: found.append(f"reasons {why}")
    respond = said(program, "respond", plan)[1]
    found += pairs(lines, margin) + reserve(lines, margin) + waits(lines, respond) + waited(traffic, respond) + noise(lines, margin)
    if word == "works" and reason == "works": found += swept(program, plan, runs)
    return found, word if word != "works" else lines[0].split("_")[0]


def pairs(lines, margin):
    """The pair of each inequality is one to which the table leaves least."""
    rows = [it.removeprefix("pair ").split(": ", 1) for it in margin if it.startswith("pair ")]
    found = []
    for name in "late", "early", "drift":
        spares = {who: dict(it.split(" ", 1) for it in what.split(", "))[name] for who, what in rows}
        spares = {who: it for who, it in spares.items() if it != "none"}
        mine = [it.removeprefix(f"weakest {name}: ").split(" ", 2) for it in lines if it.startswith(f"weakest {name}: ")]
        if len(mine) != (1 if spares else 0): found.append(f"{len(mine)} lines of the weakest {name}")
        for a, b, spare in mine:
            least = min(float(it.split()[0]) for it in spares.values())
            if spares.get(f"{a} {b}") != spare or float(spare.split()[0]) != least: found.append(f"weakest {name}: {a} {b} {spare}, least {least}")
    return found


def reserve(lines, margin):
    """The wider tolerance is the one that margin finds."""
    wider = next((it for it in margin if it.startswith("tolerance: ")), None)
    mine = next((it for it in lines if it.startswith("reserve: ")), None)
    if mine is None or wider is None: return [] if mine is None else ["a reserve without a margin"]
    front, _, proved = wider.removeprefix("tolerance: one sender at a time ").partition(", proved ")
    one, several = (it.removesuffix(" ppm wider") for it in front.split(", any senders "))
    asked = one if mine.endswith(", for one sender at a time") else proved if mine.endswith(", proved") else several
    return [] if asked == mine.split(" ppm")[0].split()[-1] else [f"{mine} beside {wider}"]


def waits(lines, respond):
    """The lines on waits are those of the whole table: its first line, its longest bound and its verdict."""
    mine = [it.removeprefix("waits: ") for it in lines if it.startswith("waits: ")]
    rows = [it.split() for it in respond if it.startswith("message ")]
    if not rows or all(it[it.index("every") + 1] == "-" for it in rows): return ["waits of messages that come once"] if mine else []
    wanted = [respond[0], respond[-1]]
    bounds = [float(it[it.index("us") + 1]) for it in rows if it[it.index("us") + 1] != "-"]
    if bounds:
        row = rows[bounds.index(max(bounds))]
        wanted[1:1] = [f"longest {row[row.index('us') + 1]} us, {row[3]} of {row[2]}"]
    return [] if mine == wanted else [f"waits {mine}, wanted {wanted}"]


def noise(lines, margin):
    """The last line is the one of margin on one spike; of a plan for which the condition doesn't hold nothing is known."""
    wanted = [it for it in margin if it.startswith("noise: ") and " spike " in it] or ["noise: not known, but for the disturbances of this run"]
    mine = [it for it in lines if it.startswith("noise: ")]
    return [] if mine == wanted == lines[-1:] else [f"noise {mine}, wanted {wanted}"]


def waited(traffic, respond):
    """No wait of the run passes the bound of its message, in quanta, if the bounds are proved."""
    if not respond[0].startswith("proved"): return []
    bounds = {(it.split()[1], it.split()[3]): it.split()[it.split().index("quanta") + 1] for it in respond if it.startswith("message ")}
    found = []
    for words in (it.split() for it in traffic if it.startswith("message ") and " greatest " in it):
        bound, wait = bounds.get((words[1], words[3]), "-"), words[words.index("greatest") + 1]
        if bound != "-" and wait != "-" and float(wait) > int(bound): found.append(f"{words[3]} waited {wait} quanta, bound {bound}")
    return found


def swept(program, plan, runs):
    """A bus that works is clean at other offsets and clocks, or its plan ends too early there, as far as a sweep of its phases shows."""
    status, lines = said(program, "sweep", "--runs", str(runs), plan)
    ended = re.fullmatch(r"clean in (\d+) of (\d+), too early in (\d+)", lines[0]) if status == 1 else None
    if ended and int(ended[1]) + int(ended[3]) == int(ended[2]): return []
    return [] if status in (0, 2) else [f"works, and the sweep ends with {status}: {lines[:1]}"]


def begun(program, rng):
    """A plan of `init`, whose clocks, cable or cycles may be too bad for the bus."""
    rate = rng.choice(["125k", "250k", "500k", "1M"])
    words = ["--nodes", str(rng.randint(2, 6)), "--bitrate", rate, "--cable", f"{rng.randint(1, 60)}m", "--kind", rng.choice(["mcp2515", "bxcan", "m_can"])]
    text = "\n".join(said(program, "init", *words)[1]) + "\n"
    if rng.random() < 0.6: text = text.replace("tolerance = 100", f"tolerance = {rng.choice([500, 1500, 3000, 4000, 5000, 8000])}")
    if rng.random() < 0.4: text = text.replace('per = "5ns/m"', f'per = "{rng.choice([10, 20, 40])}ns/m"')
    if rng.random() < 0.4: text = text.replace('deadline = "10ms"', f'deadline = "{rng.choice([300, 600, 1200])}us"')
    if rng.random() < 0.3: text = text.replace('end = "30ms"', 'end = "11ms"')
    return text.encode()


# Kinds with the clocks that boards have, in MHz, and whether their registers hold PROP_SEG and PHASE_SEG1 as one length of up to 256 quanta.
KINDS = [("mcp2515", (16, 20, 40), False), ("sja1000", (8, 12), False), ("bxcan", (36, 42, 48), False), ("c_can", (16, 24), False),
         ("flexcan", (20, 40), True), ("m_can", (40, 80), True), ("fdcan", (80, 160), True), ("mcp2518fd", (20, 40), True)]


def timing(rng, rate, is_sane):
    """The keys of a controller with this bit rate: a kind, its clock, its segments. A sane one samples late and has its widest jump width."""
    while True:
        kind, clocks, is_wide = rng.choice(KINDS)
        clock = rng.choice(clocks)
        counts = [it for it in range(8, 161 if is_wide else 26) if clock * 1_000_000 % (it * rate) == 0 and (kind != "mcp2515" or clock * 1_000_000 // it // rate % 2 == 0)]
        if counts: break
    quanta, late = rng.choice(counts), 0.25 if is_sane else 0.4
    after = min(max(2, quanta - 97 if is_wide else quanta - 17, round(quanta * rng.uniform(0.15, late))), 64 if quanta > 128 else 32 if is_wide else 8)
    before = quanta - 1 - after
    keys = {"kind": f'"{kind}"', "clock": f'"{clock}MHz"', "bitrate": f'"{rate // 1000}k"'}
    if is_wide:
        widest = min(after, before - 1)
        return keys | {"tseg1": before, "tseg2": after, "sjw": widest if is_sane else rng.randint(1, widest)}
    ps1 = min(8, max(1, before - 8, before // 2 if is_sane else rng.randint(1, before - 1)))
    widest = min(4, ps1, max(1, after - 1))
    return keys | {"prop": before - ps1, "ps1": ps1, "ps2": after, "sjw": widest if is_sane else rng.randint(1, widest)}


def mixed(rng):
    """A bus in version 4 of two to six nodes, with one or two controllers of one bit rate. Many have a clock, a cable, a segment or a load that is bad for it."""
    rate, is_sane = rng.choice([125_000, 250_000, 250_000, 500_000, 500_000, 1_000_000]), rng.random() < 0.6
    tolerance, longest = rng.choice([50, 100, 300] if is_sane else [300, 3_000, 6_000]), max(2, rng.choice([2, 5] if is_sane else [20, 40, 80]) * 1_000_000 // rate)
    text = f'version = 4\ntick = "1ns"\nend = "{rng.choice([4, 12, 12])}ms"\nper = "5ns/m"\nsync = "book"\n'
    out, into, names = rng.choice([70, 120]), rng.choice([80, 130]), rng.choice(["aa", "ab"])
    for name in sorted(set(names)):
        keys = timing(rng, rate, is_sane) | {"tolerance": tolerance, "out": f'"{out}ns"', "in": f'"{into}ns"'}
        text += f"\n[controller.{name}]\n" + "".join(f"{key} = {value}\n" for key, value in keys.items())
    for number in range(rng.randint(2, 6)):
        text += (f'\n[[node]]\nname = "n{number}"\ncontroller = "{rng.choice(names)}"\noffset = "{rng.randint(0, 900)}ns"\nx = "{rng.randint(0, longest)}m"\n')
        for k in range(rng.randint(0, 2)):
            data = ", ".join(str(rng.randrange(256)) for _ in range(8))
            again = f'cycle = "{rng.choice([5, 10, 10])}ms"\n' if rng.random() < 0.7 else ""
            text += f'[[node.frame]]\nid = {0x100 + 16 * rng.randrange(64) + 2 * number + k}\ndlc = 8\nbytes = [{data}]\nat = "{rng.choice([600, 800, 1000])}us"\n{again}'
    return text.encode()


def drawn(program, number, seed):
    """The text of a random plan."""
    rng = random.Random(f"judge {number} of {seed}")
    if number % 2: return mixed(rng)
    return begun(program, rng) if number % 4 else [programs.families.text_of, programs.plan_text][number // 4 % 2](rng)


def main(program, count="200", runs="40", seed="1"):
    counts, plans = collections.Counter(), 0
    with tempfile.TemporaryDirectory() as room:
        written = [str(it) for it in sorted((TOP / "examples").glob("*.toml")) if it.stem not in ("sixteen_nodes", "thirty_nodes_29bit")]
        for number in range(int(count)):
            name = f"{room}/{number}.toml"
            pathlib.Path(name).write_bytes(drawn(program, number, seed))
            written.append(name)
        bad = 0
        for plan in written:
            found, word = differences(program, plan, int(runs))
            counts[word or "refused"] += 1
            plans += 1
            for it in found: print(f"differs: {plan}: {it}")
            bad += bool(found)
    print(f"{plans} plans, {', '.join(f'{it} {n}' for it, n in sorted(counts.items()))}; {bad} differ")
    return bad > 0


if __name__ == "__main__":
    if len(sys.argv) < 2: sys.exit(__doc__)
    sys.exit(main(*sys.argv[1:]))
